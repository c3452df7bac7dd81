"""Seeded whole numbers, the same with every version of Python, and settings drawn from them."""

from collections.abc import Sequence
from typing import TypeVar

from settings import BIN_SLOTS, FULL_GREYS, KERNELS, LARGEST_BIN, LARGEST_WHITE, Settings, deepest_depth, with_greys

Item = TypeVar("Item")

# The seed of the self-check and of all vectors.
SEED = 1983

MASK_64 = 2 ** 64 - 1


class Seeded:
    """The SplitMix64 sequence of 64-bit numbers; the three constants are those of its definition."""

    def __init__(self, seed: int) -> None:
        self.state = seed & MASK_64

    def next_number(self) -> int:
        """The next 64-bit number."""
        self.state = (self.state + 0x9E3779B97F4A7C15) & MASK_64
        mixed = self.state
        mixed = ((mixed ^ (mixed >> 30)) * 0xBF58476D1CE4E5B9) & MASK_64
        mixed = ((mixed ^ (mixed >> 27)) * 0x94D049BB133111EB) & MASK_64
        return mixed ^ (mixed >> 31)

    def between(self, low: int, high: int) -> int:
        """A whole number from low to high, both included."""
        return low + self.next_number() % (high - low + 1)

    def choice(self, items: Sequence[Item]) -> Item:
        """One of the items."""
        return items[self.between(0, len(items) - 1)]

    def draw_bytes(self, count: int) -> bytes:
        """A number of bytes."""
        return bytes(self.between(0, 255) for _ in range(count))


def fill_slots(levels: Sequence[int]) -> tuple[int, ...]:
    """The seven slots from the bins of levels 0 to N; slots above N hold 0."""
    return tuple(levels) + (0,) * (BIN_SLOTS - len(levels))


# Names of the families of bins that bins_of knows. Kept vectors draw from the first six: these must not change.
BIN_FAMILIES = ("one", "two", "odd", "largest", "mixed", "small")
CLOSED_BIN_FAMILIES = BIN_FAMILIES + ("large top", "large below")


def bins_of(family: str, depth: int, numbers: Seeded) -> tuple[int, ...]:
    """The seven slots for a depth, by family."""
    if family == "large top":
        return fill_slots([1] * depth + [LARGEST_BIN])
    if family == "large below":
        return fill_slots([LARGEST_BIN] * depth + [1])
    draw = {
        "one": lambda: 1,
        "two": lambda: 2,
        "odd": lambda: 2 * numbers.between(1, 126) + 1,
        "largest": lambda: LARGEST_BIN,
        "mixed": lambda: numbers.between(1, LARGEST_BIN),
        "small": lambda: numbers.between(1, 12),
    }[family]
    return fill_slots([draw() for _ in range(depth + 1)])


def random_size(numbers: Seeded, largest: int) -> tuple[int, int]:
    """Columns and rows up to a largest side; many draws have sides that allow deep pyramids."""
    steps = [step for step in (1, 1, 1, 2, 4, 8, 16) if step < largest]
    step = numbers.choice(steps)
    sides = range(step + 1, largest + 1, step)
    return numbers.choice(sides), numbers.choice(sides)


def random_settings(numbers: Seeded, largest: int, families: Sequence[str] = BIN_FAMILIES) -> Settings:
    """Lawful settings with sides up to the largest side, and bins of one of the families."""
    columns, rows = random_size(numbers, largest)
    depth = numbers.between(0, deepest_depth(columns, rows)[1])
    bins = bins_of(numbers.choice(families), depth, numbers)
    return Settings(columns, rows, depth, numbers.choice(KERNELS), bins)


# Black and white of the trade's cameras, and pairs at the ends of the range.
GREYS = ((16, 235), (0, 254), (1, 255), (254, 255), (0, 1))


def random_greys(numbers: Seeded) -> tuple[int, int]:
    """A lawful black and white: in half of the draws one of GREYS or 0 and 255."""
    if numbers.between(0, 1) == 0:
        return numbers.choice((*GREYS, FULL_GREYS))
    black = numbers.between(0, LARGEST_WHITE - 1)
    return black, numbers.between(black + 1, LARGEST_WHITE)


def random_greys_settings(numbers: Seeded, largest: int, families: Sequence[str] = BIN_FAMILIES) -> Settings:
    """The same as random_settings with a random black and white."""
    return with_greys(random_settings(numbers, largest, families), random_greys(numbers))
