"""Settings of the pyramid, their refusals, level sizes, the deepest depth and the bounds.

Documents 01, and 02 P1, P4 and P5.
"""

from dataclasses import dataclass, replace
from fractions import Fraction
from math import ceil

# Document 01, "Settings".
SMALLEST_SIDE = 2
LARGEST_SIDE = 129
LARGEST_DEPTH = 6
KERNELS = (3, 4, 5, 6)
BIN_SLOTS = 7
LARGEST_BIN = 255

# Document 02, P5: the largest white, and the black and white with which pictures and files are those of document 01.
LARGEST_WHITE = 255
FULL_GREYS = (0, 255)

# Document 01, "Bound": the multiplier in hundredths for each k.
BOUND_HUNDREDTHS = {3: 100, 4: 100, 5: 100, 6: 196}

# Document 01, "Who can cause which refusal", and document 02, P1, P2, P5 and P6. 0 is used here for an accepted call.
ACCEPTED = 0
BAD_SIZE = 1
BAD_KERNEL = 2
BAD_BIN = 3
BAD_READING = 4
BAD_PICTURE_LENGTH = 5
BAD_LEVEL_LENGTH = 6
BAD_WORK_LENGTH = 7
BAD_FILE_LENGTH = 8
FILE_ENDS_EARLY = 9
BAD_COUNT = 10
BAD_INDEX = 11
BYTES_FOLLOW = 12
BAD_DEPTH = 13
COLUMNS_INDIVISIBLE = 14
ROWS_INDIVISIBLE = 15
BAD_HEADER = 16
BAD_GREATEST_GREY = 17
BAD_PIXEL_COUNT = 18
BAD_GREYS = 19
PIXEL_OUTSIDE = 20
NO_SUCH_PIXEL = 21


class Refused(Exception):
    """Ends a reading with a refusal number."""

    def __init__(self, number: int) -> None:
        super().__init__(number)
        self.number = number


@dataclass(frozen=True)
class Settings:
    """The settings of documents 01 and 02; slot l of the seven bins belongs to level l."""

    columns: int
    rows: int
    depth: int
    kernel: int
    bins: tuple[int, ...]
    black: int = FULL_GREYS[0]
    white: int = FULL_GREYS[1]


def with_greys(settings: Settings, greys: tuple[int, int]) -> Settings:
    """The settings with another black and white."""
    return replace(settings, black=greys[0], white=greys[1])


def is_size_lawful(columns: int, rows: int) -> bool:
    """Say whether both sides are 2 to 129."""
    return all(SMALLEST_SIDE <= side <= LARGEST_SIDE for side in (columns, rows))


def is_divisible(side: int, depth: int) -> bool:
    """Say whether 2 to the depth divides a side less 1."""
    return (side - 1) % 2 ** depth == 0


def are_greys_lawful(black: int, white: int) -> bool:
    """Say whether black is below white and white at most 255."""
    return black < white <= LARGEST_WHITE


def shape_refusal(columns: int, rows: int, depth: int, kernel: int, black: int = FULL_GREYS[0],
                  white: int = FULL_GREYS[1]) -> int:
    """Refusals 1, 13, 14, 15, 2, 19 in this order, or 0."""
    if not is_size_lawful(columns, rows):
        return BAD_SIZE
    if depth > LARGEST_DEPTH:
        return BAD_DEPTH
    if not is_divisible(columns, depth):
        return COLUMNS_INDIVISIBLE
    if not is_divisible(rows, depth):
        return ROWS_INDIVISIBLE
    if kernel not in KERNELS:
        return BAD_KERNEL
    return ACCEPTED if are_greys_lawful(black, white) else BAD_GREYS


def is_slot_lawful(slot: int, bin_size: int, depth: int) -> bool:
    """Slots 0 to N hold 1 to 255, slots above N hold 0."""
    return 1 <= bin_size <= LARGEST_BIN if slot <= depth else bin_size == 0


def settings_refusal(settings: Settings) -> int:
    """The shape's first refusal, then 3, or 0."""
    assert len(settings.bins) == BIN_SLOTS
    refusal = shape_refusal(settings.columns, settings.rows, settings.depth, settings.kernel, settings.black,
                            settings.white)
    if refusal != ACCEPTED:
        return refusal
    lawful = all(is_slot_lawful(slot, size, settings.depth) for slot, size in enumerate(settings.bins))
    return ACCEPTED if lawful else BAD_BIN


def level_size(columns: int, rows: int, level: int) -> tuple[int, int]:
    """Columns and rows of a level."""
    return (columns - 1) // 2 ** level + 1, (rows - 1) // 2 ** level + 1


def node_count(columns: int, rows: int, level: int) -> int:
    """Number of nodes of one level."""
    level_columns, level_rows = level_size(columns, rows, level)
    return level_columns * level_rows


def total_nodes(columns: int, rows: int, depth: int) -> int:
    """T, the number of nodes of levels 0 to N together."""
    return sum(node_count(columns, rows, level) for level in range(depth + 1))


def deepest_depth(columns: int, rows: int) -> tuple[int, int]:
    """Refusal (1 on size only, or 0) and the largest lawful depth (0 if refused)."""
    if not is_size_lawful(columns, rows):
        return BAD_SIZE, 0
    return ACCEPTED, max(depth for depth in range(LARGEST_DEPTH + 1)
                         if is_divisible(columns, depth) and is_divisible(rows, depth))


def bounds(settings: Settings) -> tuple[int, list[int]]:
    """Refusal (the settings' first, or 0) and the bounds of levels 0 to N in open-loop coding (none if refused).

    At the top the bound is bin // 2. Below it is the multiplier times the bound of the level above, rounded up to a
    whole number, plus bin // 2.
    """
    refusal = settings_refusal(settings)
    if refusal != ACCEPTED:
        return refusal, []
    multiplier = Fraction(BOUND_HUNDREDTHS[settings.kernel], 100)
    result = [settings.bins[settings.depth] // 2]
    for level in range(settings.depth - 1, -1, -1):
        result.insert(0, ceil(multiplier * result[0]) + settings.bins[level] // 2)
    return ACCEPTED, result


def closed_bounds(settings: Settings) -> tuple[int, list[int]]:
    """Refusal (the settings' first, or 0) and the bounds of levels 0 to N in closed-loop coding (none if refused).

    Document 02, P4: at every level the bound is bin // 2.
    """
    refusal = settings_refusal(settings)
    if refusal != ACCEPTED:
        return refusal, []
    return ACCEPTED, [size // 2 for size in settings.bins[:settings.depth + 1]]
