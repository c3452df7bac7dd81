"""Vectors of rebuilding from level buffers that no coding made."""

import struct
from collections.abc import Iterator

from pictures import extreme_indices, largest_index, patterned_indices, random_indices
from pyramid import rebuild
from seeded import SEED, Seeded, bins_of, fill_slots
from settings import KERNELS, Settings, total_nodes
from vectors_pyramid import SettingsForm, settings_bytes

Case = tuple[Settings, list[int]]

PATTERNS = ("plus", "minus", "column", "row", "node", "level")


def case_bytes(settings: Settings, indices: list[int], form: SettingsForm = settings_bytes) -> bytes:
    """One case: settings, indices, the answer, and if it is 0 the rebuilt values and picture."""
    pixels = settings.columns * settings.rows
    rebuilt = rebuild(settings, indices, pixels, len(indices))
    assert rebuilt.refusal in (0, 11)
    head = form(settings) + struct.pack(f"<{len(indices)}hH", *indices, rebuilt.refusal)
    return head + struct.pack(f"<{len(rebuilt.values)}i", *rebuilt.values) + rebuilt.picture


def accepted_small(numbers: Seeded) -> Iterator[Case]:
    """Largest indices with signs by every pattern, and random lawful indices, at small sizes."""
    for turn, pattern in enumerate(PATTERNS):
        family = ("one", "largest", "mixed")[turn % 3]
        settings = Settings(9, 17, 3, 6, bins_of(family, 3, numbers))
        yield settings, patterned_indices(settings, pattern)
        settings = Settings(13, 5, 2, KERNELS[turn % 3], bins_of(family, 2, numbers))
        yield settings, patterned_indices(settings, pattern)
    for kernel in KERNELS:
        settings = Settings(17, 9, 3, kernel, bins_of("mixed", 3, numbers))
        yield settings, random_indices(settings, numbers)
        # Bin 255 with index 16, value 4,080; bins 128 and 1 reach 4,096 itself.
        settings = Settings(9, 9, 2, kernel, fill_slots([255, 128, 1]))
        yield settings, extreme_indices(settings, (4, 4), 1)
    settings = Settings(2, 2, 0, 5, fill_slots([255]))
    yield settings, [16, -16, 0, 1]
    settings = Settings(2, 3, 0, 3, fill_slots([1]))
    yield settings, [4096, -4096, 255, 256, -1, 0]


def accepted_deep(numbers: Seeded) -> Iterator[Case]:
    """Deep pyramids whose pixel at one place is driven as far as the weights allow."""
    for kernel, pixel, sign in ((6, (0, 0), 1), (6, (16, 16), -1), (6, (15, 16), 1), (3, (32, 0), -1), (4, (1, 1), 1)):
        settings = Settings(33, 33, 5, kernel, bins_of("one", 5, numbers))
        yield settings, extreme_indices(settings, pixel, sign)
    settings = Settings(65, 65, 6, 6, bins_of("one", 6, numbers))
    yield settings, extreme_indices(settings, (0, 0), 1)
    yield settings, extreme_indices(settings, (32, 32), -1)
    settings = Settings(65, 65, 6, 6, bins_of("mixed", 6, numbers))
    yield settings, random_indices(settings, numbers)
    settings = Settings(65, 65, 6, 5, bins_of("largest", 6, numbers))
    yield settings, patterned_indices(settings, "node")


def with_index(indices: list[int], place: int, index: int) -> list[int]:
    """The indices with one of them replaced."""
    return indices[:place] + [index] + indices[place + 1:]


def refused(numbers: Seeded) -> Iterator[Case]:
    """One unlawful index in the first, middle or last place."""
    for bin_size, index in ((255, 17), (1, 4097), (255, -17), (1, -4097), (2, 2049), (1, -32768), (255, 32767)):
        settings = Settings(5, 9, 2, numbers.choice(KERNELS), fill_slots([bin_size] * 3))
        nodes = total_nodes(5, 9, 2)
        for place in (0, nodes // 2, nodes - 1):
            yield settings, with_index(random_indices(settings, numbers), place, index)
    # The same index is lawful at one level's bin and unlawful at the other's: 100 at bin 40 is 4,000, at 41 is 4,100.
    for bins, answer_place in (((41, 40), 12), ((40, 41), 0)):
        settings = Settings(3, 3, 1, 4, fill_slots(bins))
        yield settings, with_index([0] * 13, answer_place, 100)
        yield settings, with_index([0] * 13, 12 - answer_place, 100)
    settings = Settings(129, 129, 6, 6, bins_of("mixed", 6, numbers))
    too_large = largest_index(settings.bins[0]) + 1
    yield settings, with_index(random_indices(settings, numbers), total_nodes(129, 129, 6) - 1, too_large)


def cases() -> Iterator[bytes]:
    """All cases, each as its bytes."""
    numbers = Seeded(SEED + 100)
    for part in (accepted_small, accepted_deep, refused):
        for settings, indices in part(numbers):
            yield case_bytes(settings, indices)
