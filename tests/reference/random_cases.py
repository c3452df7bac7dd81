"""Random cases for the host tests: settings, pictures, level buffers, files, calls, PGM files and pixels, lawful
and not."""

import struct
from collections.abc import Callable, Iterator
from dataclasses import replace

import vectors_closed
import vectors_files
import vectors_levels
import vectors_pgm
import vectors_pixels
import vectors_pyramid
from bale import Reading, file_size, write_bale
from faulty_files import READINGS
from one_pixel import pixel_windows
from pictures import (PICTURE_KINDS, balanced_indices, largest_index, lawful_picture, near_indices, patterned_indices,
                      picture_of, random_indices)
from pyramid import code, rebuild
from random_files import GREYS_SHAPE_BYTES, damage, random_file, random_reading
from random_pgm import any_pgm
from seeded import CLOSED_BIN_FAMILIES, Seeded, random_greys, random_greys_settings, random_settings
from settings import (LARGEST_WHITE, Settings, bounds, deepest_depth, level_size, settings_refusal, shape_refusal,
                      total_nodes)
from vectors_pyramid import greys_settings_bytes

# Largest sides of small and of large cases.
SMALL_SIDE = 9
LARGE_SIDE = 129

# Values that a setting takes where it may be unlawful.
SIDES = (0, 1, 2, 3, 4, 6, 10, 128, 129, 130, 131, 257, 65535)
DEPTHS = (0, 1, 2, 3, 6, 7, 8, 16, 65535)
KERNELS = (0, 2, 3, 6, 7, 65535)
BINS = (0, 1, 255, 256, 65535)
GREY_NUMBERS = (0, 1, 15, 16, 17, 234, 235, 236, 254, 255, 256, 65535)


def pyramid_case(numbers: Seeded, side: int) -> bytes:
    """A coding and the rebuilding from its levels."""
    settings = random_settings(numbers, side)
    picture = picture_of(numbers.choice(PICTURE_KINDS), settings.columns, settings.rows, numbers)
    return vectors_pyramid.case_bytes(settings, picture)


def any_indices(settings: Settings, indices: list[int], numbers: Seeded) -> list[int]:
    """The indices, or in one of eight draws the largest lawful ones; in one of four an index is out of range."""
    way = numbers.between(0, 7)
    if way == 0:
        indices = patterned_indices(settings, numbers.choice(vectors_levels.PATTERNS))
    if way in (1, 2):
        too_large = largest_index(settings.bins[0]) + numbers.between(1, 3)
        indices[-1 - numbers.between(0, settings.columns * settings.rows - 1)] = numbers.choice((1, -1)) * too_large
    return indices


def levels_case(numbers: Seeded, side: int) -> bytes:
    """A rebuilding from levels that no coding made."""
    settings = random_settings(numbers, side)
    return vectors_levels.case_bytes(settings, any_indices(settings, random_indices(settings, numbers), numbers))


def files_case(numbers: Seeded, side: int) -> bytes:
    """A file, whole in one of three."""
    data = random_file(numbers, side)
    return vectors_files.case_bytes(data if numbers.between(0, 2) == 0 else damage(data, numbers))


def pgm_case(numbers: Seeded, side: int) -> bytes:
    """A PGM file, lawful in one of three."""
    return vectors_pgm.case_bytes(any_pgm(numbers, side))


def closed_case(numbers: Seeded, side: int) -> bytes:
    """A closed-loop coding."""
    settings = random_settings(numbers, side, CLOSED_BIN_FAMILIES)
    picture = picture_of(numbers.choice(PICTURE_KINDS), settings.columns, settings.rows, numbers)
    return vectors_closed.case_bytes(settings, picture)


# The same with black and white.

def pyramid_greys_case(numbers: Seeded, side: int) -> bytes:
    """An open-loop coding and the rebuilding from its levels."""
    settings = random_greys_settings(numbers, side)
    picture = lawful_picture(numbers.choice(PICTURE_KINDS), settings, numbers)
    return vectors_pyramid.case_bytes(settings, picture, greys_settings_bytes)


def levels_greys_case(numbers: Seeded, side: int) -> bytes:
    """A rebuilding from levels that no coding made, in one of two around black and white."""
    settings = random_greys_settings(numbers, side)
    draw = numbers.choice((near_indices, random_indices))
    indices = any_indices(settings, draw(settings, numbers), numbers)
    return vectors_levels.case_bytes(settings, indices, greys_settings_bytes)


def files_greys_case(numbers: Seeded, side: int) -> bytes:
    """A file, whole in one of three."""
    data = random_file(numbers, side, random_greys(numbers))
    damaged = data if numbers.between(0, 2) == 0 else damage(data, numbers, GREYS_SHAPE_BYTES)
    return vectors_files.case_bytes(damaged, greys_settings_bytes)


def closed_greys_case(numbers: Seeded, side: int) -> bytes:
    """A closed-loop coding."""
    settings = random_greys_settings(numbers, side, CLOSED_BIN_FAMILIES)
    picture = lawful_picture(numbers.choice(PICTURE_KINDS), settings, numbers)
    return vectors_closed.case_bytes(settings, picture, greys_settings_bytes)


# One pixel.

def any_place(settings: Settings, numbers: Seeded) -> tuple[int, int]:
    """Column and row of a pixel, in one of eight draws outside the picture."""
    if numbers.between(0, 7) == 0:
        return numbers.choice(vectors_pixels.outside(settings))
    return numbers.between(0, settings.columns - 1), numbers.between(0, settings.rows - 1)


def partly_unlawful(settings: Settings, indices: list[int], pixel: tuple[int, int], numbers: Seeded) -> list[int]:
    """The indices with some out of range: anywhere, at an end of a window of a pixel or beyond it, or all others."""
    way = numbers.between(0, 3)
    if way == 0:
        return vectors_pixels.all_unlawful(settings, pixel, numbers)
    level = numbers.between(0, settings.depth)
    if way == 1:
        columns, rows = level_size(settings.columns, settings.rows, level)
        column, row = numbers.between(0, columns - 1), numbers.between(0, rows - 1)
        place = vectors_pixels.node_place(settings, level, column, row)
    else:
        windows = pixel_windows(settings, *pixel)
        place = numbers.choice(vectors_pixels.end_places(settings, windows, level))
    return vectors_levels.with_index(indices, place, vectors_pixels.far_index(settings, level, numbers.between(0, 3)))


def pixels_case(numbers: Seeded, side: int) -> bytes:
    """Up to eight pixels of a level buffer, three of a large one; in one of two some indices are out of range."""
    settings = random_greys_settings(numbers, side)
    indices = numbers.choice((balanced_indices, near_indices, random_indices))(settings, numbers)
    places = [any_place(settings, numbers) for _ in range(numbers.between(1, 8 if side <= SMALL_SIDE else 3))]
    if numbers.between(0, 1) == 0:
        pixel = (min(places[0][0], settings.columns - 1), min(places[0][1], settings.rows - 1))
        indices = partly_unlawful(settings, indices, pixel, numbers)
    return vectors_pixels.case_bytes(settings, indices, places)


# Calls: whether they are accepted, of settings and lengths that may be unlawful.

def spoiled(settings: Settings, numbers: Seeded) -> Settings:
    """Settings with one value put where it may be unlawful."""
    way = numbers.between(0, 6)
    if way == 0:
        return replace(settings, columns=numbers.choice(SIDES))
    if way == 1:
        return replace(settings, rows=numbers.choice(SIDES))
    if way == 2:
        return replace(settings, depth=numbers.choice(DEPTHS))
    if way == 3:
        return replace(settings, kernel=numbers.choice(KERNELS))
    if way == 4:
        return replace(settings, black=numbers.choice(GREY_NUMBERS))
    if way == 5:
        return replace(settings, white=numbers.choice(GREY_NUMBERS))
    slot = numbers.between(0, len(settings.bins) - 1)
    return replace(settings, bins=settings.bins[:slot] + (numbers.choice(BINS),) + settings.bins[slot + 1:])


def any_settings(numbers: Seeded, side: int) -> Settings:
    """Lawful settings, in one of three spoiled once or twice."""
    settings = random_greys_settings(numbers, side)
    if numbers.between(0, 2) == 0:
        for _ in range(numbers.between(1, 2)):
            settings = spoiled(settings, numbers)
    return settings


def any_length(right: int, numbers: Seeded) -> int:
    """A length, right in most draws."""
    way = numbers.between(0, 15)
    return {0: max(right - 1, 0), 1: right + 1, 2: 0}.get(way, right)


def any_reading(numbers: Seeded) -> Reading:
    """A lawful reading, or one of those of the faulty files."""
    if numbers.between(0, 3) != 0:
        return random_reading(numbers)
    kind, bits, _ = numbers.choice(READINGS)
    return Reading(kind, bits)


def lent_lengths(settings: Settings, numbers: Seeded) -> tuple[int, int, int, int]:
    """Lengths of a picture, a level buffer, a work buffer and a file buffer; those of unlawful shapes are small."""
    shape = (settings.columns, settings.rows, settings.depth)
    lawful = shape_refusal(*shape, 3) == 0
    pixels = settings.columns * settings.rows if lawful else 6
    nodes = total_nodes(*shape) if lawful else 6
    size = file_size(settings) if lawful else 40
    right = (pixels, nodes, nodes + numbers.between(0, 2), size + numbers.between(0, 2))
    return tuple(any_length(length, numbers) for length in right)


def any_pixel(settings: Settings, numbers: Seeded) -> int:
    """A byte at or just beyond black or white, or any."""
    near = (settings.black - 1, settings.black, settings.black + 1, settings.white - 1, settings.white,
            settings.white + 1, numbers.between(0, LARGEST_WHITE))
    return max(0, min(LARGEST_WHITE, numbers.choice(near)))


def calls_case(numbers: Seeded, side: int) -> bytes:
    """Settings, lengths, readings, one index for all nodes, the answer of every call, and one byte for all pixels."""
    settings = any_settings(numbers, side)
    lengths = lent_lengths(settings, numbers)
    note = (any_reading(numbers), any_reading(numbers))
    index = numbers.choice((0, 0, 1, -1, 16, 17, -17, 4096, 4097, -32768))
    indices = [index] * lengths[1]
    pixel = any_pixel(settings, numbers)
    coded = code(settings, bytes([pixel]) * lengths[0], lengths[1], lengths[2]).refusal
    rebuilt = rebuild(settings, indices, lengths[0], lengths[2]).refusal
    written = write_bale(settings, note, indices, lengths[3])[0]
    deepest = deepest_depth(settings.columns, settings.rows)
    lawful = settings_refusal(settings) == 0
    nodes = total_nodes(settings.columns, settings.rows, settings.depth) if lawful else 0
    size = file_size(settings) if lawful else 0
    readings = b"".join(struct.pack("<BI", reading.kind, reading.bits) for reading in note)
    answers = struct.pack("<3H", coded, rebuilt, written) + struct.pack("<4H", bounds(settings)[0], *deepest, nodes)
    return (greys_settings_bytes(settings) + struct.pack("<4H", *lengths) + readings
            + struct.pack("<h", index) + answers + struct.pack("<IB", size, pixel))


CASES: dict[str, Callable[[Seeded, int], bytes]] = {
    "pyramid": pyramid_case, "levels": levels_case, "files": files_case, "calls": calls_case,
    "pgm": pgm_case, "closed": closed_case, "pyramid_greys": pyramid_greys_case, "levels_greys": levels_greys_case,
    "files_greys": files_greys_case, "closed_greys": closed_greys_case, "pixels": pixels_case,
}


def random_cases(kind: str, seed: int, small: int, large: int) -> Iterator[bytes]:
    """So many small and large cases of a kind, each as its bytes."""
    numbers = Seeded(seed)
    for side, count in ((SMALL_SIDE, small), (LARGE_SIDE, large)):
        for _ in range(count):
            yield CASES[kind](numbers, side)
