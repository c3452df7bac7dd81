"""Vectors with black and white (document 02, P5): coding in both manners, and rebuilding."""

from collections.abc import Iterator, Sequence

import vectors_closed
import vectors_levels
import vectors_pyramid
from greys_pieces import GREYS_PIECES
from pictures import (PICTURE_KINDS, extreme_indices, extreme_picture, largest_index, lawful_picture, near_indices,
                      patterned_indices, random_indices)
from seeded import (BIN_FAMILIES, CLOSED_BIN_FAMILIES, GREYS, SEED, Seeded, bins_of, fill_slots, random_greys,
                    random_greys_settings)
from settings import FULL_GREYS, KERNELS, Settings, level_size, total_nodes, with_greys
from vectors_levels import with_index
from vectors_pyramid import greys_settings_bytes

PictureCase = tuple[Settings, bytes]
LevelsCase = tuple[Settings, list[int]]

# Sizes and depths for each combination of a kind of picture with a black and white.
SMALL_SHAPES = ((5, 9, 2), (3, 7, 1), (9, 9, 3), (7, 3, 1), (13, 5, 2), (4, 6, 0))
# Sizes, depths and kernels beyond those.
FURTHER_SHAPES = ((33, 33, 5, 6), (2, 129, 0, 5), (129, 3, 1, 6))


def greys_settings(shape: tuple[int, int, int, int], bins: tuple[int, ...], greys: tuple[int, int]) -> Settings:
    """Settings of C, R, N and k."""
    return with_greys(Settings(*shape, bins), greys)


# Coding, of both kinds alike.

def smallest_shapes(numbers: Seeded, families: Sequence[str]) -> Iterator[PictureCase]:
    """Depths 0 to 4 with every kernel at the smallest square size of the depth, black and white 16 and 235."""
    kinds = ("black and white noise", "noise", "checkerboard", "diagonal step")
    for depth in range(5):
        side = 2 ** depth + 1
        for turn, kernel in enumerate(KERNELS):
            bins = bins_of(families[(depth + 3 * turn) % len(families)], depth, numbers)
            settings = greys_settings((side, side, depth, kernel), bins, GREYS[0])
            yield settings, lawful_picture(kinds[(depth + turn) % len(kinds)], settings, numbers)


def every_kind(numbers: Seeded, families: Sequence[str]) -> Iterator[PictureCase]:
    """Every kind of picture with every one of the blacks and whites; sizes, kernels and families of bins in turn."""
    turn = 0
    for kind in PICTURE_KINDS:
        for greys in GREYS:
            columns, rows, depth = SMALL_SHAPES[turn % len(SMALL_SHAPES)]
            bins = bins_of(families[turn % len(families)], depth, numbers)
            settings = greys_settings((columns, rows, depth, KERNELS[turn % len(KERNELS)]), bins, greys)
            turn += 1
            yield settings, lawful_picture(kind, settings, numbers)


def beyond_ends(numbers: Seeded, _: Sequence[str]) -> Iterator[PictureCase]:
    """Pictures of black and white alone whose top may be rebuilt beyond both, with small bins below."""
    for kind in ("white", "black", "row step", "black and white noise"):
        for kernel in KERNELS:
            below = [numbers.between(1, 12), numbers.between(1, 12)]
            bins = fill_slots(below + [numbers.between(50, 169)])
            settings = greys_settings((9, 5, 2, kernel), bins, numbers.choice(GREYS))
            yield settings, lawful_picture(kind, settings, numbers)


def extremes(numbers: Seeded, families: Sequence[str]) -> Iterator[PictureCase]:
    """Pictures that drive one node of each level as far as its weights allow."""
    for kernel in KERNELS:
        for level in range(3):
            bins = bins_of(numbers.choice(families), 2, numbers)
            settings = greys_settings((9, 9, 2, kernel), bins, (16, 235) if level == 2 else random_greys(numbers))
            columns, rows = level_size(9, 9, level)
            node = (numbers.between(0, columns - 1), numbers.between(0, rows - 1))
            yield settings, extreme_picture(settings, level, node, numbers.choice((1, -1)))


def random_pictures(numbers: Seeded, families: Sequence[str]) -> Iterator[PictureCase]:
    """Random settings with sides up to 9, black 0 and white 255 among them, and random kinds of pictures."""
    for _ in range(60):
        settings = random_greys_settings(numbers, 9, families)
        yield settings, lawful_picture(numbers.choice(PICTURE_KINDS), settings, numbers)


def further_sizes(numbers: Seeded, _: Sequence[str]) -> Iterator[PictureCase]:
    """Depth 5, and long and flat sizes."""
    for turn, shape in enumerate(FURTHER_SHAPES):
        settings = greys_settings(shape, bins_of("mixed", shape[2], numbers), GREYS[turn % len(GREYS)])
        yield settings, lawful_picture("noise", settings, numbers)


def picture_cases(numbers: Seeded, families: Sequence[str], largest_kernel: int) -> Iterator[PictureCase]:
    """All cases of a coding; the last is of 129 by 129 at depth 6 and all black or white."""
    for piece in GREYS_PIECES:
        yield piece.settings, piece.picture
    for part in (smallest_shapes, every_kind, beyond_ends, extremes, random_pictures, further_sizes):
        yield from part(numbers, families)
    settings = greys_settings((129, 129, 6, largest_kernel), bins_of("mixed", 6, numbers), (16, 235))
    yield settings, lawful_picture("black and white noise", settings, numbers)


def pyramid_cases() -> Iterator[bytes]:
    """Open-loop coding: all cases, each as its bytes."""
    for settings, picture in picture_cases(Seeded(SEED + 500), BIN_FAMILIES, 3):
        yield vectors_pyramid.case_bytes(settings, picture, greys_settings_bytes)


def closed_cases() -> Iterator[bytes]:
    """Closed-loop coding: all cases, each as its bytes."""
    for settings, picture in picture_cases(Seeded(SEED + 600), CLOSED_BIN_FAMILIES, 6):
        yield vectors_closed.case_bytes(settings, picture, greys_settings_bytes)


# Rebuilding.

def near_levels(numbers: Seeded) -> Iterator[LevelsCase]:
    """Levels rebuilt to values around black and white, with every kernel, black and white and small size."""
    for kernel in KERNELS:
        for greys in GREYS + ((100, 160), FULL_GREYS):
            for columns, rows, depth in ((9, 9, 3), (13, 5, 2), (7, 3, 1)):
                settings = greys_settings((columns, rows, depth, kernel), bins_of("small", depth, numbers), greys)
                yield settings, near_indices(settings, numbers)
        settings = greys_settings((33, 17, 4, kernel), bins_of("odd", 4, numbers), (16, 235))
        yield settings, near_indices(settings, numbers)
    # Greys on both sides of black and of white, and those that 0 and 255 would clamp to.
    settings = greys_settings((5, 3, 0, 5), fill_slots([1]), (16, 235))
    yield settings, [-4096, -1, 0, 1, 15, 16, 17, 128, 234, 235, 236, 254, 255, 256, 4096]
    settings = greys_settings((3, 2, 0, 4), fill_slots([1]), (254, 255))
    yield settings, [0, 253, 254, 255, 256, -1]
    settings = greys_settings((3, 2, 0, 3), fill_slots([1]), (0, 1))
    yield settings, [-1, 0, 1, 2, 255, 256]


def far_levels(numbers: Seeded) -> Iterator[LevelsCase]:
    """Any lawful indices, and those that drive one pixel as far as the weights allow."""
    for kernel in KERNELS:
        settings = greys_settings((17, 9, 3, kernel), bins_of("mixed", 3, numbers), random_greys(numbers))
        yield settings, random_indices(settings, numbers)
        settings = greys_settings((9, 5, 2, kernel), bins_of("mixed", 2, numbers), random_greys(numbers))
        yield settings, patterned_indices(settings, numbers.choice(vectors_levels.PATTERNS))
        settings = greys_settings((9, 9, 2, kernel), fill_slots([255, 128, 1]), numbers.choice(GREYS))
        yield settings, extreme_indices(settings, (4, 4), numbers.choice((1, -1)))
    for shape in ((33, 33, 5, 3), (65, 65, 6, 6)):
        settings = greys_settings(shape, bins_of("mixed", shape[2], numbers), (16, 235))
        yield settings, near_indices(settings, numbers)


def refused_levels(numbers: Seeded) -> Iterator[LevelsCase]:
    """One unlawful index in the first, middle or last place."""
    nodes = total_nodes(5, 9, 2)
    for turn, kernel in enumerate(KERNELS):
        settings = greys_settings((5, 9, 2, kernel), bins_of("mixed", 2, numbers), GREYS[turn])
        for place, level in ((0, 2), (nodes // 2, 0), (nodes - 1, 0)):
            too_large = numbers.choice((1, -1)) * (largest_index(settings.bins[level]) + 1)
            yield settings, with_index(near_indices(settings, numbers), place, too_large)


def levels_cases() -> Iterator[bytes]:
    """All cases, each as its bytes."""
    numbers = Seeded(SEED + 700)
    for part in (near_levels, far_levels, refused_levels):
        for settings, indices in part(numbers):
            yield vectors_levels.case_bytes(settings, indices, greys_settings_bytes)
