"""Vectors of coding and rebuilding."""

import struct
from collections.abc import Callable, Iterator

from pictures import PICTURE_KINDS, extreme_picture, picture_of
from pyramid import code, rebuild
from seeded import BIN_FAMILIES, SEED, Seeded, bins_of, random_settings
from settings import FULL_GREYS, KERNELS, LARGEST_DEPTH, Settings, bounds, level_size, total_nodes

Case = tuple[Settings, bytes]
# How a kind of vectors writes settings.
SettingsForm = Callable[[Settings], bytes]

# Sizes and depths for each combination of kernel and kind of picture.
SMALL_SHAPES = ((9, 9, 3), (5, 13, 2), (17, 9, 3), (3, 7, 1))
# Long and flat sizes, and sizes between 33 and 97, with a kernel for each.
FURTHER_SHAPES = ((2, 129, 0, 3), (129, 2, 0, 6), (129, 3, 1, 4), (3, 129, 1, 6), (5, 129, 2, 5), (129, 9, 3, 6),
                  (65, 17, 4, 3), (17, 65, 4, 6), (33, 65, 5, 4), (97, 33, 5, 6), (50, 50, 0, 4), (35, 27, 1, 6))


def settings_bytes(settings: Settings) -> bytes:
    """C, R, N, k and the seven bins, two bytes each, low byte first, slot 0 first; black and white are 0 and 255."""
    assert (settings.black, settings.white) == FULL_GREYS
    return struct.pack("<4H7H", settings.columns, settings.rows, settings.depth, settings.kernel, *settings.bins)


def greys_settings_bytes(settings: Settings) -> bytes:
    """C, R, N, k, black, white and the seven bins, two bytes each, low byte first, slot 0 first."""
    return struct.pack("<6H7H", settings.columns, settings.rows, settings.depth, settings.kernel, settings.black,
                       settings.white, *settings.bins)


def case_bytes(settings: Settings, picture: bytes, form: SettingsForm = settings_bytes) -> bytes:
    """One case: settings, picture, indices, averages, rebuilt values, rebuilt picture, bounds."""
    nodes = total_nodes(settings.columns, settings.rows, settings.depth)
    coded = code(settings, picture, nodes, nodes)
    rebuilt = rebuild(settings, coded.indices, len(picture), nodes)
    assert coded.refusal == 0 and rebuilt.refusal == 0
    within = bounds(settings)[1]
    return b"".join([
        form(settings),
        picture,
        struct.pack(f"<{nodes}h", *coded.indices),
        struct.pack(f"<{nodes}h", *coded.averages),
        struct.pack(f"<{nodes}i", *rebuilt.values),
        rebuilt.picture,
        struct.pack(f"<{len(within)}H", *reversed(within)),
    ])


def smallest_shapes(numbers: Seeded) -> Iterator[Case]:
    """Every depth with every kernel at the smallest square size of the depth."""
    kinds = ("noise", "diagonal step", "black and white noise", "diagonal gradient")
    for depth in range(LARGEST_DEPTH + 1):
        side = 2 ** depth + 1
        for turn, kernel in enumerate(KERNELS):
            family = BIN_FAMILIES[(depth + turn) % len(BIN_FAMILIES)]
            kind = kinds[(depth + turn) % len(kinds)]
            settings = Settings(side, side, depth, kernel, bins_of(family, depth, numbers))
            yield settings, picture_of(kind, side, side, numbers)


def deeper_shapes(numbers: Seeded) -> Iterator[Case]:
    """Depths 4 and 5 with every kernel and pictures of several kinds."""
    kinds = ("checkerboard", "noise", "row step", "impulse", "hole")
    for turn, kernel in enumerate(KERNELS):
        for place, (columns, rows, depth) in enumerate(((17, 17, 4), (33, 17, 4), (33, 33, 5))):
            family = BIN_FAMILIES[(2 * turn + place) % len(BIN_FAMILIES)]
            settings = Settings(columns, rows, depth, kernel, bins_of(family, depth, numbers))
            yield settings, picture_of(kinds[(turn + place) % len(kinds)], columns, rows, numbers)


def every_kind(numbers: Seeded) -> Iterator[Case]:
    """Every kind of picture with every kernel at small sizes; sizes and families of bins in turn."""
    turn = 0
    for kind in PICTURE_KINDS:
        for kernel in KERNELS:
            for _ in range(2):
                columns, rows, depth = SMALL_SHAPES[turn % len(SMALL_SHAPES)]
                family = BIN_FAMILIES[turn % len(BIN_FAMILIES)]
                turn += 1
                settings = Settings(columns, rows, depth, kernel, bins_of(family, depth, numbers))
                yield settings, picture_of(kind, columns, rows, numbers)
        # The number of cases for a kind is a multiple of the number of shapes, so the start moves on by one.
        turn += 1


def extremes(numbers: Seeded) -> Iterator[Case]:
    """Pictures that drive one node of each level as far as its weights allow."""
    for kernel in KERNELS:
        for level in range(4):
            settings = Settings(17, 17, 3, kernel, bins_of(numbers.choice(BIN_FAMILIES), 3, numbers))
            columns, rows = level_size(17, 17, level)
            node = (numbers.between(0, columns - 1), numbers.between(0, rows - 1))
            yield settings, extreme_picture(settings, level, node, numbers.choice((1, -1)))
    settings = Settings(65, 65, 6, 6, bins_of("one", 6, numbers))
    yield settings, extreme_picture(settings, 6, (0, 0), 1)


def random_cases(numbers: Seeded) -> Iterator[Case]:
    """Random settings with sides up to 17, and a few up to 33, and random kinds of pictures."""
    for turn in range(66):
        settings = random_settings(numbers, 33 if turn % 6 == 0 else 17)
        yield settings, picture_of(numbers.choice(PICTURE_KINDS), settings.columns, settings.rows, numbers)


def further_sizes(numbers: Seeded) -> Iterator[Case]:
    """Long and flat sizes, and two pictures of 129 by 129 at depth 6."""
    for columns, rows, depth, kernel in FURTHER_SHAPES:
        settings = Settings(columns, rows, depth, kernel, bins_of(numbers.choice(BIN_FAMILIES), depth, numbers))
        yield settings, picture_of(numbers.choice(("noise", "diagonal step", "hole")), columns, rows, numbers)
    settings = Settings(129, 129, 6, 4, bins_of("mixed", 6, numbers))
    yield settings, picture_of("noise", 129, 129, numbers)
    settings = Settings(129, 129, 6, 6, bins_of("small", 6, numbers))
    yield settings, extreme_picture(settings, 5, (2, 2), -1)


def cases() -> Iterator[bytes]:
    """All cases, each as its bytes."""
    numbers = Seeded(SEED)
    for part in (smallest_shapes, deeper_shapes, every_kind, extremes, random_cases, further_sizes):
        for settings, picture in part(numbers):
            yield case_bytes(settings, picture)
