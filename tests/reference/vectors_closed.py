"""Vectors of closed-loop coding."""

import struct
from collections.abc import Iterator

from closed_loop import code_closed
from closed_pieces import CLOSED_PIECES
from pictures import PICTURE_KINDS, extreme_picture, picture_of
from pyramid import rebuild
from seeded import CLOSED_BIN_FAMILIES, SEED, Seeded, bins_of, fill_slots, random_settings
from settings import KERNELS, LARGEST_DEPTH, Settings, closed_bounds, level_size, total_nodes
from vectors_pyramid import SettingsForm, settings_bytes

Case = tuple[Settings, bytes]

# Sizes and depths for each combination of kernel and kind of picture.
SMALL_SHAPES = ((9, 9, 3), (5, 13, 2), (9, 5, 1), (17, 9, 3), (3, 7, 1), (13, 5, 2))
# And of the pictures that are rebuilt beyond 0 to 255.
BEYOND_SHAPES = ((3, 7, 1), (9, 5, 2), (9, 9, 3))
# Long and flat sizes, and sizes between 15 and 65, with a kernel for each.
FURTHER_SHAPES = ((2, 129, 0, 5), (129, 2, 0, 6), (129, 3, 1, 3), (3, 129, 1, 6), (5, 129, 2, 4), (129, 5, 2, 6),
                  (49, 17, 4, 5), (65, 33, 5, 6), (20, 21, 0, 4), (23, 15, 1, 5))
# A kernel, a family of bins and a kind of picture for each picture of 129 by 129.
LARGEST_CASES = ((3, "mixed", "noise"), (4, "large below", "diagonal step"), (5, "odd", "black and white noise"))


def case_bytes(settings: Settings, picture: bytes, form: SettingsForm = settings_bytes) -> bytes:
    """One case: settings, picture, indices, rebuilt values, rebuilt picture, bounds."""
    nodes = total_nodes(settings.columns, settings.rows, settings.depth)
    coded = code_closed(settings, picture, nodes, nodes)
    rebuilt = rebuild(settings, coded.indices, len(picture), nodes)
    assert coded.refusal == 0 and rebuilt.refusal == 0 and coded.values == rebuilt.values
    within = closed_bounds(settings)[1]
    return b"".join([
        form(settings),
        picture,
        struct.pack(f"<{nodes}h", *coded.indices),
        struct.pack(f"<{nodes}h", *coded.values),
        rebuilt.picture,
        struct.pack(f"<{len(within)}H", *reversed(within)),
    ])


def worked_pieces(_: Seeded) -> Iterator[Case]:
    """The pieces worked by hand."""
    for piece in CLOSED_PIECES:
        yield piece.settings, piece.picture


def smallest_shapes(numbers: Seeded) -> Iterator[Case]:
    """Every depth with every kernel at the smallest square size of the depth."""
    kinds = ("noise", "diagonal gradient", "black and white noise", "diagonal step", "checkerboard")
    for depth in range(LARGEST_DEPTH + 1):
        side = 2 ** depth + 1
        for turn, kernel in enumerate(KERNELS):
            family = CLOSED_BIN_FAMILIES[(3 * depth + 2 * turn) % len(CLOSED_BIN_FAMILIES)]
            settings = Settings(side, side, depth, kernel, bins_of(family, depth, numbers))
            yield settings, picture_of(kinds[(depth + turn) % len(kinds)], side, side, numbers)


def deeper_shapes(numbers: Seeded) -> Iterator[Case]:
    """Depths 4 and 5 with every kernel and pictures of several kinds."""
    kinds = ("noise", "hole", "checkerboard", "column step", "impulse")
    for turn, kernel in enumerate(KERNELS):
        for place, (columns, rows, depth) in enumerate(((17, 17, 4), (17, 33, 4), (33, 33, 5))):
            family = ("mixed", "large below", "large top", "largest", "odd")[(2 * turn + place) % 5]
            settings = Settings(columns, rows, depth, kernel, bins_of(family, depth, numbers))
            yield settings, picture_of(kinds[(turn + 2 * place) % len(kinds)], columns, rows, numbers)


def every_kind(numbers: Seeded) -> Iterator[Case]:
    """Every kind of picture with every kernel at small sizes; sizes and families of bins in turn."""
    turn = 0
    for kind in PICTURE_KINDS:
        for kernel in KERNELS:
            columns, rows, depth = SMALL_SHAPES[turn % len(SMALL_SHAPES)]
            family = CLOSED_BIN_FAMILIES[turn % len(CLOSED_BIN_FAMILIES)]
            turn += 1
            settings = Settings(columns, rows, depth, kernel, bins_of(family, depth, numbers))
            yield settings, picture_of(kind, columns, rows, numbers)
        # Four cases of a kind are half the number of families, so the start moves on by one.
        turn += 1


def every_family(numbers: Seeded) -> Iterator[Case]:
    """Every family of bins with every kernel and depths 1 to 3, pictures in turn."""
    kinds = ("noise", "white", "black and white noise", "row gradient", "row step")
    for turn, family in enumerate(CLOSED_BIN_FAMILIES):
        for kernel in KERNELS:
            for columns, rows, depth in ((7, 5, 1), (5, 9, 2), (9, 9, 3)):
                settings = Settings(columns, rows, depth, kernel, bins_of(family, depth, numbers))
                yield settings, picture_of(kinds[(turn + kernel + depth) % len(kinds)], columns, rows, numbers)


def beyond_grey(numbers: Seeded) -> Iterator[Case]:
    """Pictures whose top may be rebuilt beyond 255, white as 256 to 338, with small bins below."""
    for kind in ("white", "row step", "column gradient"):
        for kernel in KERNELS:
            for columns, rows, depth in BEYOND_SHAPES:
                below = [numbers.between(1, 12) for _ in range(depth)]
                settings = Settings(columns, rows, depth, kernel, fill_slots(below + [numbers.between(128, 169)]))
                yield settings, picture_of(kind, columns, rows, numbers)


def smallest_sizes(numbers: Seeded) -> Iterator[Case]:
    """Sides of 2 and 3 with every kernel and depth."""
    for columns, rows, depth in ((2, 2, 0), (2, 3, 0), (3, 2, 0), (3, 3, 0), (3, 3, 1)):
        for kernel in KERNELS:
            settings = Settings(columns, rows, depth, kernel, bins_of("mixed", depth, numbers))
            yield settings, picture_of("noise", columns, rows, numbers)


def extremes(numbers: Seeded) -> Iterator[Case]:
    """Pictures that drive one node of each level as far as its weights allow."""
    for kernel in KERNELS:
        for level in range(4):
            settings = Settings(9, 9, 3, kernel, bins_of(numbers.choice(CLOSED_BIN_FAMILIES), 3, numbers))
            columns, rows = level_size(9, 9, level)
            node = (numbers.between(0, columns - 1), numbers.between(0, rows - 1))
            yield settings, extreme_picture(settings, level, node, numbers.choice((1, -1)))


def random_cases(numbers: Seeded) -> Iterator[Case]:
    """Random settings with sides up to 17 and random kinds of pictures."""
    for _ in range(26):
        settings = random_settings(numbers, 17, CLOSED_BIN_FAMILIES)
        yield settings, picture_of(numbers.choice(PICTURE_KINDS), settings.columns, settings.rows, numbers)


def further_sizes(numbers: Seeded) -> Iterator[Case]:
    """Long and flat sizes, and 129 by 129 at depth 6 with every kernel."""
    for columns, rows, depth, kernel in FURTHER_SHAPES:
        settings = Settings(columns, rows, depth, kernel, bins_of(numbers.choice(CLOSED_BIN_FAMILIES), depth, numbers))
        yield settings, picture_of(numbers.choice(("noise", "diagonal step", "hole")), columns, rows, numbers)
    for kernel, family, kind in LARGEST_CASES:
        settings = Settings(129, 129, 6, kernel, bins_of(family, 6, numbers))
        yield settings, picture_of(kind, 129, 129, numbers)
    settings = Settings(129, 129, 6, 6, bins_of("mixed", 6, numbers))
    yield settings, extreme_picture(settings, 5, (2, 2), 1)


def cases() -> Iterator[bytes]:
    """All cases, each as its bytes."""
    numbers = Seeded(SEED + 400)
    for part in (worked_pieces, smallest_shapes, deeper_shapes, every_kind, every_family, beyond_grey, smallest_sizes,
                 extremes, random_cases, further_sizes):
        for settings, picture in part(numbers):
            yield case_bytes(settings, picture)
