"""Vectors of the rebuilding of one pixel (document 02, P6)."""

import struct
from collections.abc import Iterator
from itertools import product

from closed_loop import code_closed
from one_pixel import Window, pixel_windows, rebuild_pixel, window_nodes
from pictures import (PICTURE_KINDS, balanced_indices, extreme_indices, largest_index, lawful_picture, near_indices,
                      random_indices)
from pixel_pieces import PIXEL_PIECES
from pyramid import code
from seeded import BIN_FAMILIES, SEED, Seeded, bins_of, random_greys
from settings import (FULL_GREYS, KERNELS, Settings, deepest_depth, level_size, node_count, total_nodes, with_greys)
from vectors_levels import with_index
from vectors_pyramid import greys_settings_bytes

Place = tuple[int, int]
Case = tuple[Settings, list[int], list[Place]]

# The largest number that a column or a row can be asked with.
FARTHEST = 65535
SMALL_SIDES = range(2, 10)


def case_bytes(settings: Settings, indices: list[int], places: list[Place]) -> bytes:
    """One case: settings, indices, the number of pixels asked for, and for each its column, its row and the answer."""
    assert len(indices) == total_nodes(settings.columns, settings.rows, settings.depth)
    records = []
    for column, row in places:
        answer = rebuild_pixel(settings, indices, column, row)
        assert answer.refusal in (0, 21, 11)
        records.append(struct.pack("<3HBH", column, row, answer.refusal, answer.pixel, answer.read))
    head = greys_settings_bytes(settings) + struct.pack(f"<{len(indices)}hH", *indices, len(places))
    return head + b"".join(records)


def drawn_greys(numbers: Seeded) -> tuple[int, int]:
    """Black and white: 0 and 255 in three of five draws, 16 and 235 in one, and others."""
    way = numbers.between(0, 4)
    return FULL_GREYS if way < 3 else (16, 235) if way == 3 else random_greys(numbers)


def drawn_settings(columns: int, rows: int, depth: int, kernel: int, numbers: Seeded) -> Settings:
    """Settings of a size, a depth and a kernel, with bins, black and white drawn."""
    bins = bins_of(numbers.choice(BIN_FAMILIES), depth, numbers)
    return with_greys(Settings(columns, rows, depth, kernel, bins), drawn_greys(numbers))


# Level buffers.

def coded_indices(settings: Settings, numbers: Seeded) -> list[int]:
    """The level buffer that the coding of a picture in one of the two manners leaves."""
    nodes = total_nodes(settings.columns, settings.rows, settings.depth)
    picture = lawful_picture(numbers.choice(PICTURE_KINDS), settings, numbers)
    return numbers.choice((code, code_closed))(settings, picture, nodes, nodes).indices


def driven_indices(settings: Settings, numbers: Seeded) -> list[int]:
    """The level buffer that drives one pixel as far as the weights allow."""
    pixel = (numbers.between(0, settings.columns - 1), numbers.between(0, settings.rows - 1))
    return extreme_indices(settings, pixel, numbers.choice((1, -1)))


OTHER_DRAWS = (coded_indices, near_indices, coded_indices, random_indices, coded_indices, driven_indices)


# Places.

def every_pixel(settings: Settings) -> list[Place]:
    """Column and row of every pixel."""
    return list(product(range(settings.columns), range(settings.rows)))


def outside(settings: Settings) -> list[Place]:
    """Places beyond the right end, the lower end and both, far ones, and the last pixel with its sides exchanged."""
    columns, rows = settings.columns, settings.rows
    places = [(columns, 0), (0, rows), (columns - 1, rows), (columns, rows - 1), (columns, rows), (FARTHEST, rows - 1),
              (columns - 1, FARTHEST), (FARTHEST, FARTHEST), (columns + 255, 0), (0, rows + 256)]
    return places + [(rows - 1, columns - 1)] * (columns != rows)


def around(settings: Settings, pixel: Place) -> list[Place]:
    """A pixel and those beside it."""
    beside = [(pixel[0] + i, pixel[1] + j) for i, j in ((0, 0), (-1, 0), (1, 0), (0, -1), (0, 1))]
    return [(i, j) for i, j in beside if 0 <= i < settings.columns and 0 <= j < settings.rows]


def node_place(settings: Settings, level: int, column: int, row: int) -> int:
    """The place of a node in the level buffer."""
    before = sum(node_count(settings.columns, settings.rows, above) for above in range(level + 1, settings.depth + 1))
    return before + row * level_size(settings.columns, settings.rows, level)[0] + column


def end_places(settings: Settings, windows: list[Window], level: int) -> list[int]:
    """The first and the last node of a window, and the nodes one beyond it to the left, right, top and bottom."""
    columns, rows = windows[level]
    level_columns, level_rows = level_size(settings.columns, settings.rows, level)
    nodes = [(columns[0], rows[0]), (columns[-1], rows[-1]), (columns[0] - 1, rows[0]), (columns[-1] + 1, rows[-1]),
             (columns[-1], rows[0] - 1), (columns[0], rows[-1] + 1)]
    return [node_place(settings, level, i, j) for i, j in nodes if 0 <= i < level_columns and 0 <= j < level_rows]


# Cases.

def pieces(_: Seeded) -> Iterator[Case]:
    """The pieces worked by hand."""
    for piece in PIXEL_PIECES:
        yield piece.settings, piece.indices, [answer[:2] for answer in piece.answers]


def small_pictures(numbers: Seeded) -> Iterator[Case]:
    """Every pixel of pictures with sides 2 to 9 at every depth with every kernel, of depth 0 in one of two sizes.

    Each with a few places outside the picture. Levels are balanced, and of another draw.
    """
    turn = 0
    for columns, rows in product(SMALL_SIDES, SMALL_SIDES):
        for depth in range((columns + rows) % 2, deepest_depth(columns, rows)[1] + 1):
            for kernel in KERNELS if depth > 0 else (KERNELS[turn % 4],):
                other = OTHER_DRAWS[turn % len(OTHER_DRAWS)]
                turn += 1
                for draw in (balanced_indices, other) if depth > 0 else (other,):
                    settings = drawn_settings(columns, rows, depth, kernel, numbers)
                    beyond = [numbers.choice(outside(settings)) for _ in range(2)]
                    yield settings, draw(settings, numbers), every_pixel(settings) + beyond


def far_index(settings: Settings, level: int, way: int) -> int:
    """An unlawful index of a level: the nearest of either sign, or the farthest."""
    nearest = largest_index(settings.bins[level]) + 1
    return (nearest, -nearest, -32768, 32767)[way % 4]


# Sizes and depths, the pixels whose windows' ends are tried, and the lowest level where they are.
ENDS: tuple[tuple[tuple[int, int, int], tuple[Place, ...], int], ...] = (
    ((5, 4, 0), ((2, 1), (0, 3)), 0),
    ((3, 9, 1), ((1, 4), (2, 5)), 0),
    ((9, 7, 1), ((4, 2), (3, 3), (8, 6)), 0),
    ((13, 9, 2), ((6, 4), (5, 3), (0, 8)), 0),
    ((9, 25, 3), ((4, 10),), 1),
    ((33, 17, 3), ((14, 9),), 3),
)


def window_ends(numbers: Seeded) -> Iterator[Case]:
    """One unlawful index at an end of a window or one node beyond it, asked for at the pixel and beside it."""
    way = 0
    for shape, pixels, lowest in ENDS:
        for pixel in pixels:
            windows = pixel_windows(Settings(*shape, 4, (1,) * 7), *pixel)
            for level in range(lowest, shape[2] + 1):
                for place in end_places(Settings(*shape, 4, (1,) * 7), windows, level):
                    settings = drawn_settings(*shape, KERNELS[way % 4], numbers)
                    far = far_index(settings, level, way // 4)
                    indices = with_index(balanced_indices(settings, numbers), place, far)
                    way += 1
                    yield settings, indices, around(settings, pixel) + [numbers.choice(outside(settings))]


def top_ends(numbers: Seeded) -> Iterator[Case]:
    """A long side of five nodes at the top, the first and the last of them unlawful, and a short side of two nodes.

    Windows at the top are of the three middle nodes for the middle pixel of the long side and the two beside it.
    """
    for depth, turned in product(range(1, 6), (False, True)):
        long, short = 2 ** depth * 4 + 1, 2 ** depth + 1
        columns, rows = (short, long) if turned else (long, short)
        settings = drawn_settings(columns, rows, depth, numbers.choice(KERNELS), numbers)
        indices = balanced_indices(settings, numbers)
        for end in (0, 4):
            node = (numbers.between(0, 1), end) if turned else (end, numbers.between(0, 1))
            place = node_place(settings, depth, *node)
            indices = with_index(indices, place, far_index(settings, depth, numbers.between(0, 3)))
        across = [(long // 2 + beside, numbers.between(0, short - 1)) for beside in range(-3, 4) for _ in range(3)]
        yield settings, indices, [(j, i) if turned else (i, j) for i, j in across]


def deepest_ends(numbers: Seeded) -> Iterator[Case]:
    """Depth 6 at 129 by 129: two opposite corners of level 6, which has three nodes on each side, are unlawful.

    Along each side the first node is not read from 127 on, and the last not before 2.
    """
    settings = drawn_settings(129, 129, 6, 5, numbers)
    indices = balanced_indices(settings, numbers)
    for corner in (0, 2):
        place = node_place(settings, 6, corner, corner)
        indices = with_index(indices, place, far_index(settings, 6, numbers.between(0, 3)))
    ends = [(i, j) for i, j in product((0, 1, 2), (126, 127, 128))]
    yield settings, indices, ends + [(j, i) for i, j in ends] + [(64, 64), (1, 1), (127, 127), (129, 1)]


def all_unlawful(settings: Settings, pixel: Place | None, numbers: Seeded) -> list[int]:
    """A level buffer that is unlawful everywhere but in the windows of a pixel, if there is one."""
    indices = balanced_indices(settings, numbers)
    kept = set()
    if pixel is not None:
        for level, (columns, rows) in enumerate(pixel_windows(settings, *pixel)):
            kept |= {node_place(settings, level, i, j) for j, i in product(rows, columns)}
    place = 0
    for level in range(settings.depth, -1, -1):
        for _ in range(node_count(settings.columns, settings.rows, level)):
            if place not in kept:
                indices[place] = far_index(settings, level, numbers.between(0, 3))
            place += 1
    return indices


def unlawful_outside(numbers: Seeded) -> Iterator[Case]:
    """Every index outside the windows of one pixel unlawful, or every index: 21 where the pixel is outside, else 11.

    The pixel is a corner or drawn.
    """
    for shape in ((5, 4, 0), (7, 9, 1), (3, 5, 1), (13, 9, 2), (5, 9, 2), (17, 9, 3), (33, 17, 4)):
        last = (shape[0] - 1, shape[1] - 1)
        drawn = (numbers.between(0, last[0]), numbers.between(0, last[1]))
        for turn, pixel in enumerate(((0, 0), last, (0, last[1]), (last[0], 0), drawn, None)):
            settings = drawn_settings(*shape, KERNELS[(turn + shape[2]) % 4], numbers)
            asked = around(settings, (0, 0) if pixel is None else pixel) + outside(settings)
            yield settings, all_unlawful(settings, pixel, numbers), asked
    settings = drawn_settings(33, 65, 5, 6, numbers)
    yield settings, all_unlawful(settings, (17, 30), numbers), around(settings, (17, 30)) + outside(settings)


def some_pixels(settings: Settings, count: int, numbers: Seeded) -> list[Place]:
    """The corners, the middles of the edges, the centre, drawn pixels on edges and anywhere, and one outside."""
    across = (0, settings.columns // 2, settings.columns - 1)
    down = (0, settings.rows // 2, settings.rows - 1)
    edges = [(numbers.between(0, settings.columns - 1), numbers.choice(down)),
             (numbers.choice(across), numbers.between(0, settings.rows - 1))]
    drawn = [numbers.choice(every_pixel(settings)) for _ in range(count)]
    return list(product(across, down)) + edges + drawn + [numbers.choice(outside(settings))]


def most_read(settings: Settings) -> Place:
    """The first pixel whose windows have the most nodes."""
    return max(every_pixel(settings), key=lambda pixel: window_nodes(pixel_windows(settings, *pixel)))


def larger_pictures(numbers: Seeded) -> Iterator[Case]:
    """Some pixels of larger pictures, to depth 6."""
    for kernel in KERNELS:
        for columns, rows, depth in ((17, 25, 3), (33, 17, 4)):
            settings = drawn_settings(columns, rows, depth, kernel, numbers)
            yield settings, balanced_indices(settings, numbers), some_pixels(settings, 40, numbers)
    for columns, rows, depth, kernel, draw in ((2, 129, 0, 5, near_indices), (129, 3, 1, 6, near_indices),
                                               (97, 33, 5, 6, balanced_indices), (65, 129, 6, 4, balanced_indices),
                                               (129, 129, 6, 3, balanced_indices)):
        settings = drawn_settings(columns, rows, depth, kernel, numbers)
        yield settings, draw(settings, numbers), [most_read(settings)] + some_pixels(settings, 40, numbers)


def cases() -> Iterator[bytes]:
    """All cases, each as its bytes."""
    numbers = Seeded(SEED + 900)
    for part in (pieces, small_pictures, window_ends, top_ends, deepest_ends, unlawful_outside, larger_pictures):
        for settings, indices, places in part(numbers):
            yield case_bytes(settings, indices, places)
