"""Rebuilding of one pixel from the indices of its windows (document 02, P6).

The answer is made as the request says it: every index outside the windows is taken as 0, the whole picture is rebuilt,
and its pixel at the place asked for is the answer.
"""

from dataclasses import dataclass
from fractions import Fraction
from math import ceil, floor

from pyramid import Level, flatten, is_index_lawful, rebuild, split_levels
from settings import (ACCEPTED, BAD_INDEX, BAD_LEVEL_LENGTH, NO_SUCH_PIXEL, Settings, level_size, settings_refusal,
                      total_nodes)

# Columns and rows of a level.
Window = tuple[range, range]


@dataclass(frozen=True)
class OnePixel:
    """Answer of the rebuilding of a pixel: the refusal number, and if it is 0 the pixel and the number of indices read.

    A refusal holds 0 in both numbers.
    """

    refusal: int
    pixel: int = 0
    read: int = 0


def range_above(below: range, count: int) -> range:
    """The range that a range from a to b becomes at the next level up, where the axis has count nodes."""
    first, last = below[0], below[-1]
    low = ceil(Fraction(first - 2, 2))
    high = floor(Fraction(last + 2, 2))
    return range(max(low, 0), min(high, count - 1) + 1)


def axis_windows(side: int, depth: int, position: int) -> list[range]:
    """For levels 0 to N: the range along one axis, whose side has that many pixels at level 0."""
    ranges = [range(position, position + 1)]
    for level in range(1, depth + 1):
        ranges.append(range_above(ranges[-1], level_size(side, side, level)[0]))
    return ranges


def pixel_windows(settings: Settings, column: int, row: int) -> list[Window]:
    """The windows of levels 0 to N of a pixel inside the picture."""
    return list(zip(axis_windows(settings.columns, settings.depth, column),
                    axis_windows(settings.rows, settings.depth, row), strict=True))


def window_nodes(windows: list[Window]) -> int:
    """The number of nodes in the windows of all levels together."""
    return sum(len(columns) * len(rows) for columns, rows in windows)


def are_read_lawful(levels: list[Level], windows: list[Window], settings: Settings) -> bool:
    """Say whether every index inside the windows is lawful."""
    return all(is_index_lawful(levels[level][j][i], settings.bins[level])
               for level, (columns, rows) in enumerate(windows) for j in rows for i in columns)


def zero_outside(levels: list[Level], windows: list[Window]) -> list[Level]:
    """The levels with every index outside the windows taken as 0."""
    return [[[index if i in columns and j in rows else 0 for i, index in enumerate(level_row)]
             for j, level_row in enumerate(level)]
            for level, (columns, rows) in zip(levels, windows, strict=True)]


def place_refusal(settings: Settings, level_length: int, column: int, row: int) -> int:
    """The settings' first refusal, then 6 and 21 in this order, or 0."""
    refusal = settings_refusal(settings)
    if refusal != ACCEPTED:
        return refusal
    if level_length != total_nodes(settings.columns, settings.rows, settings.depth):
        return BAD_LEVEL_LENGTH
    inside = 0 <= column < settings.columns and 0 <= row < settings.rows
    return ACCEPTED if inside else NO_SUCH_PIXEL


def rebuild_pixel(settings: Settings, indices: list[int], column: int, row: int) -> OnePixel:
    """Rebuild the pixel at a column and a row from a level buffer."""
    refusal = place_refusal(settings, len(indices), column, row)
    if refusal != ACCEPTED:
        return OnePixel(refusal)
    windows = pixel_windows(settings, column, row)
    levels = split_levels(indices, settings)
    if not are_read_lawful(levels, windows, settings):
        return OnePixel(BAD_INDEX)
    kept = flatten(zero_outside(levels, windows))
    rebuilt = rebuild(settings, kept, settings.columns * settings.rows, len(kept))
    assert rebuilt.refusal == ACCEPTED
    return OnePixel(ACCEPTED, rebuilt.picture[row * settings.columns + column], window_nodes(windows))
