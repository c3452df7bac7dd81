"""The Laplacian pyramid of Burt and Adelson (1983), under the rulings of document 01 and of document 02, P5.

Whole numbers and exact fractions only. A level is a list of rows, so node (i, j) of the paper, column i and row j,
is level[j][i]. A list of levels has level 0 first. The flat order of the level buffer has level N first.
"""

from dataclasses import dataclass, field
from fractions import Fraction
from math import floor

from settings import (ACCEPTED, BAD_INDEX, BAD_LEVEL_LENGTH, BAD_PICTURE_LENGTH, BAD_WORK_LENGTH, PIXEL_OUTSIDE,
                      Settings, level_size, node_count, settings_refusal, total_nodes)

Level = list[list[int]]
AxisTaps = list[tuple[int, int]]

# Document 01, "Pyramid steps": weights in twentieths, for distance 0, 1, 2 from the centre, for each k.
WEIGHTS = {3: (6, 5, 2), 4: (8, 5, 1), 5: (10, 5, 0), 6: (12, 5, -1)}
# A product of two weights in twentieths is a number of four hundredths.
WEIGHT_DIVISOR = 20 * 20
# The factor before the sum of EXPAND, equation (2).
EXPAND_FACTOR = 4
# Document 01, refusal 11: index times bin is within this distance of 0.
VALUE_LIMIT = 4096


@dataclass(frozen=True)
class Coded:
    """Answer of an open-loop coding: the refusal number, and if it is 0 indices and averages g in flat order."""

    refusal: int
    indices: list[int] = field(default_factory=list)
    averages: list[int] = field(default_factory=list)


@dataclass(frozen=True)
class Rebuilt:
    """Answer of a rebuilding: the refusal number, and if it is 0 the unclamped r in flat order and the picture."""

    refusal: int
    values: list[int] = field(default_factory=list)
    picture: bytes = b""


# REDUCE and EXPAND.

def weight(kernel: int, distance: int) -> int:
    """The weight at a distance of -2 to 2 from the centre, in twentieths."""
    return WEIGHTS[kernel][abs(distance)]


def reflect(position: int, last: int) -> int:
    """The position inside 0 to last that stands for a position up to two places beyond either edge."""
    if position < 0:
        return -position
    if position > last:
        return last - (position - last)
    return position


def round_quotient(total: int, divisor: int) -> int:
    """The largest whole number not above total/divisor + 1/2."""
    return floor(Fraction(total, divisor) + Fraction(1, 2))


def reduce_taps(count: int, kernel: int) -> list[AxisTaps]:
    """For each node i of the reduced axis: positions 2i + m of an axis of count nodes, with their weights."""
    last = count - 1
    return [[(reflect(2 * i + m, last), weight(kernel, m)) for m in range(-2, 3)] for i in range(last // 2 + 1)]


def expand_taps(count: int, kernel: int) -> list[AxisTaps]:
    """For each node i of the expanded axis: whole positions (i - m)/2 of an axis of count nodes, with weights."""
    last = count - 1
    return [[(reflect((i - m) // 2, last), weight(kernel, m)) for m in range(-2, 3) if (i - m) % 2 == 0]
            for i in range(2 * last + 1)]


def weighted_sum(level: Level, column_taps: AxisTaps, row_taps: AxisTaps) -> int:
    """The sum over both axes of the products of two weights and a value, in four hundredths."""
    return sum(row_weight * column_weight * level[j][i]
               for j, row_weight in row_taps for i, column_weight in column_taps)


def reduce_level(level: Level, kernel: int) -> Level:
    """REDUCE, equation (1)."""
    column_taps = reduce_taps(len(level[0]), kernel)
    row_taps = reduce_taps(len(level), kernel)
    return [[round_quotient(weighted_sum(level, column, row), WEIGHT_DIVISOR) for column in column_taps]
            for row in row_taps]


def expand_level(level: Level, kernel: int) -> Level:
    """EXPAND, equation (2)."""
    column_taps = expand_taps(len(level[0]), kernel)
    row_taps = expand_taps(len(level), kernel)
    return [[round_quotient(EXPAND_FACTOR * weighted_sum(level, column, row), WEIGHT_DIVISOR)
             for column in column_taps] for row in row_taps]


# The order of the level buffer.

def split_rows(flat: bytes | list[int], columns: int) -> Level:
    """Rows of the given number of columns."""
    return [list(flat[start:start + columns]) for start in range(0, len(flat), columns)]


def flatten(levels: list[Level]) -> list[int]:
    """The level buffer's order: level N first, level 0 last, each row after row."""
    return [value for level in reversed(levels) for row in level for value in row]


def split_levels(flat: list[int], settings: Settings) -> list[Level]:
    """Levels 0 to N out of the level buffer's order."""
    levels: list[Level] = []
    start = 0
    for level in range(settings.depth, -1, -1):
        end = start + node_count(settings.columns, settings.rows, level)
        levels.insert(0, split_rows(flat[start:end], level_size(settings.columns, settings.rows, level)[0]))
        start = end
    return levels


# Coding.

def call_refusal(settings: Settings, picture_length: int, level_length: int, work_length: int) -> int:
    """The settings' first refusal, then 5, 6, 7 in this order, or 0."""
    refusal = settings_refusal(settings)
    if refusal != ACCEPTED:
        return refusal
    if picture_length != settings.columns * settings.rows:
        return BAD_PICTURE_LENGTH
    nodes = total_nodes(settings.columns, settings.rows, settings.depth)
    if level_length != nodes:
        return BAD_LEVEL_LENGTH
    return ACCEPTED if work_length >= nodes else BAD_WORK_LENGTH


def coding_refusal(settings: Settings, picture: bytes, level_length: int, work_length: int) -> int:
    """The call's first refusal, then 20, or 0; of a coding in either manner."""
    refusal = call_refusal(settings, len(picture), level_length, work_length)
    if refusal != ACCEPTED:
        return refusal
    inside = all(settings.black <= pixel <= settings.white for pixel in picture)
    return ACCEPTED if inside else PIXEL_OUTSIDE


def combine(first: Level, second: Level, sign: int) -> Level:
    """First plus sign times second, node by node."""
    return [[a + sign * b for a, b in zip(row_a, row_b, strict=True)]
            for row_a, row_b in zip(first, second, strict=True)]


def gaussian_pyramid(picture: Level, depth: int, kernel: int) -> list[Level]:
    """g of levels 0 to N: g0 is the picture, each next g is REDUCE of the last."""
    averages = [picture]
    for _ in range(depth):
        averages.append(reduce_level(averages[-1], kernel))
    return averages


def laplacian_pyramid(averages: list[Level], kernel: int) -> list[Level]:
    """L of levels 0 to N: g less EXPAND of the next g up, and at the top g itself, equation (3)."""
    below_top = [combine(low, expand_level(high, kernel), -1) for low, high in zip(averages, averages[1:])]
    return below_top + [averages[-1]]


def bin_index(value: int, bin_size: int) -> int:
    """The only whole m with (2m - 1)n < 2L <= (2m + 1)n, equation (5), sought around L/n."""
    near = value // bin_size
    found = [m for m in range(near - 2, near + 3)
             if (2 * m - 1) * bin_size < 2 * value <= (2 * m + 1) * bin_size]
    assert len(found) == 1
    return found[0]


def level_indices(level: Level, bin_size: int) -> Level:
    """The index of each value of a level."""
    return [[bin_index(value, bin_size) for value in row] for row in level]


def code(settings: Settings, picture: bytes, level_length: int, work_length: int) -> Coded:
    """Code a picture open-loop, with a level buffer and a work buffer of the given lengths."""
    refusal = coding_refusal(settings, picture, level_length, work_length)
    if refusal != ACCEPTED:
        return Coded(refusal)
    averages = gaussian_pyramid(split_rows(picture, settings.columns), settings.depth, settings.kernel)
    differences = laplacian_pyramid(averages, settings.kernel)
    indices = [level_indices(level, size) for level, size in zip(differences, settings.bins)]
    return Coded(ACCEPTED, flatten(indices), flatten(averages))


# Rebuilding.

def is_index_lawful(index: int, bin_size: int) -> bool:
    """Say whether index times bin is within 4,096 of 0."""
    return -VALUE_LIMIT <= index * bin_size <= VALUE_LIMIT


def indices_refusal(indices: list[int], settings: Settings) -> int:
    """Refusal 11, or 0."""
    levels = split_levels(indices, settings)
    lawful = all(is_index_lawful(index, size) for level, size in zip(levels, settings.bins)
                 for row in level for index in row)
    return ACCEPTED if lawful else BAD_INDEX


def level_values(indices: Level, bin_size: int) -> Level:
    """The value m x n of each index of a level."""
    return [[index * bin_size for index in row] for row in indices]


def index_values(indices: list[int], settings: Settings) -> list[Level]:
    """The value m x n of each index, for levels 0 to N."""
    return [level_values(level, size) for level, size in zip(split_levels(indices, settings), settings.bins)]


def rebuild_levels(values: list[Level], kernel: int) -> list[Level]:
    """r of levels 0 to N: the top's values, below it values plus EXPAND of the next r up, equation (4)."""
    rebuilt = [values[-1]]
    for level in reversed(values[:-1]):
        rebuilt.insert(0, combine(level, expand_level(rebuilt[0], kernel), 1))
    return rebuilt


def clamp(value: int, settings: Settings) -> int:
    """The nearest grey that the camera can send, black to white."""
    return max(settings.black, min(settings.white, value))


def rebuild(settings: Settings, indices: list[int], picture_length: int, work_length: int) -> Rebuilt:
    """Rebuild from a level buffer, with a picture buffer and a work buffer of the given lengths."""
    refusal = call_refusal(settings, picture_length, len(indices), work_length)
    if refusal == ACCEPTED:
        refusal = indices_refusal(indices, settings)
    if refusal != ACCEPTED:
        return Rebuilt(refusal)
    rebuilt = rebuild_levels(index_values(indices, settings), settings.kernel)
    picture = bytes(clamp(value, settings) for row in rebuilt[0] for value in row)
    return Rebuilt(ACCEPTED, flatten(rebuilt), picture)
