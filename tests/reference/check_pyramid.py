"""Properties of the pyramid on seeded pictures, and its steps computed a second way."""

from fractions import Fraction
from math import ceil, floor

from pictures import PICTURE_KINDS, extreme_indices, extreme_picture, picture_of, random_indices
from pyramid import (VALUE_LIMIT, WEIGHTS, Level, bin_index, code, expand_level, flatten, index_values,
                     laplacian_pyramid, rebuild, reduce_level, split_levels)
from seeded import BIN_FAMILIES, SEED, Seeded, bins_of, random_settings
from settings import KERNELS, LARGEST_DEPTH, Settings, bounds, deepest_depth, level_size, shape_refusal, total_nodes
from tally import Tally


# REDUCE, EXPAND, the bin rule and the deepest depth a second way.

def paper_weight(kernel: int, m: int) -> Fraction:
    """The generating kernel of the paper for a = k/10: a, 1/4 and 1/4 - a/2."""
    a = Fraction(kernel, 10)
    return (a, Fraction(1, 4), Fraction(1, 4) - a / 2)[abs(m)]


def mirrored(level: Level, i: int, j: int) -> int:
    """The value at column i and row j of the level, mirrored at its edges without end."""
    last_i, last_j = len(level[0]) - 1, len(level) - 1
    return level[last_j - abs(last_j - abs(j))][last_i - abs(last_i - abs(i))]


def paper_reduce(level: Level, kernel: int, i: int, j: int) -> int:
    """One node of REDUCE by the double sum of equation (1)."""
    total = Fraction(0)
    for m in range(-2, 3):
        for n in range(-2, 3):
            total += paper_weight(kernel, m) * paper_weight(kernel, n) * mirrored(level, 2 * i + m, 2 * j + n)
    return floor(total + Fraction(1, 2))


def paper_expand(level: Level, kernel: int, i: int, j: int) -> int:
    """One node of EXPAND by the double sum of equation (2)."""
    total = Fraction(0)
    for m in range(-2, 3):
        for n in range(-2, 3):
            at_i, at_j = Fraction(i - m, 2), Fraction(j - n, 2)
            if at_i.denominator == 1 and at_j.denominator == 1:
                total += paper_weight(kernel, m) * paper_weight(kernel, n) * mirrored(level, int(at_i), int(at_j))
    return floor(4 * total + Fraction(1, 2))


def check_second_way(tally: Tally) -> None:
    """REDUCE and EXPAND agree with the paper's double sums on small levels with values of both signs."""
    numbers = Seeded(SEED)
    for kernel in KERNELS:
        for distance in range(3):
            tally.equal(f"weight of k = {kernel} at {distance}", Fraction(WEIGHTS[kernel][distance], 20),
                        paper_weight(kernel, distance))
        for half_columns, half_rows in ((1, 1), (1, 2), (2, 1), (3, 2), (4, 4)):
            columns, rows = 2 * half_columns + 1, 2 * half_rows + 1
            low = [[numbers.between(-900, 900) for _ in range(columns)] for _ in range(rows)]
            reduced = [[paper_reduce(low, kernel, i, j) for i in range(half_columns + 1)] for j in range(half_rows + 1)]
            tally.equal(f"REDUCE of {columns} by {rows}, k = {kernel}", reduce_level(low, kernel), reduced)
            high = [[numbers.between(-9, 9) for _ in range(half_columns + 1)] for _ in range(half_rows + 1)]
            expanded = [[paper_expand(high, kernel, i, j) for i in range(columns)] for j in range(rows)]
            tally.equal(f"EXPAND to {columns} by {rows}, k = {kernel}", expand_level(high, kernel), expanded)


def check_bin_rule(tally: Tally) -> None:
    """The index is the smallest m with L <= (m + 1/2)n, which is L/n - 1/2 rounded up."""
    for bin_size in (1, 2, 3, 4, 5, 10, 64, 127, 128, 253, 254, 255):
        agree = all(bin_index(value, bin_size) == ceil(Fraction(value, bin_size) - Fraction(1, 2))
                    for value in range(-VALUE_LIMIT, VALUE_LIMIT + 1))
        tally.true(f"bin {bin_size}, index of every value within 4,096", agree)


def trailing_zeros(number: int) -> int:
    """Trailing zero bits of a positive number."""
    return len(f"{number:b}") - len(f"{number:b}".rstrip("0"))


def depth_answers(columns: int, rows: int) -> list[int]:
    """The refusals of depths 0 to 8 of a lawful size from trailing zero bits: 14 and then 15 up to 6, 13 above."""
    allowed, both = trailing_zeros(columns - 1), min(trailing_zeros(columns - 1), trailing_zeros(rows - 1))
    return [0 if depth <= both else 15 if depth <= allowed else 14 for depth in range(7)] + [13, 13]


def check_depths(tally: Tally) -> None:
    """The deepest depth from trailing zero bits, and the answers to all depths, for every size."""
    for columns in range(2, 130):
        for rows in range(2, 130):
            deepest = min(trailing_zeros(columns - 1), trailing_zeros(rows - 1), LARGEST_DEPTH)
            answers = [shape_refusal(columns, rows, depth, 3) for depth in range(9)]
            tally.true(f"deepest depth and answers to depths of {columns} by {rows}",
                       deepest_depth(columns, rows) == (0, deepest) and answers == depth_answers(columns, rows))


# The bound and the limits of values.

def distances_within(first: Level, second: Level, limit: int) -> bool:
    """Say whether two levels differ by at most the limit at every node."""
    return all(abs(a - b) <= limit for row_a, row_b in zip(first, second) for a, b in zip(row_a, row_b))


def check_picture(tally: Tally, name: str, settings: Settings, picture: bytes) -> None:
    """One coding and rebuilding: bounds at every level, limits of values, the order of the buffers."""
    nodes = total_nodes(settings.columns, settings.rows, settings.depth)
    coded = code(settings, picture, nodes, nodes)
    rebuilt = rebuild(settings, coded.indices, len(picture), nodes + 3)
    tally.equal(f"{name}: answers", (coded.refusal, rebuilt.refusal), (0, 0))
    if coded.refusal != 0 or rebuilt.refusal != 0:
        return
    averages = split_levels(coded.averages, settings)
    values = split_levels(rebuilt.values, settings)
    within = bounds(settings)[1]
    for level in range(settings.depth + 1):
        tally.true(f"{name}: bound of level {level}", distances_within(averages[level], values[level], within[level]))
    pixels = all(abs(a - b) <= within[0] for a, b in zip(picture, rebuilt.picture, strict=True))
    tally.true(f"{name}: pixels within the bound of level 0", pixels)
    differences = flatten(laplacian_pyramid(averages, settings.kernel))
    everything = coded.averages + differences + flatten(index_values(coded.indices, settings))
    tally.true(f"{name}: values within 4,096", all(abs(value) <= VALUE_LIMIT for value in everything))
    if all(size <= 1 for size in settings.bins):
        tally.true(f"{name}: bins of 1 lose nothing", rebuilt.picture == picture and rebuilt.values == coded.averages)


def check_random_pictures(tally: Tally) -> None:
    """Every kind of picture with every kernel and family of bins, and random settings."""
    numbers = Seeded(SEED + 1)
    for kernel in KERNELS:
        for family in BIN_FAMILIES:
            for kind in PICTURE_KINDS:
                settings = Settings(17, 9, 3, kernel, bins_of(family, 3, numbers))
                check_picture(tally, f"{kind}, {settings}", settings, picture_of(kind, 17, 9, numbers))
    for _ in range(150):
        settings = random_settings(numbers, 25)
        kind = numbers.choice(PICTURE_KINDS)
        name = f"{kind}, {settings}"
        check_picture(tally, name, settings, picture_of(kind, settings.columns, settings.rows, numbers))


def check_large_pictures(tally: Tally) -> None:
    """Pictures of 65 and 129 at depth 6, and those that drive one node as far as its weights allow."""
    numbers = Seeded(SEED + 2)
    for kernel in KERNELS:
        settings = Settings(129, 129, 6, kernel, bins_of("mixed", 6, numbers))
        check_picture(tally, f"129, k = {kernel}", settings, picture_of("noise", 129, 129, numbers))
        for level in range(LARGEST_DEPTH + 1):
            settings = Settings(65, 65, 6, kernel, bins_of("largest", 6, numbers))
            columns, rows = level_size(65, 65, level)
            for node in ((0, 0), (columns // 2, rows // 2)):
                sign = numbers.choice((1, -1))
                picture = extreme_picture(settings, level, node, sign)
                check_picture(tally, f"extreme {sign} at {node} of level {level}, k = {kernel}", settings, picture)


def check_any_levels(tally: Tally) -> None:
    """Rebuilding from lawful levels that no coding made stays within what the multiplier allows."""
    numbers = Seeded(SEED + 3)
    for kernel in KERNELS:
        settings = Settings(33, 17, 4, kernel, bins_of("mixed", 4, numbers))
        nodes = total_nodes(33, 17, 4)
        limit = VALUE_LIMIT
        for _ in range(settings.depth):
            limit = ceil(limit * Fraction(196 if kernel == 6 else 100, 100)) + VALUE_LIMIT
        for indices in (random_indices(settings, numbers), extreme_indices(settings, (16, 8), -1)):
            rebuilt = rebuild(settings, indices, 33 * 17, nodes)
            tally.equal(f"any levels, k = {kernel}: answer", rebuilt.refusal, 0)
            tally.true(f"any levels, k = {kernel}: growth", all(abs(value) <= limit for value in rebuilt.values))


def run(tally: Tally) -> None:
    """All checks of the pyramid but refusals and generations."""
    for check in (check_second_way, check_bin_rule, check_depths, check_random_pictures, check_large_pictures,
                  check_any_levels):
        check(tally)
