"""One pixel without the whole picture (document 02, P6): windows and pixels worked by hand, and properties."""

from dataclasses import replace
from itertools import product

from check_calls import subsets
from faulty_shapes import SHAPES, first_of
from one_pixel import OnePixel, axis_windows, pixel_windows, rebuild_pixel, window_nodes
from pictures import (PICTURE_KINDS, balanced_indices, largest_index, lawful_picture, near_indices, random_indices,
                      rebuild_weights)
from pixel_pieces import AXES, MOST_READ, PIXEL_PIECES
from pyramid import code, expand_taps, rebuild
from seeded import BIN_FAMILIES, SEED, Seeded, bins_of, fill_slots, random_greys, random_greys_settings
from settings import (BIN_SLOTS, FULL_GREYS, KERNELS, LARGEST_DEPTH, LARGEST_SIDE, SMALLEST_SIDE, Settings,
                      is_divisible, level_size, total_nodes, with_greys)
from tally import Tally

# Indices whose value is out of range with every bin.
FAR_INDICES = (4097, -4097, 32767, -32768)


# Pieces worked by hand.

def check_pieces(tally: Tally) -> None:
    """The ranges of some axes, and the answers of the pieces."""
    for side, depth, position, ranges in AXES:
        found = tuple((window[0], window[-1]) for window in axis_windows(side, depth, position))
        tally.equal(f"ranges of {position} of {side} at depth {depth}", found, ranges)
    for piece in PIXEL_PIECES:
        for column, row, *answer in piece.answers:
            found = rebuild_pixel(piece.settings, piece.indices, column, row)
            tally.equal(f"{piece.name}, pixel {column}, {row}", found, OnePixel(*answer))


# Windows, one axis at a time.

def axes() -> list[tuple[int, int]]:
    """Every lawful side with every depth that it allows."""
    return [(side, depth) for side in range(SMALLEST_SIDE, LARGEST_SIDE + 1) for depth in range(LARGEST_DEPTH + 1)
            if is_divisible(side, depth)]


def whole_form(side: int, depth: int, position: int) -> list[range]:
    """The ranges a second way: those nodes of each level l whose place in the picture is within 2(2^l - 1) columns."""
    ranges = []
    for level in range(depth + 1):
        step = 2 ** level
        count = level_size(side, side, level)[0]
        near = [node for node in range(count) if abs(step * node - position) <= 2 * (step - 1)]
        ranges.append(range(near[0], near[-1] + 1))
    return ranges


def read_above(below: range, count: int) -> set[int]:
    """The positions of an axis of count nodes that EXPAND reads, with any weight, for the nodes of a range."""
    taps = expand_taps(count, KERNELS[0])
    return {position for node in below for position, _ in taps[node]}


def check_windows(tally: Tally) -> None:
    """Each range is what EXPAND reads for the range below and no more, and is short, for every place of every axis.

    Ranges are of at most 1, 3, 4, 4 and so on positions, so that the windows have at most 1 + 9 + 16(N - 1) nodes.
    """
    most = [0] * (LARGEST_DEPTH + 1)
    for side, depth in axes():
        longest = [1, 3, 4, 4, 4, 4, 4][:depth + 1]
        same, exact, short = True, True, True
        for position in range(side):
            ranges = axis_windows(side, depth, position)
            same = same and ranges == whole_form(side, depth, position)
            exact = exact and all(set(ranges[level]) == read_above(ranges[level - 1], level_size(side, side, level)[0])
                                  for level in range(1, depth + 1))
            short = short and all(len(window) <= length for window, length in zip(ranges, longest, strict=True))
            # The most on two axes are the most on two alike: a sum of products is at most the larger sum of squares.
            most[depth] = max(most[depth], sum(len(window) ** 2 for window in ranges))
        name = f"side {side}, depth {depth}"
        tally.true(f"{name}: ranges a second way", same)
        tally.true(f"{name}: EXPAND reads the ranges and nothing else", exact)
        tally.true(f"{name}: ranges are short", short)
    tally.equal("most nodes in the windows", tuple(most), MOST_READ)
    tally.equal("the bound", [1] + [1 + 9 + 16 * (depth - 1) for depth in range(1, 6)], list(MOST_READ[:6]))
    tally.true("the bound at depth 6", MOST_READ[6] < 1 + 9 + 16 * 5)


# The pixel.

def read_places(settings: Settings, column: int, row: int) -> set[int]:
    """The places of the level buffer in the windows a second way: those that have a weight in the pixel with k = 4."""
    columns = rebuild_weights(settings.columns, settings.depth, column, 4)
    rows = rebuild_weights(settings.rows, settings.depth, row, 4)
    weights = [i * j for level in range(settings.depth, -1, -1) for j in rows[level] for i in columns[level]]
    return {place for place, weight in enumerate(weights) if weight > 0}


def coded_indices(settings: Settings, numbers: Seeded) -> list[int]:
    """The level buffer that open-loop coding of a picture leaves."""
    nodes = total_nodes(settings.columns, settings.rows, settings.depth)
    return code(settings, lawful_picture(numbers.choice(PICTURE_KINDS), settings, numbers), nodes, nodes).indices


DRAWS = (balanced_indices, near_indices, random_indices, coded_indices)


def check_against_whole(tally: Tally, settings: Settings, indices: list[int],
                        places: list[tuple[int, int]]) -> set[int]:
    """Pixels are those of the whole rebuilding, with the number of places that have a weight; gives the pixels."""
    whole = rebuild(settings, indices, settings.columns * settings.rows, len(indices))
    tally.equal(f"rebuilding of {settings}", whole.refusal, 0)
    expected = [OnePixel(0, whole.picture[row * settings.columns + column], len(read_places(settings, column, row)))
                for column, row in places]
    found = [rebuild_pixel(settings, indices, column, row) for column, row in places]
    tally.true(f"pixels of {settings} are those of the whole rebuilding", found == expected)
    tally.true(f"pixels of {settings} read few", all(pixel.read <= MOST_READ[settings.depth] for pixel in found))
    return {pixel.pixel for pixel in found}


def every_place(settings: Settings) -> list[tuple[int, int]]:
    """Column and row of every pixel."""
    return list(product(range(settings.columns), range(settings.rows)))


def check_pixels(tally: Tally) -> None:
    """Every pixel of small pictures, and some of larger ones, of lawful levels of every draw."""
    numbers = Seeded(SEED + 21)
    for depth, kernel in product(range(5), KERNELS):
        shown = set()
        for turn, draw in enumerate(DRAWS):
            columns, rows = ((2, 1), (1, 2), (2, 2), (3, 1))[turn] if depth < 3 else ((1, 1), (2, 1))[turn % 2]
            side, other = columns * 2 ** depth + 1, rows * 2 ** depth + 1
            bins = bins_of(BIN_FAMILIES[(depth + turn) % 6], depth, numbers)
            greys = FULL_GREYS if turn < 2 else random_greys(numbers)
            settings = with_greys(Settings(side, other, depth, kernel, bins), greys)
            places = every_place(settings)
            if depth > 2:
                places = [numbers.choice(places) for _ in range(20)]
            shown |= check_against_whole(tally, settings, draw(settings, numbers), places)
        tally.true(f"k = {kernel}, depth {depth}: {len(shown)} greys shown", len(shown) > 5)
    for shape in ((97, 33, 5, 3), (65, 129, 6, 6), (129, 65, 6, 4)):
        settings = with_greys(Settings(*shape, bins_of("small", shape[2], numbers)), FULL_GREYS)
        places = [(0, shape[1] - 1), (shape[0] - 1, 0)] + [numbers.choice(every_place(settings)) for _ in range(4)]
        check_against_whole(tally, settings, balanced_indices(settings, numbers), places)


# Indices out of range.

def with_indices(indices: list[int], places: set[int], numbers: Seeded) -> list[int]:
    """The indices with those at some places out of range."""
    return [numbers.choice(FAR_INDICES) if place in places else index for place, index in enumerate(indices)]


def check_single(tally: Tally) -> None:
    """One index out of range at each place of the level buffer: 11 inside the windows, and nothing outside."""
    numbers = Seeded(SEED + 22)
    for shape in ((9, 9, 2, 3), (9, 5, 1, 5), (17, 9, 3, 6), (4, 5, 0, 4)):
        settings = Settings(*shape, bins_of("mixed", shape[2], numbers))
        indices = balanced_indices(settings, numbers)
        for _ in range(4):
            column, row = numbers.choice(every_place(settings))
            inside = read_places(settings, column, row)
            lawful = rebuild_pixel(settings, indices, column, row)
            for place in range(len(indices)):
                for sign in (1, -1):
                    level = level_of(settings, place)
                    near = sign * (largest_index(settings.bins[level]) + 1)
                    far = indices[:place] + [near] + indices[place + 1:]
                    tally.equal(f"{settings}, pixel {column}, {row}, index {near} at {place}",
                                rebuild_pixel(settings, far, column, row), OnePixel(11) if place in inside else lawful)


def level_of(settings: Settings, place: int) -> int:
    """The level that a place of the level buffer belongs to."""
    return next(level for level in range(settings.depth, -1, -1)
                if place < total_nodes(settings.columns, settings.rows, settings.depth)
                - (total_nodes(settings.columns, settings.rows, level - 1) if level > 0 else 0))


def check_many(tally: Tally) -> None:
    """All indices outside the windows out of range, or some of them: the pixel is the one with 0 there."""
    numbers = Seeded(SEED + 23)
    for turn in range(300):
        settings = random_greys_settings(numbers, 17)
        indices = numbers.choice(DRAWS)(settings, numbers)
        column, row = numbers.choice(every_place(settings))
        inside = read_places(settings, column, row)
        outside = set(range(len(indices))) - inside
        name = f"turn {turn}, {settings}, pixel {column}, {row}"
        zeroed = [index if place in inside else 0 for place, index in enumerate(indices)]
        expected = rebuild_pixel(settings, indices, column, row)
        tally.equal(f"{name}: refusal", expected.refusal, 0)
        tally.equal(f"{name}: 0 outside", rebuild_pixel(settings, zeroed, column, row), expected)
        far = with_indices(indices, outside, numbers)
        tally.equal(f"{name}: all out of range outside", rebuild_pixel(settings, far, column, row), expected)
        some = with_indices(indices, {place for place in outside if numbers.between(0, 3) == 0}, numbers)
        tally.equal(f"{name}: some out of range outside", rebuild_pixel(settings, some, column, row), expected)
        place = numbers.choice(sorted(inside))
        for chosen in ({place}, inside, outside | {place}):
            far = with_indices(indices, chosen, numbers)
            tally.equal(f"{name}: out of range inside", rebuild_pixel(settings, far, column, row), OnePixel(11))


# Refusals and their order.

def check_places(tally: Tally) -> None:
    """Number 21 at and beyond the right and the lower end, before 11 and after 6."""
    settings = Settings(9, 5, 2, 4, fill_slots([3, 2, 1]))
    nodes = total_nodes(9, 5, 2)
    for column, row in product((0, 4, 5, 8, 9, 10, 255, 256, 65535), (0, 3, 4, 5, 6, 8, 255, 256, 65535)):
        answer = 21 * (column not in range(9) or row not in range(5))
        tally.equal(f"pixel {column}, {row}", rebuild_pixel(settings, [0] * nodes, column, row).refusal, answer)
        tally.equal(f"pixel {column}, {row}, all out of range",
                    rebuild_pixel(settings, [-32768] * nodes, column, row), OnePixel(answer or 11))
        for length in (0, nodes - 1, nodes + 1):
            tally.equal(f"pixel {column}, {row}, {length} indices",
                        rebuild_pixel(settings, [-32768] * length, column, row), OnePixel(6))


def broken_rules(settings: Settings, indices: list[int], column: int, row: int) -> set[int]:
    """The numbers of all rules that a call breaks, whose indices are all the same, written in another way."""
    sides = (settings.columns, settings.rows)
    suited = range(1, 2 ** 16, 2 ** settings.depth)
    steps = [2 ** level for level in range(settings.depth + 1)]
    nodes = sum(len(range(0, sides[0], step)) * len(range(0, sides[1], step)) for step in steps)
    used, unused = settings.bins[:len(steps)], settings.bins[len(steps):]
    rules = {
        1: min(sides) < 2 or max(sides) > 129,
        13: settings.depth not in range(7),
        14: sides[0] not in suited,
        15: sides[1] not in suited,
        2: settings.kernel not in range(3, 7),
        19: settings.white not in range(settings.black + 1, 256),
        3: min(used) < 1 or max(used) > 255 or any(unused),
        6: len(indices) != nodes,
        21: not (column < sides[0] and row < sides[1]),
        11: not any(abs(indices[0] * size) <= 4096 for size in used),
    }
    return {number for number, is_broken in rules.items() if is_broken}


def faulty_call(columns: int, rows: int, depth: int, faults: tuple[int, ...]) -> tuple[Settings, list[int], int, int]:
    """A call on a shape, with those of the given refusal numbers broken that are not the shape's sizes and depth."""
    bins = fill_slots([1] * min(depth + 1, BIN_SLOTS))
    black, white = (16, 16) if 19 in faults else (16, 235)
    settings = Settings(columns, rows, depth, 7 if 2 in faults else 4, bins, black, white)
    if 3 in faults:
        settings = replace(settings, bins=(256,) + bins[1:])
    nodes = total_nodes(columns, rows, depth)
    indices = [-32768 if 11 in faults else 0] * (nodes + (6 in faults))
    column, row = (columns, rows - 1) if (columns + rows) % 4 < 2 else (columns - 1, rows)
    return (settings, indices, column, row) if 21 in faults else (settings, indices, columns - 1, rows - 1)


def check_orders(tally: Tally) -> None:
    """Every set of the faults is answered with its first in the order, and a refusal holds 0 in both numbers."""
    for columns, rows, depth, broken in SHAPES:
        for chosen in subsets((2, 19, 3, 6, 21, 11)):
            faults = broken + chosen
            call = faulty_call(columns, rows, depth, faults)
            name = f"pixel of {call[0]} with faults {faults}"
            tally.equal(f"rules that the {name} breaks", broken_rules(*call), set(faults))
            answer = rebuild_pixel(*call)
            if faults:
                tally.equal(name, answer, OnePixel(first_of(faults), 0, 0))
            else:
                windows = pixel_windows(call[0], *call[2:])
                tally.equal(name, answer, OnePixel(0, 16, window_nodes(windows)))


def run(tally: Tally) -> None:
    """All checks of one pixel."""
    for check in (check_pieces, check_windows, check_pixels, check_single, check_many, check_places, check_orders):
        check(tally)
