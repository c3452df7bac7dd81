"""Closed-loop coding: pieces worked by hand, its rules a second way, and its properties on seeded pictures."""

from bale import file_size, listing, read_bale, write_bale
from check_pyramid import distances_within, paper_expand
from closed_loop import ClosedCoded, code_closed
from closed_pieces import CLOSED_FILE_A, CLOSED_PIECES, PIECE_A, ClosedPiece
from pictures import PICTURE_KINDS, extreme_picture, picture_of
from piece_a import LISTING_A, NOTE_A
from pyramid import (VALUE_LIMIT, Level, clamp, code, combine, expand_level, flatten, index_values, level_indices,
                     level_values, rebuild, split_levels)
from random_files import random_note
from seeded import CLOSED_BIN_FAMILIES, SEED, Seeded, bins_of, fill_slots, random_settings
from settings import KERNELS, LARGEST_DEPTH, Settings, bounds, closed_bounds, level_size, node_count, total_nodes
from tally import Tally


def closed_coding(settings: Settings, picture: bytes) -> ClosedCoded:
    """The closed-loop coding with buffers of the right lengths."""
    nodes = total_nodes(settings.columns, settings.rows, settings.depth)
    return code_closed(settings, picture, nodes, nodes)


# Pieces worked by hand.

def clamped_indices(averages: list[Level], settings: Settings) -> list[int]:
    """Indices of a mistaken coder, which clamps each rebuilt level before it predicts from it."""
    predictions = [[[0] * len(row) for row in averages[-1]]]
    indices: list[Level] = []
    for average, size in reversed(list(zip(averages, settings.bins))):
        indices.insert(0, level_indices(combine(average, predictions[0], -1), size))
        rebuilt = combine(level_values(indices[0], size), predictions[0], 1)
        clamped = [[clamp(value, settings) for value in row] for row in rebuilt]
        predictions.insert(0, expand_level(clamped, settings.kernel))
    return flatten(indices)


def check_piece(tally: Tally, piece: ClosedPiece) -> None:
    """One piece in both manners, and what the mistaken coder would leave."""
    name = f"{piece.name}, k = {piece.settings.kernel}"
    nodes = len(piece.values)
    opened = code(piece.settings, piece.picture, nodes, nodes)
    tally.equal(f"{name}, averages", opened.averages, piece.averages)
    tally.equal(f"{name}, open-loop indices", opened.indices, piece.open_indices)
    closed = code_closed(piece.settings, piece.picture, nodes, nodes)
    tally.equal(f"{name}, closed coding's answer", closed.refusal, 0)
    tally.equal(f"{name}, closed-loop indices", closed.indices, piece.indices)
    tally.equal(f"{name}, work buffer after closed coding", closed.values, piece.values)
    rebuilt = rebuild(piece.settings, piece.indices, len(piece.picture), nodes)
    tally.equal(f"{name}, rebuilt", (rebuilt.refusal, rebuilt.values, rebuilt.picture),
                (0, piece.values, piece.rebuilt))
    tally.equal(f"{name}, closed bounds", closed_bounds(piece.settings), (0, piece.bounds))
    mistaken = clamped_indices(split_levels(piece.averages, piece.settings), piece.settings)
    tally.equal(f"{name}, indices with clamped levels", mistaken, piece.clamped_indices)


def check_pieces(tally: Tally) -> None:
    """All pieces, the file of piece A coded closed-loop, and bounds."""
    for piece in CLOSED_PIECES:
        check_piece(tally, piece)
        tally.true(f"{piece.name}: open and closed indices differ", piece.indices != piece.open_indices)
        outside = [value for value in piece.values[:-len(piece.picture)] if clamp(value, piece.settings) != value]
        tally.equal(f"{piece.name}: clamped levels give other indices exactly if any is outside 0 to 255",
                    piece.clamped_indices != piece.indices, outside != [])
    settings, indices = PIECE_A.settings, PIECE_A.indices
    tally.equal("A, closed-loop file", write_bale(settings, NOTE_A, indices, 58), (0, CLOSED_FILE_A))
    tally.equal("A, closed-loop file read", list(read_bale(CLOSED_FILE_A, 13).indices), indices)
    tally.equal("A, listing of the closed-loop file", listing(CLOSED_FILE_A), LISTING_A)
    for kernel in KERNELS:
        settings = Settings(3, 3, 1, kernel, fill_slots([1, 2]))
        tally.equal(f"closed bounds of bins 1 and 2, k = {kernel}", closed_bounds(settings), (0, [0, 1]))
        settings = Settings(65, 65, 6, kernel, (255,) * 7)
        tally.equal(f"closed bounds of bins 255, k = {kernel}", closed_bounds(settings), (0, [127] * 7))


# The rules a second way.

def is_rebuilt_node(value: int, prediction: int, average: int, index: int, bin_size: int) -> bool:
    """Say whether r is the prediction and index whole bins, and is from g - n/2 up to but not at g + n/2.

    Of all numbers that are whole bins from the prediction, exactly one is there, so this fixes r and the index.
    """
    return value - prediction == index * bin_size and -bin_size <= 2 * (value - average) < bin_size


def check_second_way(tally: Tally) -> None:
    """Every kernel and depth: EXPAND of the r above by the paper's double sum, and 0 above the top.

    It looks at every node, but of the levels of 33 and 65 columns at every fourth, to save time.
    """
    numbers = Seeded(SEED + 12)
    for turn, kernel in enumerate(KERNELS):
        for depth in range(LARGEST_DEPTH + 1):
            side = 2 ** depth + 1
            family = ("mixed", "odd", "largest", "large top", "small")[(turn + depth) % 5]
            settings = Settings(side, side, depth, kernel, bins_of(family, depth, numbers))
            picture = picture_of(("noise", "black and white noise")[depth % 2], side, side, numbers)
            total = total_nodes(side, side, depth)
            averages = split_levels(code(settings, picture, total, total).averages, settings)
            coded = closed_coding(settings, picture)
            indices, values = split_levels(coded.indices, settings), split_levels(coded.values, settings)
            for level, size in enumerate(settings.bins[:depth + 1]):
                above = values[level + 1] if level < depth else [[0, 0], [0, 0]]
                columns, rows = level_size(side, side, level)
                nodes = [(i, j) for j in range(rows) for i in range(columns)][::4 if columns > 17 else 1]
                agree = all(is_rebuilt_node(values[level][j][i], paper_expand(above, kernel, i, j),
                                            averages[level][j][i], indices[level][j][i], size) for i, j in nodes)
                tally.true(f"{settings}: closed-loop level {level} a second way", agree)


# Properties.

def check_levels(tally: Tally, name: str, settings: Settings, averages: list[int], values: list[int]) -> None:
    """Each rebuilt level is within half its own bin of its average, and that is never above the open-loop bound."""
    levels = zip(split_levels(averages, settings), split_levels(values, settings), strict=True)
    for level, (average, rebuilt) in enumerate(levels):
        within = closed_bounds(settings)[1][level]
        tally.true(f"{name}: closed bound of level {level}", distances_within(average, rebuilt, within))
        tally.true(f"{name}: closed bound {within} of level {level} and open one", within <= bounds(settings)[1][level])


def check_picture(tally: Tally, name: str, settings: Settings, picture: bytes) -> None:
    """One closed-loop coding beside the open-loop one, and its rebuilding."""
    nodes = total_nodes(settings.columns, settings.rows, settings.depth)
    opened = code(settings, picture, nodes, nodes)
    closed = code_closed(settings, picture, nodes, nodes + 3)
    rebuilt = rebuild(settings, closed.indices, len(picture), nodes)
    tally.equal(f"{name}: answers", (opened.refusal, closed.refusal, rebuilt.refusal), (0, 0, 0))
    if (opened.refusal, closed.refusal, rebuilt.refusal) != (0, 0, 0):
        return
    tally.true(f"{name}: the work is what rebuilding leaves", closed.values == rebuilt.values)
    check_levels(tally, name, settings, opened.averages, closed.values)
    within = closed_bounds(settings)[1][0]
    pixels = all(abs(a - b) <= within for a, b in zip(picture, rebuilt.picture, strict=True))
    tally.true(f"{name}: pixels within half the bin of level 0", pixels)
    everything = closed.values + flatten(index_values(closed.indices, settings))
    tally.true(f"{name}: values within 4,096", all(abs(value) <= VALUE_LIMIT for value in everything))
    top = node_count(settings.columns, settings.rows, settings.depth)
    tally.true(f"{name}: top as open-loop", closed.indices[:top] == opened.indices[:top])
    if settings.depth == 0 or all(size <= 1 for size in settings.bins):
        tally.true(f"{name}: both manners give the same indices", closed.indices == opened.indices)
        tally.equal(f"{name}: both manners have the same bound of level 0", within, bounds(settings)[1][0])
    if settings.bins[0] == 1:
        tally.true(f"{name}: a bin of 1 at level 0 loses nothing", rebuilt.picture == picture)


def check_pictures(tally: Tally) -> None:
    """Every kind of picture with every kernel and family of bins, every depth, and random settings."""
    numbers = Seeded(SEED + 13)
    for kernel in KERNELS:
        for family in CLOSED_BIN_FAMILIES:
            for kind in PICTURE_KINDS:
                settings = Settings(9, 5, 2, kernel, bins_of(family, 2, numbers))
                check_picture(tally, f"{kind}, {settings}", settings, picture_of(kind, 9, 5, numbers))
        for depth in range(LARGEST_DEPTH):
            columns, rows = 2 ** depth + 1, 3 * 2 ** depth + 1
            for family in ("mixed", "large top", "large below"):
                settings = Settings(columns, rows, depth, kernel, bins_of(family, depth, numbers))
                kind = numbers.choice(PICTURE_KINDS)
                check_picture(tally, f"{kind}, {settings}", settings, picture_of(kind, columns, rows, numbers))
    for _ in range(150):
        settings = random_settings(numbers, 25, CLOSED_BIN_FAMILIES)
        kind = numbers.choice(PICTURE_KINDS)
        picture = picture_of(kind, settings.columns, settings.rows, numbers)
        check_picture(tally, f"{kind}, {settings}", settings, picture)


def check_large_pictures(tally: Tally) -> None:
    """Pictures of 129 at depth 6, and of 65 that drive one node as far as its weights allow."""
    numbers = Seeded(SEED + 14)
    for kernel in KERNELS:
        settings = Settings(129, 129, 6, kernel, bins_of("mixed", 6, numbers))
        check_picture(tally, f"129, k = {kernel}", settings, picture_of("noise", 129, 129, numbers))
        # Averages leave 0 to 255 with k = 6 alone.
        for level in range(LARGEST_DEPTH + 1) if kernel == 6 else (0, LARGEST_DEPTH):
            settings = Settings(65, 65, 6, kernel, bins_of(("largest", "large top")[level % 2], 6, numbers))
            columns, rows = level_size(65, 65, level)
            for node, sign in (((0, 0), -1), ((columns // 2, rows // 2), 1)):
                name = f"extreme {sign} at {node} of level {level}, {settings}"
                check_picture(tally, name, settings, extreme_picture(settings, level, node, sign))


def check_bounds(tally: Tally) -> None:
    """Random bins of every kernel and depth: the closed bounds, level 0 first, beside the open ones."""
    numbers = Seeded(SEED + 15)
    for kernel in KERNELS:
        for depth in range(LARGEST_DEPTH + 1):
            for family in CLOSED_BIN_FAMILIES:
                settings = Settings(65, 129, depth, kernel, bins_of(family, depth, numbers))
                refusal, closed = closed_bounds(settings)
                tally.equal(f"closed bounds of {settings}", (refusal, len(closed)), (0, depth + 1))
                # Half a bin rounded down: its double is the bin or one less.
                halves = all(size - 2 * half in (0, 1) for size, half in zip(settings.bins, closed))
                tally.true(f"closed bounds of {settings} are halves", halves)
                opened = bounds(settings)[1]
                tally.true(f"closed bounds of {settings} are never above the open ones",
                           all(low <= high for low, high in zip(closed, opened, strict=True)))
                tally.equal(f"closed and open bound of the top of {settings}", closed[-1], opened[-1])


def check_files(tally: Tally) -> None:
    """Files of closed-loop codings: of the same size, written then read, and rebuilt from what was read."""
    numbers = Seeded(SEED + 16)
    for turn in range(40):
        settings = random_settings(numbers, 17, CLOSED_BIN_FAMILIES)
        picture = picture_of(numbers.choice(PICTURE_KINDS), settings.columns, settings.rows, numbers)
        coded = closed_coding(settings, picture)
        note = random_note(numbers)
        refusal, data = write_bale(settings, note, coded.indices, file_size(settings))
        tally.equal(f"closed-loop file {turn}: written", (refusal, len(data)), (0, file_size(settings)))
        bale = read_bale(data, len(coded.indices))
        fields = (bale.refusal, bale.settings, bale.note, list(bale.indices))
        tally.true(f"closed-loop file {turn}: written then read", fields == (0, settings, note, coded.indices))
        rebuilt = rebuild(bale.settings, list(bale.indices), len(picture), len(coded.values))
        tally.true(f"closed-loop file {turn}: rebuilt as coded", rebuilt.values == coded.values)


def run(tally: Tally) -> None:
    """All checks of closed-loop coding but refusals and generations."""
    for check in (check_pieces, check_second_way, check_pictures, check_large_pictures, check_bounds, check_files):
        check(tally)
