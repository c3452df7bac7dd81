"""Refusals of the calls and their order."""

from dataclasses import dataclass, replace
from itertools import combinations

from bale import NOT_FITTED, Note, Reading, file_size, read_bale, write_bale
from faulty_greys import RIGHT_GREYS, WRONG_GREYS
from faulty_shapes import SHAPES, first_of
from manners import MANNERS
from piece_a import NOTE_A
from pyramid import rebuild
from seeded import fill_slots
from settings import (BIN_SLOTS, FULL_GREYS, KERNELS, Settings, deepest_depth, settings_refusal, total_nodes,
                      with_greys)
from tally import Tally

BASE = Settings(9, 5, 2, 4, fill_slots([3, 2, 1]))
NODES = total_nodes(9, 5, 2)


def faulty_settings() -> list[tuple[Settings, int]]:
    """The base, 9 by 5 at depth 2, with one or two settings changed, and the answers, worked by hand."""
    outside = (0, 1, 130, 133, 257, 65535)
    cases = [(replace(BASE, columns=columns), 1) for columns in outside]
    cases += [(replace(BASE, columns=columns), 14) for columns in (8, 10, 7, 11, 128)]
    cases += [(replace(BASE, columns=columns), 0) for columns in (5, 13, 129)]
    cases += [(replace(BASE, rows=rows), 1) for rows in outside]
    cases += [(replace(BASE, rows=rows), 15) for rows in (4, 6, 7, 3, 128)]
    cases += [(replace(BASE, rows=rows), 0) for rows in (9, 13, 129)]
    # 8 divides 9 - 1 and not 5 - 1; 16 and more divide neither.
    cases += [(replace(BASE, depth=depth, bins=(1,) * 7), answer) for depth, answer in
              ((3, 15), (4, 14), (5, 14), (6, 14), (7, 13), (8, 13), (16, 13), (32, 13), (256, 13), (65535, 13))]
    # Two of them: the size goes before the depth, the depth before the columns, these before the rows.
    cases += [(replace(BASE, columns=columns, depth=7), 1) for columns in outside]
    cases += [(replace(BASE, rows=rows, depth=7), 1) for rows in outside]
    cases += [(replace(BASE, columns=columns, rows=6), 1) for columns in outside]
    cases += [(replace(BASE, columns=6, rows=rows), 1) for rows in outside]
    cases += [(replace(BASE, columns=6, depth=7), 13), (replace(BASE, rows=6, depth=7), 13),
              (replace(BASE, columns=129, rows=129, depth=7), 13), (replace(BASE, columns=6, rows=6), 14)]
    cases += [(replace(BASE, kernel=kernel), 2) for kernel in (0, 1, 2, 7, 8, 65535)]
    cases += [(replace(BASE, kernel=kernel), 0) for kernel in KERNELS]
    for slot in range(7):
        for size in (0, 1, 255, 256, 65535):
            bins = BASE.bins[:slot] + (size,) + BASE.bins[slot + 1:]
            lawful = 1 <= size <= 255 if slot <= 2 else size == 0
            cases.append((replace(BASE, bins=bins), 0 if lawful else 3))
    return cases


def faulty_greys() -> list[tuple[Settings, int]]:
    """The base with another black and white, with a fault besides too: 19 is after the shape's and before the bins'."""
    wrong_bin = replace(BASE, bins=(256,) + BASE.bins[1:])
    cases = [(with_greys(BASE, greys), 0) for greys in (FULL_GREYS, *RIGHT_GREYS)]
    cases += [(with_greys(wrong_bin, greys), 3) for greys in (FULL_GREYS, *RIGHT_GREYS)]
    for greys in WRONG_GREYS:
        wrong = with_greys(BASE, greys)
        cases += [(wrong, 19), (with_greys(wrong_bin, greys), 19), (replace(wrong, kernel=7), 2),
                  (replace(wrong, rows=6), 15), (replace(wrong, columns=6), 14), (replace(wrong, depth=7), 13),
                  (replace(wrong, columns=1), 1)]
    return cases


def check_settings(tally: Tally) -> None:
    """Settings with a fault or two, at both ends of each range; the deepest depth knows 1 alone."""
    for settings, answer in faulty_settings() + faulty_greys():
        tally.equal(f"settings {settings}", settings_refusal(settings), answer)
        for manner in MANNERS:
            tally.equal(f"{manner.name} bound of {settings}", manner.bounds(settings)[0], answer)
        deepest = deepest_depth(settings.columns, settings.rows)[0]
        tally.equal(f"deepest depth for {settings}", deepest, 1 if answer == 1 else 0)


# Every set of faults.

@dataclass(frozen=True)
class Call:
    """Settings, and what a coding, a rebuilding or a writing is lent or told besides."""

    settings: Settings
    picture: bytes
    work_length: int
    indices: list[int]
    note: Note
    file_length: int


def faulty_call(columns: int, rows: int, depth: int, faults: tuple[int, ...]) -> Call:
    """A call on a shape, with those of the given refusal numbers broken that are not the shape's sizes and depth."""
    bins = fill_slots([1] * min(depth + 1, BIN_SLOTS))
    if 3 in faults:
        bins = (256,) + bins[1:]
    black, white = (16, 16) if 19 in faults else (16, 235)
    settings = Settings(columns, rows, depth, 7 if 2 in faults else 4, bins, black, white)
    nodes = total_nodes(columns, rows, depth)
    last_pixel = (black - 1, white + 1)[rows % 2] if 20 in faults else white
    return Call(
        settings,
        bytes([black]) * (columns * rows - 1 + (5 in faults)) + bytes([last_pixel]),
        nodes - (7 in faults),
        [4097 if 11 in faults else 0] * (nodes + (6 in faults)),
        (NOTE_A[0], Reading(NOT_FITTED, 1 if 4 in faults else 0)),
        file_size(settings) - (8 in faults),
    )


def broken_rules(call: Call) -> set[int]:
    """The numbers of all rules that a call breaks, each rule written in another way than in the modules.

    The calls' black and white are never 0 and 255, so that a file has the longer form.
    """
    settings = call.settings
    sides = (settings.columns, settings.rows)
    # The sides that suit the depth are 1 and, from there, each 2^N more; level l has every 2^l-th column and row.
    suited = range(1, 2 ** 16, 2 ** settings.depth)
    steps = [2 ** level for level in range(settings.depth + 1)]
    nodes = sum(len(range(0, sides[0], step)) * len(range(0, sides[1], step)) for step in steps)
    used, unused = settings.bins[:len(steps)], settings.bins[len(steps):]
    values = {index * size for index in set(call.indices) for size in used}
    rules = {
        1: min(sides) < 2 or max(sides) > 129,
        13: settings.depth not in range(7),
        14: sides[0] not in suited,
        15: sides[1] not in suited,
        2: settings.kernel not in range(3, 7),
        19: settings.white not in range(settings.black + 1, 256),
        3: min(used) < 1 or max(used) > 255 or any(unused),
        4: call.note != NOTE_A,
        5: len(call.picture) != sides[0] * sides[1],
        6: len(call.indices) != nodes,
        7: call.work_length < nodes,
        8: call.file_length < 28 + 4 * len(steps) + 2 * nodes,
        11: min(values) < -4096 or max(values) > 4096,
        20: not set(call.picture) <= set(range(settings.black, settings.white + 1)),
    }
    return {number for number, is_broken in rules.items() if is_broken}


def subsets(numbers: tuple[int, ...]) -> list[tuple[int, ...]]:
    """All choices of some of the numbers."""
    return [chosen for count in range(len(numbers) + 1) for chosen in combinations(numbers, count)]


def check_coding_call(tally: Tally, call: Call, faults: tuple[int, ...]) -> None:
    """Coding and the bound in either manner, rebuilding and the deepest depth of a call with these faults."""
    name = f"{call.settings} with faults {faults}"
    settings = call.settings
    for manner in MANNERS:
        coded = manner.code(settings, call.picture, len(call.indices), call.work_length)
        tally.equal(f"{manner.name} coding of {name}", coded.refusal, first_of(set(faults) - {11}))
        answer = manner.bounds(settings)[0]
        tally.equal(f"{manner.name} bound of {name}", answer, first_of(set(faults) & {1, 13, 14, 15, 2, 19, 3}))
    rebuilt = rebuild(settings, call.indices, len(call.picture), call.work_length)
    tally.equal(f"rebuilding of {name}", rebuilt.refusal, first_of(set(faults) - {20}))
    deepest = deepest_depth(settings.columns, settings.rows)
    tally.equal(f"deepest depth of {name}", deepest[0], first_of(set(faults) & {1}))


def check_writer_call(tally: Tally, call: Call, faults: tuple[int, ...]) -> None:
    """The writer's answer to a call with these faults."""
    answer = write_bale(call.settings, call.note, call.indices, call.file_length)[0]
    tally.equal(f"writer of {call.settings} with faults {faults}", answer, first_of(faults))


def check_orders(tally: Tally) -> None:
    """Every set of the faults that a call looks for, with no other, is answered with the set's first in the order."""
    tally.equal("sets of rules that the shapes break", {shape[3] for shape in SHAPES}, set(subsets((1, 13, 14, 15))))
    for others, check_call in (((2, 19, 3, 5, 6, 7, 11, 20), check_coding_call),
                               ((2, 19, 3, 4, 6, 8, 11), check_writer_call)):
        for columns, rows, depth, broken in SHAPES:
            for chosen in subsets(others):
                faults = broken + chosen
                call = faulty_call(columns, rows, depth, faults)
                tally.equal(f"rules that {call.settings} breaks", broken_rules(call), set(faults))
                check_call(tally, call, faults)


def check_lengths(tally: Tally) -> None:
    """Lengths around the right ones."""
    for change in (-1, 0, 1):
        wrong = change != 0
        for name, code in ((manner.name, manner.code) for manner in MANNERS):
            tally.equal(f"{name}, picture {change}", code(BASE, bytes(45 + change), NODES, NODES).refusal, 5 * wrong)
            tally.equal(f"{name}, levels {change}", code(BASE, bytes(45), NODES + change, NODES).refusal, 6 * wrong)
            answer = code(BASE, bytes(45), NODES, NODES + change).refusal
            tally.equal(f"{name}, work {change}", answer, 7 * (change < 0))
        data = write_bale(BASE, NOTE_A, [0] * NODES, file_size(BASE) + 1)[1]
        tally.equal(f"reader's levels {change}", read_bale(data, NODES + change).refusal, 6 * wrong)


def run(tally: Tally) -> None:
    """All checks of calls."""
    for check in (check_settings, check_orders, check_lengths):
        check(tally)
