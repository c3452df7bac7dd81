"""Every worked piece of document 01."""

from bale import FAULT, NOT_FITTED, PERCENTAGE, Reading, file_size, is_reading_lawful, listing, read_bale, write_bale
from piece_a import (AVERAGES_A, FILE_A, FIRST_READING_AT, INDICES_A, LISTING_A, LOW_BIN_AT, LOW_INDICES_AT, NOTE_A,
                     PICTURE_A, SETTINGS_A, changed, number)
from pyramid import (bin_index, code, expand_level, gaussian_pyramid, laplacian_pyramid, rebuild, reduce_level,
                     round_quotient, split_rows)
from seeded import fill_slots
from settings import Settings, bounds, deepest_depth, settings_refusal, total_nodes
from tally import Tally


def check_piece_a(tally: Tally) -> None:
    """Piece A: averages, differences, indices, rebuilt values, picture and bounds."""
    averages = gaussian_pyramid(split_rows(PICTURE_A, 3), 1, 4)
    tally.equal("A, g1", averages[1], [[25, 25], [25, 25]])
    low = [[-25, -25, -25], [-25, 75, -25], [-25, -25, -25]]
    tally.equal("A, L0", laplacian_pyramid(averages, 4)[0], low)
    tally.equal("A, L1", laplacian_pyramid(averages, 4)[1], averages[1])
    coded = code(SETTINGS_A, PICTURE_A, 13, 13)
    tally.equal("A, coding's answer", coded.refusal, 0)
    tally.equal("A, indices", coded.indices, INDICES_A)
    tally.equal("A, work buffer after coding", coded.averages, AVERAGES_A)
    rebuilt = rebuild(SETTINGS_A, INDICES_A, 9, 13)
    tally.equal("A, rebuilding's answer", rebuilt.refusal, 0)
    tally.equal("A, rebuilt values", rebuilt.values, [24] * 4 + [-6] * 4 + [94] + [-6] * 4)
    tally.equal("A, rebuilt picture", rebuilt.picture, bytes([0, 0, 0, 0, 94, 0, 0, 0, 0]))
    tally.equal("A, bounds of levels 0 and 1", bounds(SETTINGS_A), (0, [7, 2]))


def check_small_steps(tally: Tally) -> None:
    """REDUCE with k = 6, EXPAND with k = 4, the rounding and the bins."""
    tally.equal("k = 6, g1", reduce_level([[0, 255, 255], [255] * 3, [255] * 3], 6), [[163, 270], [270, 252]])
    tally.equal("EXPAND with k = 4", expand_level([[-1, 0], [-1, 0]], 4), [[-1, 0, 0]] * 3)
    tally.equal("-8/10 becomes -1", round_quotient(-8, 10), -1)
    tally.equal("-1/2 becomes 0", round_quotient(-1, 2), 0)
    tally.equal("1/2 becomes 1", round_quotient(1, 2), 1)
    for bin_size, value, index in ((2, 1, 0), (2, -1, -1), (255, 127, 0), (255, 128, 1), (1, 7, 7)):
        tally.equal(f"bin {bin_size}, index of {value}", bin_index(value, bin_size), index)


def check_bounds(tally: Tally) -> None:
    """Bounds with N = 1 and bins 1 and 2."""
    for kernel, expected in ((3, 1), (4, 1), (5, 1), (6, 2)):
        settings = Settings(3, 3, 1, kernel, fill_slots([1, 2]))
        tally.equal(f"bound of level 0 with k = {kernel}", bounds(settings), (0, [expected, 1]))
    # With all bins 255 and k = 6: 127, then each time 196 hundredths rounded up plus 127, worked by hand.
    settings = Settings(65, 65, 6, 6, (255,) * 7)
    tally.equal("bounds with k = 6 and bins 255", bounds(settings), (0, [14581, 7374, 3697, 1821, 864, 376, 127]))


def check_sizes(tally: Tally) -> None:
    """Lawful and unlawful sizes, deepest depths and file sizes."""
    for columns in (1, 130):
        tally.equal(f"C = {columns}", settings_refusal(Settings(columns, 3, 0, 4, fill_slots([1]))), 1)
        tally.equal(f"R = {columns}", settings_refusal(Settings(3, columns, 0, 4, fill_slots([1]))), 1)
        tally.equal(f"deepest depth of {columns} by 3", deepest_depth(columns, 3), (1, 0))
    # Document 02, P1: which size is at fault.
    for columns, rows, depth, answer in ((4, 3, 1, 14), (3, 4, 1, 15), (4, 4, 1, 14), (129, 129, 7, 13), (4, 4, 7, 13),
                                         (3, 3, 7, 13), (1, 3, 7, 1), (3, 1, 7, 1), (1, 4, 1, 1), (4, 130, 1, 1)):
        settings = Settings(columns, rows, depth, 4, (1,) * 7)
        tally.equal(f"C = {columns}, R = {rows}, N = {depth}", settings_refusal(settings), answer)
    tally.equal("2 by 2, N = 0", settings_refusal(Settings(2, 2, 0, 4, fill_slots([1]))), 0)
    tally.equal("2 by 2, N = 0, T", total_nodes(2, 2, 0), 4)
    for columns, rows, depth in ((129, 129, 6), (97, 97, 5), (2, 129, 0), (129, 2, 0), (3, 3, 1), (65, 129, 6)):
        tally.equal(f"deepest depth of {columns} by {rows}", deepest_depth(columns, rows), (0, depth))
    tally.equal("largest file", file_size(Settings(129, 129, 6, 3, (1,) * 7)), 44770)
    tally.equal("A's file size", file_size(SETTINGS_A), 58)


def check_limits(tally: Tally) -> None:
    """Refusal 11 in rebuilding, writer and reader, and the rules of readings."""
    settings = Settings(2, 2, 0, 5, fill_slots([255]))
    for index, answer in ((16, 0), (17, 11), (-16, 0), (-17, 11)):
        indices = [0, 0, 0, index]
        tally.equal(f"rebuilding, index {index} at bin 255", rebuild(settings, indices, 4, 4).refusal, answer)
        tally.equal(f"writer, index {index} at bin 255", write_bale(settings, NOTE_A, indices, 99)[0], answer)
        data = changed(LOW_INDICES_AT, number(index), changed(LOW_BIN_AT, number(255)))
        tally.equal(f"reader, index {index} at bin 255", read_bale(data, 13).refusal, answer)
    for bits, lawful in ((0x42C80000, True), (0x42C80001, False), (0x80000000, False), (0x40D00000, True)):
        tally.equal(f"percentage {bits:08X}", is_reading_lawful(Reading(PERCENTAGE, bits)), lawful)
        data = changed(FIRST_READING_AT + 1, bits.to_bytes(4, "little"))
        tally.equal(f"reader, percentage {bits:08X}", read_bale(data).refusal, 0 if lawful else 4)
    for code_number, lawful in ((0, False), (1, True), (255, True), (256, False)):
        tally.equal(f"fault code {code_number}", is_reading_lawful(Reading(FAULT, code_number)), lawful)
    for kind, bits, lawful in ((NOT_FITTED, 0, True), (NOT_FITTED, 1, False), (3, 0, False), (255, 1, False)):
        tally.equal(f"kind {kind} with {bits}", is_reading_lawful(Reading(kind, bits)), lawful)


def check_file_a(tally: Tally) -> None:
    """Piece A's file, its listing, and the empty file."""
    tally.equal("A, file written", write_bale(SETTINGS_A, NOTE_A, INDICES_A, 58), (0, FILE_A))
    tally.equal("A, file buffer of 57", write_bale(SETTINGS_A, NOTE_A, INDICES_A, 57), (8, b""))
    for lent in (13, None):
        bale = read_bale(FILE_A, lent)
        tally.equal("A, file read, answer", bale.refusal, 0)
        tally.equal("A, file read, settings", bale.settings, SETTINGS_A)
        tally.equal("A, file read, readings", bale.note, NOTE_A)
        tally.equal("A, file read, indices", list(bale.indices), INDICES_A)
    tally.equal("A, listing", listing(FILE_A), LISTING_A)
    tally.equal("empty file", read_bale(b"").refusal, 9)
    tally.equal("empty file, listing", listing(b""), "refused 9\n")
    fault = changed(FIRST_READING_AT, bytes([FAULT, 200, 0, 0, 0]))
    tally.equal("fault 200, listing", listing(fault), LISTING_A.replace("40D00000", "fault 200"))
    small = changed(FIRST_READING_AT + 1, bytes([0x0A, 0, 0, 0]))
    tally.equal("bits 0000000A, listing", listing(small), LISTING_A.replace("40D00000", "0000000A"))


def run(tally: Tally) -> None:
    """All worked pieces."""
    for check in (check_piece_a, check_small_steps, check_bounds, check_sizes, check_limits, check_file_a):
        check(tally)
