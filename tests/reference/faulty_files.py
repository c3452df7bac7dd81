"""Changes of piece A's file that trip each refusal of the reader, and several at once, with the answers.

The answers here are worked from document 01 by hand, not by the reader, so that the self-check can compare them.
"""

from bale import FAULT, NOT_FITTED, PERCENTAGE
from faulty_shapes import SHAPES, first_of
from piece_a import (BINS_COUNT_AT, COLUMNS_AT, DEPTH_AT, FILE_A, FIRST_READING_AT, KERNEL_AT, LOW_BIN_AT, LOW_COUNT_AT,
                     LOW_INDICES_AT, READINGS_COUNT_AT, ROWS_AT, SECOND_READING_AT, TOP_BIN_AT, TOP_COUNT_AT,
                     TOP_INDICES_AT, changed, number)

Case = tuple[bytes, int]


def wrong_counts() -> list[Case]:
    """Each count one less, one more, with its high byte set, and 0: refusal 10."""
    places = ((0, 4), (BINS_COUNT_AT, 2), (READINGS_COUNT_AT, 2), (TOP_COUNT_AT, 4), (LOW_COUNT_AT, 9))
    return [(changed(place, number(value)), 10)
            for place, count in places for value in (count - 1, count + 1, count + 256, 0)]


def wrong_shapes() -> list[Case]:
    """Sizes, depths and kernels of a 3 by 3 picture at depth 1 that break the settings rules: one number changed."""
    outside = [(changed(place, number(value)), 1) for place in (COLUMNS_AT, ROWS_AT)
               for value in (0, 1, 130, 131, 259, 65535)]
    indivisible = [(changed(place, number(value)), answer) for place, answer in ((COLUMNS_AT, 14), (ROWS_AT, 15))
                   for value in (2, 4, 128)]
    # 4 divides neither C - 1 nor R - 1, which are both 2, and the columns go first; above 6 it does not matter.
    depths = [(changed(DEPTH_AT, number(value)), answer) for value, answer in
              ((2, 14), (3, 14), (6, 14), (7, 13), (8, 13), (257, 13), (65535, 13))]
    kernels = [(changed(KERNEL_AT, number(value)), 2) for value in (0, 1, 2, 7, 260, 65535)]
    # A lawful shape that the later counts do not fit.
    lawful = [(changed(place, number(value)), 10) for place, value in ((COLUMNS_AT, 5), (ROWS_AT, 129), (DEPTH_AT, 0))]
    kernels_right = [(changed(KERNEL_AT, number(value)), 0) for value in (3, 4, 5, 6)]
    return outside + indivisible + depths + kernels + lawful + kernels_right


def broken_shapes() -> list[Case]:
    """Every set of the shape's refusals, alone and before faults of the next section; a cut of the shape goes first."""
    cases = []
    for columns, rows, depth, broken in SHAPES:
        for kernel, faults in ((4, broken), (7, broken + (2,))):
            if not faults:
                continue
            answer = first_of(faults)
            data = changed(COLUMNS_AT, b"".join(number(item) for item in (columns, rows, depth, kernel)))
            cases += [(data, answer), (data[:BINS_COUNT_AT], answer), (data[:BINS_COUNT_AT - 1], 9),
                      (changed(BINS_COUNT_AT, number(9), data), answer)]
    return cases


def wrong_bins() -> list[Case]:
    """Bins that break their rule: refusal 3; and bins at the ends of the lawful range."""
    wrong = [(changed(place, number(value)), 3) for place in (TOP_BIN_AT, LOW_BIN_AT) for value in (0, 256, 266, 65535)]
    right = [(changed(place, number(value)), 0) for place in (TOP_BIN_AT, LOW_BIN_AT) for value in (1, 255)]
    return wrong + right


# Kind, number of the four bytes, and whether the reading is lawful.
READINGS = (
    (PERCENTAGE, 0x42C80000, True), (PERCENTAGE, 0x42C80001, False), (PERCENTAGE, 0x80000000, False),
    (PERCENTAGE, 0x42C7FFFF, True), (PERCENTAGE, 0, True), (PERCENTAGE, 1, True), (PERCENTAGE, 0x007FFFFF, True),
    (PERCENTAGE, 0x00800000, True), (PERCENTAGE, 0x40D00000, True), (PERCENTAGE, 0x3F800000, True),
    (PERCENTAGE, 0x80000001, False), (PERCENTAGE, 0xC0D00000, False), (PERCENTAGE, 0x7F7FFFFF, False),
    (PERCENTAGE, 0x7F800000, False), (PERCENTAGE, 0xFF800000, False), (PERCENTAGE, 0x7F800001, False),
    (PERCENTAGE, 0x7FC00000, False), (PERCENTAGE, 0xFFC00000, False), (PERCENTAGE, 0xFFFFFFFF, False),
    (FAULT, 0, False), (FAULT, 1, True), (FAULT, 128, True), (FAULT, 255, True), (FAULT, 256, False),
    (FAULT, 0x10000, False), (FAULT, 0x01000000, False), (FAULT, 0x01000001, False), (FAULT, 0xFFFFFFFF, False),
    (NOT_FITTED, 0, True), (NOT_FITTED, 1, False), (NOT_FITTED, 0x100, False), (NOT_FITTED, 0x10000, False),
    (NOT_FITTED, 0x01000000, False), (NOT_FITTED, 0x80000000, False), (3, 0, False), (3, 1, False),
    (4, 0x40D00000, False), (128, 0, False), (255, 0, False), (255, 0xFFFFFFFF, False),
)


def readings() -> list[Case]:
    """Lawful and unlawful readings in both places: 0 or refusal 4."""
    return [(changed(place, bytes([kind]) + bits.to_bytes(4, "little")), 0 if lawful else 4)
            for place in (FIRST_READING_AT, SECOND_READING_AT) for kind, bits, lawful in READINGS]


def wrong_indices() -> list[Case]:
    """Indices at the limit and beyond it, in the first and last places of both levels: 0 or refusal 11."""
    top_places = (TOP_INDICES_AT, TOP_INDICES_AT + 6)
    low_places = (LOW_INDICES_AT, LOW_INDICES_AT + 8, LOW_INDICES_AT + 16)
    # Bin 4 allows 1,024 and bin 10 allows 409.
    cases = [(changed(place, number(value)), answer) for place in top_places
             for value, answer in ((1024, 0), (1025, 11), (-1024, 0), (-1025, 11), (32767, 11), (-32768, 11))]
    cases += [(changed(place, number(value)), answer) for place in low_places
              for value, answer in ((409, 0), (410, 11), (-409, 0), (-410, 11), (32767, 11), (-32768, 11))]
    largest = changed(LOW_BIN_AT, number(255))
    cases += [(changed(place, number(value), largest), answer) for place in low_places
              for value, answer in ((16, 0), (17, 11), (-16, 0), (-17, 11))]
    smallest = changed(LOW_BIN_AT, number(1))
    cases += [(changed(place, number(value), smallest), answer) for place in low_places
              for value, answer in ((4096, 0), (4097, 11), (-4096, 0), (-4097, 11))]
    return cases


def several_faults() -> list[Case]:
    """Two faults at once: the reader goes in file order."""
    short_top = FILE_A[:TOP_INDICES_AT + 7]
    return [
        # A wrong count goes before missing items, missing items go before unlawful ones.
        (changed(0, number(5), FILE_A[:4]), 10),
        (changed(COLUMNS_AT, number(1), FILE_A[:9]), 9),
        (changed(BINS_COUNT_AT, number(7), FILE_A[:12]), 10),
        (changed(TOP_BIN_AT, number(0), FILE_A[:15]), 9),
        (changed(FIRST_READING_AT, b"\x03", FILE_A[:27]), 9),
        (changed(FIRST_READING_AT, b"\x03", changed(READINGS_COUNT_AT, number(1))), 10),
        (changed(TOP_INDICES_AT, number(1025), short_top), 9),
        (changed(LOW_COUNT_AT, number(10), FILE_A[:LOW_INDICES_AT + 4]), 10),
        (changed(LOW_INDICES_AT, number(410), FILE_A[:-1]), 9),
        # An unlawful item goes before anything in a later section.
        (changed(COLUMNS_AT, number(1), FILE_A[:10]), 1),
        (changed(KERNEL_AT, number(7), FILE_A[:10]), 2),
        (changed(KERNEL_AT, number(7), changed(BINS_COUNT_AT, number(3))), 2),
        (changed(TOP_BIN_AT, number(0), FILE_A[:16]), 3),
        (changed(LOW_BIN_AT, number(256), changed(READINGS_COUNT_AT, number(3))), 3),
        (changed(FIRST_READING_AT, b"\x03", FILE_A[:28]), 4),
        (changed(FIRST_READING_AT, b"\x03", changed(TOP_COUNT_AT, number(5))), 4),
        (changed(TOP_INDICES_AT, number(1025), changed(FIRST_READING_AT, b"\x03")), 4),
        (changed(TOP_INDICES_AT, number(1025), FILE_A[:LOW_COUNT_AT]), 11),
        (changed(TOP_INDICES_AT, number(1025), changed(LOW_COUNT_AT, number(8))), 11),
        # Bytes that follow come last.
        (changed(LOW_INDICES_AT, number(410)) + b"\0", 11),
        (changed(LOW_COUNT_AT, number(10)) + b"\0\0", 10),
        (FILE_A + b"\0", 12),
        (FILE_A + b"\xFF\xFF", 12),
        (FILE_A + FILE_A, 12),
        # The length is that of the whole file once more if only its low two bytes are looked at.
        (FILE_A + bytes(2 ** 16), 12),
    ]


def faulty_files() -> list[Case]:
    """All of them, and every beginning of the file: refusal 9."""
    beginnings = [(FILE_A[:length], 9) for length in range(len(FILE_A))]
    return (beginnings + wrong_counts() + wrong_shapes() + broken_shapes() + wrong_bins() + readings()
            + wrong_indices() + several_faults())
