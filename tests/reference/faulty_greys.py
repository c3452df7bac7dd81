"""Files with black and white in the shape section (document 02, P5), lawful and not, with the answers.

They are changes of CAMERA_FILE, and the answers are worked from the documents by hand, as in faulty_files.py.
"""

from faulty_files import READINGS, Case
from faulty_shapes import SHAPES, first_of
from greys_pieces import BLACK_AT, CAMERA_FILE, MOVED, WHITE_AT
from piece_a import (BINS_COUNT_AT, COLUMNS_AT, DEPTH_AT, FILE_A, FIRST_READING_AT, KERNEL_AT, LOW_BIN_AT, LOW_COUNT_AT,
                     LOW_INDICES_AT, READINGS_COUNT_AT, ROWS_AT, SECOND_READING_AT, TOP_BIN_AT, TOP_COUNT_AT,
                     TOP_INDICES_AT, changed, number)

# Where the shape section ends.
SHAPE_END = WHITE_AT + 2

# Pairs that keep rule 19, and pairs that break it: equal, black above white, white above 255.
RIGHT_GREYS = ((16, 235), (0, 254), (1, 255), (254, 255), (0, 1), (15, 236), (0, 16), (235, 255), (127, 128))
WRONG_GREYS = ((16, 16), (0, 0), (255, 255), (235, 16), (255, 0), (17, 16), (255, 254), (1, 0), (16, 256), (0, 256),
               (254, 256), (255, 256), (256, 255), (256, 257), (256, 256), (16, 491), (272, 235), (0, 65535),
               (16, 65535), (65535, 65535), (65535, 0), (65534, 65535), (256, 0))


def with_numbers(place: int, *numbers: int, data: bytes = CAMERA_FILE) -> bytes:
    """The file with numbers of two bytes replaced from a place on."""
    return changed(place, b"".join(number(item) for item in numbers), data)


def black_and_white() -> list[Case]:
    """Rule 19: whole, cut after the shape section and inside it, and before faults of the later sections."""
    cases = []
    for greys in RIGHT_GREYS + WRONG_GREYS:
        broken = greys in WRONG_GREYS
        data = with_numbers(BLACK_AT, *greys)
        cases += [
            (data, 19 if broken else 0),
            (data[:SHAPE_END], 19 if broken else 9),
            (data[:SHAPE_END - 1], 9),
            (with_numbers(BINS_COUNT_AT + MOVED, 3, data=data), 19 if broken else 10),
            (with_numbers(TOP_BIN_AT + MOVED, 0, data=data), 19 if broken else 3),
            (data + b"\0", 19 if broken else 12),
        ]
    return cases


def full_greys() -> list[Case]:
    """Six numbers that say black 0 and white 255: 10, before any is tried, but not before the six are whole (9)."""
    full = with_numbers(BLACK_AT, 0, 255)
    cases = [(full, 10), (full[:SHAPE_END], 10), (full + b"\0", 10)]
    cases += [(full[:length], 9) for length in range(SHAPE_END)]
    cases += [(with_numbers(place, value, data=full), 10) for place in (COLUMNS_AT, ROWS_AT, DEPTH_AT, KERNEL_AT)
              for value in (0, 1, 2, 4, 7, 130, 65535)]
    for columns, rows, depth, _ in SHAPES:
        data = with_numbers(COLUMNS_AT, columns, rows, depth, 7, data=full)
        cases += [(data, 10), (data[:SHAPE_END], 10), (data[:SHAPE_END - 1], 9)]
    return cases


def broken_shapes() -> list[Case]:
    """Every set of the shape's refusals, 19 among them, alone and before a wrong count; a cut goes first."""
    cases = []
    for columns, rows, depth, broken in SHAPES:
        for kernel, wrong_kernel in ((4, ()), (7, (2,))):
            for greys, wrong_greys in (((16, 235), ()), ((235, 16), (19,)), ((16, 256), (19,))):
                faults = broken + wrong_kernel + wrong_greys
                if faults:
                    data = with_numbers(COLUMNS_AT, columns, rows, depth, kernel, *greys)
                    answer = first_of(faults)
                    cases += [(data, answer), (data[:SHAPE_END], answer), (data[:SHAPE_END - 1], 9),
                              (with_numbers(BINS_COUNT_AT + MOVED, 9, data=data), answer)]
    return cases


def wrong_counts() -> list[Case]:
    """Shape counts other than 4 and 6, alone and in a whole file; and the right counts in files of the other form."""
    cases = []
    for count in (0, 1, 2, 3, 5, 7, 8, 260, 262, 1024, 1536, 65535):
        for data in (CAMERA_FILE, FILE_A, CAMERA_FILE[:2], CAMERA_FILE[:SHAPE_END], CAMERA_FILE[:BLACK_AT]):
            cases.append((with_numbers(0, count, data=data), 10))
    # Four numbers in a file with black and white: black is taken for the next count.
    four = with_numbers(0, 4)
    cases += [(four, 10), (four[:WHITE_AT], 10), (with_numbers(BLACK_AT, 2, data=four), 10)]
    cases += [(four[:length], 9) for length in range(WHITE_AT)]
    # Six in a file without: its bin count 2 and top bin 4 are taken for black and white, its low bin 10 for a count.
    six = with_numbers(0, 6, data=FILE_A)
    cases += [(six, 10), (with_numbers(TOP_BIN_AT, 2, data=six), 19), (with_numbers(TOP_BIN_AT, 255, data=six), 10)]
    cases += [(six[:length], 9) for length in range(LOW_BIN_AT + 2)]
    places = ((BINS_COUNT_AT, 2), (READINGS_COUNT_AT, 2), (TOP_COUNT_AT, 4), (LOW_COUNT_AT, 9))
    return cases + [(with_numbers(place + MOVED, value), 10)
                    for place, count in places for value in (count - 1, count + 1, count + 256, 0)]


def shape_numbers() -> list[Case]:
    """One of C, R, N and k changed: its refusal, or 10 where the later counts don't fit, or 0."""
    changes = ((COLUMNS_AT, 1, 1), (COLUMNS_AT, 130, 1), (COLUMNS_AT, 4, 14), (COLUMNS_AT, 5, 10), (ROWS_AT, 0, 1),
               (ROWS_AT, 131, 1), (ROWS_AT, 2, 15), (ROWS_AT, 129, 10), (DEPTH_AT, 0, 10), (DEPTH_AT, 2, 14),
               (DEPTH_AT, 7, 13), (KERNEL_AT, 2, 2), (KERNEL_AT, 7, 2), (KERNEL_AT, 3, 0), (KERNEL_AT, 5, 0),
               (KERNEL_AT, 6, 0))
    return [(with_numbers(place, value), answer) for place, value, answer in changes]


def later_sections() -> list[Case]:
    """Bins, readings and indices at and beyond their ends, and bytes that follow, each at its moved place."""
    cases = [(with_numbers(place + MOVED, value), 3) for place in (TOP_BIN_AT, LOW_BIN_AT) for value in (0, 256)]
    # 21 at bin 255 is outside 4,096 and 45 too; 21 at bin 195 is 4,095.
    cases += [(with_numbers(TOP_BIN_AT + MOVED, 255), 11), (with_numbers(LOW_BIN_AT + MOVED, 255), 11),
              (with_numbers(LOW_BIN_AT + MOVED, 195), 0), (with_numbers(LOW_BIN_AT + MOVED, 196), 11)]
    cases += [(changed(place + MOVED, bytes([kind]) + bits.to_bytes(4, "little"), CAMERA_FILE), 0 if lawful else 4)
              for place in (FIRST_READING_AT, SECOND_READING_AT) for kind, bits, lawful in READINGS[::3]]
    # Bin 4 allows 1,024 and bin 8 allows 512.
    cases += [(with_numbers(place + MOVED, value), answer) for place, largest in
              ((TOP_INDICES_AT, 1024), (TOP_INDICES_AT + 6, 1024), (LOW_INDICES_AT, 512), (LOW_INDICES_AT + 16, 512))
              for value, answer in ((largest, 0), (largest + 1, 11), (-largest, 0), (-largest - 1, 11))]
    return cases + [(CAMERA_FILE + b"\0", 12), (CAMERA_FILE + CAMERA_FILE, 12)]


def faulty_greys_files() -> list[Case]:
    """All of them, and every beginning of the file: refusal 9."""
    beginnings = [(CAMERA_FILE[:length], 9) for length in range(len(CAMERA_FILE))]
    return (beginnings + black_and_white() + full_greys() + broken_shapes() + wrong_counts() + shape_numbers()
            + later_sections())
