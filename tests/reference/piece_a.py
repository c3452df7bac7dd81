"""Piece A of document 01 and its file of 58 bytes."""

from bale import NOT_FITTED, PERCENTAGE, Reading
from settings import Settings

SETTINGS_A = Settings(3, 3, 1, 4, (10, 4, 0, 0, 0, 0, 0))
PICTURE_A = bytes([0, 0, 0, 0, 100, 0, 0, 0, 0])
INDICES_A = [6] * 4 + [-3] * 4 + [7] + [-3] * 4
AVERAGES_A = [25] * 4 + list(PICTURE_A)
# 6.5 percent, and not fitted.
NOTE_A = (Reading(PERCENTAGE, 0x40D00000), Reading(NOT_FITTED, 0))

FILE_A = bytes.fromhex(
    "04 00 03 00 03 00 01 00 04 00"
    "02 00 04 00 0A 00"
    "02 00 01 00 00 D0 40 00 00 00 00 00"
    "04 00 06 00 06 00 06 00 06 00"
    "09 00 FD FF FD FF FD FF FD FF 07 00 FD FF FD FF FD FF FD FF"
)

LISTING_A = """\
picture 3 3 depth 1 kernel 4
moisture 40D00000 none
level 1 2 2 bin 4 within 2
level 0 3 3 bin 10 within 7
"""

# Places of the parts of the file, in bytes from its start.
COLUMNS_AT, ROWS_AT, DEPTH_AT, KERNEL_AT = 2, 4, 6, 8
BINS_COUNT_AT, TOP_BIN_AT, LOW_BIN_AT = 10, 12, 14
READINGS_COUNT_AT, FIRST_READING_AT, SECOND_READING_AT = 16, 18, 23
TOP_COUNT_AT, TOP_INDICES_AT, LOW_COUNT_AT, LOW_INDICES_AT = 28, 30, 38, 40


def changed(place: int, new: bytes, data: bytes = FILE_A) -> bytes:
    """The file with the bytes from a place on replaced."""
    return data[:place] + new + data[place + len(new):]


def number(value: int) -> bytes:
    """A number of two bytes, low byte first; below 0 as two's complement."""
    return (value % 2 ** 16).to_bytes(2, "little")
