"""The bale file of documents 01 and 02 (P5): its writer, its reader and the listing of the program lintlist."""

import struct
from dataclasses import dataclass

from pyramid import flatten, indices_refusal, is_index_lawful, split_levels
from settings import (ACCEPTED, BAD_BIN, BAD_COUNT, BAD_FILE_LENGTH, BAD_INDEX, BAD_LEVEL_LENGTH, BAD_READING,
                      BIN_SLOTS, BYTES_FOLLOW, FILE_ENDS_EARLY, FULL_GREYS, Refused, Settings, bounds, is_slot_lawful,
                      level_size, node_count, settings_refusal, shape_refusal, total_nodes)

# Document 01, "Bale file": counts of the first and third sections; and of the first with black and white (P5).
SHAPE_COUNT = 4
GREYS_SHAPE_COUNT = 6
READING_COUNT = 2
# Bytes of a count, of a shape or bin item or an index, and of a reading (a kind byte and four bytes).
COUNT_BYTES = 2
NUMBER_BYTES = 2
READING_BYTES = 5

# Kinds of a probe reading.
NOT_FITTED = 0
PERCENTAGE = 1
FAULT = 2
LARGEST_PERCENTAGE = 100
LARGEST_FAULT = 255
SIGN_BIT = 0x80000000


@dataclass(frozen=True)
class Reading:
    """A probe reading: its kind, and its four bytes as an unsigned number (for a percentage, the float's bits)."""

    kind: int
    bits: int


Note = tuple[Reading, Reading]

NONE_FITTED: Note = (Reading(NOT_FITTED, 0), Reading(NOT_FITTED, 0))
NO_SETTINGS = Settings(0, 0, 0, 0, (0,) * BIN_SLOTS, 0, 0)


@dataclass(frozen=True)
class Bale:
    """Answer of the reader. A refusal holds 0 in the numbers, not fitted in the readings, and no indices."""

    refusal: int
    settings: Settings = NO_SETTINGS
    note: Note = NONE_FITTED
    indices: tuple[int, ...] = ()


# Readings, refusal 4.

def is_percentage_lawful(bits: int) -> bool:
    """A clear sign bit, and a 32-bit float at most 100. A NaN is not at most 100, since no comparison holds for it."""
    (value,) = struct.unpack("<f", struct.pack("<I", bits))
    return bits & SIGN_BIT == 0 and value <= LARGEST_PERCENTAGE


def is_reading_lawful(reading: Reading) -> bool:
    """Say whether a reading keeps the rule of its kind; no kind above 2 is lawful."""
    if reading.kind == NOT_FITTED:
        return reading.bits == 0
    if reading.kind == PERCENTAGE:
        return is_percentage_lawful(reading.bits)
    return reading.kind == FAULT and 1 <= reading.bits <= LARGEST_FAULT


# The writer.

def written_greys(settings: Settings) -> tuple[int, ...]:
    """What follows k in the shape section: black and white, or nothing where they are 0 and 255."""
    greys = (settings.black, settings.white)
    return () if greys == FULL_GREYS else greys


def file_size(settings: Settings) -> int:
    """24 + 4(N + 1) + 2T, as document 01 says it, and the bytes of black and white where they are written."""
    nodes = total_nodes(settings.columns, settings.rows, settings.depth)
    return 24 + 4 * (settings.depth + 1) + 2 * nodes + NUMBER_BYTES * len(written_greys(settings))


def write_refusal(settings: Settings, note: Note, indices: list[int], buffer_length: int) -> int:
    """The settings' first refusal, then 4, 6, 8, 11 in this order, or 0."""
    refusal = settings_refusal(settings)
    if refusal != ACCEPTED:
        return refusal
    if not all(is_reading_lawful(reading) for reading in note):
        return BAD_READING
    if len(indices) != total_nodes(settings.columns, settings.rows, settings.depth):
        return BAD_LEVEL_LENGTH
    if buffer_length < file_size(settings):
        return BAD_FILE_LENGTH
    return indices_refusal(indices, settings)


def numbers_section(numbers: list[int]) -> bytes:
    """A count and unsigned numbers of two bytes, low byte first."""
    return struct.pack(f"<H{len(numbers)}H", len(numbers), *numbers)


def readings_section(note: Note) -> bytes:
    """A count and the readings, each a kind byte and four bytes, low byte first."""
    return struct.pack("<H", len(note)) + b"".join(struct.pack("<BI", item.kind, item.bits) for item in note)


def level_section(nodes: list[int]) -> bytes:
    """A count and the indices of one level, two bytes each, two's complement."""
    return struct.pack(f"<H{len(nodes)}h", len(nodes), *nodes)


def write_bale(settings: Settings, note: Note, indices: list[int], buffer_length: int) -> tuple[int, bytes]:
    """Refusal and the file's bytes (none if refused); the file's size is the number of the bytes."""
    refusal = write_refusal(settings, note, indices, buffer_length)
    if refusal != ACCEPTED:
        return refusal, b""
    sections = [
        numbers_section([settings.columns, settings.rows, settings.depth, settings.kernel, *written_greys(settings)]),
        numbers_section([settings.bins[level] for level in range(settings.depth, -1, -1)]),
        readings_section(note),
    ]
    for level in reversed(split_levels(indices, settings)):
        sections.append(level_section(flatten([level])))
    return ACCEPTED, b"".join(sections)


# The reader.

class FileCursor:
    """The file's bytes and the place of the next one."""

    def __init__(self, data: bytes) -> None:
        self.data = data
        self.place = 0

    def take(self, length: int) -> bytes:
        """The next bytes, or refusal 9 if there are fewer."""
        if len(self.data) - self.place < length:
            raise Refused(FILE_ENDS_EARLY)
        taken = self.data[self.place:self.place + length]
        self.place += length
        return taken

    def take_count(self, right: tuple[int, ...]) -> int:
        """A section's count: present (9), and one of the right ones (10)."""
        (written,) = struct.unpack("<H", self.take(COUNT_BYTES))
        if written not in right:
            raise Refused(BAD_COUNT)
        return written

    def take_items(self, count: int, item_bytes: int) -> bytes:
        """A section's items after its count: count present (9), count right (10), items all present (9)."""
        return self.take(self.take_count((count,)) * item_bytes)


def read_shape(cursor: FileCursor) -> tuple[int, int, int, int, int, int]:
    """C, R, N, k, black and white, lawful (the shape's first refusal); black and white that need no place have none."""
    count = cursor.take_count((SHAPE_COUNT, GREYS_SHAPE_COUNT))
    columns, rows, depth, kernel, *written = struct.unpack(f"<{count}H", cursor.take(count * NUMBER_BYTES))
    black, white = written or FULL_GREYS
    if written == list(FULL_GREYS):
        raise Refused(BAD_COUNT)
    refusal = shape_refusal(columns, rows, depth, kernel, black, white)
    if refusal != ACCEPTED:
        raise Refused(refusal)
    return columns, rows, depth, kernel, black, white


def read_bins(cursor: FileCursor, depth: int) -> tuple[int, ...]:
    """The seven slots: those of levels N to 0 from the file, lawful (3), those above N hold 0."""
    from_top = struct.unpack(f"<{depth + 1}H", cursor.take_items(depth + 1, NUMBER_BYTES))
    slots = tuple(reversed(from_top)) + (0,) * (BIN_SLOTS - depth - 1)
    if not all(is_slot_lawful(slot, size, depth) for slot, size in enumerate(slots)):
        raise Refused(BAD_BIN)
    return slots


def read_note(cursor: FileCursor) -> Note:
    """The readings before the drier and at the press, lawful (4)."""
    items = cursor.take_items(READING_COUNT, READING_BYTES)
    before_drier, at_press = (Reading(kind, bits) for kind, bits in struct.iter_unpack("<BI", items))
    if not is_reading_lawful(before_drier) or not is_reading_lawful(at_press):
        raise Refused(BAD_READING)
    return before_drier, at_press


def read_level(cursor: FileCursor, nodes: int, bin_size: int) -> tuple[int, ...]:
    """The indices of one level, lawful (11)."""
    indices = struct.unpack(f"<{nodes}h", cursor.take_items(nodes, NUMBER_BYTES))
    if not all(is_index_lawful(index, bin_size) for index in indices):
        raise Refused(BAD_INDEX)
    return indices


def read_sections(cursor: FileCursor, level_length: int | None) -> Bale:
    """All sections in file order, then refusal 12 if bytes follow. No level buffer is lent if its length is None."""
    columns, rows, depth, kernel, black, white = read_shape(cursor)
    if level_length is not None and level_length != total_nodes(columns, rows, depth):
        raise Refused(BAD_LEVEL_LENGTH)
    bins = read_bins(cursor, depth)
    note = read_note(cursor)
    indices: tuple[int, ...] = ()
    for level in range(depth, -1, -1):
        indices += read_level(cursor, node_count(columns, rows, level), bins[level])
    if cursor.place != len(cursor.data):
        raise Refused(BYTES_FOLLOW)
    return Bale(ACCEPTED, Settings(columns, rows, depth, kernel, bins, black, white), note, indices)


def read_bale(data: bytes, level_length: int | None = None) -> Bale:
    """Read a file, with a level buffer of the given length, or with none lent and so without refusal 6."""
    try:
        return read_sections(FileCursor(data), level_length)
    except Refused as refused:
        return Bale(refused.number)


# The listing.

def reading_text(reading: Reading) -> str:
    """`none`, the float's bits in eight upper-case hexadecimal digits, or `fault` and the decimal code."""
    if reading.kind == NOT_FITTED:
        return "none"
    return f"{reading.bits:08X}" if reading.kind == PERCENTAGE else f"fault {reading.bits}"


def listing(data: bytes) -> str:
    """What lintlist writes for a file. Every line ends with a line feed."""
    bale = read_bale(data)
    if bale.refusal != ACCEPTED:
        return f"refused {bale.refusal}\n"
    settings = bale.settings
    within = bounds(settings)[1]
    lines = [
        f"picture {settings.columns} {settings.rows} depth {settings.depth} kernel {settings.kernel}",
        f"moisture {reading_text(bale.note[0])} {reading_text(bale.note[1])}",
    ]
    for level in range(settings.depth, -1, -1):
        columns, rows = level_size(settings.columns, settings.rows, level)
        lines.append(f"level {level} {columns} {rows} bin {settings.bins[level]} within {within[level]}")
    return "".join(line + "\n" for line in lines)
