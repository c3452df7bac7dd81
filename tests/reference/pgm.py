"""PGM pictures (document 02, P2): the reader with and without a lent picture, the writer and the single form."""

from dataclasses import dataclass

from settings import (ACCEPTED, BAD_FILE_LENGTH, BAD_GREATEST_GREY, BAD_HEADER, BAD_PICTURE_LENGTH, BAD_PIXEL_COUNT,
                      BAD_SIZE, Refused, is_size_lawful)

# Document 02, P2: the header's parts.
MAGIC = b"P5"
WHITE_SPACE = (b" ", b"\t", b"\n", b"\r")
COMMENT_START = b"#"
NEWLINE = b"\n"
DIGITS = (b"0", b"1", b"2", b"3", b"4", b"5", b"6", b"7", b"8", b"9")
MOST_DIGITS = 5
GREATEST_GREY = 255


@dataclass(frozen=True)
class Pgm:
    """Answer of the reader. A refusal holds 0 in the numbers, and no pixels."""

    refusal: int
    columns: int = 0
    rows: int = 0
    pixels: bytes = b""


# The reader.

class HeaderCursor:
    """The file's bytes and the place of the next one."""

    def __init__(self, data: bytes) -> None:
        self.data = data
        self.place = 0

    def next_is(self, wanted: tuple[bytes, ...]) -> bool:
        """Say whether there is a next byte and it is one of those wanted."""
        return self.data[self.place:self.place + 1] in wanted

    def take(self) -> bytes:
        """The next byte, or refusal 16 at the file's end."""
        if self.place == len(self.data):
            raise Refused(BAD_HEADER)
        self.place += 1
        return self.data[self.place - 1:self.place]

    def take_one_of(self, wanted: tuple[bytes, ...]) -> bytes:
        """The next byte if it is one of those wanted, else refusal 16."""
        taken = self.take()
        if taken not in wanted:
            raise Refused(BAD_HEADER)
        return taken

    def rest(self) -> bytes:
        """All bytes from the place on."""
        return self.data[self.place:]


def take_magic(cursor: HeaderCursor) -> None:
    """P5, the first two bytes."""
    for place in range(len(MAGIC)):
        cursor.take_one_of((MAGIC[place:place + 1],))


def take_comment(cursor: HeaderCursor) -> None:
    """A comment from # up to and with the next newline; one with no newline is refusal 16."""
    cursor.take_one_of((COMMENT_START,))
    while cursor.take() != NEWLINE:
        pass


def take_gap(cursor: HeaderCursor) -> None:
    """What stands before a number: white space bytes and comments in any mixture, together at least one."""
    if not cursor.next_is(WHITE_SPACE + (COMMENT_START,)):
        raise Refused(BAD_HEADER)
    while cursor.next_is(WHITE_SPACE + (COMMENT_START,)):
        if cursor.next_is((COMMENT_START,)):
            take_comment(cursor)
        else:
            cursor.take_one_of(WHITE_SPACE)


def take_number(cursor: HeaderCursor) -> int:
    """A decimal number of one to five digits; leading zeros are digits like others."""
    text = cursor.take_one_of(DIGITS)
    while cursor.next_is(DIGITS):
        text += cursor.take_one_of(DIGITS)
    if len(text) > MOST_DIGITS:
        raise Refused(BAD_HEADER)
    return int(text)


def read_header(cursor: HeaderCursor) -> tuple[int, int, int]:
    """Columns, rows and the greatest grey, and the one white space byte before the pixels, where no comment counts."""
    take_magic(cursor)
    take_gap(cursor)
    columns = take_number(cursor)
    take_gap(cursor)
    rows = take_number(cursor)
    take_gap(cursor)
    greatest_grey = take_number(cursor)
    cursor.take_one_of(WHITE_SPACE)
    return columns, rows, greatest_grey


def read_picture(cursor: HeaderCursor, picture_length: int | None) -> Pgm:
    """Refusals 16, 1, 17, 18, 5 in this order. No picture is lent if its length is None."""
    columns, rows, greatest_grey = read_header(cursor)
    pixels = cursor.rest()
    if not is_size_lawful(columns, rows):
        raise Refused(BAD_SIZE)
    if greatest_grey != GREATEST_GREY:
        raise Refused(BAD_GREATEST_GREY)
    if len(pixels) != columns * rows:
        raise Refused(BAD_PIXEL_COUNT)
    if picture_length is not None and picture_length != columns * rows:
        raise Refused(BAD_PICTURE_LENGTH)
    return Pgm(ACCEPTED, columns, rows, pixels)


def read_pgm(data: bytes, picture_length: int | None = None) -> Pgm:
    """Read a file, with a picture of the given length, or with none lent and so without refusal 5."""
    try:
        return read_picture(HeaderCursor(data), picture_length)
    except Refused as refused:
        return Pgm(refused.number)


# The writer.

def single_header(columns: int, rows: int) -> bytes:
    """P5, newline, width, space, height, newline, 255, newline."""
    return f"P5\n{columns} {rows}\n255\n".encode("ascii")


def pgm_size(columns: int, rows: int) -> tuple[int, int]:
    """Refusal (1 or 0) and the bytes of a written file (0 if refused)."""
    if not is_size_lawful(columns, rows):
        return BAD_SIZE, 0
    # P5 and 255 are five bytes, the white space four.
    return ACCEPTED, 5 + 4 + len(str(columns)) + len(str(rows)) + columns * rows


def write_refusal(columns: int, rows: int, picture: bytes, buffer_length: int) -> int:
    """Refusals 1, 5, 8 in this order, or 0."""
    refusal, size = pgm_size(columns, rows)
    if refusal != ACCEPTED:
        return refusal
    if len(picture) != columns * rows:
        return BAD_PICTURE_LENGTH
    return BAD_FILE_LENGTH if buffer_length < size else ACCEPTED


def write_pgm(columns: int, rows: int, picture: bytes, buffer_length: int) -> tuple[int, bytes]:
    """Refusal and the file's bytes (none if refused); the file's size is the number of the bytes."""
    refusal = write_refusal(columns, rows, picture, buffer_length)
    if refusal != ACCEPTED:
        return refusal, b""
    return ACCEPTED, single_header(columns, rows) + picture


def single_form(data: bytes) -> bytes:
    """The single form of a file that is read: what the writer makes of it."""
    read = read_pgm(data)
    assert read.refusal == ACCEPTED
    return write_pgm(read.columns, read.rows, read.pixels, pgm_size(read.columns, read.rows)[1])[1]
