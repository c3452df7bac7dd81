"""Seeded PGM files with headers of any lawful form, and files with damage or with rules broken."""

from pictures import PICTURE_KINDS, picture_of
from seeded import Seeded, random_size

# Bytes that mean something in a header, or nearly.
TELLING_BYTES = b" \t\n\r#0123456789P5/:\0\v\f!\xFF"

# Values that a side, and a greatest grey, takes where it is unlawful.
SIDES = (0, 1, 130, 131, 255, 256, 258, 385, 9999, 65535, 65538, 65664, 99999)
GREYS = (0, 1, 2, 15, 25, 127, 254, 256, 257, 511, 4095, 65535, 65791, 99999)


def random_comment(numbers: Seeded) -> bytes:
    """A comment of random bytes with no newline among them, and its newline."""
    text = numbers.draw_bytes(numbers.between(0, 6)).replace(b"\n", b"#")
    return b"#" + text + b"\n"


def random_gap(numbers: Seeded) -> bytes:
    """White space and comments in any mixture, one space in most draws."""
    if numbers.between(0, 1) == 0:
        return numbers.choice((b" ", b"\n"))
    pieces = [random_comment(numbers) if numbers.between(0, 2) == 0 else numbers.choice((b" ", b"\t", b"\n", b"\r"))
              for _ in range(numbers.between(1, 4))]
    return b"".join(pieces)


def random_number(value: int, numbers: Seeded) -> bytes:
    """A number in decimal, in one of three with zeros in front, to at most five digits."""
    text = b"%d" % value
    if numbers.between(0, 2) == 0:
        text = text.rjust(numbers.between(len(text), 5), b"0")
    return text


def random_header(columns: int, rows: int, greatest_grey: int, numbers: Seeded) -> bytes:
    """A lawful header of three numbers."""
    parts = [b"P5"]
    for value in (columns, rows, greatest_grey):
        parts += [random_gap(numbers), random_number(value, numbers)]
    return b"".join(parts) + numbers.choice((b" ", b"\t", b"\n", b"\r"))


def random_pgm(numbers: Seeded, largest_side: int) -> tuple[bytes, bytes]:
    """The header and the pixels of a lawful file."""
    columns, rows = random_size(numbers, largest_side)
    picture = picture_of(numbers.choice(PICTURE_KINDS), columns, rows, numbers)
    return random_header(columns, rows, 255, numbers), picture


def damaged_pgm(numbers: Seeded, largest_side: int) -> bytes:
    """A lawful file whose header has one or two bytes changed, dropped or put in, or that is cut."""
    header, picture = random_pgm(numbers, largest_side)
    damaged = bytearray(header)
    for _ in range(numbers.between(1, 2)):
        way, place = numbers.between(0, 8), numbers.between(0, len(damaged) - 1)
        if way <= 2:
            damaged[place] = numbers.choice(TELLING_BYTES)
        elif way == 3:
            damaged[place] = numbers.between(0, 255)
        elif way <= 5:
            damaged.insert(place, numbers.choice(TELLING_BYTES))
        elif way <= 7:
            del damaged[place]
        else:
            return bytes(damaged[:place])
    return bytes(damaged) + picture


def broken_pgm(numbers: Seeded, largest_side: int) -> bytes:
    """A file with a lawful header that breaks one or more of the rules 1, 17 and 18."""
    columns, rows = random_size(numbers, largest_side)
    pixels = numbers.draw_bytes(min(columns * rows, 40)) * (columns * rows // 40 + 1)
    count, greatest_grey = columns * rows, 255
    broken = numbers.between(1, 7)
    if broken & 1:
        columns, rows = numbers.choice(((numbers.choice(SIDES), rows), (columns, numbers.choice(SIDES))))
    if broken & 2:
        greatest_grey = numbers.choice(GREYS)
    if broken & 4:
        count = numbers.choice((0, count - 1, count + 1, 2 * count, numbers.between(0, count - 1)))
    filled = (pixels * 2)[:count]
    return random_header(columns, rows, greatest_grey, numbers) + filled


def any_pgm(numbers: Seeded, largest_side: int) -> bytes:
    """A file, lawful in one of three, damaged in one, with rules broken in one."""
    way = numbers.between(0, 2)
    if way == 0:
        return b"".join(random_pgm(numbers, largest_side))
    return damaged_pgm(numbers, largest_side) if way == 1 else broken_pgm(numbers, largest_side)
