"""Vectors of the PGM pictures' readers and writer."""

import struct
from collections.abc import Iterator

from faulty_pgm import COMMENTED_HEADER, PIXELS, PLAIN_HEADER, faulty_pgms
from peers import LINT, peer_files
from pgm import Pgm, read_pgm, single_form
from pictures import PICTURE_KINDS, picture_of
from random_pgm import broken_pgm, damaged_pgm, random_header, random_pgm
from seeded import SEED, Seeded
from settings import ACCEPTED

# Further whole sizes.
SHAPES = ((2, 2), (3, 2), (2, 3), (3, 3), (9, 5), (5, 9), (10, 10), (2, 99), (99, 2), (100, 2), (2, 100), (17, 33))


def answer_bytes(read: Pgm, data: bytes) -> bytes:
    """An accepted file's columns, rows and pixels, and its single form after its length."""
    single = single_form(data)
    return struct.pack("<2H", read.columns, read.rows) + read.pixels + struct.pack("<I", len(single)) + single


def case_bytes(data: bytes) -> bytes:
    """One case: the answer of the reader that is lent no picture, the file, and what an accepted one says."""
    read = read_pgm(data)
    head = struct.pack("<HI", read.refusal, len(data))
    return head + data + (answer_bytes(read, data) if read.refusal == ACCEPTED else b"")


def one_byte_changed() -> Iterator[bytes]:
    """A small file with each byte of its header changed to all others."""
    for place, old in enumerate(COMMENTED_HEADER):
        for new in range(256):
            if new != old:
                yield COMMENTED_HEADER[:place] + bytes([new]) + COMMENTED_HEADER[place + 1:] + PIXELS


def whole_files(numbers: Seeded) -> Iterator[bytes]:
    """Many sizes, every kind of picture, and headers of any lawful form."""
    for turn, (columns, rows) in enumerate(SHAPES):
        picture = picture_of(PICTURE_KINDS[turn % len(PICTURE_KINDS)], columns, rows, numbers)
        yield random_header(columns, rows, 255, numbers) + picture
    for columns, rows in ((2, 129), (129, 2)):
        yield random_header(columns, rows, 255, numbers) + picture_of("noise", columns, rows, numbers)
    for _ in range(150):
        yield b"".join(random_pgm(numbers, 9))


def damaged_files(numbers: Seeded) -> Iterator[bytes]:
    """Random damage, rules broken at random, and random bytes, some of them after P5."""
    for _ in range(150):
        yield damaged_pgm(numbers, 9)
    for _ in range(150):
        yield broken_pgm(numbers, 9)
    for length in range(1, 21):
        yield numbers.draw_bytes(length)
        yield b"P5 " + numbers.draw_bytes(length)


def largest_files(numbers: Seeded) -> Iterator[bytes]:
    """A file of the largest size, the same with one byte more, and one with the most columns cut by a byte."""
    data = random_header(129, 129, 255, numbers) + picture_of("noise", 129, 129, numbers)
    yield data
    yield data + b"\0"
    yield random_header(129, 9, 255, numbers) + picture_of("noise", 129, 9, numbers)[:-1]


def cases() -> Iterator[bytes]:
    """All cases, each as its bytes."""
    numbers = Seeded(SEED + 300)
    yield case_bytes(PLAIN_HEADER + PIXELS)
    yield case_bytes(COMMENTED_HEADER + PIXELS)
    for data, _ in faulty_pgms():
        yield case_bytes(data)
    for peer in peer_files():
        yield case_bytes(peer.data)
    yield case_bytes(LINT.read_bytes())
    for data in one_byte_changed():
        yield case_bytes(data)
    for part in (whole_files, damaged_files, largest_files):
        for data in part(numbers):
            yield case_bytes(data)
