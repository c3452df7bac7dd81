"""Properties of the PGM pictures: hand-worked files, a second recogniser, orders of refusals, round trips, peers."""

import hashlib
import re
from collections import Counter
from itertools import product

from faulty_pgm import (COMMENTED_HEADER, PIXELS, PLAIN_HEADER, READER_ORDER, WRITER_ORDER, broken_sets, faulty_pgms,
                        first_of)
from peers import LINT, peer_files
from pgm import Pgm, pgm_size, read_pgm, single_form, write_pgm
from pictures import picture_of
from random_pgm import TELLING_BYTES, any_pgm, random_header, random_pgm
from seeded import SEED, Seeded, random_size
from tally import Tally

# The header's rule as a regular expression. What may follow a number never starts with a digit, and a comment never
# holds a newline but at its end, so it matches a file in one way at most.
HEADER = re.compile(rb"P5" + 3 * rb"(?:[ \t\n\r]|#[^\n]*\n)+([0-9]{1,5})" + rb"[ \t\n\r]")


def second_answer(data: bytes, picture_length: int | None = None) -> Pgm:
    """The reader's answer, found a second way."""
    match = HEADER.match(data)
    if match is None:
        return Pgm(16)
    columns, rows, greatest_grey = (int(text) for text in match.groups())
    pixels = data[match.end():]
    broken = {1: not (1 < columns < 130 and 1 < rows < 130), 17: greatest_grey != 255,
              18: len(pixels) != columns * rows, 5: picture_length not in (None, columns * rows)}
    refusal = next((number for number in READER_ORDER if broken.get(number)), 0)
    return Pgm(0, columns, rows, pixels) if refusal == 0 else Pgm(refusal)


def check_second(tally: Tally, data: bytes) -> Pgm:
    """Both ways to the answer agree, with no picture lent, with a right one and with wrong ones."""
    name = f"file {data[:40]!r} of {len(data)}"
    read = read_pgm(data)
    tally.equal(name, read, second_answer(data))
    for length in (0, 3, 4, 5, len(read.pixels)):
        tally.equal(f"{name}, picture of {length}", read_pgm(data, length), second_answer(data, length))
    return read


# Worked by hand.

def check_worked(tally: Tally) -> None:
    """The single form byte by byte, and sizes."""
    single = bytes.fromhex("50 35 0A 33 20 32 0A 32 35 35 0A 01 02 03 04 05 06")
    picture = bytes([1, 2, 3, 4, 5, 6])
    tally.equal("3 by 2 written", write_pgm(3, 2, picture, 17), (0, single))
    tally.equal("3 by 2 into a longer buffer", write_pgm(3, 2, picture, 1000), (0, single))
    tally.equal("3 by 2 into a shorter buffer", write_pgm(3, 2, picture, 16), (8, b""))
    tally.equal("3 by 2 read", read_pgm(single), Pgm(0, 3, 2, picture))
    tally.equal("3 by 2 read into 6", read_pgm(single, 6), Pgm(0, 3, 2, picture))
    tally.equal("3 by 2 read into 5", read_pgm(single, 5), Pgm(5))
    tally.equal("its single form", single_form(b"P5#\n03\r\r2\t\t00255 " + picture), single)
    for columns, rows, size in ((2, 2, 15), (9, 10, 102), (99, 100, 9914), (129, 2, 271), (129, 129, 16656)):
        tally.equal(f"size of {columns} by {rows}", pgm_size(columns, rows), (0, size))
    for columns, rows in ((0, 2), (1, 2), (2, 1), (130, 2), (2, 130), (65535, 65535)):
        tally.equal(f"size of {columns} by {rows}", pgm_size(columns, rows), (1, 0))


def check_faulty(tally: Tally) -> None:
    """Files whose answers were worked by hand; a refusal holds 0 and no pixels."""
    answers = Counter()
    for data, answer in faulty_pgms():
        read = check_second(tally, data)
        tally.equal(f"file {data[:40]!r} of {len(data)}", read.refusal, answer)
        answers[answer] += 1
        if answer == 0:
            tally.true(f"file {data[:40]!r}, pixels at its end", data.endswith(read.pixels))
        else:
            tally.equal(f"file {data[:40]!r}, fields", (read.columns, read.rows, read.pixels), (0, 0, b""))
    tally.equal("answers of hand-worked files", sorted(answers), [0, 1, 16, 17, 18])


# The second recogniser.

def check_changes(tally: Tally) -> None:
    """Headers with one byte changed to or put in as each of the 256, or dropped; and two bytes changed."""
    for header in (PLAIN_HEADER, COMMENTED_HEADER):
        for place in range(len(header)):
            check_second(tally, header[:place] + header[place + 1:] + PIXELS)
            for new in range(256):
                check_second(tally, header[:place] + bytes([new]) + header[place + 1:] + PIXELS)
                check_second(tally, header[:place] + bytes([new]) + header[place:] + PIXELS)
    unequal = 0
    for first, second in product(range(2, len(COMMENTED_HEADER)), repeat=2):
        for new in product(TELLING_BYTES, repeat=2):
            data = bytearray(COMMENTED_HEADER + PIXELS)
            data[first], data[second] = new
            unequal += read_pgm(bytes(data)) != second_answer(bytes(data))
    tally.equal("two bytes changed, answered otherwise", unequal, 0)


def check_random(tally: Tally) -> None:
    """Random files, whole, damaged and with rules broken, and random bytes; every answer occurs often."""
    numbers = Seeded(SEED + 8)
    answers = Counter()
    for _ in range(3000):
        answers[check_second(tally, any_pgm(numbers, 9)).refusal] += 1
    for length in range(60):
        check_second(tally, numbers.draw_bytes(length))
        check_second(tally, b"P5\n" + numbers.draw_bytes(length))
    tally.equal("answers to random files", sorted(answers), [0, 1, 16, 17, 18])
    tally.true(f"random files with the rarest answer: {min(answers.values())}", min(answers.values()) > 100)


# Orders of refusals.

def check_reader_sets(tally: Tally) -> None:
    """Every set of 16, 1, 17, 18 and 5 is answered with its first."""
    met = set()
    for data, right_length, faults in broken_sets():
        name = f"file {data[:40]!r} of {len(data)}, faults {faults}"
        tally.equal(name, read_pgm(data), second_answer(data))
        tally.equal(f"{name}, right picture", read_pgm(data, right_length).refusal, first_of(faults, READER_ORDER))
        met.add(faults)
        for length in {0, right_length - 1, right_length + 1} - {-1, right_length}:
            answer = first_of((*faults, 5), READER_ORDER)
            tally.equal(f"{name}, picture of {length}", read_pgm(data, length).refusal, answer)
            met.add((*faults, 5))
    tally.equal("sets of the reader", len(met), 2 ** len(READER_ORDER))


def check_writer_sets(tally: Tally) -> None:
    """Every set of 1, 5 and 8 is answered with its first."""
    met = set()
    for side, other, pixels, buffer_change in product((0, 1, 2, 9, 129, 130), (1, 2, 10, 131), (-1, 0, 1, 7),
                                                      (-1, 0, 1)):
        for columns, rows in ((side, other), (other, side)):
            # The size is worked here from the single form, also of a side that no picture has.
            length = len(b"P5\n%d %d\n255\n" % (columns, rows)) + columns * rows + buffer_change
            faults = [1] if not {columns, rows} <= {2, 9, 10, 129} else []
            faults += [5] if pixels != 0 else []
            faults += [8] if buffer_change < 0 else []
            met.add(tuple(faults))
            picture = bytes(max(columns * rows + pixels, 0)) if columns * rows else bytes(abs(pixels))
            refusal, written = write_pgm(columns, rows, picture, length)
            name = f"{columns} by {rows}, {len(picture)} pixels into {length}"
            tally.equal(name, refusal, first_of(tuple(faults), WRITER_ORDER))
            tally.equal(f"{name}, size", len(written), length - buffer_change if refusal == 0 else 0)
    tally.equal("sets of the writer", len(met), 2 ** len(WRITER_ORDER))


# Round trips.

def check_every_size(tally: Tally) -> None:
    """Written then read, for every size: the picture comes back, and the file's size is as said."""
    for columns, rows in product(range(2, 130), repeat=2):
        picture = bytes([columns, rows]) * (columns * rows // 2) + bytes(columns * rows % 2)
        size = pgm_size(columns, rows)[1]
        refusal, data = write_pgm(columns, rows, picture, size)
        whole = (refusal, len(data)) == (0, size) and read_pgm(data, columns * rows) == Pgm(0, columns, rows, picture)
        tally.true(f"{columns} by {rows} written then read", whole)


def check_round_trips(tally: Tally) -> None:
    """A file and its single form read alike; the single form of a single form is itself; every beginning is refused."""
    numbers = Seeded(SEED + 9)
    for turn in range(300):
        header, picture = random_pgm(numbers, 12)
        data = header + picture
        read = read_pgm(data)
        single = single_form(data)
        tally.equal(f"pgm {turn}: read", (read.refusal, read.pixels), (0, picture))
        tally.equal(f"pgm {turn}: read then written", single, b"P5\n%d %d\n255\n" % (read.columns, read.rows) + picture)
        tally.equal(f"pgm {turn}: single form read", read_pgm(single), read)
        tally.equal(f"pgm {turn}: single form of the single form", single_form(single), single)
        cut = [read_pgm(data[:length]).refusal for length in range(len(data))]
        tally.equal(f"pgm {turn}: beginnings", cut, [16] * len(header) + [18] * len(picture))
        tally.equal(f"pgm {turn}: one byte more", read_pgm(data + b"\n").refusal, 18)
    for _ in range(100):
        columns, rows = random_size(numbers, 12)
        picture = picture_of("noise", columns, rows, numbers)
        read = read_pgm(random_header(columns, rows, 255, numbers) + picture, columns * rows)
        tally.equal(f"{columns} by {rows} read", read, Pgm(0, columns, rows, picture))


# Files of other programs.

def check_peers(tally: Tally) -> None:
    """Every file of other programs is read as `answers` says; the lint of the examples is not in single form."""
    for peer in peer_files():
        read = check_second(tally, peer.data)
        tally.equal(peer.name, (read.refusal, read.columns, read.rows), (peer.answer, peer.columns, peer.rows))
        if peer.answer == 0:
            tally.equal(f"{peer.name}, pixels", hashlib.sha256(read.pixels).hexdigest(), peer.pixels_hash)
    lint = LINT.read_bytes()
    read = check_second(tally, lint)
    tally.equal("lint", (read.refusal, read.columns, read.rows), (0, 65, 49))
    tally.true("lint and its single form", single_form(lint) != lint and read_pgm(single_form(lint)) == read)


def run(tally: Tally) -> None:
    """All checks of the PGM pictures."""
    check_worked(tally)
    check_faulty(tally)
    check_changes(tally)
    check_random(tally)
    check_reader_sets(tally)
    check_writer_sets(tally)
    check_every_size(tally)
    check_round_trips(tally)
    check_peers(tally)
