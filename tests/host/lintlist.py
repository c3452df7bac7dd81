"""Holds the program lintlist to the reference's listing: `python3 tests/host/lintlist.py PROGRAM`."""

import subprocess
import sys
from collections.abc import Iterator
from pathlib import Path

sys.dont_write_bytecode = True
sys.path.insert(0, str(Path(__file__).resolve().parent.parent / "reference"))

from bale import listing  # noqa: E402
from faulty_files import faulty_files  # noqa: E402
from faulty_greys import faulty_greys_files  # noqa: E402
from piece_a import FILE_A, LISTING_A  # noqa: E402
from random_files import damage, random_file  # noqa: E402
from seeded import SEED, Seeded  # noqa: E402
from tally import Tally  # noqa: E402

SECONDS = 20

# By hand from document 01: three columns and two rows, so that no two numbers of its shape are the same.
WIDE = Path(__file__).resolve().parent.parent.parent / "examples" / "three-by-two.bale"
LISTING_WIDE = "picture 3 2 depth 0 kernel 5\nmoisture fault 9 42C80000\nlevel 0 3 2 bin 7 within 3\n"

# By hand from P5: piece A's file with six numbers in its shape. Its listing is that of the one with four.
GREYS_A = bytes([6, 0]) + FILE_A[2:10] + bytes([16, 0, 235, 0]) + FILE_A[10:]
GREYS = [(0, 255), (16, 235), (0, 254), (254, 255)]
REFUSED_GREYS = {10: bytes([0, 0, 255, 0]), 19: bytes([235, 0, 16, 0])}


def files(numbers: Seeded) -> Iterator[bytes]:
    """Piece A's file and one with black and white, their faults, whole and damaged files of all sizes, random bytes."""
    yield FILE_A
    for data, _ in [*faulty_files(), *faulty_greys_files()]:
        yield data
    for at, side in enumerate([9] * 120 + [129] * 40):
        data = random_file(numbers, side, GREYS[at % len(GREYS)])
        yield data
        yield damage(data, numbers)
        yield damage(data, numbers)
    for length in range(20):
        yield numbers.draw_bytes(length)


def check_listing(tally: Tally, program: str, data: bytes) -> None:
    """The listing of a file on standard input, and nothing on standard error."""
    done = subprocess.run([program], input=data, capture_output=True, timeout=SECONDS, check=False)
    name = f"file of {len(data)} bytes, {data[:64].hex()}"
    tally.equal(name, (done.stdout.decode(), done.stderr), (listing(data), b""))


def check_wide(tally: Tally, program: str) -> None:
    """A file with more columns than rows; the reference lists it too."""
    data = WIDE.read_bytes()
    check_listing(tally, program, data)
    tally.equal("three by two", listing(data), LISTING_WIDE)


def check_greys(tally: Tally, program: str) -> None:
    """Black and white don't show in the listing, whose lines are those of document 01; refused they do."""
    check_listing(tally, program, GREYS_A)
    tally.equal("black and white", listing(GREYS_A), LISTING_A)
    for number, greys in REFUSED_GREYS.items():
        data = GREYS_A[:10] + greys + GREYS_A[14:]
        check_listing(tally, program, data)
        tally.equal("refused black and white", listing(data), f"refused {number}\n")


def check_pieces(tally: Tally, program: str) -> None:
    """A file that comes through a pipe byte by byte is listed whole."""
    with subprocess.Popen([program], stdin=subprocess.PIPE, stdout=subprocess.PIPE) as running:
        for byte in FILE_A:
            running.stdin.write(bytes([byte]))
            running.stdin.flush()
        running.stdin.close()
        tally.equal("byte by byte", running.stdout.read().decode(), LISTING_A)


def check_no_input(tally: Tally, program: str, redirection: str) -> None:
    """Where standard input can't be read: a message on standard error, and no listing."""
    command = ["bash", "-c", f'exec "$0" {redirection}', program]
    done = subprocess.run(command, capture_output=True, timeout=SECONDS, check=False)
    tally.equal(f"{redirection}: standard output", done.stdout, b"")
    tally.true(f"{redirection}: a message on standard error", done.stderr != b"")


def main(program: str) -> int:
    """All checks, and the exit status."""
    tally = Tally()
    for data in files(Seeded(SEED + 300)):
        check_listing(tally, program, data)
    check_wide(tally, program)
    check_greys(tally, program)
    check_pieces(tally, program)
    check_no_input(tally, program, "<&-")
    check_no_input(tally, program, "</")
    print(f"{tally.passed} passed, {tally.failed} failed")
    return 1 if tally.failed else 0


if __name__ == "__main__":
    sys.exit(main(sys.argv[1]))
