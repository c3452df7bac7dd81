"""Holds the library's PGM files to other programs: `python3 tests/host/peers.py PROGRAM`, where PROGRAM is peers.c.

What the library writes is handed to Netpbm, what Netpbm writes to the library, and headers with all kinds of white
space and comments to both. Where Netpbm is not installed one line says so, and nothing of this is counted. The files
of other programs that are kept in tests/peers are read in any case, and written again.
"""

import hashlib
import random
import shutil
import subprocess
import sys
from pathlib import Path

TESTS = Path(__file__).resolve().parent.parent
PEERS = TESTS / "peers"
sys.dont_write_bytecode = True
sys.path.insert(0, str(TESTS / "reference"))

from tally import Tally  # noqa: E402

SIZES = [(2, 2), (2, 129), (129, 2), (129, 129), (9, 10), (10, 9), (99, 100), (100, 99), (3, 3), (65, 49), (128, 127)]
MORE_SIZES = 25
HEADERS = [
    b"P5\t%d\r%d\n%d ",
    b"P5\r\n%d %d\r\n%d\n",
    b"P5 # a comment\n%d %d # 129 129\n%d\n",
    b"P5\n#\n##\n \t # three\n%05d\n#\n%d #\n  00%d\t",
]
NOT_FILES = {"README.md", "answers", "make"}

Picture = tuple[int, int, bytes]


def filtered(command: list[str], given: bytes) -> bytes:
    """What a program makes of its standard input."""
    return subprocess.run(command, input=given, capture_output=True, check=True).stdout


class Library:
    """The program of peers.c."""

    def __init__(self, program: str) -> None:
        self.program = program

    def written(self, it: Picture) -> bytes:
        columns, rows, pixels = it
        return filtered([self.program, "write", str(columns), str(rows)], pixels)

    def read(self, file: bytes) -> Picture | int:
        """A picture, or the number of the refusal."""
        line, _, rest = filtered([self.program, "read"], file).partition(b"\n")
        first, second = line.split()
        return int(second) if first == b"refused" else (int(first), int(second), rest)


class Netpbm:
    """Netpbm's own programs: what it says of a file, the pixels that it reads, and a file that it writes."""

    def __init__(self) -> None:
        self.plain = shutil.which("pnmtoplainpnm") or shutil.which("pnmnoraw")
        self.raw = shutil.which("pnmtopnm")
        self.about = shutil.which("pamfile")

    def installed(self) -> bool:
        return None not in (self.plain, self.raw, self.about)

    def said(self, file: bytes) -> str:
        return " ".join(filtered([self.about], file).decode().split()[1:])

    def read(self, file: bytes) -> Picture:
        words = filtered([self.plain], file).split()
        return int(words[1]), int(words[2]), bytes(int(word) for word in words[4:])

    def written(self, it: Picture) -> bytes:
        columns, rows, pixels = it
        text = " ".join(str(pixel) for pixel in pixels)
        return filtered([self.raw], f"P2\n{columns} {rows}\n255\n{text}\n".encode())


def pictures() -> list[Picture]:
    """Some of any bytes, some of bytes that could stand in a header."""
    draw = random.Random(1983)
    sizes = SIZES + [(draw.randint(2, 129), draw.randint(2, 129)) for _ in range(MORE_SIZES)]
    alphabets = [bytes(range(256)), b"# \t\n\r0259P"]
    return [(c, r, bytes(draw.choices(alphabets[at % 2], k=c * r))) for at, (c, r) in enumerate(sizes)]


def beside_netpbm(tally: Tally, library: Library, netpbm: Netpbm) -> None:
    """Each reads what the other wrote."""
    for it in pictures():
        columns, rows, pixels = it
        name = f"{columns} by {rows}"
        file = library.written(it)
        tally.equal(f"{name}: what pamfile says", netpbm.said(file), f"PGM raw, {columns} by {rows} maxval 255")
        tally.true(f"{name}: Netpbm reads what the library wrote", netpbm.read(file) == it)
        tally.true(f"{name}: the library reads what Netpbm wrote", library.read(netpbm.written(it)) == it)
        for header in HEADERS:
            free = header % (columns, rows, 255) + pixels
            tally.true(f"{name}: Netpbm reads {header!r}", netpbm.read(free) == it)
            tally.true(f"{name}: the library reads {header!r}", library.read(free) == it)


def kept_answers() -> dict[str, list[str]]:
    """The files that are kept, with what is said of each."""
    lines = (PEERS / "answers").read_text(encoding="utf-8").splitlines()
    return {words[0]: words[1:] for words in (line.split() for line in lines)}


def read_kept(tally: Tally, library: Library) -> None:
    """The files of other programs; what is read is written as a file that is read the same."""
    answers = kept_answers()
    names = sorted(path.name for path in PEERS.iterdir() if path.name not in NOT_FILES)
    tally.equal("files that are kept", names, sorted(answers))
    for name, expected in answers.items():
        found = library.read((PEERS / name).read_bytes())
        if isinstance(found, int):
            tally.equal(name, [str(found)], expected)
            continue
        columns, rows, pixels = found
        tally.equal(name, ["0", str(columns), str(rows), hashlib.sha256(pixels).hexdigest()], expected)
        tally.true(f"{name}: written again", library.read(library.written(found)) == found)
    print(f"{len(answers)} files of tests/peers")


def main(program: str) -> int:
    """Both parts; the exit status."""
    tally, library, netpbm = Tally(), Library(program), Netpbm()
    if netpbm.installed():
        beside_netpbm(tally, library, netpbm)
        print(f"{tally.passed + tally.failed} comparisons with Netpbm")
    else:
        print("Netpbm is not installed: nothing is compared with it")
    read_kept(tally, library)
    print(f"{tally.passed} passed, {tally.failed} failed")
    return 1 if tally.failed else 0


if __name__ == "__main__":
    sys.exit(main(sys.argv[1]))
