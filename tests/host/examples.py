"""Runs the example programs that code a PGM picture: `python3 tests/host/examples.py PROGRAM...`.

Each codes examples/lint.pgm. What a program prints must be what examples/README.md shows, its bale file and the picture
that it shows must be those of the others byte for byte, and the largest difference, which is measured here, must be the
one that it prints and within the bound. Files that are refused must be refused with their number.
"""

import re
import subprocess
import sys
import tempfile
from pathlib import Path

ROOT = Path(__file__).resolve().parent.parent.parent
LINT = ROOT / "examples" / "lint.pgm"
sys.dont_write_bytecode = True
sys.path.insert(0, str(ROOT / "tests" / "reference"))

from tally import Tally  # noqa: E402

FORM = re.compile(
    r"picture (\d+) (\d+)\nbale file of (\d+) bytes\n"
    r"no pixel differs by more than (\d+) grey levels\nlargest difference (\d+)\n"
)
REFUSED = {16: b"P5 3 3 255", 1: b"P5 3 1 255 ...", 17: b"P5 3 3 254 .........", 18: b"P5 3 3 255 ........"}


def run(program: str, picture: Path, folder: Path) -> subprocess.CompletedProcess:
    """The program's three paths are the picture, and two in a folder of its own."""
    command = [program, str(picture), str(folder / "out.bale"), str(folder / "back.pgm")]
    return subprocess.run(command, capture_output=True, check=False, text=True)


def largest_difference(pixels: int, first: bytes, second: bytes) -> int:
    """Of the last bytes of two PGM files."""
    return max(abs(a - b) for a, b in zip(first[-pixels:], second[-pixels:], strict=True))


def code_lint(tally: Tally, program: str, folder: Path) -> tuple[str, bytes, bytes]:
    """What the program prints, its bale file and the picture that it shows."""
    done = run(program, LINT, folder)
    tally.equal(f"{program}: status and what it says", (done.returncode, done.stderr), (0, ""))
    bale, back = (folder / "out.bale").read_bytes(), (folder / "back.pgm").read_bytes()
    form = FORM.fullmatch(done.stdout)
    tally.true(f"{program}: what it prints", form is not None)
    if form is not None:
        columns, rows, size, bound, largest = map(int, form.groups())
        header = f"P5\n{columns} {rows}\n255\n".encode()
        tally.equal(f"{program}: bytes of the bale file", size, len(bale))
        tally.equal(f"{program}: bytes of the picture", len(back), len(header) + columns * rows)
        tally.true(f"{program}: header of the picture", back.startswith(header))
        tally.equal(f"{program}: largest", largest_difference(columns * rows, LINT.read_bytes(), back), largest)
        tally.true(f"{program}: {largest} within {bound}", largest <= bound)
    return done.stdout, bale, back


def refuse(tally: Tally, program: str, folder: Path) -> None:
    """A refused picture leaves no file."""
    for number, contents in REFUSED.items():
        (folder / "bad.pgm").write_bytes(contents)
        done = run(program, folder / "bad.pgm", folder)
        tally.equal(f"{program}: refused", (done.returncode, done.stdout, done.stderr), (1, "", f"refused {number}\n"))
        tally.equal(f"{program}: files", sorted(path.name for path in folder.iterdir()), ["bad.pgm"])


def main(programs: list[str]) -> int:
    """All programs; the exit status."""
    tally, left = Tally(), []
    for program in programs:
        for part in (lambda folder: left.append(code_lint(tally, program, folder)),
                     lambda folder: refuse(tally, program, folder)):
            with tempfile.TemporaryDirectory() as name:
                part(Path(name))
    tally.true("all programs do the same", all(each == left[0] for each in left))
    shown = "".join(f"    {line}\n" for line in left[0][0].splitlines())
    tally.true("examples/README.md shows it", shown in (ROOT / "examples" / "README.md").read_text(encoding="utf-8"))
    print(left[0][0], end="")
    print(f"{tally.passed} passed, {tally.failed} failed")
    return 1 if tally.failed else 0


if __name__ == "__main__":
    sys.exit(main(sys.argv[1:]))
