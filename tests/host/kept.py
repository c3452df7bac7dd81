"""Holds the vectors that are kept with the test programs to the reference: `python3 tests/host/kept.py [CRATES]`.

Each kind is made anew with tests/reference/vectors.py and compared byte for byte with crates/*/data; each has one home.
"""

import subprocess
import sys
import tempfile
from pathlib import Path

TESTS = Path(__file__).resolve().parent.parent
REFERENCE = TESTS / "reference"
sys.dont_write_bytecode = True
sys.path.insert(0, str(REFERENCE))

from tally import Tally  # noqa: E402
from vectors import KINDS  # noqa: E402

# The crate whose data a kind is.
HOMES = {
    "pyramid": "test_vectors",
    "closed": "test_vectors",
    "levels": "test_vectors",
    "pyramid_greys": "test_vectors",
    "closed_greys": "test_vectors",
    "levels_greys": "test_vectors",
    "pixels": "test_pixels",
    "files": "test_files",
    "files_greys": "test_files",
    "pgm": "test_pgm",
}


def first_difference(first: bytes, second: bytes) -> str:
    """Say where two files differ, or nothing if they are the same."""
    if first == second:
        return ""
    shorter = min(len(first), len(second))
    place = next((at for at in range(shorter) if first[at] != second[at]), shorter)
    return f"differ from byte {place} on"


def made_anew(kind: str, folder: str) -> tuple[bytes, str]:
    """The vectors of a kind as the reference writes them today, and what it says of them."""
    path = Path(folder) / f"{kind}.bin"
    command = [sys.executable, "-B", str(REFERENCE / "vectors.py"), kind, str(path)]
    said = subprocess.run(command, capture_output=True, check=True, text=True).stdout
    return path.read_bytes(), said


def check_kind(tally: Tally, kind: str, crates: Path, folder: str) -> None:
    """A kind is kept once, at home, is what the reference writes, and is as large as the reference's README says."""
    kept = sorted(crates.glob(f"*/data/{kind}.bin"))
    tally.equal(f"{kind}: where it is kept", kept, [crates / HOMES.get(kind, "nowhere") / "data" / f"{kind}.bin"])
    data, said = made_anew(kind, folder)
    for path in kept:
        tally.equal(str(path), first_difference(path.read_bytes(), data), "")
    words = said.split()
    sizes = f"{int(words[1]):,} cases, {int(words[3]):,} bytes"
    tally.true(f"{kind}: README.md says {sizes}", sizes in (REFERENCE / "README.md").read_text(encoding="utf-8"))
    print(f"{kind}: {sizes}, kept in {', '.join(str(path) for path in kept)}")


def main(crates: Path) -> int:
    """All kinds, and nothing else is kept; the exit status."""
    tally = Tally()
    tally.equal("kinds that have a home", sorted(HOMES), sorted(KINDS))
    with tempfile.TemporaryDirectory() as folder:
        for kind in KINDS:
            check_kind(tally, kind, crates, folder)
    names = sorted(path.name for path in crates.glob("*/data/*"))
    tally.equal("all that is kept", names, sorted(f"{kind}.bin" for kind in KINDS))
    print(f"{tally.passed} passed, {tally.failed} failed")
    return 1 if tally.failed else 0


if __name__ == "__main__":
    sys.exit(main(Path(sys.argv[1] if len(sys.argv) > 1 else "crates")))
