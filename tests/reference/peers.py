"""The PGM files that other programs made, in tests/peers, with how those programs read them."""

from dataclasses import dataclass
from pathlib import Path

PEERS = Path(__file__).parent.parent / "peers"
LINT = Path(__file__).parent.parent.parent / "examples" / "lint.pgm"


@dataclass(frozen=True)
class Peer:
    """A file, the answer that P2 demands and, if that is 0, its size and the SHA-256 of its pixels."""

    name: str
    data: bytes
    answer: int
    columns: int = 0
    rows: int = 0
    pixels_hash: str = ""


def peer_files() -> list[Peer]:
    """All of them, in the order of `answers`."""
    result = []
    for line in (PEERS / "answers").read_text(encoding="ascii").splitlines():
        name, answer, *fields = line.split(" ")
        data = (PEERS / name).read_bytes()
        if answer == "0":
            columns, rows, pixels_hash = fields
            result.append(Peer(name, data, 0, int(columns), int(rows), pixels_hash))
        else:
            result.append(Peer(name, data, int(answer)))
    return result
