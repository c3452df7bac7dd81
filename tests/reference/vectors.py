"""Writes test vectors; README.md gives the formats.

vectors.py pyramid|levels|files|pgm|closed|pixels FILE, and the same with pyramid_greys, levels_greys, files_greys or
closed_greys: those that are kept in the repository, or
vectors.py random KIND SEED SMALL LARGE: random cases of one of these kinds, or of calls, on standard output, small and
large.
"""

import sys
from pathlib import Path

import random_cases
import vectors_closed
import vectors_files
import vectors_files_greys
import vectors_greys
import vectors_levels
import vectors_pgm
import vectors_pixels
import vectors_pyramid

KINDS = {"pyramid": vectors_pyramid.cases, "levels": vectors_levels.cases, "files": vectors_files.cases,
         "pgm": vectors_pgm.cases, "closed": vectors_closed.cases, "pyramid_greys": vectors_greys.pyramid_cases,
         "levels_greys": vectors_greys.levels_cases, "files_greys": vectors_files_greys.cases,
         "closed_greys": vectors_greys.closed_cases, "pixels": vectors_pixels.cases}


def write_kept(kind: str, path: str) -> None:
    """Write the vectors of a kind to a file and say how many there are."""
    cases = list(KINDS[kind]())
    data = b"".join(cases)
    Path(path).write_bytes(data)
    print(f"{kind}: {len(cases)} cases, {len(data)} bytes")


def write_random(kind: str, seed: int, small: int, large: int) -> None:
    """Write random cases to standard output."""
    for case in random_cases.random_cases(kind, seed, small, large):
        sys.stdout.buffer.write(case)


def main(arguments: list[str]) -> int:
    """Write what the arguments say, and give the exit status."""
    if len(arguments) == 2 and arguments[0] in KINDS:
        write_kept(*arguments)
        return 0
    if len(arguments) == 5 and arguments[0] == "random" and arguments[1] in random_cases.CASES:
        write_random(arguments[1], *(int(word) for word in arguments[2:]))
        return 0
    print(__doc__, file=sys.stderr)
    return 2


if __name__ == "__main__":
    sys.exit(main(sys.argv[1:]))
