"""Self-check of the reference: `python3 tests/reference/check.py`.

Prints one line for each failed check and a last line with the numbers of passed and failed checks. The exit status
is 1 if any failed, else 0.
"""

import sys

import check_archive
import check_bale
import check_calls
import check_closed_loop
import check_generations
import check_greys
import check_pgm
import check_pieces
import check_pixels
import check_pyramid
from tally import Tally


def main() -> int:
    """Run all checks and give the exit status."""
    tally = Tally()
    for part in (check_pieces, check_pyramid, check_closed_loop, check_greys, check_calls, check_generations,
                 check_archive, check_bale, check_pgm, check_pixels):
        part.run(tally)
    print(f"{tally.passed} passed, {tally.failed} failed")
    return 1 if tally.failed else 0


if __name__ == "__main__":
    sys.exit(main())
