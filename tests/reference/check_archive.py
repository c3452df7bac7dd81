"""Chains of copies of a file: each reads the file at hand, rebuilds it, codes it anew and writes it again.

A copy that is refused leaves the file at hand, as a generation leaves the picture (document 02, P5).
"""

from bale import Bale, file_size, read_bale, write_bale
from check_generations import draw_settings, other_greys
from manners import MANNERS, Manner
from pictures import PICTURE_KINDS, lawful_picture
from pyramid import rebuild
from random_files import random_note
from seeded import SEED, Seeded, random_greys
from settings import PIXEL_OUTSIDE, Settings, total_nodes
from tally import Tally

SIZES = ((9, 5), (17, 17), (5, 13), (2, 2), (3, 3))


def shown_picture(bale: Bale) -> bytes:
    """The rebuilt picture of a file that was read."""
    rebuilt = rebuild(bale.settings, list(bale.indices), bale.settings.columns * bale.settings.rows, len(bale.indices))
    assert rebuilt.refusal == 0
    return rebuilt.picture


def coded_file(manner: Manner, settings: Settings, picture: bytes, old: Bale) -> tuple[int, bytes]:
    """The refusal of coding a picture, and the file of its levels with the readings of another file."""
    nodes = total_nodes(settings.columns, settings.rows, settings.depth)
    coded = manner.code(settings, picture, nodes, nodes)
    if coded.refusal != 0:
        return coded.refusal, b""
    return write_bale(settings, old.note, coded.indices, file_size(settings))


def check_chain(tally: Tally, name: str, numbers: Seeded) -> list[int]:
    """A chain of a first file and copies of it; the result is the refusal of each copy, or 0."""
    columns, rows = numbers.choice(SIZES)
    settings = draw_settings(numbers, columns, rows, random_greys(numbers))
    first = lawful_picture(numbers.choice(PICTURE_KINDS), settings, numbers)
    manner = numbers.choice(MANNERS)
    refusal, at_hand = coded_file(manner, settings, first, Bale(0, note=random_note(numbers)))
    tally.equal(f"{name}: first file", refusal, 0)
    total = manner.bounds(settings)[1][0]
    answers = []
    for turn in range(numbers.between(1, 6)):
        old = read_bale(at_hand)
        tally.equal(f"{name}, copy {turn}: the file at hand is read", old.refusal, 0)
        manner = numbers.choice(MANNERS)
        greys = other_greys((settings.black, settings.white), numbers)
        copied = draw_settings(numbers, columns, rows, greys)
        refusal, new = coded_file(manner, copied, shown_picture(old), old)
        answers.append(refusal)
        if refusal == 0:
            at_hand = new
            total += manner.bounds(copied)[1][0]
    last = read_bale(at_hand)
    tally.equal(f"{name}: last file is read", last.refusal, 0)
    within = all(abs(a - b) <= total for a, b in zip(first, shown_picture(last), strict=True))
    tally.true(f"{name}: within the sum of bounds {total}", within)
    return answers


def run(tally: Tally) -> None:
    """All checks of copied files."""
    numbers = Seeded(SEED + 20)
    chains = [check_chain(tally, f"archive {turn}", numbers) for turn in range(150)]
    tally.equal("answers of copies", {answer for chain in chains for answer in chain}, {0, PIXEL_OUTSIDE})
    both = sum(0 in chain[:place] for chain in chains for place, answer in enumerate(chain) if answer != 0)
    tally.true(f"copies that turn down what an accepted copy left: {both}", both > 20)
