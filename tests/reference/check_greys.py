"""Black and white of the camera (document 02, P5): pieces worked by hand, and properties on seeded pictures and files.

Refusals 19 and 20 in their orders are in check_calls.py, files with answers worked by hand in check_bale.py, and
generations and copies that turn pixels down in check_generations.py and check_archive.py.
"""

from collections import Counter
from itertools import product

from bale import file_size, listing, read_bale, write_bale
from check_closed_loop import check_piece
from greys_pieces import BOTH_ENDS, CAMERA, CAMERA_FILE, CAMERA_LISTING, GREYS_PIECES
from manners import MANNERS
from pictures import PICTURE_KINDS, lawful_picture, near_indices, random_indices
from piece_a import FILE_A, INDICES_A, NOTE_A, PICTURE_A, SETTINGS_A
from pyramid import rebuild
from random_files import random_note
from seeded import (CLOSED_BIN_FAMILIES, GREYS, SEED, Seeded, bins_of, fill_slots, random_greys,
                    random_greys_settings)
from settings import FULL_GREYS, KERNELS, Settings, bounds, settings_refusal, total_nodes, with_greys
from tally import Tally


# Pieces worked by hand.

def check_pieces(tally: Tally) -> None:
    """The pieces in both manners, and the file of one of them."""
    for piece in GREYS_PIECES:
        check_piece(tally, piece)
        rebuilt = rebuild(piece.settings, piece.open_indices, 9, 13)
        tally.equal(f"{piece.name}, rebuilt from open-loop coding", (rebuilt.refusal, rebuilt.values, rebuilt.picture),
                    (0, piece.open_values, piece.open_rebuilt))
        tally.equal(f"{piece.name}, open bounds", bounds(piece.settings), (0, piece.open_bounds))
    settings, indices = BOTH_ENDS.settings, BOTH_ENDS.indices
    tally.equal("camera file written", write_bale(settings, NOTE_A, indices, 62), (0, CAMERA_FILE))
    tally.equal("camera file, buffer of 61", write_bale(settings, NOTE_A, indices, 61), (8, b""))
    for lent in (13, None):
        bale = read_bale(CAMERA_FILE, lent)
        tally.equal("camera file read", (bale.refusal, bale.settings, bale.note, list(bale.indices)),
                    (0, settings, NOTE_A, indices))
    tally.equal("camera file, listing", listing(CAMERA_FILE), CAMERA_LISTING)
    for length in (0, 12, 14):
        tally.equal(f"camera file, level buffer of {length}", read_bale(CAMERA_FILE, length).refusal, 6)
        tally.equal(f"shape alone, level buffer of {length}", read_bale(CAMERA_FILE[:14], length).refusal, 6)
        tally.equal(f"shape cut, level buffer of {length}", read_bale(CAMERA_FILE[:13], length).refusal, 9)
        for shape, answer in (("03 00 03 00 01 00 04 00 EB 00 10 00", 19), ("03 00 03 00 01 00 07 00 EB 00 10 00", 2),
                              ("03 00 03 00 01 00 04 00 00 00 FF 00", 10)):
            data = CAMERA_FILE[:2] + bytes.fromhex(shape) + CAMERA_FILE[14:]
            tally.equal(f"shape {shape}, level buffer of {length}", read_bale(data, length).refusal, answer)
    tally.equal("largest file", file_size(Settings(129, 129, 6, 3, (1,) * 7, *CAMERA)), 44774)


def check_turned_down(tally: Tally) -> None:
    """Number 20 of piece A's picture, which has 0 and 100, and of one pixel at each place just outside."""
    for manner in MANNERS:
        for greys, answer in ((FULL_GREYS, 0), ((0, 100), 0), ((0, 254), 0), ((0, 99), 20), ((1, 100), 20),
                              ((1, 255), 20), (CAMERA, 20), ((101, 255), 20), ((0, 1), 20), ((254, 255), 20)):
            coded = manner.code(with_greys(SETTINGS_A, greys), PICTURE_A, 13, 13)
            tally.equal(f"{manner.name} coding of A with {greys}", coded.refusal, answer)
        for place in range(9):
            for pixel, answer in ((16, 0), (15, 20), (0, 20), (235, 0), (236, 20), (255, 20)):
                picture = bytes([16, 235, 100] * 3)
                picture = picture[:place] + bytes([pixel]) + picture[place + 1:]
                coded = manner.code(BOTH_ENDS.settings, picture, 13, 13)
                tally.equal(f"{manner.name} coding of {picture.hex()}", coded.refusal, answer)


# Rules a second way.

def check_rule(tally: Tally) -> None:
    """Rule 19 for every pair near the range, and 20 for pictures of one grey with every pair of some."""
    for black in range(258):
        agree = all(settings_refusal(Settings(2, 2, 0, 4, fill_slots([1]), black, white))
                    == (0 if white in range(black + 1, 256) else 19) for white in range(258))
        tally.true(f"black {black}: rule of every white", agree)
    for black, white in (*GREYS, FULL_GREYS, (100, 160)):
        settings = Settings(2, 2, 0, 4, fill_slots([1]), black, white)
        for manner in MANNERS:
            answers = [manner.code(settings, bytes([grey]) * 4, 4, 4).refusal for grey in range(256)]
            expected = [20] * black + [0] * (white - black + 1) + [20] * (255 - white)
            tally.true(f"{manner.name}: every grey with {black} and {white}", answers == expected)


def nearest(value: int, settings: Settings) -> int:
    """The clamp a second way: the middle one of black, value and white."""
    return sorted((settings.black, value, settings.white))[1]


def check_clamp(tally: Tally, name: str, settings: Settings, indices: list[int]) -> set[int]:
    """A rebuilding differs from that with 0 and 255 in its last clamp alone.

    The result says whether pixels were below black (-1), between black and white (0) and above white (1).
    """
    pixels = settings.columns * settings.rows
    rebuilt = rebuild(settings, indices, pixels, len(indices))
    full = rebuild(with_greys(settings, FULL_GREYS), indices, pixels, len(indices))
    tally.true(f"{name}: values are those with 0 and 255", rebuilt.refusal == 0 and rebuilt.values == full.values)
    picture = [nearest(value, settings) for value in rebuilt.values[-pixels:]]
    tally.true(f"{name}: picture is clamped to black and white", list(rebuilt.picture) == picture)
    return {(value > settings.white) - (value < settings.black) for value in rebuilt.values[-pixels:]}


def check_pictures(tally: Tally) -> None:
    """Codings are those with 0 and 255, and pixels stay within the bounds after the narrower clamp."""
    numbers = Seeded(SEED + 17)
    clamped = Counter()
    for turn in range(300):
        settings = random_greys_settings(numbers, 17, CLOSED_BIN_FAMILIES)
        picture = lawful_picture(numbers.choice(PICTURE_KINDS), settings, numbers)
        nodes = total_nodes(settings.columns, settings.rows, settings.depth)
        for manner in MANNERS:
            name = f"{manner.name} coding {turn} of {settings}"
            coded = manner.code(settings, picture, nodes, nodes)
            tally.equal(f"{name}: as with 0 and 255", coded,
                        manner.code(with_greys(settings, FULL_GREYS), picture, nodes, nodes))
            sides = check_clamp(tally, name, settings, coded.indices)
            clamped.update((settings.kernel, manner.name, side) for side in sides)
            shown = rebuild(settings, coded.indices, len(picture), nodes).picture
            within = manner.bounds(settings)[1][0]
            tally.true(f"{name}: pixels within the bound of level 0",
                       all(abs(a - b) <= within for a, b in zip(picture, shown, strict=True)))
    for case in product(KERNELS, (manner.name for manner in MANNERS), (-1, 0, 1)):
        tally.true(f"codings with pixels on side {case}: {clamped[case]}", clamped[case] > 5)


def check_any_levels(tally: Tally) -> None:
    """Rebuilding from levels that no coding made, with pixels on all sides of every kernel."""
    numbers = Seeded(SEED + 18)
    for kernel in KERNELS:
        whole = 0
        for greys in (*GREYS, FULL_GREYS, *(random_greys(numbers) for _ in range(10))):
            for draw in (near_indices, random_indices):
                settings = Settings(9, 17, 3, kernel, bins_of("mixed", 3, numbers), *greys)
                sides = check_clamp(tally, f"{draw.__name__} of {settings}", settings, draw(settings, numbers))
                whole += sides == {-1, 0, 1}
        tally.true(f"k = {kernel}: rebuildings with pixels below, between and above: {whole}", whole > 5)


# Files.

def base_answer(data: bytes) -> int:
    """What a reader of document 01 alone answers, whose shape count is 4 and nothing else."""
    if len(data) < 2:
        return 9
    return read_bale(data).refusal if data[:2] == bytes.fromhex("04 00") else 10


def check_files(tally: Tally) -> None:
    """Files of both forms: their beginnings, their sizes, and what a reader of document 01 says of them."""
    numbers = Seeded(SEED + 19)
    for turn in range(120):
        settings = random_greys_settings(numbers, 9)
        full = with_greys(settings, FULL_GREYS)
        indices, note = random_indices(settings, numbers), random_note(numbers)
        refusal, data = write_bale(settings, note, indices, file_size(settings))
        plain = write_bale(full, note, indices, file_size(full))[1]
        tally.equal(f"file {turn} of {settings}: written", refusal, 0)
        tally.equal(f"file {turn} of {full}: a reader of document 01", base_answer(plain), 0)
        if settings == full:
            tally.true(f"file {turn}: as in document 01", data == plain and data[:2] == bytes([4, 0]))
            continue
        items = settings.black.to_bytes(2, "little") + settings.white.to_bytes(2, "little")
        tally.true(f"file {turn}: black and white after k", data == bytes([6, 0]) + plain[2:10] + items + plain[10:])
        tally.equal(f"file {turn}: a reader of document 01", base_answer(data), 10)
    settings = Settings(2, 2, 0, 4, fill_slots([1]))
    for black in range(255):
        forms = {write_bale(with_greys(settings, (black, white)), NOTE_A, [0] * 4, 42)[1][:2].hex()
                 for white in range(black + 1, 256) if (black, white) != FULL_GREYS}
        tally.equal(f"first bytes of files with black {black}", forms, {"0600"})
    tally.equal("A's file", write_bale(with_greys(SETTINGS_A, FULL_GREYS), NOTE_A, INDICES_A, 58), (0, FILE_A))


def run(tally: Tally) -> None:
    """All checks of black and white but refusals in their orders, faulty files and generations."""
    for check in (check_pieces, check_turned_down, check_rule, check_pictures, check_any_levels, check_files):
        check(tally)
