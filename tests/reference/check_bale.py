"""Properties of the bale file on seeded files."""

from collections import Counter

from bale import NO_SETTINGS, NONE_FITTED, file_size, is_percentage_lawful, listing, read_bale, write_bale
from faulty_files import broken_shapes, faulty_files
from faulty_greys import faulty_greys_files
from pictures import random_indices
from piece_a import BINS_COUNT_AT, COLUMNS_AT, DEPTH_AT, FILE_A, KERNEL_AT, ROWS_AT, changed, number
from random_files import BITS_OF_100, GREYS_SHAPE_BYTES, damage, random_file, random_note
from seeded import SEED, Seeded, random_greys, random_greys_settings
from settings import Settings, total_nodes
from tally import Tally

# Refusals that the reader can answer without a lent level buffer.
READER_REFUSALS = (1, 2, 3, 4, 9, 10, 11, 12, 13, 14, 15, 19)


def check_percentages(tally: Tally) -> None:
    """The percentage rule agrees with the order of the bits."""
    numbers = Seeded(SEED + 5)
    edges = (0, 1, 0x7FFFFF, 0x800000, BITS_OF_100 - 1, BITS_OF_100, BITS_OF_100 + 1, 0x7F7FFFFF, 0x7F800000,
             0x7F800001, 0x7FBFFFFF, 0x7FC00000, 0x7FFFFFFF, 0x80000000, 0x80000001, 0xC2C80000, 0xFFC00000, 0xFFFFFFFF)
    drawn = [numbers.between(0, 2 ** 32 - 1) for _ in range(2000)]
    near = list(range(BITS_OF_100 - 500, BITS_OF_100 + 500))
    for bits in list(edges) + drawn + near:
        tally.equal(f"percentage {bits:08X}", is_percentage_lawful(bits), bits <= BITS_OF_100)


def check_faulty_files(tally: Tally) -> None:
    """Files of both forms whose answers were worked by hand; a refusal holds 0 and not fitted."""
    tally.equal("settings of a refusal", NO_SETTINGS, Settings(0, 0, 0, 0, (0,) * 7, 0, 0))
    for data, answer in faulty_files() + faulty_greys_files():
        name = f"file {data[:64].hex()} of {len(data)}"
        bale = read_bale(data)
        tally.equal(name, bale.refusal, answer)
        if answer != 0:
            held = (bale.settings, bale.note, bale.indices)
            tally.equal(f"{name}, fields", held, (NO_SETTINGS, NONE_FITTED, ()))
            tally.equal(f"{name}, listing", listing(data), f"refused {answer}\n")


def check_lent_levels(tally: Tally) -> None:
    """Refusal 6 comes right after the shape section, and after all that is refused in it."""
    for length in (0, 12, 14, 22359):
        tally.equal(f"whole file, level buffer of {length}", read_bale(FILE_A, length).refusal, 6)
        tally.equal(f"shape only, level buffer of {length}", read_bale(FILE_A[:10], length).refusal, 6)
        tally.equal(f"shape cut, level buffer of {length}", read_bale(FILE_A[:9], length).refusal, 9)
        for place, value, answer in ((0, 5, 10), (COLUMNS_AT, 1, 1), (DEPTH_AT, 7, 13), (COLUMNS_AT, 4, 14),
                                     (ROWS_AT, 4, 15), (KERNEL_AT, 7, 2), (BINS_COUNT_AT, 9, 6)):
            data = changed(place, number(value))
            tally.equal(f"{value} at {place}, level buffer of {length}", read_bale(data, length).refusal, answer)
        for data, answer in broken_shapes():
            tally.equal(f"shape {data[:10].hex()}, level buffer of {length}", read_bale(data, length).refusal, answer)
    tally.equal("shape only, level buffer of 13", read_bale(FILE_A[:10], 13).refusal, 9)


def check_whole_file(tally: Tally, name: str, numbers: Seeded) -> None:
    """Write then read, read then write, every truncation, one byte more."""
    settings = random_greys_settings(numbers, 9)
    note = random_note(numbers)
    indices = random_indices(settings, numbers)
    size = file_size(settings)
    refusal, data = write_bale(settings, note, indices, size)
    tally.equal(f"{name}: written", (refusal, len(data)), (0, size))
    nodes = total_nodes(settings.columns, settings.rows, settings.depth)
    for lent in (nodes, None):
        bale = read_bale(data, lent)
        fields = (bale.refusal, bale.settings, bale.note, list(bale.indices))
        tally.true(f"{name}: written then read", fields == (0, settings, note, indices))
    cut_answers = {read_bale(data[:length]).refusal for length in range(size)}
    tally.equal(f"{name}: every truncation", cut_answers, {9})
    tally.equal(f"{name}: one byte more", read_bale(data + bytes([numbers.between(0, 255)])).refusal, 12)


def check_damaged_files(tally: Tally) -> None:
    """A damaged file is refused, or it is written again byte for byte; every refusal occurs."""
    numbers = Seeded(SEED + 6)
    answers = Counter()
    for turn in range(8000):
        data = damage(random_file(numbers, 7, random_greys(numbers)), numbers, GREYS_SHAPE_BYTES)
        bale = read_bale(data)
        answers[bale.refusal] += 1
        if bale.refusal == 0:
            written = write_bale(bale.settings, bale.note, list(bale.indices), len(data))
            tally.true(f"damaged {turn}: accepted file written again", written == (0, data))
    tally.true(f"damaged files accepted: {answers[0]}", answers[0] > 100)
    tally.equal("answers to damaged files", sorted(answers), sorted((0, *READER_REFUSALS)))
    rarest = min(answers.values())
    tally.true(f"damaged files with the rarest answer: {rarest}", rarest > 20)


def run(tally: Tally) -> None:
    """All checks of the bale file."""
    check_percentages(tally)
    check_faulty_files(tally)
    check_lent_levels(tally)
    numbers = Seeded(SEED + 7)
    for turn in range(60):
        check_whole_file(tally, f"file {turn}", numbers)
    check_damaged_files(tally)
