"""Vectors of the bale file's readers and writer."""

import struct
from collections.abc import Iterator

from bale import Bale, FileCursor, read_bale, read_shape, write_bale
from faulty_files import faulty_files
from pictures import lawful_picture, patterned_indices, random_indices
from piece_a import FILE_A
from pyramid import code
from random_files import damage, random_file, random_note
from seeded import BIN_FAMILIES, SEED, Seeded, bins_of
from settings import ACCEPTED, KERNELS, LARGEST_DEPTH, Refused, Settings, total_nodes
from vectors_pyramid import SettingsForm, settings_bytes

# Further whole sizes and depths.
SHAPES = ((2, 3, 0), (3, 2, 0), (129, 2, 0), (2, 129, 0), (129, 3, 1), (3, 129, 1), (7, 11, 1), (13, 5, 2), (5, 21, 2),
          (9, 17, 3), (25, 9, 3), (17, 33, 4), (49, 17, 4), (33, 65, 5), (97, 33, 5), (65, 129, 6))
# Changes of one byte: to these values, and by these differences.
BYTE_VALUES = (0, 1, 2, 3, 5, 16, 127, 128, 255)
BYTE_STEPS = (1, -1)


def shape_nodes(data: bytes) -> int:
    """T of the shape section, or 0 where the reader refuses that section."""
    try:
        columns, rows, depth, *_ = read_shape(FileCursor(data))
    except Refused:
        return 0
    return total_nodes(columns, rows, depth)


def answer_bytes(bale: Bale, form: SettingsForm) -> bytes:
    """An accepted file's settings (bins: slot 0 first), readings and indices, as the reference decoded them."""
    readings = b"".join(struct.pack("<BI", reading.kind, reading.bits) for reading in bale.note)
    return form(bale.settings) + readings + struct.pack(f"<{len(bale.indices)}h", *bale.indices)


def case_bytes(data: bytes, form: SettingsForm = settings_bytes) -> bytes:
    """One case: the answer of the reader that is lent no level buffer, T, the file, and what an accepted one says."""
    bale = read_bale(data)
    head = struct.pack("<HHI", bale.refusal, shape_nodes(data), len(data))
    return head + data + (answer_bytes(bale, form) if bale.refusal == ACCEPTED else b"")


def written(settings: Settings, indices: list[int], numbers: Seeded) -> bytes:
    """A whole file with random readings."""
    refusal, data = write_bale(settings, random_note(numbers), indices, 2 ** 16)
    assert refusal == 0
    return data


def coded_file(settings: Settings, numbers: Seeded) -> bytes:
    """A whole file of a coded picture."""
    nodes = total_nodes(settings.columns, settings.rows, settings.depth)
    picture = lawful_picture("noise", settings, numbers)
    return written(settings, code(settings, picture, nodes, nodes).indices, numbers)


def whole_files(numbers: Seeded) -> Iterator[bytes]:
    """Every depth with every kernel, and many sizes."""
    for depth in range(LARGEST_DEPTH + 1):
        side = 2 ** depth + 1
        for turn, kernel in enumerate(KERNELS):
            family = BIN_FAMILIES[(depth + turn) % len(BIN_FAMILIES)]
            settings = Settings(side, side, depth, kernel, bins_of(family, depth, numbers))
            yield coded_file(settings, numbers)
    for columns, rows, depth in SHAPES:
        bins = bins_of(numbers.choice(BIN_FAMILIES), depth, numbers)
        settings = Settings(columns, rows, depth, numbers.choice(KERNELS), bins)
        yield written(settings, random_indices(settings, numbers), numbers)
    for family in ("one", "two", "largest"):
        settings = Settings(5, 9, 2, 6, bins_of(family, 2, numbers))
        yield written(settings, patterned_indices(settings, "node"), numbers)


def one_byte_changed(data: bytes) -> Iterator[bytes]:
    """A file with every single byte changed in several ways."""
    for place, old in enumerate(data):
        new_bytes = set(BYTE_VALUES) | {(old + step) % 256 for step in BYTE_STEPS}
        for new in sorted(new_bytes - {old}):
            yield data[:place] + bytes([new]) + data[place + 1:]


def damaged_files(numbers: Seeded) -> Iterator[bytes]:
    """Random damage of random whole files, and random bytes."""
    for _ in range(400):
        yield damage(random_file(numbers, 9), numbers)
    for length in range(1, 21):
        yield numbers.draw_bytes(length)


def whole_and_not(settings: Settings, numbers: Seeded) -> Iterator[bytes]:
    """A file, the same with its last byte missing, and with one byte more."""
    data = coded_file(settings, numbers)
    yield data
    yield data[:-1]
    yield data + b"\0"


def largest_files(numbers: Seeded) -> Iterator[bytes]:
    """The largest file with four numbers in its shape section, whole and not."""
    yield from whole_and_not(Settings(129, 129, 6, 6, bins_of("small", 6, numbers)), numbers)


def cases() -> Iterator[bytes]:
    """All cases, each as its bytes."""
    numbers = Seeded(SEED + 200)
    yield case_bytes(FILE_A)
    for data, _ in faulty_files():
        yield case_bytes(data)
    for data in one_byte_changed(FILE_A):
        yield case_bytes(data)
    for part in (whole_files, damaged_files, largest_files):
        for data in part(numbers):
            yield case_bytes(data)
