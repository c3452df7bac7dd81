"""Vectors of the bale file's readers and writer with black and white (document 02, P5)."""

from collections.abc import Iterator

import vectors_files
from faulty_greys import faulty_greys_files
from greys_pieces import CAMERA_FILE
from piece_a import FILE_A
from random_files import GREYS_SHAPE_BYTES, damage, random_file
from seeded import BIN_FAMILIES, GREYS, SEED, Seeded, bins_of, random_greys, random_greys_settings
from settings import KERNELS, LARGEST_DEPTH, Settings, with_greys
from vectors_files import coded_file, one_byte_changed, whole_and_not
from vectors_pyramid import greys_settings_bytes


def whole_files(numbers: Seeded) -> Iterator[bytes]:
    """Every depth, to depth 4 with every kernel, at its smallest square size, and random sizes."""
    for depth in range(LARGEST_DEPTH + 1):
        side = 2 ** depth + 1
        for turn, kernel in enumerate(KERNELS if depth <= 4 else (KERNELS[depth - 3],)):
            settings = Settings(side, side, depth, kernel, bins_of(BIN_FAMILIES[(depth + turn) % 6], depth, numbers))
            yield coded_file(with_greys(settings, GREYS[(depth + turn) % len(GREYS)]), numbers)
    for _ in range(60):
        yield coded_file(random_greys_settings(numbers, 9), numbers)


def damaged_files(numbers: Seeded) -> Iterator[bytes]:
    """Random damage of random whole files."""
    for _ in range(250):
        yield damage(random_file(numbers, 9, random_greys(numbers)), numbers, GREYS_SHAPE_BYTES)


def largest_files(numbers: Seeded) -> Iterator[bytes]:
    """The largest file, whole and not."""
    yield from whole_and_not(Settings(129, 129, 6, 5, bins_of("small", 6, numbers), 16, 235), numbers)


def cases() -> Iterator[bytes]:
    """All cases, each as its bytes."""
    numbers = Seeded(SEED + 800)
    files = [FILE_A, CAMERA_FILE, *(data for data, _ in faulty_greys_files()), *one_byte_changed(CAMERA_FILE)]
    for part in (whole_files, damaged_files, largest_files):
        files += part(numbers)
    for data in files:
        yield vectors_files.case_bytes(data, greys_settings_bytes)
