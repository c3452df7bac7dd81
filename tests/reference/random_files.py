"""Seeded whole bale files, and damage to them."""

from bale import FAULT, NOT_FITTED, PERCENTAGE, Note, Reading, write_bale
from pictures import random_indices
from seeded import Seeded, random_settings
from settings import FULL_GREYS, with_greys

# Bits of the 32-bit float 100. Floats with a clear sign bit are ordered as their bits are.
BITS_OF_100 = 0x42C80000

# Bytes of the shape section, whose damage changes what is looked for in all others, without and with black and white.
SHAPE_BYTES = 10
GREYS_SHAPE_BYTES = 14


def random_reading(numbers: Seeded) -> Reading:
    """A lawful reading."""
    kind = numbers.choice((NOT_FITTED, PERCENTAGE, FAULT))
    if kind == PERCENTAGE:
        return Reading(kind, numbers.between(0, BITS_OF_100))
    return Reading(kind, numbers.between(1, 255) if kind == FAULT else 0)


def random_note(numbers: Seeded) -> Note:
    """Two lawful readings."""
    return random_reading(numbers), random_reading(numbers)


def random_file(numbers: Seeded, largest_side: int, greys: tuple[int, int] = FULL_GREYS) -> bytes:
    """A whole lawful file with a black and a white."""
    settings = with_greys(random_settings(numbers, largest_side), greys)
    refusal, data = write_bale(settings, random_note(numbers), random_indices(settings, numbers), 2 ** 16)
    assert refusal == 0
    return data


def damage_once(damaged: bytearray, numbers: Seeded, shape_bytes: int) -> None:
    """Change, drop or put in one byte, or cut the file; one of four changes, drops and cuts is in the shape section."""
    way = numbers.between(0, 9)
    if way == 0:
        damaged.insert(numbers.between(0, len(damaged)), numbers.between(0, 255))
        return
    if way == 1:
        damaged.append(numbers.between(0, 255))
        return
    if not damaged:
        return
    end = shape_bytes if numbers.between(0, 3) == 0 else len(damaged)
    place = numbers.between(0, min(end, len(damaged)) - 1)
    if way == 2:
        del damaged[place]
    elif way == 3:
        del damaged[place:]
    elif way <= 6:
        damaged[place] = (damaged[place] + numbers.choice((1, 255))) % 256
    else:
        damaged[place] = numbers.between(0, 255)


def damage(data: bytes, numbers: Seeded, shape_bytes: int = SHAPE_BYTES) -> bytes:
    """A file damaged one to three times."""
    damaged = bytearray(data)
    for _ in range(numbers.between(1, 3)):
        damage_once(damaged, numbers, shape_bytes)
    return bytes(damaged)
