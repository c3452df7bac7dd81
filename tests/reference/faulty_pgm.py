"""Small PGM files, lawful and not, with the answers of the reader that is lent no picture.

The answers here are worked from document 02 by hand, not by the reader, so that the self-check can compare them.
"""

from itertools import product

Case = tuple[bytes, int]

# A newline, a #, a digit and a byte that is no letter: pixels that a reader which skips too much takes for the header.
PIXELS = b"\n#0\xFF"
PLAIN_HEADER = b"P5\n2 2\n255\n"
# Its single form's header is the plain one.
COMMENTED_HEADER = b"P5\n#a\n2 2\n255\n"

SPACES = (b" ", b"\t", b"\n", b"\r")

# Mixtures of white space and comments, each lawful before a number.
GAPS = (b"  ", b"\r\n", b"\n\n\n", b" \t\n\r", b"#\n", b"#a\n", b" #a\n", b"#a\n ", b"\r#a\n\t", b"#a\n#b\n",
        b"#\n#\n#\n", b"##\n", b"# 9 9 9\n", b"#P5\n", b"#a\rb\n", b"#a\r\n", b"#\0\xFF\n", b" #a\n\t#b\r\n\r",
        b"#" + b"x" * 300 + b"\n")

# The order in which the reader and the writer look for refusals.
READER_ORDER = (16, 1, 17, 18, 5)
WRITER_ORDER = (1, 5, 8)


def headed(gaps: tuple[bytes, ...], numbers: tuple[bytes, ...] = (b"2", b"2", b"255"), pixels: bytes = PIXELS) -> bytes:
    """A file from what stands before each number and after the last, the three numbers and the pixels."""
    parts = [b"P5"]
    for gap, number in zip(gaps[:-1], numbers, strict=True):
        parts += [gap, number]
    return b"".join(parts) + gaps[-1] + pixels


def spaced(columns: bytes, rows: bytes, greatest_grey: bytes, pixels: bytes = PIXELS) -> bytes:
    """A file with three numbers and one space at each place."""
    return headed((b" ",) * 4, (columns, rows, greatest_grey), pixels)


def beginnings() -> list[Case]:
    """Every beginning of a file with a comment: 16 until the pixels' start is there, then 18."""
    whole = COMMENTED_HEADER + PIXELS
    return [(whole[:length], 16 if length < len(COMMENTED_HEADER) else 18) for length in range(len(whole))]


def white_spaces() -> list[Case]:
    """All four kinds at all four places; no other byte is white space, and none may be missing."""
    cases = [(headed(gaps), 0) for gaps in product(SPACES, repeat=4)]
    for place in range(4):
        for other in (b"", b"\0", b"\v", b"\f", b"\x1C", b"\x85", b"\xA0", b"_"):
            cases.append((headed((b" ",) * place + (other,) + (b" ",) * (3 - place), pixels=b"abcd"), 16))
    # Where it is missing before the rows, the two numbers are one: 22, 255 and greatest grey 2. Where it is missing
    # before the pixels, a first pixel that is a newline stands for it.
    return cases + [(headed((b" ", b"", b" ", b" "), pixels=b"2 22"), 1), (headed((b" ", b" ", b" ", b"")), 18)]


def gaps_at_every_place() -> list[Case]:
    """Mixtures before each number are lawful; before the pixels one byte is white space, and the rest is pixels."""
    cases = []
    for gap in GAPS:
        cases += [(headed((gap, b" ", b" ", b" ")), 0), (headed((b" ", gap, b" ", b" ")), 0),
                  (headed((b" ", b" ", gap, b" ")), 0), (headed((gap, gap, gap, b"\n")), 0)]
        cases.append((headed((b" ", b" ", b" ", gap)), 16 if gap.startswith(b"#") else 18))
        # With as many pixels fewer as the mixture has bytes too many, it is the first of them.
        if len(gap) <= 5 and not gap.startswith(b"#"):
            cases.append((headed((b" ", b" ", b" ", gap), pixels=PIXELS[len(gap) - 1:]), 0))
    return cases


def comments() -> list[Case]:
    """Comments where none may be, and comments with no newline."""
    return [
        # Before and inside P5.
        (b"#a\n" + PLAIN_HEADER + PIXELS, 16),
        (b"#a\nP5 2 2 255 abcd", 16),
        (b"P#a\n5 2 2 255 abcd", 16),
        (b"P#5 2 2 255 abcd", 16),
        # Inside a number it ends the number: 1 by 7; 2 by 2 and greatest grey 2 or 9; greatest grey 2, then no space.
        (b"P5 1#a\n7 2 255 abcd", 1),
        (b"P5 2#a\n2 2 255 abcd", 17),
        (b"P5 2 2#a\n9 255 abcd", 17),
        (b"P5 2 2 2#a\n55 abcd", 16),
        (b"P5 2 2 255#a\n abcd", 16),
        (b"P5 2 2 255#a\nabcd", 16),
        (b"P5 2 2 255#", 16),
        # After the one white space byte it is pixels.
        (b"P5 2 2 255 #a\n!", 0),
        (b"P5 2 2 255 #abc", 0),
        (b"P5 2 2 255 ####", 0),
        (b"P5 2 2 255 #a\nabcd", 18),
        (b"P5 2 2 255 abcd#", 18),
        (b"P5 2 2 255 abcd#a\n", 18),
        (b"P5 2 2 255\n#\n#\n", 0),
        # With no newline it goes on to the file's end.
        (b"P5#a 2 2 255 abcd", 16),
        (b"P5 #a 2 2 255 abcd", 16),
        (b"P5 #a\r2 2 255 abcd", 16),
        (b"P5 2#a 2 255 abcd", 16),
        (b"P5 2 #a 2 255 abcd", 16),
        (b"P5 2 2#a 255 abcd", 16),
        (b"P5 2 2 #a 255 abcd", 16),
        (b"P5#", 16),
        (b"P5 2 2 #", 16),
        (b"P5#\n", 16),
        # The next newline is later than it seems: the rows, the grey and the pixels are swallowed or moved.
        (b"P5 #2 2 255\nabcd", 16),
        (b"P5 #2 2 255\n2 2 255\nabcd", 0),
        (b"P5 2 #2 255\n2 255\nabcd", 0),
        (b"P5 2 2 #255 abcd\n255 abcd", 0),
        (b"P5 2 2 #255 abcd\n254 abcd", 17),
        (b"P5 2 2 #255 abcd\n255 abc", 18),
    ]


def digits() -> list[Case]:
    """One to six digits in each number, zeros in front among them, none, and signs, points and letters."""
    cases = []
    for length in range(1, 7):
        answer = 16 if length == 6 else 0
        two = b"2".rjust(length, b"0")
        grey = b"255".rjust(length, b"0")
        cases += [(spaced(two, b"2", b"255"), answer), (spaced(b"2", two, b"255"), answer),
                  (spaced(two, two, grey), answer if length >= 3 else 0)]
        if length >= 3:
            cases.append((spaced(b"2", b"2", grey), answer))
        # All nines, and all zeros: 9 columns or rows are lawful and the pixels too few, 99 too.
        nines, zeros = b"9" * length, b"0" * length
        side_answer = {1: 18, 2: 18, 6: 16}.get(length, 1)
        cases += [(spaced(nines, b"2", b"255"), side_answer), (spaced(b"2", nines, b"255"), side_answer)]
        cases += [(spaced(zeros, b"2", b"255"), 16 if length == 6 else 1),
                  (spaced(b"2", zeros, b"255"), 16 if length == 6 else 1)]
        cases += [(spaced(b"2", b"2", text), 16 if length == 6 else 17) for text in (nines, zeros)]
    for text in (b"", b"+2", b"-2", b"2.0", b"0x2", b"2a", b"a", b"2-", b"2,", b"/", b":", b"\xB2", b"2\0",
                 b"000000255"):
        cases += [(spaced(text, b"2", b"255"), 16), (spaced(b"2", text, b"255"), 16), (spaced(b"2", b"2", text), 16)]
    return cases


def magics() -> list[Case]:
    """The first two bytes: the other kinds of Netpbm, and near misses."""
    others = (b"P1", b"P2", b"P3", b"P4", b"P6", b"P7", b"p5", b"5P", b"P", b"5", b"", b" P5", b"\nP5",
              b"\xEF\xBB\xBFP5", b"PP5", b"P55", b"P05", b"P5a", b"P 5")
    return [(other + b" 2 2 255 abcd", 16) for other in others] + [(b"P52 2 255 abcd", 16)]


def sizes() -> list[Case]:
    """Sides at both ends of their range and far outside: 65538 is 2 if only its low 16 bits are looked at."""
    sides = (0, 1, 2, 129, 130, 255, 258, 65535, 65538, 99999)
    cases = []
    for columns, rows in product(sides, repeat=2):
        lawful = columns in (2, 129) and rows in (2, 129)
        if (columns, rows) == (129, 129):
            continue
        pixels = b"\x80" * (columns * rows if lawful or columns * rows <= 260 else 4)
        cases.append((spaced(b"%d" % columns, b"%d" % rows, b"255", pixels), 0 if lawful else 1))
    return cases + [(spaced(b"3", b"2", b"255", b"abcdef"), 0), (spaced(b"2", b"3", b"255", b"abcdef"), 0)]


def greatest_greys() -> list[Case]:
    """Only 255 is accepted, whether pixels are one byte or two; 65791 is 255 if only its low 16 bits are looked at."""
    lawful = [(spaced(b"2", b"2", text), 0) for text in (b"255", b"0255", b"00255")]
    others = (0, 1, 15, 25, 127, 254, 256, 511, 2550, 25500, 65535, 65791, 99999)
    return lawful + [(spaced(b"2", b"2", b"%d" % grey, pixels), 17)
                     for grey in others for pixels in (PIXELS, PIXELS * 2)]


def pixel_counts() -> list[Case]:
    """None, one too few, one too many and far too many; 65,540 is 4 if only its low 16 bits are looked at."""
    cases = [(PLAIN_HEADER + b"\x80" * count, 0 if count == 4 else 18) for count in (0, 1, 3, 4, 5, 8, 260, 65540)]
    cases += [(spaced(b"3", b"2", b"255", b"\n" * count), 0 if count == 6 else 18) for count in range(9)]
    # Two pictures, one after the other; and a carriage return and a newline before the pixels.
    return cases + [((PLAIN_HEADER + PIXELS) * 2, 18), (b"P5\r\n2 2\r\n255\r\nabcd", 18),
                    (b"P5\r\n2 2\r\n255\r\nabc", 0)]


def first_of(faults: tuple[int, ...], order: tuple[int, ...]) -> int:
    """The number that several faults together are answered with, or 0 if there are none."""
    return next((number for number in order if number in faults), 0)


# What breaks each rule of the reader: the first two bytes, the columns, the greatest grey, and pixels more or fewer.
BROKEN_HEADERS = (
    (b"P6", b" ", b""), (b"P5", b"", b""), (b"P5", b" ", b"0000000"), (b"P5", b" #a", b""), (b"P5", b" ", b"-"),
)
UNLAWFUL_SIDES = (0, 1, 130, 65538)
OTHER_GREYS = (254, 256, 65791)
OTHER_COUNTS = (-1, 1)


def broken_sets() -> list[tuple[bytes, int, tuple[int, ...]]]:
    """Files that break every set of the rules 16, 1, 17, 18 in several ways, with columns times rows, and the set."""
    result = []
    for broken in product((False, True), repeat=4):
        faults = tuple(number for number, is_broken in zip((16, 1, 17, 18), broken, strict=True) if is_broken)
        headers = BROKEN_HEADERS if 16 in faults else ((b"P5", b" ", b""),)
        for magic, gap, front in headers:
            for turn in range(4):
                side = UNLAWFUL_SIDES[turn] if 1 in faults else 2 + turn
                grey = OTHER_GREYS[turn % 3] if 17 in faults else 255
                columns, rows = (side, 3) if turn % 2 == 0 else (3, side)
                count = columns * rows + (OTHER_COUNTS[turn // 2] if 18 in faults else 0)
                if side == 65538:
                    # So many pixels would fill the vectors: the count is wrong, and one off for the low 16 bits.
                    if 18 not in faults:
                        continue
                    count = 2 * 3 + OTHER_COUNTS[turn // 2]
                header = magic + gap + front + b"%d %d %d " % (columns, rows, grey)
                # Of no pixels none can be missing.
                result.append((header + b"\x80" * (count if count >= 0 else 1), columns * rows, faults))
    return result


def several_faults() -> list[Case]:
    """The files of every set, answered with its first."""
    return [(data, first_of(faults, READER_ORDER)) for data, _, faults in broken_sets()]


def faulty_pgms() -> list[Case]:
    """All of them."""
    return (beginnings() + white_spaces() + gaps_at_every_place() + comments() + digits() + magics() + sizes()
            + greatest_greys() + pixel_counts() + several_faults())
