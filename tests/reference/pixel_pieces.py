"""Windows and pixels of document 02, P6, worked by hand."""

from dataclasses import dataclass

from piece_a import INDICES_A, SETTINGS_A
from seeded import fill_slots
from settings import Settings, with_greys

# Side, depth, position, and the first and last position of the range at each of the levels 0 to N.
AXES: tuple[tuple[int, int, int, tuple[tuple[int, int], ...]], ...] = (
    # At depth 0 the pixel alone.
    (2, 0, 0, ((0, 0),)), (129, 0, 77, ((77, 77),)),
    # Level 1 has 2 positions: (0 - 2)/2 = -1 becomes 0, (0 + 2)/2 = 1; (1 - 2)/2 = -1/2 becomes 0, (1 + 2)/2 = 3/2
    # becomes 1; (2 - 2)/2 = 0, (2 + 2)/2 = 2 becomes 1, the last position.
    (3, 1, 0, ((0, 0), (0, 1))), (3, 1, 1, ((1, 1), (0, 1))), (3, 1, 2, ((2, 2), (0, 1))),
    # Level 1 has 3: 2 becomes 0 to 2; 3 becomes 1/2 up, 1, to 5/2 down, 2; 4 becomes 1 to 3, kept at 2.
    (5, 1, 2, ((2, 2), (0, 2))), (5, 1, 3, ((3, 3), (1, 2))), (5, 1, 4, ((4, 4), (1, 2))),
    # Level 2 has 2: 0 to 1 becomes -1, kept at 0, to 3/2 down; 0 to 2 becomes -1 to 2, kept at 0 to 1; 1 to 2 becomes
    # -1/2 up to 2, kept at 1.
    (5, 2, 0, ((0, 0), (0, 1), (0, 1))), (5, 2, 2, ((2, 2), (0, 2), (0, 1))), (5, 2, 3, ((3, 3), (1, 2), (0, 1))),
    # Level 1 has 5, level 2 has 3: 1 is 0 to 1, then 0 to 3/2 down; 3 is 1 to 2, then -1/2 up to 2; 4 is 1 to 3, then
    # -1/2 up to 5/2 down; 7 is 5/2 up to 9/2 down, 3 to 4, then 1/2 up to 3, kept at 2.
    (9, 2, 1, ((1, 1), (0, 1), (0, 1))), (9, 2, 3, ((3, 3), (1, 2), (0, 2))), (9, 2, 4, ((4, 4), (1, 3), (0, 2))),
    (9, 2, 7, ((7, 7), (3, 4), (1, 2))),
    # Level 2 has 4: 6 is 2 to 4, then 0 to 3, the smallest place where all four are read; 5 is 3/2 up to 7/2 down, 2 to
    # 3, then 0 to 5/2 down.
    (13, 2, 6, ((6, 6), (2, 4), (0, 3))), (13, 2, 5, ((5, 5), (2, 3), (0, 2))),
    # The ends of the largest side: each level's first two positions, and its last two.
    (129, 6, 0, ((0, 0),) + ((0, 1),) * 6),
    (129, 6, 128, ((128, 128), (63, 64), (31, 32), (15, 16), (7, 8), (3, 4), (1, 2))),
    # 44 is 21 to 23; 19/2 up to 25/2 down, 10 to 12; 4 to 7; 1 to 9/2 down, 4; -1/2 up to 3; -1, kept at 0, to 5/2
    # down.
    (129, 6, 44, ((44, 44), (21, 23), (10, 12), (4, 7), (1, 4), (0, 3), (0, 2))),
    # 34 is 16 to 18; 7 to 10; 5/2 up to 6, 3 to 6; 1/2 up to 4, 1 to 4; -1/2 up to 3; 0 to 2: the most at depth 6.
    (129, 6, 34, ((34, 34), (16, 18), (7, 10), (3, 6), (1, 4), (0, 3), (0, 2))),
)

# The most nodes in the windows at depths 0 to 6. At depth 0 it is 1, and to depth 5 it is 1 + 9 + 16(N - 1). At depth 6
# no side has more than 3 positions at level 6, so that 9 stands in place of the last 16.
MOST_READ = (1, 10, 26, 42, 58, 74, 83)


@dataclass(frozen=True)
class PixelPiece:
    """Settings, indices, and for some places column, row, refusal, pixel and number of indices read."""

    name: str
    settings: Settings
    indices: list[int]
    answers: tuple[tuple[int, int, int, int, int], ...]


# Document 01 has the rebuilding: centre 94, others -6, clamped to 0. All four nodes of level 1 are read for each pixel:
# 1 + 4.
PIECE_A = PixelPiece("piece A", SETTINGS_A, INDICES_A,
                     tuple((i, j, 0, 94 if (i, j) == (1, 1) else 0, 5) for j in range(3) for i in range(3)))
# The same, with an unlawful index at the centre: 410 at bin 10 is 4,100.
PIECE_A_CENTRE = PixelPiece(
    "piece A, unlawful centre", SETTINGS_A, INDICES_A[:8] + [410] + INDICES_A[9:],
    tuple((i, j, 11, 0, 0) if (i, j) == (1, 1) else (i, j, 0, 0, 5) for j in range(3) for i in range(3)))
# And with an unlawful index at one node of level 1: -1,025 at bin 4 is -4,100.
PIECE_A_TOP = PixelPiece("piece A, unlawful top", SETTINGS_A, [6, 6, 6, -1025] + INDICES_A[4:],
                         tuple((i, j, 11, 0, 0) for j in range(3) for i in range(3)) + ((3, 0, 21, 0, 0),))

# 5 by 5 at depth 2 with bins 1 and k = 4. EXPAND takes along an axis 0.1, 0.8, 0.1 at an even place and 0.5, 0.5 at an
# odd one, and at the ends 0.8, 0.2. Level 2 is 100, 0 / 0, 0, so EXPAND of it is 100 times the products of 0.8, 0.5,
# 0.2 with themselves: 64, 40, 16 / 40, 25, 10 / 16, 10, 4. At level 1 the last index is 140 and the others are 0, so r1
# ends with 144. Level 0 is 0, so pixels are EXPAND of r1, here taken along the rows first:
# (0, 0): 51.2 + 8 = 59.2 and 32 + 5 = 37; 47.36 + 7.4 = 54.76. Read: 1 + 2 x 2 + 2 x 2.
# (3, 0): 20 + 8 = 28 and 12.5 + 5 = 17.5; 22.4 + 3.5 = 25.9. Read: 1 + 2 x 2 + 2 x 2.
# (2, 1): 6.4 + 32 + 1.6 = 40 and 4 + 20 + 1 = 25; 20 + 12.5 = 32.5, rounded up. Read: 1 + 3 x 2 + 2 x 2.
# (2, 2): 40, 25 and 1.6 + 8 + 14.4 = 24; 4 + 20 + 2.4 = 26.4. Read: 1 + 3 x 3 + 2 x 2.
# (4, 4): 5 + 8 = 13 and 2 + 115.2 = 117.2; 2.6 + 93.76 = 96.36. Read: 1 + 2 x 2 + 2 x 2.
# (1, 2) is (2, 1), and (0, 3) is (3, 0), since all levels are alike when turned over that diagonal.
FIVE_INDICES = [100, 0, 0, 0] + [0] * 8 + [140] + [0] * 25
FIVE = PixelPiece(
    "five by five", Settings(5, 5, 2, 4, fill_slots([1, 1, 1])), FIVE_INDICES,
    ((0, 0, 0, 55, 9), (3, 0, 0, 26, 9), (2, 1, 0, 33, 11), (2, 2, 0, 26, 14), (4, 4, 0, 96, 9), (1, 2, 0, 33, 11),
     (0, 3, 0, 26, 9), (5, 4, 21, 0, 0), (4, 5, 21, 0, 0)))
# The same with black 30 and white 90.
FIVE_GREYS = PixelPiece(
    "five by five with 30 and 90", with_greys(FIVE.settings, (30, 90)), FIVE_INDICES,
    ((0, 0, 0, 55, 9), (3, 0, 0, 30, 9), (2, 1, 0, 33, 11), (2, 2, 0, 30, 14), (4, 4, 0, 90, 9)))
# The same with the last index of level 1 out of range, which no pixel in columns or rows 0 and 1 reads. (3, 1): 28 and
# 17.5; 14 + 8.75 = 22.75. Read: 1 + 2 x 2 + 2 x 2.
FIVE_UNREAD = PixelPiece(
    "five by five, unlawful in level 1", FIVE.settings, FIVE_INDICES[:12] + [-32768] + FIVE_INDICES[13:],
    ((0, 0, 0, 55, 9), (2, 1, 0, 33, 11), (1, 2, 0, 33, 11), (2, 2, 11, 0, 0), (3, 2, 11, 0, 0), (4, 4, 11, 0, 0),
     (3, 1, 0, 23, 9), (3, 3, 11, 0, 0), (5, 5, 21, 0, 0)))

# 3 columns and 5 rows at depth 1 with bins 1 and k = 5, so that EXPAND copies at even places and takes the mean at odd
# ones. Level 1 is 2 by 3. The weight at distance 2 is 0, but that node is read. Read: 1 + 2 x 2 in rows 0, 1, 3 and 4,
# and 1 + 2 x 3 in row 2.
TALL_SETTINGS = Settings(3, 5, 1, 5, fill_slots([1, 1]))
TALL = PixelPiece(
    "three by five", TALL_SETTINGS, [10, 20, 30, 40, 50, 60] + [0] * 15,
    ((0, 0, 0, 10, 5), (1, 0, 0, 15, 5), (1, 1, 0, 25, 5), (2, 2, 0, 40, 7), (1, 2, 0, 35, 7), (0, 3, 0, 40, 5),
     (1, 3, 0, 45, 5), (2, 4, 0, 60, 5), (3, 0, 21, 0, 0), (0, 5, 21, 0, 0), (4, 2, 21, 0, 0)))
# The last row of level 1 out of range: row 2 reads it, though with the weight 0; rows 0 and 1 don't.
TALL_UNREAD = PixelPiece(
    "three by five, unlawful in level 1", TALL_SETTINGS, [10, 20, 30, 40, 4097, 32767] + [0] * 15,
    ((0, 0, 0, 10, 5), (1, 0, 0, 15, 5), (1, 1, 0, 25, 5), (2, 2, 11, 0, 0), (1, 2, 11, 0, 0), (0, 3, 11, 0, 0),
     (2, 4, 11, 0, 0), (4, 2, 21, 0, 0)))

# 2 by 2 at depth 0 and bin 255: 17 is 4,335, and each pixel is read alone.
FLAT = PixelPiece("two by two", Settings(2, 2, 0, 6, fill_slots([255])), [17, 1, -32768, -16],
                  ((0, 0, 11, 0, 0), (1, 0, 0, 255, 1), (0, 1, 11, 0, 0), (1, 1, 0, 0, 1), (2, 1, 21, 0, 0)))

PIXEL_PIECES = (PIECE_A, PIECE_A_CENTRE, PIECE_A_TOP, FIVE, FIVE_GREYS, FIVE_UNREAD, TALL, TALL_UNREAD, FLAT)
