"""Small pieces whose black and white are not 0 and 255 (document 02, P5), worked by hand, and a file of one of them.

All are 3 by 3 with N = 1. With k = 4 the centre has the weight 1/4 in each node of g1, and EXPAND of a level of one
value is that value. Averages, differences and indices know no black and white: only the last clamp does.
"""

from dataclasses import dataclass, replace

from closed_pieces import PIECE_A, ClosedPiece
from piece_a import BINS_COUNT_AT
from seeded import fill_slots
from settings import Settings, with_greys

# Black and white of the trade's cameras.
CAMERA = (16, 235)


@dataclass(frozen=True)
class GreysPiece(ClosedPiece):
    """A piece with what rebuilding leaves of its open-loop coding, and the bounds of open-loop coding."""

    open_values: list[int]
    open_rebuilt: bytes
    open_bounds: list[int]


def camera_settings(kernel: int, low_bin: int, top_bin: int) -> Settings:
    """3 by 3 at depth 1, black 16 and white 235."""
    return with_greys(Settings(3, 3, 1, kernel, fill_slots([low_bin, top_bin])), CAMERA)


# Piece A of document 01 with black 0 and white 100, its brightest pixel: closed-loop its 104 becomes 100.
WHITE_100 = GreysPiece(
    **vars(replace(PIECE_A, name="A with white 100", settings=with_greys(PIECE_A.settings, (0, 100)),
                   rebuilt=bytes([4, 4, 4, 4, 100, 4, 4, 4, 4]))),
    open_values=[24] * 4 + [-6] * 4 + [94] + [-6] * 4,
    open_rebuilt=bytes([0, 0, 0, 0, 94, 0, 0, 0, 0]),
    open_bounds=[7, 2],
)

# Centre 16, others 235, k = 4, bins 8 (level 0) and 4 (level 1). g1 is 235 - 219/4 = 180.25, so 180; at bin 4 it has
# index 45, since 356 < 360 <= 364, and value 180. The differences are 16 - 180 = -164 and 235 - 180 = 55. At bin 8 they
# have indices -21, since -344 < -328 <= -328, and 7, since 104 < 110 <= 120. Rebuilt: 180 - 168 = 12, which becomes 16,
# and 180 + 56 = 236, which becomes 235. Both manners are alike, since g1 is rebuilt as it was.
BOTH_ENDS = GreysPiece(
    "both ends", camera_settings(4, 8, 4), bytes([235] * 4 + [16] + [235] * 4),
    averages=[180] * 4 + [235] * 4 + [16] + [235] * 4,
    indices=[45] * 4 + [7] * 4 + [-21] + [7] * 4,
    values=[180] * 4 + [236] * 4 + [12] + [236] * 4,
    rebuilt=bytes([235] * 4 + [16] + [235] * 4),
    bounds=[4, 2],
    open_indices=[45] * 4 + [7] * 4 + [-21] + [7] * 4,
    clamped_indices=[45] * 4 + [7] * 4 + [-21] + [7] * 4,
    open_values=[180] * 4 + [236] * 4 + [12] + [236] * 4,
    open_rebuilt=bytes([235] * 4 + [16] + [235] * 4),
    open_bounds=[6, 2],
)

# The same picture with bins 16 and 8. 180 at bin 8 has index 22, since 344 < 360 <= 360, and value 176. Open-loop, at
# bin 16 the -164 has index -10, since -336 < -328 <= -304, and the 55 has 3, since 80 < 110 <= 112: rebuilt 16 and 224.
# Closed-loop the differences are 16 - 176 = -160, with index -10, since -336 < -320 <= -304, and 235 - 176 = 59, with
# index 4, since 112 < 118 <= 144: rebuilt 16 and 240, which becomes 235.
ONE_MANNER = GreysPiece(
    "one manner", camera_settings(4, 16, 8), BOTH_ENDS.picture,
    averages=BOTH_ENDS.averages,
    indices=[22] * 4 + [4] * 4 + [-10] + [4] * 4,
    values=[176] * 4 + [240] * 4 + [16] + [240] * 4,
    rebuilt=bytes([235] * 4 + [16] + [235] * 4),
    bounds=[8, 4],
    open_indices=[22] * 4 + [3] * 4 + [-10] + [3] * 4,
    clamped_indices=[22] * 4 + [4] * 4 + [-10] + [4] * 4,
    open_values=[176] * 4 + [224] * 4 + [16] + [224] * 4,
    open_rebuilt=bytes([224] * 4 + [16] + [224] * 4),
    open_bounds=[12, 4],
)

# Centre 235, others 16, k = 4, bins 10 and 4. g1 is 16 + 219/4 = 70.75, so 71, at bin 4 with index 18, since
# 140 < 142 <= 148, and value 72. Open-loop the differences are 164 and -55, at bin 10 with indices 16, since
# 310 < 328 <= 330, and -6, since -130 < -110 <= -110. Closed-loop they are 163 and -56, with the same indices, since
# 310 < 326 and -130 < -112. Rebuilt: 72 + 160 = 232, and 72 - 60 = 12, which becomes 16.
LOW_END = GreysPiece(
    "low end", camera_settings(4, 10, 4), bytes([16] * 4 + [235] + [16] * 4),
    averages=[71] * 4 + [16] * 4 + [235] + [16] * 4,
    indices=[18] * 4 + [-6] * 4 + [16] + [-6] * 4,
    values=[72] * 4 + [12] * 4 + [232] + [12] * 4,
    rebuilt=bytes([16] * 4 + [232] + [16] * 4),
    bounds=[5, 2],
    open_indices=[18] * 4 + [-6] * 4 + [16] + [-6] * 4,
    clamped_indices=[18] * 4 + [-6] * 4 + [16] + [-6] * 4,
    open_values=[72] * 4 + [12] * 4 + [232] + [12] * 4,
    open_rebuilt=bytes([16] * 4 + [232] + [16] * 4),
    open_bounds=[7, 2],
)

# k = 6: all 235 but (0, 0) = 16, so g1 is 235 - 219 times 0.36, -0.06 / -0.06, 0.01: 156.16, 248.14 / 248.14, 232.81,
# so 156, 248 / 248, 233, above white and not clamped. At bin 20 the indices are 8, since 300 < 312 <= 340, then 12
# twice, since 460 < 496 <= 500, and 12, since 460 < 466. So r1 is 160, 240 / 240, 240, above white and not clamped.
# EXPAND along the rows: 144, 200, 256 / 240, 240, 240. Down the columns: 124.8, 192, 259.2 / 192, 220, 248 / 259.2,
# 248, 236.8, so 125, 192, 259 / 192, 220, 248 / 259, 248, 237. The differences are -109, 43, -24 / 43, 15, -13 / -24,
# -13, -2; at bin 10 their values are -110, 40, -20 / 40, 10, -10 / -20, -10, 0, the 15 being an upper edge. Added: 15,
# 232, 239 / 232, 230, 238 / 239, 238, 237.
#
# Open-loop, EXPAND of g1 along the rows: 137.6, 202, 266.4 / 251, 240.5, 230. Down the columns: 114.92, 194.3, 273.68 /
# 194.3, 221.25, 248.2 / 273.68, 248.2, 222.72, so 115, 194, 274 / 194, 221, 248 / 274, 248, 223. The differences are
# -99, 41, -39 / 41, 14, -13 / -39, -13, 12; their values -100, 40, -40 / 40, 10, -10 / -40, -10, 10 are added to EXPAND
# of r1: 25, 232, 219 / 232, 230, 238 / 219, 238, 247.
#
# From r1 clamped to white, 160, 235 / 235, 235, EXPAND would be 127, 190, 253 / 190, 216, 243 / 253, 243, 232, rounded
# from 216.25 and 242.5 where it is not whole, and the differences -111, 45, -18 / 45, 19, -8 / -18, -8, 3.
ABOVE_WHITE = GreysPiece(
    "above white", camera_settings(6, 10, 20), bytes([16] + [235] * 8),
    averages=[156, 248, 248, 233] + [16] + [235] * 8,
    indices=[8, 12, 12, 12] + [-11, 4, -2, 4, 1, -1, -2, -1, 0],
    values=[160, 240, 240, 240] + [15, 232, 239, 232, 230, 238, 239, 238, 237],
    rebuilt=bytes([16, 232, 235, 232, 230, 235, 235, 235, 235]),
    bounds=[5, 10],
    open_indices=[8, 12, 12, 12] + [-10, 4, -4, 4, 1, -1, -4, -1, 1],
    clamped_indices=[8, 12, 12, 12] + [-11, 4, -2, 4, 2, -1, -2, -1, 0],
    open_values=[160, 240, 240, 240] + [25, 232, 219, 232, 230, 238, 219, 238, 247],
    open_rebuilt=bytes([25, 232, 219, 232, 230, 235, 219, 235, 235]),
    open_bounds=[25, 10],
)

GREYS_PIECES = (WHITE_100, BOTH_ENDS, ONE_MANNER, LOW_END, ABOVE_WHITE)

# The file of BOTH_ENDS with the readings of piece A: 62 bytes, the first count being 6.
CAMERA_FILE = bytes.fromhex(
    "06 00 03 00 03 00 01 00 04 00 10 00 EB 00"
    "02 00 04 00 08 00"
    "02 00 01 00 00 D0 40 00 00 00 00 00"
    "04 00 2D 00 2D 00 2D 00 2D 00"
    "09 00 07 00 07 00 07 00 07 00 EB FF 07 00 07 00 07 00 07 00"
)

CAMERA_LISTING = """\
picture 3 3 depth 1 kernel 4
moisture 40D00000 none
level 1 2 2 bin 4 within 2
level 0 3 3 bin 8 within 6
"""

# Places of black and white, where the next section of piece A's file begins, and how far all after them is moved.
BLACK_AT, WHITE_AT = BINS_COUNT_AT, BINS_COUNT_AT + 2
MOVED = 4
