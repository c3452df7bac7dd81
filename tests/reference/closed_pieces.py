"""Small pieces of closed-loop coding (document 02, P4), worked by hand.

In three of them EXPAND makes 3 by 3 nodes out of 2 by 2. Along an axis the values a, b become (w0 a + 2 w2 b)/10,
(a + b)/2 and (w0 b + 2 w2 a)/10, with the weights in twentieths: the factor 4 is 2 for each axis, and both positions
at distance 2 are the other node. With k = 4 these are 0.8 a + 0.2 b, 0.5 a + 0.5 b, 0.2 a + 0.8 b; with k = 6 they are
1.2 a - 0.2 b, 0.5 a + 0.5 b, 1.2 b - 0.2 a.
"""

from dataclasses import dataclass, replace

from piece_a import AVERAGES_A, FILE_A, INDICES_A, LOW_INDICES_AT, PICTURE_A, SETTINGS_A
from seeded import fill_slots
from settings import KERNELS, Settings


@dataclass(frozen=True)
class ClosedPiece:
    """A picture and what its codings leave. All lists are in flat order but the bounds, which have level 0 first."""

    name: str
    settings: Settings
    picture: bytes
    averages: list[int]
    # Closed-loop coding: indices, unclamped rebuilt values, rebuilt picture, bounds.
    indices: list[int]
    values: list[int]
    rebuilt: bytes
    bounds: list[int]
    # Open-loop coding.
    open_indices: list[int]
    # What a coder would leave that clamps each rebuilt level to black and white before it predicts from it, by mistake.
    clamped_indices: list[int]


# Piece A of document 01: 3 by 3, N = 1, k = 4, centre 100, others 0, bins 10 (level 0) and 4 (level 1). g1 is 25 four
# times; 25 at bin 4 has index 6, since 44 < 50 <= 52, and value 24. EXPAND of 24 is 24, not the 25 of open-loop coding,
# so the differences are 100 - 24 = 76 at the centre and -24 elsewhere. At bin 10 the index of 76 is 8, since
# 150 < 152 <= 170, and of -24 it is -2, since -50 < -48 <= -30. Rebuilt: 24 + 80 = 104, others 24 - 20 = 4.
PIECE_A = ClosedPiece(
    "A", SETTINGS_A, PICTURE_A, AVERAGES_A,
    indices=[6] * 4 + [-2] * 4 + [8] + [-2] * 4,
    values=[24] * 4 + [4] * 4 + [104] + [4] * 4,
    rebuilt=bytes([4, 4, 4, 4, 104, 4, 4, 4, 4]),
    bounds=[5, 2],
    open_indices=INDICES_A,
    clamped_indices=[6] * 4 + [-2] * 4 + [8] + [-2] * 4,
)

# The file of piece A coded closed-loop, 58 bytes: document 01's, but for the indices of level 0.
CLOSED_FILE_A = FILE_A[:LOW_INDICES_AT] + bytes.fromhex("FE FF FE FF FE FF FE FF 08 00 FE FF FE FF FE FF FE FF")

# Document 01's picture with k = 6: all 255 but (0, 0) = 0. g1 is 163, 270 / 270, 252; at bin 20 its indices are 8,
# since 300 < 326 <= 340, then 13 twice, since 500 < 540 <= 540, and 13, since 500 < 504 <= 540. So r1 is 160, 260 /
# 260, 260. EXPAND along the rows: 140, 210, 280 / 260, 260, 260. Down the columns: 116, 200, 284 / 200, 235, 270 /
# 284, 270, 256. The differences are -116, 55, -29 / 55, 20, -15 / -29, -15, -1; at bin 10 their values are
# -120, 50, -30 / 50, 20, -20 / -30, -20, 0, the 55 and the -15 being upper edges of their bins. Added: -4, 250, 254 /
# 250, 255, 250 / 254, 250, 256.
#
# Open-loop, EXPAND of g1 is 115, 208, 300 / 208, 239, 270 / 300, 270, 240, rounded from 115.2, 207.6, 300 / 207.6,
# 238.75, 269.9 / 300, 269.9, 239.8, and the differences are -115, 47, -45 / 47, 16, -15 / -45, -15, 15.
#
# From r1 clamped, 160, 255 / 255, 255, EXPAND would be 118, 198, 278 / 198, 231, 265 / 278, 265, 251, rounded from
# 118.2, 198, 277.8 / 198, 231.25, 264.5 / 277.8, 264.5, 251.2, and the differences -118, 57, -23 / 57, 24, -10 /
# -23, -10, 4.
BRIGHT = ClosedPiece(
    "bright", Settings(3, 3, 1, 6, fill_slots([10, 20])), bytes([0] + [255] * 8),
    averages=[163, 270, 270, 252] + [0] + [255] * 8,
    indices=[8, 13, 13, 13] + [-12, 5, -3, 5, 2, -2, -3, -2, 0],
    values=[160, 260, 260, 260] + [-4, 250, 254, 250, 255, 250, 254, 250, 256],
    rebuilt=bytes([0, 250, 254, 250, 255, 250, 254, 250, 255]),
    bounds=[5, 10],
    open_indices=[8, 13, 13, 13] + [-12, 5, -5, 5, 2, -2, -5, -2, 1],
    clamped_indices=[8, 13, 13, 13] + [-12, 6, -2, 6, 2, -1, -2, -1, 0],
)

# The same in the negative: all 0 but (0, 0) = 255. g1 is 92, -15 / -15, 3, rounded from 91.8, -15.3 / -15.3, 2.55; at
# bin 8 its indices are 11, since 168 < 184 <= 184, then -2 twice, since -40 < -30 <= -24, and 0. So r1 is 88, -16 /
# -16, 0. EXPAND along the rows: 108.8, 36, -36.8 / -19.2, -8, 3.2. Down the columns: 134.4, 44.8, -44.8 / 44.8, 14,
# -16.8 / -44.8, -16.8, 11.2, rounded once: 134, 45, -45 / 45, 14, -17 / -45, -17, 11. The differences are 121, -45,
# 45 / -45, -14, 17 / 45, 17, -11; at bin 7 their values are 119, -42, 42 / -42, -14, 14 / 42, 14, -14. Added: 253, 3,
# -3 / 3, 0, -3 / -3, -3, -3.
#
# Open-loop, EXPAND of g1 is 140, 47, -45 / 47, 16, -15 / -45, -15, 15, rounded from 139.8, 47.4, -45 / 47.4, 16.25,
# -14.9 / -45, -14.9, 15.2, and the differences are 115, -47, 45 / -47, -16, 15 / 45, 15, -15.
#
# From r1 clamped, 88, 0 / 0, 0, EXPAND would be 127, 53, -21 / 53, 22, -9 / -21, -9, 4, rounded from 126.72, 52.8,
# -21.12 / 52.8, 22, -8.8 / -21.12, -8.8, 3.52, and the differences 128, -53, 21 / -53, -22, 9 / 21, 9, -4.
DARK = ClosedPiece(
    "dark", Settings(3, 3, 1, 6, fill_slots([7, 8])), bytes([255] + [0] * 8),
    averages=[92, -15, -15, 3] + [255] + [0] * 8,
    indices=[11, -2, -2, 0] + [17, -6, 6, -6, -2, 2, 6, 2, -2],
    values=[88, -16, -16, 0] + [253, 3, -3, 3, 0, -3, -3, -3, -3],
    rebuilt=bytes([253, 3, 0, 3, 0, 0, 0, 0, 0]),
    bounds=[3, 4],
    open_indices=[11, -2, -2, 0] + [16, -7, 6, -7, -2, 2, 6, 2, -2],
    clamped_indices=[11, -2, -2, 0] + [18, -8, 3, -8, -3, 1, 3, 1, -1],
)

# White, 5 by 5, N = 2, any k: REDUCE and EXPAND of a level of one value are that value. With bins 2, 7 and 100, level 0
# first, the top's 255 has index 3, since 500 < 510 <= 700, and value 300. Level 1: 255 - 300 = -45 has index -6, since
# -91 < -90 <= -77, and r is 300 - 42 = 258. Level 0: 255 - 258 = -3 has index -2, since -10 < -6 <= -6, the upper edge
# of its bin, and r is 258 - 4 = 254. Open-loop coding finds no difference below the top, and neither does a coder that
# clamps the 300.
WHITE = ClosedPiece(
    "white", Settings(5, 5, 2, 3, fill_slots([2, 7, 100])), bytes([255] * 25),
    averages=[255] * 38,
    indices=[3] * 4 + [-6] * 9 + [-2] * 25,
    values=[300] * 4 + [258] * 9 + [254] * 25,
    rebuilt=bytes([254] * 25),
    bounds=[1, 3, 50],
    open_indices=[3] * 4 + [0] * 34,
    clamped_indices=[3] * 4 + [0] * 34,
)

CLOSED_PIECES = (PIECE_A, BRIGHT, DARK,
                 *(replace(WHITE, settings=replace(WHITE.settings, kernel=kernel)) for kernel in KERNELS))
