"""Shapes that break every set of the shape's rules, and the order of the refusals, worked from the documents by hand.

Document 01 has the rules, and P1 of document 02 gives each of them a number of its own: 1, C and R are 2 to 129; 13, N
is at most 6; 14, 2^N divides C - 1; 15, 2^N divides R - 1.
"""

from collections.abc import Collection

# The order in which coding, rebuilding of a picture or a pixel, the writer and the bound look for refusals; each of
# them knows only some.
ORDER = (1, 13, 14, 15, 2, 19, 3, 4, 5, 6, 7, 8, 21, 11, 20)

# C, R, N, and which of the rules 1, 13, 14 and 15 they break: every set of these, and no other rule.
SHAPES: tuple[tuple[int, int, int, tuple[int, ...]], ...] = (
    (3, 3, 1, ()), (9, 5, 2, ()), (2, 129, 0, ()),
    (1, 3, 1, (1,)), (3, 1, 1, (1,)), (131, 3, 1, (1,)), (3, 131, 1, (1,)), (130, 2, 0, (1,)), (1, 1, 6, (1,)),
    (129, 129, 7, (13,)),
    (4, 3, 1, (14,)), (5, 9, 3, (14,)),
    (3, 4, 1, (15,)), (9, 5, 3, (15,)),
    (257, 129, 7, (1, 13)), (129, 257, 7, (1, 13)), (1, 129, 7, (1, 13)),
    (130, 3, 1, (1, 14)), (4, 131, 1, (1, 14)),
    (3, 130, 1, (1, 15)), (131, 4, 1, (1, 15)),
    (65, 129, 7, (13, 14)),
    (129, 65, 7, (13, 15)),
    (4, 4, 1, (14, 15)), (9, 9, 4, (14, 15)),
    (130, 129, 7, (1, 13, 14)), (3, 1, 7, (1, 13, 14)),
    (129, 130, 7, (1, 13, 15)), (1, 3, 7, (1, 13, 15)),
    (130, 4, 1, (1, 14, 15)), (4, 130, 1, (1, 14, 15)),
    (3, 3, 7, (13, 14, 15)), (129, 129, 8, (13, 14, 15)),
    (130, 130, 7, (1, 13, 14, 15)),
)


def first_of(faults: Collection[int]) -> int:
    """The number that several faults together are answered with, or 0 if there are none."""
    return next((number for number in ORDER if number in faults), 0)
