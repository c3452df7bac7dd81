"""Closed-loop coding (document 02, P4): what a level is predicted from is what the reader will have.

In the words of documents 001 and 002 the coding of pyramid.py is open-loop, its quantizer being outside the
prediction loop: it predicts a level from the averages above. The closed-loop coder predicts it from the rebuilt level
above. File and rebuilding are the same for both.
"""

from dataclasses import dataclass, field

from pyramid import (Level, coding_refusal, combine, expand_level, flatten, gaussian_pyramid, level_indices,
                     level_values, split_rows)
from settings import ACCEPTED, Settings


@dataclass(frozen=True)
class ClosedCoded:
    """Answer of a closed-loop coding: the refusal number, and if it is 0 indices and unclamped r in flat order."""

    refusal: int
    indices: list[int] = field(default_factory=list)
    values: list[int] = field(default_factory=list)


def closed_levels(averages: list[Level], settings: Settings) -> tuple[list[Level], list[Level]]:
    """Indices and unclamped rebuilt values r of levels 0 to N, made from the top down.

    The top's indices are those of its averages. Below it they are those of the averages less EXPAND of the next r up,
    and r is their values plus the same EXPAND.
    """
    top = settings.depth
    indices = [level_indices(averages[top], settings.bins[top])]
    rebuilt = [level_values(indices[0], settings.bins[top])]
    for level in range(top - 1, -1, -1):
        prediction = expand_level(rebuilt[0], settings.kernel)
        difference = combine(averages[level], prediction, -1)
        indices.insert(0, level_indices(difference, settings.bins[level]))
        rebuilt.insert(0, combine(level_values(indices[0], settings.bins[level]), prediction, 1))
    return indices, rebuilt


def code_closed(settings: Settings, picture: bytes, level_length: int, work_length: int) -> ClosedCoded:
    """Code a picture closed-loop, with a level buffer and a work buffer of the given lengths."""
    refusal = coding_refusal(settings, picture, level_length, work_length)
    if refusal != ACCEPTED:
        return ClosedCoded(refusal)
    averages = gaussian_pyramid(split_rows(picture, settings.columns), settings.depth, settings.kernel)
    indices, rebuilt = closed_levels(averages, settings)
    return ClosedCoded(ACCEPTED, flatten(indices), flatten(rebuilt))
