"""The two manners of coding, open-loop and closed-loop."""

from collections.abc import Callable
from dataclasses import dataclass

from closed_loop import ClosedCoded, code_closed
from pyramid import Coded, code
from settings import Settings, bounds, closed_bounds


@dataclass(frozen=True)
class Manner:
    """A manner's coder and its bounds, which are called alike in both manners."""

    name: str
    code: Callable[[Settings, bytes, int, int], Coded | ClosedCoded]
    bounds: Callable[[Settings], tuple[int, list[int]]]


OPEN = Manner("open", code, bounds)
CLOSED = Manner("closed", code_closed, closed_bounds)
MANNERS = (OPEN, CLOSED)
