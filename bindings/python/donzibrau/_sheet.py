"""Sheets of trays."""
from __future__ import annotations

import dataclasses
from typing import Sequence

from ._library import END, ENDS, judge, library
from ._pair import Pair, Way


@dataclasses.dataclass(frozen=True)
class Tray:
    """The mass of a coin, and the count."""

    mass: Pair
    count: Pair


def total(sheet: Sequence[Tray], way: Way) -> Pair:
    """The sum of mass times count over all trays, exact, rounded once. The same for trays in any order.

    >>> from donzibrau import OUTWARD
    >>> tray = Tray(mass=Pair(7480, 7520), count=Pair(500_000, 500_000))
    >>> print(total([tray, tray], OUTWARD))
    [7480.000,7520.000]

    Refused: SHEET_BOUNDS for more than 200 trays, then RESULT_BEYOND_RANGE.
    """
    ends = [end for tray in sheet for pair in (tray.mass, tray.count) for end in (pair.lower, pair.upper)]
    result = ENDS()
    judge(library.dzb_sheet((END * len(ends))(*ends), len(ends), way.value, result))
    return Pair(*result)
