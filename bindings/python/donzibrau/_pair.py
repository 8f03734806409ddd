"""Pairs, ways and the equation."""
from __future__ import annotations

import dataclasses
import enum

from ._cause import Cause, Refusal
from ._library import ENDS, REPLIES, judge, library, written

LEAST, GREATEST, TEXT_BYTES = -2_000_000_000, 2_000_000_000, 27


class Way(enum.Enum):
    """The way of rounding: the smallest pair of thousandths around the exact result, or the largest within it."""

    OUTWARD = False
    INWARD = True


OUTWARD, INWARD = Way.OUTWARD, Way.INWARD


@dataclasses.dataclass(frozen=True)
class Pair:
    """Two ends in thousandths, each from -2,000,000,000 to 2,000,000,000, in any order.

    >>> a = Pair(1001, 1001)
    >>> print(a.product(a, OUTWARD), a.product(a, INWARD))
    [1.002,1.003] [1.003,1.002]
    >>> Pair(0, 2_000_000_001)
    Traceback (most recent call last):
        ...
    donzibrau._cause.Refusal: R 2: an end is beyond the range
    """

    lower: int
    upper: int

    def __post_init__(self) -> None:
        if not all(LEAST <= end <= GREATEST for end in (self.lower, self.upper)):
            raise Refusal(Cause.END_BEYOND_RANGE)

    @staticmethod
    def read(text: str) -> Pair:
        """The pair with this text: three, two, one or no digits behind each point.

        >>> Pair.read('[1.5,2]')
        Pair(lower=1500, upper=2000)
        """
        return _answer('dzb_read', text.encode(), len(text.encode()))

    def __str__(self) -> str:
        return written('dzb_write', TEXT_BYTES, *self._ends).decode()

    @staticmethod
    def read_centre(text: str) -> Pair:
        """The pair with this text of the weighbridge office, `(m;r)`: its ends are m - r and m + r.

        >>> print(Pair.read_centre('(1.500;-0.500)'))
        [2.000,1.000]
        """
        return _answer('dzb_read_centre', text.encode(), len(text.encode()))

    def centre(self) -> str:
        """The office's text of the pair. Refused: ODD_SUM.

        >>> Pair(1000, 2000).centre()
        '(1.500;0.500)'
        """
        return written('dzb_write_centre', TEXT_BYTES, *self._ends).decode()

    @property
    def is_proper(self) -> bool:
        """Whether the lower end is not above the upper."""
        return self.lower <= self.upper

    def __contains__(self, other: Pair) -> bool:
        """Whether the other pair lies in this one.

        >>> Pair(3000, 2000) in Pair(1000, 4000)
        True
        """
        return self.lower <= other.lower and other.upper <= self.upper

    def negation(self) -> Pair:
        """[-upper, -lower]"""
        return _answer('dzb_negation', *self._ends)

    def opposite(self) -> Pair:
        """[-lower, -upper]"""
        return _answer('dzb_opposite', *self._ends)

    def dual(self) -> Pair:
        """[upper, lower]

        >>> a = Pair(2000, 5000)
        >>> print(a.difference(a.dual(), OUTWARD))
        [0.000,0.000]
        """
        return _answer('dzb_dual', *self._ends)

    def join(self, other: Pair) -> Pair:
        """[smaller lower, larger upper]"""
        return _answer('dzb_join', *self._ends, *other._ends)

    def meet(self, other: Pair) -> Pair:
        """[larger lower, smaller upper]"""
        return _answer('dzb_meet', *self._ends, *other._ends)

    def sum(self, other: Pair, way: Way) -> Pair:
        """Refused: RESULT_BEYOND_RANGE."""
        return _answer('dzb_sum', *self._ends, *other._ends, way.value)

    def difference(self, other: Pair, way: Way) -> Pair:
        """Refused: RESULT_BEYOND_RANGE."""
        return _answer('dzb_difference', *self._ends, *other._ends, way.value)

    def product(self, other: Pair, way: Way) -> Pair:
        """Refused: RESULT_BEYOND_RANGE."""
        return _answer('dzb_product', *self._ends, *other._ends, way.value)

    def quotient(self, other: Pair, way: Way) -> Pair:
        """Refused: ZERO_DIVISOR if the other pair holds zero, then RESULT_BEYOND_RANGE."""
        return _answer('dzb_quotient', *self._ends, *other._ends, way.value)

    @property
    def _ends(self) -> tuple[int, int]:
        return self.lower, self.upper


def _answer(function: str, *arguments: object) -> Pair:
    result = ENDS()
    judge(getattr(library, function)(*arguments, result))
    return Pair(*result)


@dataclasses.dataclass(frozen=True)
class Equation:
    """a + c times x = b. Of a box on the scale: a is the empty box, c the mass of a coin, b the gross weight, x the count.

    >>> equation = Equation(a=Pair(500, 600), c=Pair(2000, 4000), b=Pair(6500, 20600))
    >>> print(equation.solve(OUTWARD))
    [3.000,5.000]

    Where c holds zero there may be one solution, none, or more than one.

    >>> print(Equation(a=Pair(0, 0), c=Pair(0, 2000), b=Pair(-2000, 4000)).solve(OUTWARD))
    [-1.000,2.000]
    >>> Equation(a=Pair(0, 0), c=Pair(0, 2000), b=Pair(1000, 4000)).solve(OUTWARD)
    Traceback (most recent call last):
        ...
    donzibrau._cause.Refusal: R 16: no pair solves the equation
    """

    a: Pair
    c: Pair
    b: Pair

    def solve(self, way: Way) -> Pair:
        """Its x, if exactly one pair of fractions solves it, rounded once. Refused: UNSOLVABLE, SEVERAL_SOLUTIONS, then RESULT_BEYOND_RANGE."""
        return _answer('dzb_equation', *self.a._ends, *self.c._ends, *self.b._ends, way.value)

    def judge(self, claim: Pair) -> Claim:
        """What there is to say of a pair that another machine claims to be x. Refused: ZERO_DIVISOR if c holds zero.

        >>> weighing = Equation(a=Pair(0, 0), c=Pair(3000, 3000), b=Pair(1000, 1000))
        >>> weighing.judge(Pair(333, 334))
        Claim(contains_solution=True, is_outward_count=True)
        >>> weighing.judge(Pair(0, 1000))
        Claim(contains_solution=True, is_outward_count=False)
        """
        replies = REPLIES()
        judge(library.dzb_claim(*self.a._ends, *self.c._ends, *self.b._ends, *claim._ends, replies))
        return Claim(*map(bool, replies))


@dataclasses.dataclass(frozen=True)
class Claim:
    """Whether a claimed pair contains the one exact solution, and whether it is moreover the count that `solve` gives outward."""

    contains_solution: bool
    is_outward_count: bool


def line(text: bytes) -> Pair:
    """The answer to a line of the slip, its byte 10 not among the bytes.

    >>> print(line(b'O M [1.001,1.001] [1.001,1.001]'))
    [1.002,1.003]
    >>> line(b'')
    Traceback (most recent call last):
        ...
    donzibrau._cause.Refusal: R 12: the line is too long, or has the wrong number of fields
    """
    return _answer('dzb_line', text, len(text))
