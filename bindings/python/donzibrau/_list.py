"""Lists of steps, and the series of small ones."""
from __future__ import annotations

import dataclasses
from typing import Iterator, Sequence

from ._library import ENDS, judge_list, library, unsigned, written
from ._pair import Pair, Way


@dataclasses.dataclass(frozen=True)
class Limits:
    """A caller's own limits: at most so many values wait at once, at most so many steps. Above 16 and 64 they count as those, and 0 is a limit too.

    >>> Limits(values=-1, steps=20)
    Traceback (most recent call last):
        ...
    ValueError: -1 is not a number of 64 bits
    >>> Limits(values=6, steps=2**64)
    Traceback (most recent call last):
        ...
    ValueError: 18446744073709551616 is not a number of 64 bits
    """

    values: int
    steps: int

    def __post_init__(self) -> None:
        unsigned(self.values, 64)
        unsigned(self.steps, 64)


SLIP, FARE = Limits(values=16, steps=64), Limits(values=6, steps=20)


@dataclasses.dataclass(frozen=True)
class List:
    """A list of steps, built by functions: each makes the list of the operation applied to the values of lists.

    >>> from donzibrau import OUTWARD
    >>> a = List.constant(Pair(1001, 1001))
    >>> print(a.product(a).dual().value(OUTWARD))
    [1.002,1.003]

    `steps` is its bytes, which the machine's other programs lend; `List(steps)` takes any, and they are judged when its value is asked for.

    >>> List(b'').value(OUTWARD)
    Traceback (most recent call last):
        ...
    donzibrau._cause.Refusal: R 11: the list does not leave exactly one value, at step 0
    """

    steps: bytes

    @staticmethod
    def constant(pair: Pair) -> List:
        """The list that gives this pair."""
        return List(b'\0' + b''.join(end.to_bytes(4, 'little', signed=True) for end in (pair.lower, pair.upper)))

    def sum(self, other: List) -> List:
        return self._two(other, 1)

    def difference(self, other: List) -> List:
        return self._two(other, 2)

    def product(self, other: List) -> List:
        return self._two(other, 3)

    def negation(self) -> List:
        return self._one(4)

    def opposite(self) -> List:
        """The value that it is applied to is made in the other way."""
        return self._one(5)

    def dual(self) -> List:
        """The value that it is applied to is made in the other way."""
        return self._one(6)

    def join(self, other: List) -> List:
        return self._two(other, 7)

    def meet(self, other: List) -> List:
        return self._two(other, 8)

    def quotient(self, other: List) -> List:
        return self._two(other, 9)

    def value(self, way: Way, limits: Limits = SLIP) -> Pair:
        """Outward it contains the exact value, inward it lies in it, where exact evaluation meets no divisor that holds zero.

        >>> from donzibrau import OUTWARD
        >>> one = List.constant(Pair(1000, 1000))
        >>> print(one.sum(one).value(OUTWARD, FARE))
        [2.000,2.000]
        >>> one.sum(one).value(OUTWARD, Limits(values=1, steps=20))
        Traceback (most recent call last):
            ...
        donzibrau._cause.Refusal: R 9: more values wait than the limit, at step 1
        """
        return self._value('dzb_list_within', way, limits)

    def burnin_value(self, way: Way, limits: Limits = SLIP) -> Pair:
        """The same by the burn-in engine, which is proved to give the result, refusal and step of `value`. It is slow, and takes more stack.

        >>> from donzibrau import OUTWARD
        >>> list = List.constant(Pair(1001, 1001)).dual()
        >>> list.burnin_value(OUTWARD) == list.value(OUTWARD)
        True
        """
        return self._value('dzb_burnin_list', way, limits)

    def _value(self, engine: str, way: Way, limits: Limits) -> Pair:
        result = ENDS()
        judge_list(getattr(library, engine)(self.steps, len(self.steps), way.value, limits.values, limits.steps, result))
        return Pair(*result)

    def _one(self, code: int) -> List:
        return List(self.steps + bytes([code]))

    def _two(self, other: List, code: int) -> List:
        return List(self.steps + other.steps + bytes([code]))


def series(constants: Sequence[Pair]) -> Iterator[List]:
    """Every small list for burn-in: the well-formed lists of 1 to 5 steps over one to four constants, each once, lists of fewer steps first.

    >>> lists = [*series([Pair(1001, 999)])]
    >>> len(lists), lists[0] == List.constant(Pair(1001, 999))
    (577, True)

    Refused: CONSTANT_COUNT.
    """
    small = written('dzb_first_list', SERIES_BYTES, len(constants))
    while small:
        yield List(_placed(small, constants))
        small = written('dzb_next_list', SERIES_BYTES, len(constants), small, len(small))


SERIES_BYTES = 10


def _placed(small: bytes, constants: Sequence[Pair]) -> bytes:
    """A list of the series with its constants in place of their positions."""
    codes, steps = iter(small), b''
    for code in codes:
        steps += List.constant(constants[next(codes)]).steps if code == 0 else bytes([code])
    return steps
