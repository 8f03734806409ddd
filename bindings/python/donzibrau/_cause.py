"""Why something is refused, by name."""
from __future__ import annotations

import enum


class Cause(enum.IntEnum):
    """The table of causes; the value is the number that the slip prints behind R.

    >>> Cause(5)
    <Cause.ZERO_DIVISOR: 5>
    >>> Cause.ZERO_DIVISOR.words
    'the divisor holds zero'
    """

    words: str

    def __new__(cls, number: int, words: str) -> Cause:
        made = int.__new__(cls, number)
        made._value_ = number
        made.words = words
        return made

    MALFORMED = 1, 'the text of a pair is not in its form'
    END_BEYOND_RANGE = 2, 'an end is beyond the range'
    SHORT_BUFFER = 3, 'the buffer is shorter than the text'
    RESULT_BEYOND_RANGE = 4, 'the result is beyond the range'
    ZERO_DIVISOR = 5, 'the divisor holds zero'
    UNKNOWN_CODE = 6, 'the code of a step, or a letter of a line, is unknown'
    SHORT_CONSTANT = 7, 'fewer than 8 bytes follow the code of a constant'
    STACK_UNDERFLOW = 8, 'too few values wait for a step'
    STACK_OVERFLOW = 9, 'more values wait than the limit'
    TOO_MANY_STEPS = 10, 'there are more steps than the limit'
    NOT_ONE_VALUE = 11, 'the list does not leave exactly one value'
    MALFORMED_LINE = 12, 'the line is too long, or has the wrong number of fields'
    BLOCK_BOUNDS = 13, "the block's number is above 99, it is not 512 bytes, or it is full"
    BLOCK_CHECKSUM = 14, "the block's bytes do not add up to its sum"
    BLOCK_LAYOUT = 15, 'a field of the block breaks the layout'
    UNSOLVABLE = 16, 'no pair solves the equation'
    SEVERAL_SOLUTIONS = 17, 'more than one pair solves the equation'
    SHEET_BOUNDS = 18, 'the sheet has more than 800 ends, or not a multiple of four'
    CONSTANT_COUNT = 19, 'there are not one to four constants'
    NOT_IN_SERIES = 20, 'the list is not in the series'
    ODD_SUM = 21, 'the sum of the ends is odd in thousandths'
    BLOCK_SUMS = 22, 'a sum that the block stores differs from its records'


class Refusal(ValueError):
    """What can not be answered: `cause`, and in a list `step`, counted from 0 (for NOT_ONE_VALUE the count of steps read), else None.

    >>> from donzibrau import OUTWARD, Pair
    >>> Pair(1000, 2000).quotient(Pair(0, 1000), OUTWARD)
    Traceback (most recent call last):
        ...
    donzibrau._cause.Refusal: R 5: the divisor holds zero
    """

    def __init__(self, cause: Cause, step: int | None = None) -> None:
        self.cause = cause
        self.step = step
        at = '' if step is None else ', at step %d' % step
        super().__init__('R %d: %s%s' % (cause, cause.words, at))
