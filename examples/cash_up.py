#!/usr/bin/env python3
"""Cashes up a day: reads what the slip answered and what the report said of the day file, and tells whether they agree. A place to start from.

    ./slip weighings.txt > slip.out
    ./report day.bin > report.out
    examples/cash_up.py slip.out report.out

Status 1 if a weighing was refused, there is no report, or the two do not agree.
"""
from __future__ import annotations

import sys
from typing import Iterable, NamedTuple


class Pair(NamedTuple):
    """Both ends in thousandths; the lower may be above the upper."""

    lower: int
    upper: int

    @staticmethod
    def read(text: str) -> Pair:
        """As the programs write it, three digits behind each point: [-0.500,2.000] is -500 and 2000."""
        lower, upper = text.strip('[]').split(',')
        return Pair(int(lower.replace('.', '')), int(upper.replace('.', '')))

    def __str__(self) -> str:
        ends = ('%s%d.%03d' % ('-' * (end < 0), abs(end) // 1000, abs(end) % 1000) for end in self)
        return '[%s]' % ','.join(ends)


class Refusal(NamedTuple):
    number: int
    place: int  # the line of the slip, counted from 1, or the block of the day file, counted from 0


def slip_answers(lines: Iterable[str]) -> tuple[list[Pair], list[Refusal]]:
    """The slip's output: `7 [1.000,2.000]` or `7 R 5` for line 7."""
    counts, refusals = [], []
    for line in lines:
        number, answer = line.split(maxsplit=1)
        if answer.startswith('R '):
            refusals.append(Refusal(int(answer[2:]), int(number)))
        else:
            counts.append(Pair.read(answer.strip()))
    return counts, refusals


def day_total(line: str) -> tuple[int, Pair] | Refusal | None:
    """The report's line: `3 [1500.000,1500.000]`, records and their sum, or `R 14 0`, a refusal and the block. None if a report that failed left no line."""
    words = line.split()
    if not words:
        return None
    if words[0] == 'R':
        return Refusal(int(words[1]), int(words[2]))
    return int(words[0]), Pair.read(words[1])


def cash_up(slip_lines: Iterable[str], report_line: str) -> bool:
    counts, refusals = slip_answers(slip_lines)
    total = Pair(sum(count.lower for count in counts), sum(count.upper for count in counts))
    print('slip      %d counted, sum %s' % (len(counts), total))
    print('          %d proper, %d improper' % (sum(c.lower <= c.upper for c in counts), sum(c.lower > c.upper for c in counts)))
    for refusal in refusals:
        print('          line %d refused: R %d' % (refusal.place, refusal.number))
    day = day_total(report_line)
    if day is None:
        print('day file  no report')
        return False
    if isinstance(day, Refusal):
        print('day file  block %d refused: R %d' % (day.place, day.number))
        return False
    print('day file  %d records, sum %s' % day)
    agree = day == (len(counts), total)
    print('they agree' if agree else 'they DIFFER')
    return agree and not refusals


if __name__ == '__main__':
    if len(sys.argv) != 3:
        sys.exit('usage: cash_up.py SLIP-OUTPUT REPORT-OUTPUT')
    try:
        with open(sys.argv[1]) as slip, open(sys.argv[2]) as report:
            sys.exit(0 if cash_up(slip, report.read()) else 1)
    except OSError as error:
        sys.exit('cash_up.py: %s: %s' % (error.filename, error.strerror))
