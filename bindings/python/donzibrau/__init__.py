"""Directed (Kaucher) interval arithmetic in thousandths: the library `donzibrau`, every function of which is proved to answer what its definition says.

A pair is two ends in thousandths, the lower first, in any order: one whose lower end is above its upper end is improper, and that is an answer, not
an error. Each operation is exact and then rounded once, OUTWARD or INWARD. What can not be answered raises a Refusal, which has its cause by name.

A coin box on the scale: empty box plus coin mass times count equals gross weight.

>>> from donzibrau import INWARD, Equation, Pair
>>> box, coin = Pair.read('[812,812.5]'), Pair.read('[7.48,7.52]')
>>> count = Equation(a=box, c=coin, b=Pair.read('[4540,4590]')).solve(INWARD)
>>> print(count, count.is_proper)      # 499, 500, 501 and 502 fit, whatever box and coins weigh
[498.396,502.327] True
>>> count = Equation(a=box, c=coin, b=Pair.read('[4560,4562]')).solve(INWARD)
>>> print(count, count.is_proper)      # the scale reads finer than such coins can be told apart
[501.070,498.603] False

The shared library is taken from DONZIBRAU_LIBRARY, from the checkout that this module stands in (after `make`), or from where it is installed.
"""
from ._block import Block, Layout
from ._cause import Cause, Refusal
from ._list import FARE, SLIP, Limits, List, series
from ._pair import INWARD, OUTWARD, Claim, Equation, Pair, Way, line
from ._sheet import Tray, total
from ._version import __version__

__all__ = [
    'FARE', 'INWARD', 'OUTWARD', 'SLIP', 'Block', 'Cause', 'Claim', 'Equation', 'Layout', 'Limits', 'List', 'Pair', 'Refusal', 'Tray', 'Way',
    '__version__', 'line', 'series', 'total',
]
