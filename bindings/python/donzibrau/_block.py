"""Blocks of the day file."""
from __future__ import annotations

import ctypes
import enum

from ._library import judge, library, unsigned
from ._pair import Pair

BYTES = 512


class Layout(enum.Enum):
    """The layout of a block: without sums, or carrying the sums of its lower and upper ends beside its records."""

    PLAIN = 0
    SUMS = 1


class Block:
    """A block of the day file, 512 bytes with up to 30 records. Refused: BLOCK_BOUNDS for a number above 99.

    >>> block = Block(0, Layout.SUMS)
    >>> block.add(box=7, line=1, count=Pair(500_000, 500_000))
    >>> bytes(block)[:12].hex(), int.from_bytes(bytes(block)[484:492], 'little')
    ('000001010700000001000000', 500000)
    >>> Block(100)
    Traceback (most recent call last):
        ...
    donzibrau._cause.Refusal: R 13: the block's number is above 99, it is not 512 bytes, or it is full
    """

    def __init__(self, number: int, layout: Layout = Layout.PLAIN) -> None:
        self._bytes = (ctypes.c_uint8 * BYTES)()
        judge(library.dzb_begin_block(unsigned(number, 32), layout.value, self._bytes, BYTES))

    @staticmethod
    def of(data: bytes) -> Block:
        """A block from its bytes; they are judged when a record is added."""
        made = Block.__new__(Block)
        made._bytes = (ctypes.c_uint8 * len(data))(*data)
        return made

    def add(self, box: int, line: int, count: Pair) -> None:
        """Adds a record behind those there. Refused, with the block as it was: BLOCK_BOUNDS, BLOCK_CHECKSUM, BLOCK_LAYOUT, BLOCK_SUMS."""
        judge(library.dzb_add_record(unsigned(box, 32), unsigned(line, 32), count.lower, count.upper, self._bytes, len(self._bytes)))

    def __bytes__(self) -> bytes:
        return bytes(self._bytes)
