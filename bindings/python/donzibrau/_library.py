"""The shared library's functions, declared as include/donzibrau.h has them."""
from __future__ import annotations

import ctypes
import os
import pathlib

from ._cause import Cause, Refusal
from ._version import __version__

END, NUMBER, WAY, SIZE, BYTES, ENDS = ctypes.c_int32, ctypes.c_uint32, ctypes.c_bool, ctypes.c_size_t, ctypes.c_char_p, ctypes.c_int32 * 2
LENT, SIZES, GIVEN, REPLIES = ctypes.POINTER(ctypes.c_uint8), ctypes.POINTER(SIZE), ctypes.POINTER(END), ctypes.c_uint8 * 2

ARGUMENTS = {
    'dzb_negation': [END] * 2 + [ENDS],
    'dzb_opposite': [END] * 2 + [ENDS],
    'dzb_dual': [END] * 2 + [ENDS],
    'dzb_join': [END] * 4 + [ENDS],
    'dzb_meet': [END] * 4 + [ENDS],
    'dzb_sum': [END] * 4 + [WAY, ENDS],
    'dzb_difference': [END] * 4 + [WAY, ENDS],
    'dzb_product': [END] * 4 + [WAY, ENDS],
    'dzb_quotient': [END] * 4 + [WAY, ENDS],
    'dzb_equation': [END] * 6 + [WAY, ENDS],
    'dzb_read': [BYTES, SIZE, ENDS],
    'dzb_write': [END] * 2 + [LENT, SIZE, SIZES],
    'dzb_list': [BYTES, SIZE, WAY, ENDS],
    'dzb_list_within': [BYTES, SIZE, WAY, SIZE, SIZE, ENDS],
    'dzb_line': [BYTES, SIZE, ENDS],
    'dzb_begin_block': [NUMBER, NUMBER, LENT, SIZE],
    'dzb_add_record': [NUMBER] * 2 + [END] * 2 + [LENT, SIZE],
    'dzb_sheet': [GIVEN, SIZE, WAY, ENDS],
    'dzb_burnin_list': [BYTES, SIZE, WAY, SIZE, SIZE, ENDS],
    'dzb_first_list': [SIZE, LENT, SIZE, SIZES],
    'dzb_next_list': [SIZE, BYTES, SIZE, LENT, SIZE, SIZES],
    'dzb_claim': [END] * 8 + [REPLIES],
    'dzb_read_centre': [BYTES, SIZE, ENDS],
    'dzb_write_centre': [END] * 2 + [LENT, SIZE, SIZES],
}


def load() -> ctypes.CDLL:
    checkout = pathlib.Path(__file__).resolve().parents[3] / 'target' / 'lib' / 'libdonzibrau.so'
    soname = 'libdonzibrau.so.' + __version__.split('.')[0]
    path = os.environ.get('DONZIBRAU_LIBRARY') or (str(checkout) if checkout.exists() else soname)
    try:
        library = ctypes.CDLL(path)
    except OSError as error:
        raise ImportError('%s: run `make` in the checkout, or install it, or set DONZIBRAU_LIBRARY' % error) from None
    for name, arguments in ARGUMENTS.items():
        if not hasattr(library, name):
            raise ImportError('%s has no %s: it is of another version than %s' % (path, name, __version__))
        function = getattr(library, name)
        function.argtypes, function.restype = arguments, NUMBER
    return library


library = load()


def unsigned(number: int, bits: int) -> int:
    """The number itself; ctypes would cut one that is larger or below zero.

    >>> unsigned(2**32, 32)
    Traceback (most recent call last):
        ...
    ValueError: 4294967296 is not a number of 32 bits
    """
    if not 0 <= number < 2**bits:
        raise ValueError('%d is not a number of %d bits' % (number, bits))
    return number


def written(function: str, room: int, *arguments: object) -> bytes:
    """What a function writes to the front of a buffer of `room` bytes, which with their length are its last arguments."""
    buffer, length = (ctypes.c_uint8 * room)(), SIZE()
    judge(getattr(library, function)(*arguments, buffer, room, ctypes.byref(length)))
    return bytes(buffer[:length.value])


def judge(returned: int) -> None:
    """0 is done; else the low byte is the cause's number."""
    if returned:
        raise Refusal(Cause(returned % 256))


def judge_list(returned: int) -> None:
    """The same, the step above the low byte."""
    if returned:
        raise Refusal(Cause(returned % 256), returned // 256)
