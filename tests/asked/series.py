"""Q-10: the small lists for burn-in, each with the one that follows it, and what is refused."""
import ctypes
import random

SIZE, LONGEST = ctypes.c_size_t, 10


def call(library, count, data, room):
    """What a call returns, the number that it tells, and the buffer; `data` is None for the first list."""
    buffer, written = (ctypes.c_uint8 * (LONGEST + 2))(*[165] * (LONGEST + 2)), SIZE(77)
    lent = (buffer, SIZE(room), ctypes.byref(written))
    if data is None:
        number = library.dzb_first_list(SIZE(count), *lent)
    else:
        number = library.dzb_next_list(SIZE(count), (ctypes.c_uint8 * max(1, len(data)))(*data), SIZE(len(data)), *lent)
    return '%d %d %s' % (number, written.value, bytes(buffer).hex())


def expected(reference, count, data, room):
    number, written, listed = 0, 77, b''
    try:
        listed = reference.first_list(count, room) if data is None else reference.next_list(count, data, room)
        written = len(listed)
    except reference.Refusal as refusal:
        number = refusal.number
    return '%d %d %s' % (number, written, (listed + b'\xa5' * (LONGEST + 2 - len(listed))).hex())


def calls(reference):
    rng = random.Random(10)
    edges = [b'', b'\0', b'\0\4', b'\0\0', b'\0\3', b'\0\0\4', b'\0\0\6\6\6\6', b'\0\0\6\6\6\6\6', b'\0\3\6\6\6\6', b'\0\0\0\1\12', bytes(9), b'\1']
    for count in (0, 1, 2, 3, 4, 5, 255, 256, 257, 2**32 + 1, 2**64 - 1):
        for room in (0, 1, 2, LONGEST):
            yield from ((count, data, room) for data in [None] + edges)
    for count in range(1, reference.CONSTANTS + 1):
        yield from ((count, data, LONGEST) for data in reference.series(count))
    every = reference.series(reference.CONSTANTS)
    for _ in range(2000):
        data = bytearray(rng.choice(every))
        for _ in range(rng.randrange(3)):
            data[rng.randrange(len(data))] = rng.randrange(12)
        yield rng.randrange(6), bytes(data), rng.randrange(LONGEST + 1)


def ask(library, reference):
    for count, data, room in calls(reference):
        question = '%d %s %d' % (count, 'first' if data is None else 'next ' + data.hex(), room)
        yield question, call(library, count, data, room), expected(reference, count, data, room)
