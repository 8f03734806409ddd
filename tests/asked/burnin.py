"""Q-9: the burn-in engine, beside the stack engine: result, refusal and step or count, and what a refusal leaves of the lent ends."""
import ctypes
import random

SIZE, NUMBER = ctypes.c_size_t, ctypes.c_int32
LIMITS = ((16, 64), (6, 20), (0, 64), (16, 0), (2, 5), (99, 99))


def constant(lower, upper):
    return b'\0' + b''.join(end.to_bytes(4, 'little', signed=True) for end in (lower, upper))


def chosen():
    """01's starred lists; each refusal at its edge; the order of the refusals; the way below dual and opposite, and what is refused in one way alone."""
    one, wide = constant(1001, 1001), constant(0, 1001) + constant(0, 1998001999)
    beyond = constant(0, 2000000001)
    yield from (one + one + b'\3\6', one + one + b'\3\5', one + one + b'\3\4', one + one + b'\3\6\6', wide + b'\3\6', wide + b'\3\5', wide + b'\3')
    yield from (b'', one + one, b'\1', one + b'\1', b'\12', b'\377', b'\0', one[:8], beyond, beyond[:8], one + beyond, b'\1' + beyond)
    yield from (one * 16 + b'\1' * 15, one * 17 + b'\1' * 16, one + b'\6' * 63, one + b'\5' * 64, one + b'\6' * 64 + b'\12', one * 6 + b'\1' * 5, one * 7 + b'\1' * 6)
    zero, most = constant(0, 0), constant(2000000000, 2000000000)
    yield from (one + zero + b'\11', one + zero + b'\11' + one, most + one + b'\1', most + one + b'\1' + one + zero + b'\11\1', one + zero + b'\11' + most + one + b'\1\1')
    yield from (most + one + b'\1' + one, one + one + b'\3' + one + b'\6\2\6', constant(1000, 1000) + constant(1, 1) + constant(1, 1) + b'\3\11')


def drawn(rng):
    """Lists that are well formed for the most part, some with ends that lead beyond the range, one of eight with a byte changed."""
    data, waiting, left, most = b'', 0, rng.randrange(1, 40), rng.choice((9, 9999, 2000000001))
    while left > 0 or waiting > 1:
        left -= 1
        if waiting == 0 or left > 0 and rng.random() < 0.5:
            data, waiting = data + constant(rng.randint(-most, most), rng.randint(-most, most)), waiting + 1
        elif waiting > 1 and rng.random() < 0.7:
            data, waiting = data + bytes([rng.choice((1, 2, 3, 7, 8, 9))]), waiting - 1
        else:
            data += bytes([rng.choice((4, 5, 6))])
    if rng.random() < 0.125:
        place = rng.randrange(len(data))
        data = data[:place] + bytes([rng.randrange(256)]) + data[place + 1:]
    return data


def expected(reference, way, data, limits):
    try:
        return '%d %d' % reference.evaluate(way, data, min(limits[0], 16), min(limits[1], 64))
    except reference.Refusal as refusal:
        return 'R %d at %d, 77 77' % (refusal.number, refusal.step)


def told(function, way, data, limits):
    result = (NUMBER * 2)(77, 77)
    number = function(data, SIZE(len(data)), ctypes.c_bool(way), SIZE(limits[0]), SIZE(limits[1]), result)
    return ('R %d at %d, %d %d' % (number % 256, number // 256, *result)) if number else '%d %d' % tuple(result)


def ask(library, reference):
    rng = random.Random(9)
    asked = [(data, limits) for data in chosen() for limits in LIMITS] + [(drawn(rng), rng.choice((LIMITS[0],) * 6 + LIMITS)) for _ in range(1000)]
    for data, limits in asked:
        for way in (reference.OUTWARD, reference.INWARD):
            expect = expected(reference, way, data, limits)
            for name in ('burnin_list', 'list_within'):
                answer = told(getattr(library, 'dzb_' + name), way == reference.INWARD, data, limits)
                yield '%s %s %s %d %d' % (way, name, data.hex(), *limits), answer, expect
