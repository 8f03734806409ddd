"""Q-14: putting a count back. The count, the product of c with it and the sum of a and that, all in one way: the sum contains b, or lies in it."""
import ctypes
import random

NUMBER = ctypes.c_int32
NAMED = [  # a, c, b
    ((500, 600), (2000, 4000), (6500, 20600)), ((0, 0), (2000, 4000), (6000, 8000)), ((0, 0), (2000, 4000), (-4000, 8000)),
    ((0, 0), (3000, 3000), (1000, 1000)), ((0, 0), (-3000, -7000), (1000, -1000)), ((1, -1), (999, 1001), (2000, 1000)),
    ((0, 0), (1, 1), (2_000_000_000, 0)),               # the count is out of range
    ((0, 0), (0, 2000), (-2000, 4000)),                 # c holds zero: by Q-7 it has one solution
    ((0, 0), (2000, 0), (4000, -2000)), ((0, 0), (0, 2000), (1000, 4000)), ((0, 0), (-3000, 7000), (-1000, 1000)),
    ((2_000_000_000, 0), (1000, 1000), (-2_000_000_000, 0)), ((0, 0), (0, 0), (0, 2_000_000_001)),
]


def generated():
    r = random.Random(14)
    for _ in range(300):
        size = r.choice([9, 999, 99999])
        a, c, b = [(r.randint(-size, size), r.randint(-size, size)) for _ in range(3)]
        yield a, (c if r.random() < 0.2 else tuple(abs(end) + 1 for end in c)), b


def steps(operation, way, a, c, b):
    """The three results, or as many as were accepted and the number that stopped them."""
    told = []
    for name, pairs in (('equation', lambda: (a, c, b)), ('product', lambda: (c, told[0])), ('sum', lambda: (a, told[1]))):
        result = operation(way, name, pairs())
        if isinstance(result, int):
            return told, 'R %d' % result
        told.append(result)
    return told, ''


def shown(told, stopped, holds):
    return ' '.join(['%d %d' % pair for pair in told] + ([stopped] if stopped else ['holds' if holds else 'FAILS']))


def ask(library, reference):
    def called(way, name, pairs):
        result = (NUMBER * 2)(77, 77)
        number = getattr(library, 'dzb_' + name)(*[NUMBER(end) for pair in pairs for end in pair], ctypes.c_bool(way == reference.INWARD), result)
        return number or tuple(result)

    def expected(way, name, pairs):
        try:
            return reference.operation(way, name, pairs)
        except reference.Refusal as refusal:
            return refusal.number

    for a, c, b in NAMED + list(generated()):
        for way in (reference.OUTWARD, reference.INWARD):
            told, stopped = steps(called, way, a, c, b)
            holds = not stopped and (reference.lies_in(b, told[2]) if way == reference.OUTWARD else reference.lies_in(told[2], b))
            question = '%s put back %s' % (way, ' '.join('%d %d' % pair for pair in (a, c, b)))
            yield question, shown(told, stopped, holds), shown(*steps(expected, way, a, c, b), True)
