"""Q-7: the equation where c holds zero; each kind of c, each way, at the edges between none, one and many."""
import ctypes
import itertools
import random

NUMBER = ctypes.c_int32
# Document 02's c [0, 2] with its three sums, then orders of refusals: 2 before 16 and 17, these before 4.
PAPERS = [((0, 0), (0, 2000), d) for d in ((-2000, 4000), (0, 4000), (1000, 4000))] + [
    ((0, 2000000001), (0, 2000), (1000, 4000)), ((0, 0), (0, 2000), (0, -2000000001)), ((0, 0), (0, 1), (-2000000000, 2000000000)),
    ((0, 0), (0, 1), (2000000000, 2000000000)), ((2000000000, -2000000000), (-1, 1), (-2000000000, 2000000000)),
    ((2000000000, -2000000000), (-1999999999, 2000000000), (-2000000000, 2000000000)),
]


def cases():
    """Small ends of c and d, whole and beside whole; then sizes up to the range with d a multiple of c, or beside one."""
    yield from PAPERS
    ends = [-2000, -1999, -1, 0, 1, 1000, 2000]
    for c in itertools.product(ends, ends):
        for d in itertools.product([-4000, -2001, -2000, 0, 1, 2000, 4000], repeat=2):
            yield (0, 0), c, d
    r = random.Random(7)
    for _ in range(400):
        size = r.choice([10, 3000, 2_000_000_000])
        c = (-r.randint(0, size), r.randint(0, size))
        times = r.choice([r.randint(-3, 3), r.randint(-3000, 3000) / 1000])
        d = [max(-2_000_000_000, min(2_000_000_000, round(times * e) + r.randint(-1, 1))) for e in r.choice([c, c[::-1]])]
        turn = r.choice([1, -1])
        yield (0, 0), c[::turn], tuple(d[::turn])


def expected(reference, way, pairs):
    try:
        return '%d %d' % reference.operation(way, 'equation', pairs)
    except reference.Refusal as refusal:
        return 'R %d, 77 77' % refusal.number


def ask(library, reference):
    for pairs in cases():
        for way in (reference.OUTWARD, reference.INWARD):
            ends = [NUMBER(end) for pair in pairs for end in pair]
            result = (NUMBER * 2)(77, 77)
            number = library.dzb_equation(*ends, ctypes.c_bool(way == reference.INWARD), result)
            answer = ('R %d, %d %d' % (number, *result)) if number else '%d %d' % tuple(result)
            yield '%s equation %s' % (way, ' '.join('%d %d' % pair for pair in pairs)), answer, expected(reference, way, pairs)
