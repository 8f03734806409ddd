"""Q-11: counts from other makers. The replies, first and second, as 0 or 1; a refusal leaves both lent bytes."""
import ctypes
import random

GREATEST = 2_000_000_000
NAMED = [  # a, c, b, claim
    ((0, 0), (2000, 4000), (6000, 8000), (3000, 2000)),                # 01's x, which is improper
    ((0, 0), (2000, 4000), (6000, 8000), (2999, 2000)),
    ((0, 0), (2000, 4000), (6000, 8000), (3000, 1999)),
    ((0, 0), (2000, 4000), (6000, 8000), (2000, 3000)),                # its ends in rising order contain it
    ((0, 0), (2000, 4000), (-4000, 8000), (-1000, 2000)),
    ((500, 600), (2000, 4000), (6500, 20600), (3000, 5000)),
    ((0, 0), (3000, 3000), (-1000, -1000), (-334, -333)),              # rounded outward
    ((0, 0), (3000, 3000), (-1000, -1000), (-333, -334)),              # inward
    ((0, 0), (3000, 3000), (-1000, -1000), (-333, -333)),
    ((0, 0), (3000, 3000), (-1000, -1000), (-335, -333)),
    ((0, 0), (1, 1), (GREATEST, GREATEST), (GREATEST, GREATEST)),      # our count is out of range
    ((0, 0), (1, 1), (GREATEST, -GREATEST), (-GREATEST, GREATEST)),    # and lies in every pair
    ((0, 0), (1, 1), (GREATEST, 0), (GREATEST, 0)),
    ((0, 0), (0, 2000), (-2000, 4000), (-1000, 2000)),                 # Q-7 solves it; a claim about it has 5
    ((0, 0), (0, 0), (0, 0), (0, 0)),
    ((0, 0), (-1, 1), (0, 0), (0, GREATEST + 1)),                      # 2 before 5
    ((0, -GREATEST - 1), (1, 1), (0, 0), (0, 0)),
    ((0, 0), (GREATEST + 1, 1), (0, 0), (0, 0)),
    ((0, 0), (1, 1), (-GREATEST - 1, 0), (0, 0)),
    ((0, 0), (1, 1), (0, 0), (-GREATEST - 1, 0)),
]


def generated(reference):
    """Small ends, so that solutions are no whole thousandths; claims around the count."""
    r = random.Random(11)
    for _ in range(400):
        a, b = [(r.randint(-9, 9), r.randint(-9, 9)) for _ in range(2)]
        c = [r.randint(1, 9) * 1000 for _ in range(2)]
        c = tuple(c) if r.random() < 0.5 else (-c[0], -c[1])
        count = reference.rounded('O', reference.quotient(reference.difference(reference.units(b), reference.units((a[1], a[0]))), reference.units((c[1], c[0]))))
        yield a, c, b, tuple(end + r.choice([0, 0, 0, 1, -1]) for end in count)


def expected(reference, pairs):
    try:
        return '%d %d' % reference.claim(*pairs)
    except reference.Refusal as refusal:
        return 'R %d, 77 77' % refusal.number


def ask(library, reference):
    for pairs in NAMED + list(generated(reference)):
        replies = (ctypes.c_uint8 * 2)(77, 77)
        number = library.dzb_claim(*[ctypes.c_int32(end) for pair in pairs for end in pair], replies)
        answer = ('R %d, %d %d' % (number, *replies)) if number else '%d %d' % tuple(replies)
        yield 'claim ' + ' '.join('%d %d' % pair for pair in pairs), answer, expected(reference, pairs)
