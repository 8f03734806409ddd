"""Document 01's values of the operations and the equation, and what a refusal leaves of the lent ends."""
import ctypes

NUMBER = ctypes.c_int32


def papers(reference):
    """(way, operation, pairs): "Values to meet", both ways."""
    named = [
        ('product', (1001, 1001), (1001, 1001)), ('product', (-1000, 2000), (-3000, 4000)), ('product', (2000, -1000), (4000, -3000)),
        ('product', (-1000, 2000), (4000, -3000)), ('product', (1000, 2000), (4000, -3000)), ('product', (-1, -1), (1, 1)),
        ('quotient', (-1000, -1000), (3000, 3000)), ('equation', (0, 0), (2000, 4000), (6000, 8000)),
        ('equation', (0, 0), (2000, 4000), (-4000, 8000)), ('difference', (2000, 5000), (5000, 2000)),
        ('product', (2000000, 2000000), (1000001, 1000001)), ('sum', (2000000000, 2000000000), (1, 1)), ('quotient', (1000, 2000), (0, 1)),
        ('sum', (0, 2000000001), (0, 0)),
    ]
    return [(way, name, pairs) for name, *pairs in named for way in (reference.OUTWARD, reference.INWARD)]


def expected(reference, way, name, pairs):
    try:
        return '%d %d' % reference.operation(way, name, pairs)
    except reference.Refusal as refusal:
        return 'R %d, 77 77' % refusal.number


def ask(library, reference):
    for way, name, pairs in papers(reference):
        ends = [NUMBER(end) for pair in pairs for end in pair]
        result = (NUMBER * 2)(77, 77)
        number = getattr(library, 'dzb_' + name)(*ends, ctypes.c_bool(way == reference.INWARD), result)
        answer = ('R %d, %d %d' % (number, *result)) if number else '%d %d' % tuple(result)
        yield '%s %s %s' % (way, name, ' '.join('%d %d' % tuple(pair) for pair in pairs)), answer, expected(reference, way, name, pairs)
