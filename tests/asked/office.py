"""Q-12: centre and spread. Source document 004 has no numbers for its mid-rad form: its formulas are asked of drawn pairs."""
import ctypes
import random

NUMBER, ROOM = ctypes.c_int32, 32

TEXTS = [
    b'(2.000;1.000)', b'(2.000;-1.000)', b'(0.000;0.000)', b'(-1000000.000;-1000000.000)', b'(2000000.000;0.000)', b'(0.000;-2000000.000)',  # accepted
    b'(1.5;0.000)', b'(2;1)', b'(1.000;2)', b'(1.00;0.000)', b'(-0.000;1.000)', b'(1.000;-0.000)', b'(00.000;1.000)', b'(1.;0.000)', b'(.500;0.000)',
    b'(1.0000;0.000)', b'(+1.000;0.000)', b'[2.000;1.000]', b'(2.000,1.000)', b'(2.000;1.000', b'2.000;1.000)', b'(2.000;1.000) ', b' (2.000;1.000)',
    b'(2.000;1.000))', b'((2.000;1.000)', b'(2.000;;1.000)', b'(2.000 ;1.000)', b'()', b')', b'', b'(;)', b'(10000000.000;0.000)', b'(2.000;1.000)\n',
    b'(2000000.000;0.001)', b'(-2000000.000;-0.001)', b'(9999999.999;9999999.999)', b'(0.000;2000000.001)', b'(9999999.999;1.5)',  # 2, and 1 before it
]

PAIRS = [
    (1000, 3000), (3000, 1000), (0, 0), (0, -2000000000), (0, 2000000000), (-2000000000, 2000000000), (2000000000, -2000000000), (-2000000000, -2000000000),
    (0, 1), (1, 0), (-1, 0), (-1, 1), (1, -1), (-1, -2), (-2000000000, 1999999999), (2000000001, 0), (0, -2000000001), (2000000001, 2000000000),
    (-2147483648, -2147483648), (2147483647, 2147483646),
]


def read(library, text):
    """What the library reads: the ends, or a refusal and the lent ends."""
    result = (NUMBER * 2)(77, 77)
    number = library.dzb_read_centre(text, ctypes.c_size_t(len(text)), result)
    return ('R %d, ' % number if number else '') + '%d %d' % tuple(result)


def write(library, pair, room):
    """What the library writes: the whole buffer, or a refusal, with the length that it lent."""
    buffer, length = ctypes.create_string_buffer(b'#' * ROOM, ROOM), ctypes.c_size_t(77)
    number = library.dzb_write_centre(NUMBER(pair[0]), NUMBER(pair[1]), buffer, ctypes.c_size_t(room), ctypes.byref(length))
    return ('R %d, ' % number if number else '') + '%d %s' % (length.value, buffer.raw.decode())


def told(answer, refused, *words):
    """The reference's value, shown, or its refusal before what stays."""
    try:
        return answer(*words)
    except Exception as refusal:
        return 'R %d, %s' % (refusal.number, refused)


def read_told(reference, text):
    return told(lambda: '%d %d' % reference.read_centre(text), '77 77')


def write_told(reference, pair, room):
    def written():
        text = reference.write_centre(pair, room)
        return '%d %s' % (len(text), text.decode().ljust(ROOM, '#'))
    return told(written, '77 ' + '#' * ROOM)


def formulas(reference, draw):
    """004, 3.3: (operation of the library, pairs, centre and radius), A = (a'; a'') and B = (b'; b'') proper and improper."""
    a, ra, b, rb = (draw.randint(-400_000_000, 400_000_000) for _ in range(4))
    first, second = reference.around(a, ra), reference.around(b, rb)
    return [('sum', (first, second), a + b, ra + rb), ('difference', (first, second), a - b, ra + rb), ('negation', (first,), -a, ra), ('dual', (first,), a, -ra)]


def compute(library, name, pairs):
    result = (NUMBER * 2)(77, 77)
    way = [ctypes.c_bool(False)] if len(pairs) == 2 else []
    getattr(library, 'dzb_' + name)(*[NUMBER(end) for pair in pairs for end in pair], *way, result)
    return tuple(result)


def ask(library, reference):
    draw = random.Random(12)
    ends = lambda: draw.randint(reference.LEAST, reference.GREATEST)  # noqa: E731
    drawn = [(ends(), ends()) for _ in range(300)]
    written = [reference.centre_text(ends() // 2, ends() // 2) for _ in range(200)]
    for text in TEXTS + written:
        yield 'read %r' % text, read(library, text), read_told(reference, text)
    for pair in PAIRS + drawn:
        for room in {0, ROOM, draw.randint(12, 27)} | ({26, 27} if pair in PAIRS else set()):
            yield 'write %d %d into %d' % (*pair, room), write(library, pair, room), write_told(reference, pair, room)
    for _ in range(100):
        for name, pairs, centre, radius in formulas(reference, draw):
            text = reference.centre_text(centre, radius)
            yield '%s %s' % (name, pairs), write(library, compute(library, name, pairs), ROOM), '%d %s' % (len(text), text.decode().ljust(ROOM, '#'))
            yield 'back %r' % text, read(library, text), read_told(reference, text)
