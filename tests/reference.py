#!/usr/bin/env python3
"""Documents 01 and 02 read into Python: exact fractions, no code of the library's. Everything that is expected of a program comes from here.

A pair is a tuple of two ends. What is given and what is answered is in whole thousandths; in between ends are `Fraction`s of a unit.
A function returns its value or raises `Refusal`. Run as a program, it answers the lines of standard input as the slip does.
"""
import contextlib
import functools
import itertools
import math
import re
import struct
import sys
from fractions import Fraction

LEAST, GREATEST = -2_000_000_000, 2_000_000_000
VALUES, STEPS = 16, 64  # of a list
LINE_BYTES, LINES = 96, 999_999
OUTWARD, INWARD = 'O', 'I'
OTHER = {OUTWARD: INWARD, INWARD: OUTWARD}


class Refusal(Exception):
    """A number of the table of causes; in a list also the step, or the count of steps; in a report the block's place."""

    def __init__(self, number, step=None):
        super().__init__(number, step)
        self.number, self.step = number, step


def refuse(number, cause):
    if cause:
        raise Refusal(number)


# ---- "The pair and its ends"

def proper(a):
    return a[0] <= a[1]


def sign(a):
    """+1 or -1 of a zero-free pair; 0 of one that holds zero."""
    return 1 if a[0] > 0 and a[1] > 0 else -1 if a[0] < 0 and a[1] < 0 else 0


def direction(a):
    """t(a): + if proper, - if improper."""
    return 1 if proper(a) else -1


def at(a, index):
    """The end of a with this index."""
    return a[1] if index > 0 else a[0]


def kind(a):
    """02's Q-5: positive, negative, or holds zero and is proper or improper."""
    return {1: 'p', -1: 'n', 0: 'z' if proper(a) else 'i'}[sign(a)]


def disagree(pairs, kinds):
    return any(said not in ('.', kind(a)) for a, said in zip(pairs, kinds))


def beyond(a):
    return any(not LEAST <= e <= GREATEST for e in a)


def units(a):
    return tuple(Fraction(e, 1000) for e in a)


def rounded(way, a):
    """Outward: the lower end down, the upper end up; inward the reverse. Down is towards minus infinity."""
    low, high = (1000 * e for e in a)
    return (math.floor(low), math.ceil(high)) if way == OUTWARD else (math.ceil(low), math.floor(high))


# ---- "The operations", exact

def negation(a):
    return (-a[1], -a[0])


def opposite(a):
    return (-a[0], -a[1])


def dual(a):
    return (a[1], a[0])


def join(a, b):
    return (min(a[0], b[0]), max(a[1], b[1]))


def meet(a, b):
    return (max(a[0], b[0]), min(a[1], b[1]))


def total(a, b):
    return (a[0] + b[0], a[1] + b[1])


def difference(a, b):
    return (a[0] - b[1], a[1] - b[0])


def product(a, b):
    s, r = sign(a), sign(b)
    if s and r:  # "both zero-free": indices -s(b) and -s(a), then s(b) and s(a)
        return (at(a, -r) * at(b, -s), at(a, r) * at(b, s))
    if s:  # "a zero-free with sign d, b holding zero": a's index is d t(b), b's are -d and d
        factor = at(a, s * direction(b))
        return (factor * at(b, -s), factor * at(b, s))
    if r:  # "With the roles changed, the same."
        return product(b, a)
    if proper(a) != proper(b):  # "one of each"
        return (Fraction(0), Fraction(0))
    low, high = min(a[0] * b[1], a[1] * b[0]), max(a[0] * b[0], a[1] * b[1])
    return (low, high) if proper(a) else (high, low)


def quotient(a, b):
    """a times [1/b+, 1/b-]."""
    refuse(5, not sign(b))
    return product(a, (1 / b[1], 1 / b[0]))


def solutions(c, d):
    """Pairs of fractions x with c x = d, found by trying: none if there is none, one if there is one, more if there are more. In every case of the
    product an end of c times x is an end of c times an end of x, or the larger or smaller of two such: so the ends of a solution are 0, quotients of
    an end of d by one of c, or free on one side or within such bounds, and one size beyond them all stands for those that are free."""
    sizes = {Fraction(0)} | {abs(Fraction(e) / f) for e in d for f in c if f}
    sizes.add(max(sizes) + 1)
    ends = sizes | {-size for size in sizes}
    return [x for x in itertools.product(ends, ends) if product(c, x) == d]


def equation(a, c, b):
    """The x of a + c x = b: (b - dual a) / dual c. Document 02, Q-7: where c holds zero, the one pair that solves it, 16 if none does, 17 if more do."""
    if sign(c):
        return quotient(difference(b, dual(a)), dual(c))
    found = solutions(c, total(b, opposite(a)))
    refuse(16, not found)
    refuse(17, len(found) > 1)
    return found[0]


# By name: how many pairs are taken, and the exact operation.
OPERATIONS = {
    'negation': (1, negation), 'opposite': (1, opposite), 'dual': (1, dual),
    'sum': (2, total), 'difference': (2, difference), 'product': (2, product), 'quotient': (2, quotient), 'join': (2, join), 'meet': (2, meet),
    'equation': (3, equation),
}


def unjudged(way, name, pairs):
    """5, then 4; this is all that a step of a list judges, since values that wait are in range."""
    result = rounded(way, OPERATIONS[name][1](*map(units, pairs)))
    refuse(4, beyond(result))
    return result


def operation(way, name, pairs, kinds=''):
    """`kinds`: what each pair carries, as far as that is said; `.` for its own."""
    refuse(2, any(map(beyond, pairs)) or disagree(pairs, kinds))
    return unjudged(way, name, pairs)


# ---- document 02, Q-11: "Counts from other makers"

def lies_in(a, b):
    return b[0] <= a[0] and a[1] <= b[1]


def claim(a, c, b, claimed):
    """Whether the claimed pair contains the one exact solution, and whether it is moreover our outward count; 5 for any c that holds zero."""
    refuse(2, any(map(beyond, (a, c, b, claimed))))
    refuse(5, not sign(c))
    solution = quotient(difference(units(b), dual(units(a))), dual(units(c)))
    count = rounded(OUTWARD, solution)
    return lies_in(solution, units(claimed)), claimed == count and not beyond(count)


# ---- "Lists of steps"

CONSTANT = 0
CODES = {1: 'sum', 2: 'difference', 3: 'product', 4: 'negation', 5: 'opposite', 6: 'dual', 7: 'join', 8: 'meet', 9: 'quotient'}
TURNING = ('opposite', 'dual')


def constant_at(data, place):
    """8 bytes: l then u, 32-bit two's complement, low byte first."""
    return tuple(int.from_bytes(data[k:k + 4], 'little', signed=True) for k in (place, place + 4))


@contextlib.contextmanager
def at_step(step):
    try:
        yield
    except Refusal as refusal:
        raise Refusal(refusal.number, step) from None


def expression(data, values=VALUES, steps=STEPS):
    """The steps of a list that leaves one value: each the name of its operation and the steps that it takes, or None and a constant."""
    read, waiting, place = [], [], 0
    while place < len(data):
        with at_step(len(read)):
            refuse(10, len(read) == steps)
            code, place = data[place], place + 1
            refuse(6, code != CONSTANT and code not in CODES)
            if code == CONSTANT:
                refuse(7, len(data) - place < 8)
                name, taken, place = None, constant_at(data, place), place + 8
                refuse(2, beyond(taken))
            else:
                name = CODES[code]
                left = len(waiting) - OPERATIONS[name][0]
                refuse(8, left < 0)
                taken, waiting = waiting[left:], waiting[:left]
            refuse(9, len(waiting) == values)
            waiting.append(len(read))
            read.append((name, taken))
    with at_step(len(read)):
        refuse(11, len(waiting) != 1)
    return read


def wanted(read, way):
    """The way in which each step is wanted: the last as asked, an operand as its step is, but turned by dual and opposite."""
    ways = {len(read) - 1: way}
    for step in reversed(range(len(read))):
        name, taken = read[step]
        if name:
            for operand in taken:
                ways[operand] = OTHER[ways[step]] if name in TURNING else ways[step]
    return ways


def evaluate(way, data, values=VALUES, steps=STEPS):
    """Each step once, in the way it is wanted: the first that is refused is the earliest."""
    read = expression(data, values, steps)
    ways, made = wanted(read, way), []
    for step, (name, taken) in enumerate(read):
        with at_step(step):
            made.append(unjudged(ways[step], name, [made[k] for k in taken]) if name else taken)
    return made[-1]


# ---- "Text and lines"

# Document 02, Q-2: "Reading an end now allows no point at all, or a point with one to three digits; missing digits are zeros."
END = rb'(-?)(0|[1-9][0-9]{0,6})(?:\.([0-9]{1,3}))?'
TEXT = re.compile(rb'\[' + END + rb',' + END + rb'\]')


def end_of(minus, whole, part):
    size = 1000 * int(whole) + int((part or b'').ljust(3, b'0'))
    refuse(1, minus and size == 0)
    return -size if minus else size


def read_text(text):
    found = TEXT.fullmatch(text)
    refuse(1, not found)
    marks = found.groups()
    pair = (end_of(*marks[:3]), end_of(*marks[3:]))
    refuse(2, beyond(pair))
    return pair


def end_text(end):
    return b'%s%d.%03d' % (b'-' if end < 0 else b'', abs(end) // 1000, abs(end) % 1000)


def text_of(pair):
    return b'[%s,%s]' % (end_text(pair[0]), end_text(pair[1]))


def write_text(pair, room):
    refuse(2, beyond(pair))
    text = text_of(pair)
    refuse(3, len(text) > room)
    return text


# ---- document 02, Q-12: "`(m;r)`, centre and radius, each written as 01 writes an end"; "The scale's shorter figures are malformed in this text."

WHOLE_END = rb'(-?)(0|[1-9][0-9]{0,6})\.([0-9]{3})'
OFFICE = re.compile(rb'\(' + WHOLE_END + rb';' + WHOLE_END + rb'\)')


def around(centre, radius):
    """"the ends are m - r and m + r\""""
    return centre - radius, centre + radius


def read_centre(text):
    found = OFFICE.fullmatch(text)
    refuse(1, not found)
    marks = found.groups()
    pair = around(end_of(*marks[:3]), end_of(*marks[3:]))
    refuse(2, beyond(pair))
    return pair


def centre_text(centre, radius):
    return b'(%s;%s)' % (end_text(centre), end_text(radius))


def write_centre(pair, room):
    """"to the office's text, 21 after 2 and before 3\""""
    refuse(2, beyond(pair))
    refuse(21, sum(pair) % 2 == 1)
    text = centre_text(sum(pair) // 2, (pair[1] - pair[0]) // 2)
    refuse(3, len(text) > room)
    return text


LETTERS = {b'A': 'sum', b'S': 'difference', b'M': 'product', b'D': 'quotient', b'E': 'equation'}


def line_value(line):
    refuse(12, len(line) > LINE_BYTES)
    fields = line.split(b' ')
    refuse(12, len(fields) < 2)
    refuse(6, fields[0] not in (b'O', b'I'))
    refuse(6, fields[1] not in LETTERS)
    name = LETTERS[fields[1]]
    refuse(12, len(fields) - 2 != OPERATIONS[name][0])
    return operation(fields[0].decode(), name, [read_text(field) for field in fields[2:]])


def lines_of(data):
    lines = data.split(b'\n')
    if lines[-1] == b'':  # nothing follows the last byte 10, or there is no byte at all
        lines.pop()
    return lines[:LINES]


def told(value, show):
    """A value as `show` writes it, or the refusal."""
    try:
        return show(value())
    except Refusal as refusal:
        return b'R %d' % refusal.number + (b'' if refusal.step is None else b' %d' % refusal.step)


def output(data):
    """What the slip prints."""
    return b''.join(b'%d %s\n' % (n, told(lambda: line_value(line), text_of)) for n, line in enumerate(lines_of(data), 1))


# ---- document 02, Q-4: "The day file", and Q-13: "Day file with block sums". A record is a tuple of box, line and the count's pair; the layout is byte 3.

BLOCK, BLOCKS, RECORDS = 512, 100, 30
SUMMED = 508  # "Bytes 508 to 511 hold the sum of bytes 0 to 507."
SUMS = 484  # "bytes 484 to 491 and 492 to 499 hold the block's sums of lower and upper ends, 64 bits signed"


def sealed(contents):
    return contents + struct.pack('<I', sum(contents))


def sums_of(records):
    return tuple(sum(ends[k] for _, _, ends in records) for k in (0, 1))


def block_of(number, records, layout=0):
    """Zeros, filled in: 'A block begins as 512 zero bytes and is filled in.'"""
    contents = struct.pack('<HBB', number, len(records), layout) + b''.join(struct.pack('<IIii', box, line, *ends) for box, line, ends in records)
    if layout == 1:
        contents = contents.ljust(SUMS, b'\0') + struct.pack('<qq', *sums_of(records))
    return sealed(contents.ljust(SUMMED, b'\0'))


def block_records(block, numbers):
    """Its records, where it is accepted and its number is one of these."""
    refuse(13, len(block) != BLOCK)
    refuse(14, sum(block[:SUMMED]) != int.from_bytes(block[SUMMED:], 'little'))
    number, count, layout = struct.unpack_from('<HBB', block)
    records = [(box, line, (lower, upper)) for box, line, lower, upper in struct.iter_unpack('<IIii', block[4:4 + 16 * min(count, RECORDS)])]
    unused = block[4 + 16 * count:SUMS] + block[SUMS + 16 * layout:SUMMED]  # "Bytes 500 to 507 stay 0."
    refuse(15, number not in numbers or count > RECORDS or layout > 1 or any(unused) or any(beyond(ends) for _, _, ends in records))
    refuse(22, layout == 1 and struct.unpack_from('<qq', block, SUMS) != sums_of(records))
    return records


def begin_block(number, length, layout):
    refuse(13, number > 99 or length != BLOCK)
    refuse(15, layout not in (0, 1))
    return block_of(number, [], layout)


def add_record(record, block):
    records = block_records(block, range(100))
    refuse(13, len(records) == RECORDS)
    refuse(2, beyond(record[2]))
    return block_of(int.from_bytes(block[:2], 'little'), records + [record], block[3])


def file_records(data):
    """The records of all blocks of a file, or the first refusal with its place."""
    records = []
    for place, start in enumerate(range(0, len(data), BLOCK)):
        with at_step(place):
            refuse(13, place == BLOCKS)
            records += block_records(data[start:start + BLOCK], [place])
    return records


def report(data):
    """What the report program prints."""
    def line(records):
        return b'%d %s' % (len(records), text_of(sums_of(records)))
    return told(lambda: file_records(data), line) + b'\n'


# ---- document 02, Q-8: "A sheet of trays"

SHEET_ENDS = 800


def trays_of(ends):
    """"four to a tray: mass, then count, each lower end first" """
    return [((ends[k], ends[k + 1]), (ends[k + 2], ends[k + 3])) for k in range(0, len(ends), 4)]


def sheet(way, ends):
    refuse(18, len(ends) > SHEET_ENDS or len(ends) % 4 != 0)
    refuse(2, beyond(ends))
    products = [product(units(mass), units(count)) for mass, count in trays_of(ends)]
    result = rounded(way, tuple(sum((each[k] for each in products), Fraction(0)) for k in (0, 1)))
    refuse(4, beyond(result))
    return result


# ---- document 02, Q-10: "All small lists for burn-in". A step is a tuple: code 0 and a position, or a code alone.

CONSTANTS, LISTED = 4, 5


def cause_of(steps):
    """What a list is refused with once 8 bytes, here zeros, stand in the place of each position; None if with nothing."""
    try:
        expression(b''.join(bytes(9) if step[0] == CONSTANT else bytes(step) for step in steps))
    except Refusal as refusal:
        return refusal.number
    return None


@functools.lru_cache(None)
def series(count):
    """Every well-formed list in order. A list refused with more than 11 alone stays refused, whatever follows."""
    steps = [(CONSTANT, position) for position in range(count)] + [(code,) for code in sorted(CODES)]
    lists, begun = [], [()]
    for _ in range(LISTED):
        begun = [front + (step,) for front in begun for step in steps]
        causes = [cause_of(front) for front in begun]
        lists += [front for front, cause in zip(begun, causes) if cause is None]
        begun = [front for front, cause in zip(begun, causes) if cause in (None, 11)]
    return [b''.join(map(bytes, steps)) for steps in lists]


@functools.lru_cache(None)
def followers(count):
    return dict(zip(series(count), series(count)[1:] + [b'']))


def first_list(count, room):
    refuse(19, not 1 <= count <= CONSTANTS)
    refuse(3, room < len(series(count)[0]))
    return series(count)[0]


def next_list(count, data, room):
    """The list that follows, or no bytes if it was the last."""
    refuse(19, not 1 <= count <= CONSTANTS)
    refuse(20, data not in followers(count))
    refuse(3, room < len(followers(count)[data]))
    return followers(count)[data]


def burnin(data):
    """What the burn-in program prints: how many lists it ran, none of which differs, or the refusal and the line."""
    lines = data.split(b'\n')
    if lines[-1] == b'':
        lines.pop()

    def run():
        for number, line in enumerate(lines, 1):
            with at_step(number):
                refuse(19, number > CONSTANTS)
                read_text(line)
        with at_step(1):
            refuse(19, not lines)
        return b'%d 0' % len(series(len(lines)))
    return told(run, bytes) + b'\n'


# ---- what crates/library_test prints: its questions are described there

BUFFER = 28


def shown(pair):
    return b'%d %d %s' % (*pair, kind(pair).encode())


def written(pair, room, kinds):
    """What is told, and the whole buffer, each byte `#` before; only the first `room` bytes of it are lent."""
    try:
        refuse(2, disagree([pair], kinds))
        text = write_text(pair, room)
        return b'%d %s' % (len(text), text.ljust(BUFFER, b'#'))
    except Refusal as refusal:
        return b'R %d %s' % (refusal.number, b'#' * BUFFER)


LENT = 520


def runs(data):
    """Bytes as library_test takes and shows them: two digits of the byte, and three of how often it comes."""
    return b''.join(b' %02x*%03x' % (byte, len(list(run))) for byte, run in itertools.groupby(data))


def stored(make, lent):
    """What is told, and the lent bytes behind it."""
    try:
        return b'0' + runs(make())
    except Refusal as refusal:
        return b'R %d' % refusal.number + runs(lent)


def begun(length, number, layout):
    """Into the first `length` of some bytes, each `#` before."""
    lent = b'#' * LENT
    return stored(lambda: begin_block(number, length, layout) + lent[length:], lent)


def answer(question):
    word, _, rest = question.partition(b' ')
    way = word.decode('latin-1')
    if way in OTHER:
        word, _, rest = rest.partition(b' ')
    if word == b'read':
        return told(lambda: read_text(rest), shown)
    if word == b'list':
        return told(lambda: evaluate(way, bytes.fromhex(rest.decode())), shown)
    if word == b'within':  # "A limit above 16 or 64 counts as 16 or 64."
        limits = min(int(rest[:2]), VALUES), min(int(rest[3:5]), STEPS)
        return told(lambda: evaluate(way, bytes.fromhex(rest[6:].decode()), *limits), shown)
    if word == b'add':
        fields = rest.split()
        box, line, lower, upper = map(int, fields[:4])
        lent = b''.join(bytes([int(run[:2], 16)]) * int(run[3:], 16) for run in fields[4:])
        return stored(lambda: add_record((box, line, (lower, upper)), lent), lent)
    fields = rest.decode().split()
    kinds = fields.pop() if fields[-1].strip('.pnzi') == '' else ''
    numbers = [int(n) for n in fields]
    if word == b'begin':
        return begun(*numbers)
    if word == b'write':
        return written(tuple(numbers[1:]), numbers[0], kinds)
    pairs = list(zip(numbers[::2], numbers[1::2]))
    return told(lambda: operation(way if way in OTHER else OUTWARD, word.decode(), pairs, kinds), shown)


def answers(data):
    """What library_test prints."""
    return b''.join(line + (b'' if line[:1] in (b'', b'#') else b' = ' + answer(line)) + b'\n' for line in lines_of(data))


if __name__ == '__main__':
    sys.stdout.buffer.write(output(sys.stdin.buffer.read()))
