"""What the three programs that are run and compared are given: QUESTIONS crates/library_test, SLIP crates/slip, DAY crates/report."""
import itertools
import struct

import reference
from reference import GREATEST

# ---- library_test: lists are made of these

def const(l, u=None):
    return b'\0' + struct.pack('<ii', l, l if u is None else u)


SUM, DIFF, MUL, NEG, OPP, DUAL, JOIN, MEET, DIV = (bytes([code]) for code in range(1, 10))
UNKNOWN = bytes([10])
ONE, SOME = const(1000), const(1001)
MANY = const(GREATEST) * 2
WIDE = const(0, 1001) + const(0, 1998001999)  # their product's exact upper end lies between 2000000.000 and 2000000.001
A, B, C, D = const(11000, 9000), const(4000, 2000), const(2300, 1500), const(-7500, -3100)  # of source document 000, In[74]


def list_question(way, data):
    return '%s list %s' % (way, data.hex(' '))


# ---- library_test: what the papers say, with the answer that they give; tests/expected holds the reference to it

PAPERS = f'''\
# Document 01, "Values to meet"; both ways where it names none
O product 1001 1001 1001 1001 = 1002 1003
I product 1001 1001 1001 1001 = 1003 1002
O product -1000 2000 -3000 4000 = -6000 8000
I product -1000 2000 -3000 4000 = -6000 8000
O product 2000 -1000 4000 -3000 = 8000 -6000
I product 2000 -1000 4000 -3000 = 8000 -6000
O product -1000 2000 4000 -3000 = 0 0
I product -1000 2000 4000 -3000 = 0 0
O product 1000 2000 4000 -3000 = 4000 -3000
I product 1000 2000 4000 -3000 = 4000 -3000
O product -1 -1 1 1 = -1 0
I product -1 -1 1 1 = 0 -1
O quotient -1000 -1000 3000 3000 = -334 -333
O equation 0 0 2000 4000 6000 8000 = 3000 2000
I equation 0 0 2000 4000 6000 8000 = 3000 2000
O equation 0 0 2000 4000 -4000 8000 = -1000 2000
I equation 0 0 2000 4000 -4000 8000 = -1000 2000
O difference 2000 5000 5000 2000 = 0 0
I difference 2000 5000 5000 2000 = 0 0
# 1.001, 1.001, product, dual
{list_question('O', SOME + SOME + MUL + DUAL)} = 1002 1003
# Values that are not starred
O product 2000000 2000000 1000000 1000000 = 2000000000 2000000000
O product 2000000 2000000 1000001 1000001 = R 4
O sum 2000000000 2000000000 1 1 = R 4
O quotient 1000 2000 1 1 = 1000000 2000000
O quotient 1000 2000 0 1 = R 5
read [9999999.000,0.000] = R 2
read [10000000.000,0.000] = R 1
# 16 constants 1 and 15 sums; 17 constants; 1 and 63 negations; 1 and 64 negations
{list_question('O', ONE * 16 + SUM * 15)} = 16000 16000
{list_question('O', ONE * 17)} = R 9 16
{list_question('O', ONE + NEG * 63)} = -1000 -1000
{list_question('O', ONE + NEG * 64)} = R 10 64
# Document 02, Q-7, and the duals
O equation 0 0 0 2000 -2000 4000 = -1000 2000
I equation 0 0 0 2000 -2000 4000 = -1000 2000
O equation 0 0 0 2000 0 4000 = R 17
O equation 0 0 0 2000 1000 4000 = R 16
O equation 0 0 2000 0 4000 -2000 = 2000 -1000
O equation 0 0 2000 0 4000 0 = R 17
O equation 0 0 2000 0 4000 1000 = R 16
# Source document 000: Out[39], [59], [64], [68]; Out[119] as the directed solution; Out[123], refused here; Out[124]; Out[75] and [76]
O meet -12000 -3000 4000 7000 = 4000 -3000
O sum 2000 3000 5700 5700 = 7700 8700
O difference 3100 -2000 -2000 3100 = 0 0
O quotient -7300 -1000 -1000 -7300 = 1000 1000
O equation 2000 3000 1000 1000 0 0 = -2000 -3000
I equation 2000 3000 1000 1000 0 0 = -2000 -3000
O equation 2000 3000 -1000 1000 0 0 = R 16
O equation 5100 3000 -7200 -11500 1000 2000 = 86 570
I equation 5100 3000 -7200 -11500 1000 2000 = 87 569
# a (b + c) - dual d of In[74] both ways, and its dual from the duals
{list_question('O', A + B + C + SUM + MUL + D + DUAL + DIFF)} = 76800 34600
{list_question('I', A + B + C + SUM + MUL + D + DUAL + DIFF)} = 76800 34600
{list_question('O', A + DUAL + B + DUAL + C + DUAL + SUM + MUL + D + DIFF + DUAL)} = 76800 34600
'''

# ---- library_test: operations

OPERATIONS = '''\
# The ends of the range, and one thousandth beyond them: 2, then 5, then 4.
O sum -2000000000 2000000000 0 0
O difference -2000000000 2000000000 2000000000 -2000000000
O sum 2000000001 0 0 0
O sum 0 0 0 -2000000001
I product 2147483647 0 -2147483648 0
O quotient 2000000001 0 0 1000
O quotient 1000 1000 0 2000000001
O equation 0 0 0 1000 2000000001 0
O equation 0 0 0 1000 1000 1000
O equation -2000000000 2000000000 1 1 2000000000 -2000000000
O equation 0 0 1000 1000 -2000000000 2000000000
O product 2000000000 2000000000 1000 1000
O product 1414213 1414213 1414213 1414213
# 4 is judged on the rounded end: an exact upper end between 2000000.000 and 2000000.001.
O product 1000 1998001999 1000 1001
I product 1000 1998001999 1000 1001
O equation 0 -2000001 1001 1001 0 2000000000
I equation 0 -2000001 1001 1001 0 2000000000
O quotient 2000000000 2000000000 999 1000
O quotient 1999999999 1999999999 1000 999
# Down is towards minus infinity, also below zero; thousandths are the smallest.
O product -1 1 -1 1
I product -1 1 -1 1
O product 1 -1 1 -1
O quotient -1 1 3000 3000
I quotient -1 1 3000 3000
O quotient -1 1 -3000 -3000
I quotient -1 1 -3000 -3000
O quotient 1000 2000 1000 2000
O quotient -7000 -7000 2000 2000
# A pair with a zero end holds zero, proper or improper.
O quotient 1000 2000 1 0
I quotient 1000 2000 0 1
I equation 2000 3000 -1000 1000 0 0
# The equation with such a c: none, exactly one, more than one; c's ends as far from 0, the lower one farther, [0,0]; 16 before 4; the largest products.
O equation 0 0 -1000 1000 -2000 2000
O equation 0 0 -1000 1000 -1000 2000
O equation 1000 1000 -2000 1000 -2000 5000
O equation 1000 1000 1000 -2000 5000 -2000
O equation 0 0 0 3000 -1000 2000
I equation 0 0 0 3000 -1000 2000
O equation 0 0 0 0 0 0
O equation 0 0 0 0 0 1
O equation 0 0 0 1 -2000000000 2000000000
O equation 0 0 0 1 1 2000000000
O equation 2000000000 -2000000000 -2000000000 1999999999 -2000000000 2000000000
O equation 2000000000 -2000000000 -2000000000 2000000000 -2000000000 2000000000
O product 0 5000 2000 3000
O product 5000 0 2000 3000
O product 0 5000 3000 2000
O product 5000 0 -2000 -3000
O product 0 5000 5000 0
O product -5000 0 0 -5000
O product 0 0 -2000 7000
O product -2000 -3000 4000 -1000
O product -3000 -2000 -1000 4000
# Negation, opposite, dual, join and meet never round and never leave the range.
negation 2000000000 -2000000000
negation -3000 4001
opposite -3000 4001
dual -3000 4001
O join -3000 4000 5000 2000
O meet -3000 4000 5000 2000
negation -2147483648 0
opposite 0 -2147483648
dual 0 2000000001
O join 2000000001 0 0 0
O meet 0 0 0 -2000000001
# Products of source document 000, Out[137], [140], [141]
O product 4000 2000 0 1000
O product 1000 -1000 0 1000
O product 2000 4000 -750 750
O product -1000 1000 375 -375
O product -1000 1000 -750 750
O product 2000 4000 375 -375
O product 4000 2000 -1500 1500
O product 1000 -1000 -1500 1500
'''

# ---- library_test: kinds (02, Q-5), one of each and those with a zero end, carrying each kind that there is

KINDS = [(1000, 2000), (2000, 1000), (-2000, -1000), (-1000, 2000), (2000, -1000), (0, 0), (0, 5000), (5000, 0), (-5000, 0), (0, -5000)]
CARRIED = '''\
# 2 for either operand, in the place of 2: before 5 and before 4. Where the kinds agree nothing changes.
O sum 1000 2000 3000 4000 n.
O sum 1000 2000 3000 4000 .n
O sum 1000 2000 3000 4000 pp
O difference 1000 2000 -3000 4000 zz
O join -1000 1000 0 0 zi
O meet -1000 1000 0 0 zz
O product 1000 2000 -1000 4000 pn
O product 2000000000 2000000000 2000000000 2000000000 pz
O product -1000 2000 4000 -3000 zi
O quotient 1000 2000 0 1000 .p
O quotient 1000 2000 0 1000 pz
O quotient 1000 2000 1000 2000 .z
I equation 0 0 2000 4000 6000 8000 ip.
I equation 0 0 2000 4000 6000 8000 .n.
I equation 0 0 2000 4000 6000 8000 ..n
I equation 0 0 2000 4000 6000 8000 zpp
O equation 0 0 0 1000 2000000001 0 .p.
write 27 1000 2000 n
write 27 1000 2000 p
write 3 0 0 i
write 3 0 0 z'''


def kinds():
    yield b'# The kind that is carried: 2 where it disagrees with the ends.'
    for lower, upper in KINDS:
        for kind in 'pnzi':
            yield b'dual %d %d %s' % (lower, upper, kind.encode())
    yield from CARRIED.encode().splitlines()


# ---- library_test: texts

READ_IN_FORM = [
    b'[1.002,1.003]', b'[-0.001,0.000]', b'[0.000,-0.001]', b'[0.999,1.000]', b'[20.600,6.500]', b'[-999999.999,1000000.000]',
    b'[1999999.999,-1999999.999]', b'[-2000000.000,2000000.000]', b'[2000000.001,0.000]', b'[0.000,-2000000.001]',
    b'[0.000,-9999999.999]',
]
# No byte 0 here, so that the files are text: the slip's lines have it.
READ_MALFORMED = [
    b'[0.000,-10000000.000]', b'[9999999.000,x]', b'[-0.000,0.000]', b'[0.000,-0.000]', b'[00.500,0.000]',
    b'[0.000,00.000]', b'[0000000.000,0.000]', b'[.500,0.000]', b'[0.000,.500]', b'[+1.000,0.000]', b'[--1.000,0.000]',
    b'[1.,0.000]', b'[1.0000,0.000]', b'[1,000.000]', b'', b'[', b'[]', b'[-,-]', b'[0.000,0.000', b'0.000,0.000]',
    b'(0.000,0.000)', b'[0.000;0.000]', b'[0.000,0.000,0.000]', b'[0.000,0.000]]', b'[0.000,0.000] ', b' [0.000,0.000]',
    b'[0.000, 0.000]', b'[0.000,0.000]\r', b'[0.000,0.00:]', b'[0.000,0.0/0]',
    b'[0.000,12345678901234567890.000]',
]

# 02, Q-2: no point, or a point with one to three digits. The first six read as the same pair; then the edges, and 2 behind the wider form.
READ_SHORT = [
    b'[1.500,2.000]', b'[1.50,2.00]', b'[1.5,2.0]', b'[1.5,2]', b'[1.50,2]', b'[1.500,2.0]', b'[0,0]', b'[-1,1]', b'[-0.5,-0.05]', b'[9999999,0]',
    b'[2000000,-2000000]', b'[2000000.001,0]', b'[2000000.01,0]', b'[2000001,0]', b'[0,-9999999.9]', b'[10000000,0]', b'[1.,0]', b'[.5,0]', b'[1.2345,0]',
    b'[00,0]', b'[01.5,0]', b'[-0,0]', b'[-0.0,0]', b'[-0.00,0]', b'[-0.000,0]', b'[+1,0]', b'[-,0]', b'[1,0', b'[,]', b'[1.5.0,0]', b'[1.5-,0]',
]
# Every text of up to 4 bytes over this alphabet, as a lower end. Ends with no sign: 3 + 6 + 18 + 54 with no point, 9 + 27 + 18 with one; with
# a sign, of one byte less and not zero: 3 + 6 + 18 - 1 and 9 - 1.
ALPHABET = [b'-', b'0', b'1', b'.', b'9']
SHORT_ENDS = [b''.join(bytes_) for length in range(5) for bytes_ in itertools.product(ALPHABET, repeat=length)]
ENDS_AMONG_THEM = 81 + 54 + 26 + 8

# Where a digit more is wanted, from both sides; signs; the ends of the range and beyond.
SIZES = [10**k for k in range(3, 10)] + [GREATEST]
WRITTEN = [
    *((n - 1, n) for n in [1, *SIZES]), *((-n, 1 - n) for n in [1, *SIZES]), (0, 0), (GREATEST, -GREATEST), (-334, -333), (-333, -334),
    (GREATEST + 1, 0), (0, GREATEST + 1), (-GREATEST - 1, 0), (0, -GREATEST - 1), (2**31 - 1, 0), (-2**31, 0), (0, -2**31),
]
ROOMS = [(-GREATEST, -GREATEST), (0, 0), (-20600, 6500), (GREATEST + 1, 0)]


def texts():
    yield b'# Texts in form: read, then refused with 2'
    yield from (b'read ' + text for text in READ_IN_FORM)
    yield b'# Texts not in form'
    yield from (b'read ' + text for text in READ_MALFORMED)
    yield b'# Q-2: shorter figures'
    yield from (b'read ' + text for text in READ_SHORT)
    yield b'# Q-2: %d texts, %d of them ends' % (len(SHORT_ENDS), ENDS_AMONG_THEM)
    yield from (b'read [' + end + b',0]' for end in SHORT_ENDS)
    yield b'# Pairs written, and read back'
    for pair in WRITTEN:
        yield b'write 28 %d %d' % pair
        if not reference.beyond(pair):
            yield b'read ' + reference.text_of(pair)
    for pair in ROOMS:
        yield b'# A buffer of every length'
        yield from (b'write %d %d %d' % (room, *pair) for room in range(reference.BUFFER + 1))


# ---- library_test: lists

LISTS = [
    ('a product alone; below dual, opposite, negation, two duals', 'OI', [
        SOME + SOME + MUL,
        SOME + SOME + MUL + DUAL,
        SOME + SOME + MUL + OPP,
        SOME + SOME + MUL + NEG,
        SOME + SOME + MUL + DUAL + DUAL,
    ]),
    ('the way passes through sum, product, join and meet', 'OI', [
        SOME + SOME + MUL + ONE + SUM + DUAL + SOME + SOME + MUL + MUL,
        SOME + SOME + MUL + SOME + SOME + MUL + DUAL + JOIN,
        SOME + SOME + MUL + OPP + SOME + SOME + MUL + DUAL + MEET + OPP,
    ]),
    ('each step once', 'OI', [
        const(1000, 5000) + const(2000, 3000) + SUM,
        const(1000, 5000) + const(2000, 3000) + DIFF,
        const(-1000, 2000) + const(4000, -3000) + MUL,
        const(1000, 2000) + const(4000, -3000) + MUL,
        const(1000, 5000) + NEG,
        const(1000, 5000) + OPP,
        const(1000, 5000) + DUAL,
        const(-12000, -3000) + const(4000, 7000) + JOIN,
        const(-12000, -3000) + const(4000, 7000) + MEET,
        const(1000, 2000) + const(3000, 4000) + DIV,
    ]),
    ('9 at the last step', 'O', [
        ONE * 16 + NEG * 47 + ONE,
    ]),
    ('6 at the first and at the last step', 'O', [
        UNKNOWN,
        b'\xff',
        ONE + NEG * 62 + UNKNOWN,
    ]),
    ('7 at the first and at the last step', 'O', [
        b'\0',
        ONE[:8],
        ONE + NEG * 62 + ONE[:8],
    ]),
    ('2 at the first and at the last step; the ends of the range pass', 'O', [
        const(GREATEST + 1, 0),
        const(0, -GREATEST - 1),
        const(-2**31, 2**31 - 1),
        const(GREATEST, -GREATEST),
        ONE + NEG * 62 + const(GREATEST + 1),
    ]),
    ('8 at the first and at the last step', 'O', [
        NEG,
        SUM,
        ONE + SUM,
        ONE + NEG * 62 + MEET,
    ]),
    ('11 with the count of steps read, 0 and 64', 'O', [
        b'',
        ONE + ONE,
        ONE + ONE + NEG * 62,
    ]),
    ('4 at the first step that can give it, and at the last; the earliest of two', 'O', [
        MANY + SUM,
        const(GREATEST) + ONE + NEG * 61 + DIFF,
        MANY + SUM + MANY + SUM + SUM,
    ]),
    ('4 after 11 and after 6', 'O', [
        MANY + SUM + ONE,
        MANY + SUM + UNKNOWN,
    ]),
    ('4 in the way wanted alone: outward only, then below a dual', 'OI', [
        WIDE + MUL,
        WIDE + MUL + DUAL,
    ]),
    ('two causes at one step: 10 before 6, 7, 2, 8 and 9', 'O', [
        ONE + NEG * 63 + UNKNOWN,
        ONE + NEG * 63 + b'\0',
        ONE + NEG * 63 + const(GREATEST + 1),
        ONE + NEG * 63 + SUM,
        ONE * 16 + NEG * 48 + ONE,
    ]),
    ('7 before 2 and 9, 2 before 9', 'O', [
        const(GREATEST + 1)[:8],
        ONE * 16 + ONE[:8],
        ONE * 16 + const(GREATEST + 1),
    ]),
    ('the earlier step before the earlier cause', 'O', [
        NEG + UNKNOWN,
    ]),
    ('Q-1: 5 with its step; the earliest of 5 and 4; 5 before 4 at one step; 5 after 11', 'O', [
        ONE + const(0, 1) + DIV,
        ONE + const(0, 1) + DIV + MANY + SUM + SUM,
        MANY + SUM + ONE + const(0, 1) + DIV + SUM,
        const(GREATEST) + const(0) + DIV,
        ONE + const(0, 1) + DIV + ONE,
    ]),
    ('Q-1: a quotient below a dual; a rounded divisor that holds zero, and one that does not though the exact one does', 'OI', [
        ONE + const(3000) + DIV + DUAL,
        ONE + const(1) + const(1) + MUL + DIV,
        ONE + const(500) + const(1) + MUL + const(-500) + const(1) + MUL + SUM + const(0, 3) + SUM + DIV,
    ]),
    ('the low byte first', 'O', [
        bytes([0, 1, 2, 3, 4, 250, 255, 255, 255]),
    ]),
]


# 02, Q-6: limits of values and of steps, and a list that is judged by them. The fare module has 6 and 20.
WITHIN = [
    ('the limit and one more: of values, of steps', [
        (6, 20, ONE * 6 + SUM * 5), (6, 20, ONE * 7 + SUM * 6), (6, 20, ONE + NEG * 19), (6, 20, ONE + NEG * 20),
        (2, 3, ONE + ONE + SUM), (1, 3, ONE + ONE + SUM), (2, 2, ONE + ONE + SUM), (20, 6, ONE * 7 + SUM * 6),
    ]),
    ('a limit of 0: the first constant is 9, the first byte is 10, and no list is 11 as ever', [
        (0, 20, ONE), (6, 0, ONE), (0, 0, ONE), (0, 0, UNKNOWN), (0, 20, UNKNOWN), (0, 20, NEG), (0, 0, b''), (6, 20, b''),
    ]),
    ('above 16 or 64 counts as 16 or 64', [
        (17, 64, ONE * 16 + SUM * 15), (17, 65, ONE * 17), (99, 99, ONE * 17), (16, 65, ONE + NEG * 63), (16, 65, ONE + NEG * 64), (99, 99, ONE + NEG * 64),
    ]),
    ('one step with two causes, by the limits: 10 before all; 9 behind 7, 2 and 8', [
        (1, 1, ONE + ONE), (1, 2, ONE + UNKNOWN), (1, 1, ONE + UNKNOWN), (1, 2, ONE + ONE[:8]), (1, 2, ONE + const(GREATEST + 1)), (1, 9, ONE + SUM),
    ]),
]


def lists():
    for title, ways, group in LISTS:
        yield b'# ' + title.encode()
        yield from (list_question(way, data).encode() for data in group for way in ways)
    for title, group in WITHIN:
        yield b'# Q-6: ' + title.encode()
        yield from (b'O within %02d %02d %s' % (values, steps, data.hex(' ').encode()) for values, steps, data in group)


# ---- library_test: blocks of the day file

def records(count):
    """Records that differ: the greatest numbers that fit, then sixteen equal bytes, so that the runs are few."""
    equal = [0x01010101 * k for k in range(1, count)]
    return [(2**32 - 1, 2**32 - 1, (GREATEST, -GREATEST)), *((word, word, (word, word)) for word in equal)][:count]


def damaged(block, place, *values):
    """A block with other bytes and its sum made good."""
    return reference.sealed((block[:place] + bytes(values) + block[place + len(values):])[:reference.SUMMED])


def unsealed(block, difference):
    """A block with another sum."""
    return block[:reference.SUMMED] + struct.pack('<I', (sum(block[:reference.SUMMED]) + difference) % 2**32)


def end_beyond(block, record, end, value):
    return damaged(block, 4 + 16 * record + 8 + 4 * end, *struct.pack('<i', value))


EMPTY, SOME_RECORDS, LAST, FULL = (reference.block_of(number, records(count)) for number, count in [(0, 0), (1, 3), (99, 29), (0, 30)])
COUNT = (7, 1, (-1000, 5))
BEYOND = (7, 1, (GREATEST + 1, 0))
BEGIN = [
    *((512, number, 0) for number in (0, 1, 99, 100, 255, 256, 65535, 65536, 2**32 - 1)), *((length, 0, 0) for length in (0, 1, 511, 513, 520)), (511, 100, 0),
    *((512, 99, layout) for layout in (1, 2, 256, 2**32 - 1)), (512, 100, 2), (511, 0, 2),
]
ADD = [
    ('behind those there: the first, a fourth, the thirtieth', [(COUNT, block) for block in (EMPTY, SOME_RECORDS, LAST)]),
    ('the least and greatest numbers, each byte in its place, improper pairs', [
        ((0, 2**32 - 1, (-GREATEST, GREATEST)), EMPTY), ((2**32 - 1, 0, (GREATEST, -GREATEST)), EMPTY), ((67305985, 134678021, (-1, -2**24)), EMPTY),
    ]),
    ('13: not 512 bytes', [(COUNT, (EMPTY + FULL)[:length]) for length in (0, 1, 511, 513, 1024)]),
    ('14: another sum, of too few bytes or too many; a byte changed', [
        *((COUNT, unsealed(SOME_RECORDS, difference)) for difference in (1, -1, 256, 2**24, sum(SOME_RECORDS[508:]))),
        (COUNT, unsealed(damaged(SOME_RECORDS, 507, 1), -1)), (COUNT, SOME_RECORDS[:8] + b'\xff' + SOME_RECORDS[9:]),
    ]),
    ('15: the number, the count, byte 3, the unused bytes, bytes 484 to 507', [
        (COUNT, damaged(block, place, *values)) for block, place, values in [
            (LAST, 0, [100]), (LAST, 1, [1]), (LAST, 0, [255, 255]), (FULL, 2, [31]), (FULL, 2, [255]), (SOME_RECORDS, 2, [2]), (EMPTY, 3, [2]), (EMPTY, 3, [255]),
            (EMPTY, 4, [1]), (SOME_RECORDS, 52, [1]), (LAST, 468, [1]), (LAST, 483, [1]), (FULL, 484, [1]), (FULL, 507, [1]),
        ]
    ]),
    ('15: an end beyond the range, in the first record and in the last', [
        (COUNT, end_beyond(block, record, end, value)) for block, record in [(SOME_RECORDS, 0), (LAST, 28)] for end in (0, 1)
        for value in (GREATEST + 1, -GREATEST - 1, 2**31 - 1, -2**31)
    ]),
    ('a count told as more than it is: the bytes behind are records of zeros', [(COUNT, damaged(SOME_RECORDS, 2, 4))]),
    ('13: 30 records', [(COUNT, FULL)]),
    ('2: an end beyond the range', [((7, 1, ends), SOME_RECORDS) for ends in [(GREATEST + 1, 0), (0, GREATEST + 1), (-GREATEST - 1, 0), (0, -2**31)]]),
    ('two causes: 13 before 14, 14 before 15, 15 before 13, 13 before 2, 15 and 14 before 2', [
        (COUNT, unsealed(SOME_RECORDS, 1)[:511]), (COUNT, unsealed(damaged(FULL, 3, 2), 1)), (COUNT, damaged(FULL, 3, 2)), (BEYOND, FULL),
        (BEYOND, damaged(EMPTY, 3, 2)), (BEYOND, unsealed(EMPTY, 1)), (BEYOND, EMPTY[:511]),
    ]),
]


def blocks():
    yield b'# Q-4 and Q-13: beginning a block'
    yield from (b'begin %d %d %d' % question for question in BEGIN)
    for title, group in ADD:
        yield b'# Q-4: adding to a block; ' + title.encode()
        yield from (b'add %d %d %d %d' % (box, line, *ends) + reference.runs(block) for (box, line, ends), block in group)


def papers():
    return [line.split(' = ')[0].encode() for line in PAPERS.splitlines()]


QUESTIONS = b''.join(line + b'\n' for part in (papers(), OPERATIONS.encode().splitlines(), kinds(), texts(), lists(), blocks()) for line in part)

# ---- slip

P = b'[1.000,2.000]'
PAD = b' '.join([b'O', b'E', b'[-1000000.001,-1000000.001]', b'[-1000000.001,-1000000.001]', b'[-1000000.001,-1000000.001]'])
NO_TEXTS = [
    b'[-0.000,0.000]', b'[00.500,0.000]', b'[.500,0.000]', b'[+1.000,0.000]', b'[1.,0.000]', b'[1.0000,0.000]', b'[-0,0.000]', b'[-0.0,1]', b'1.000,2.000',
    b'[1.000;2.000]', b'[1.000,2.000', b'[1.000,2.000]]', b'[1.000,2.000]\r', b'[1.000,2.000]\x00', b'[--1.000,2.000]', b'[1.000,]', b'[,]', b'[]',
    b'[', b']', b'(1.000,2.000)', b'[1.000,2.000,3.000]', b'[01.000,2.000]', b'[1.0a0,2.000]', b'[1e3.000,2.000]', b'\xff',
]
LINES = [
    # document 01's four lines
    b'O M [1.001,1.001] [1.001,1.001]',
    b'I M [1.001,1.001] [1.001,1.001]',
    b'O E [0.500,0.600] [2.000,4.000] [6.500,20.600]',
    b'O D [1.000,2.000] [0.000,1.000]',
    # each operation, both ways, proper and improper
    b'O A [1.000,2.000] [0.500,-0.250]', b'I A [1.000,2.000] [0.500,-0.250]',
    b'O S [2.000,5.000] [5.000,2.000]', b'I S [2.000,5.000] [2.000,5.000]',
    b'O M [-1.000,2.000] [-3.000,4.000]', b'O M [2.000,-1.000] [4.000,-3.000]', b'O M [-1.000,2.000] [4.000,-3.000]',
    b'O M [1.000,2.000] [4.000,-3.000]', b'O M [-0.001,-0.001] [0.001,0.001]', b'I M [-0.001,-0.001] [0.001,0.001]',
    b'O D [-1.000,-1.000] [3.000,3.000]', b'I D [-1.000,-1.000] [3.000,3.000]', b'O D [1.000,2.000] [1.000,2.000]',
    b'O E [0.000,0.000] [2.000,4.000] [6.000,8.000]', b'O E [0.000,0.000] [2.000,4.000] [-4.000,8.000]',
    b'O E [5.100,3.000] [-7.200,-11.500] [1.000,2.000]', b'I E [5.100,3.000] [-7.200,-11.500] [1.000,2.000]',
    # shorter figures; the shortest line of an operation; 2 behind the wider form
    b'O A [1.5,2] [0,0]', b'O A [1.50,2.0] [0.0,0.000]', b'O A [0,0] [0,0]', b'O E [0.5,0.6] [2,4] [6.5,20.6]', b'I D [-1,-1] [3,3]', b'O A [2000001,0] [0,0]',
    b'O A [0,0] [0,0] ', b'O A [0,0]  [0,0]', b'O A [0,0][0,0]', b'O A [1.5,2]', b'O E [0,0] [1,1] [-0.5,x]',
    # one, many, none; an improper c; 16 before 4; a quotient keeps 5
    b'O E [0,0] [0,2] [-2,4]', b'I E [0,0] [0,2] [0,4]', b'O E [0,0] [0,2] [1,4]', b'I E [0,0] [2,0] [4,-2]', b'O E [0,0] [0,0.001] [1,2000000]', b'I D [-2,4] [0,2]',
    # the longest texts, and the edge of the range
    b'O A [-2000000.000,-2000000.000] [0.000,0.000]', b'O A [2000000.000,-2000000.000] [0.000,0.000]',
    PAD,
    # length (12): 96 bytes are allowed, 97 are not, whatever else is wrong
    b'X' * 96, b'X' * 97, b'O M ' + b' ' * 92, b'O M ' + b' ' * 93, PAD + b' ' * (96 - len(PAD)), PAD + b' ' * (97 - len(PAD)),
    b'O M ' + P + b' ' + P + b'0' * 66, b'O M ' + P + b' ' + P + b'0' * 65, b'\x00' * 300, b'O X ' + b'z' * 1000,
    # fewer than two fields (12)
    b'', b'O', b'X', b'OM', P,
    # the first field (6), before the second and before the count
    b' ', b'  ', b' M ' + P + b' ' + P, b'o M ' + P + b' ' + P, b'X M', b'OO M ' + P + b' ' + P, b'X X', b'[ M', b'O\x00 M ' + P + b' ' + P,
    # the second field (6), before the count
    b'O ', b'O  M ' + P + b' ' + P, b'O X', b'O m ' + P + b' ' + P, b'O MM ' + P + b' ' + P, b'I B ' + P, b'O M\t' + P + b' ' + P, b'O X a b c d',
    # the count of the other fields (12), before the pairs
    b'O M', b'O M ', b'O M ' + P, b'O M ' + P + b' ' + P + b' ', b'O M ' + P + b' ' + P + b' ' + P, b'O M a b c', b'O M x', b'O E', b'O E ' + P,
    b'O E ' + P + b' ' + P, b'O E a b', b'O E a b c d', b'O E ' + P + b' ' + P + b' ' + P + b' ', b'I A ' + P + b'  ' + P, b'O S',
    b'O D ' + P + b' ' + P + b' [0.000,0.000]', b'O A a',
    # each pair from the left: 1, then 2
    b'O M x ' + P, b'O M ' + P + b' x', b'O M  ' + P, b'O M ' + P + b' ', b'O M  ', b'O E  ' + P + b' ' + P, b'O E ' + P + b'  ' + P,
    b'O E ' + P + b' ' + P + b' ', b'O E ' + P + b' ' + P + b' x', b'O E ' + P + b' x ' + P, b'O E x ' + P + b' ' + P,
    b'O M [2000000.001,0.000] x', b'O M x [2000000.001,0.000]', b'O M ' + P + b' [0.000,-2000000.001]', b'O M [9999999.000,0.000] ' + P,
    b'O M [10000000.000,0.000] ' + P, b'O M [9999999.000,x] ' + P, b'O E [2000000.001,0.000] x x', b'O E ' + P + b' [0.000,2000000.001] x',
    b'O E ' + P + b' x [0.000,2000000.001]', b'O E ' + P + b' ' + P + b' [0.000,2000000.001]', b'O D [2000000.001,0.000] [0.000,1.000]',
    # a text not in its form; the last two are
    *[b'O A ' + t + b' ' + P for t in NO_TEXTS], b'O A [-0.001,0.000] ' + P, b'O A [0.000,0.000] ' + P,
    # 5 before 4, and behind 1 and 2
    b'O D [1.000,1.000] [0.000,0.000]', b'O D [1.000,1.000] [-1.000,1.000]', b'O D [1.000,1.000] [1.000,-1.000]',
    b'O D [2000000.000,2000000.000] [0.000,0.001]', b'O D [1.000,1.000] [0.001,0.001]', b'O D [2000000.000,2000000.000] [0.001,0.001]',
    b'O E ' + P + b' [0.000,1.000] ' + P, b'O E ' + P + b' [1.000,0.000] x', b'O E [0.000,0.000] [0.001,0.001] [2000000.000,2000000.000]',
    b'I E [0.000,0.000] [-1.000,-0.001] ' + P,
    # 4 of each operation, on the rounded end
    b'O A [2000000.000,0.000] [0.001,0.000]', b'I A [2000000.000,0.000] [0.001,0.000]', b'O S [-2000000.000,0.000] [0.000,0.001]',
    b'O M [2000.000,2000.000] [1000.000,1000.000]', b'O M [2000.000,2000.000] [1000.001,1000.001]', b'O M [1.000,1.001] [1.000,1999999.999]',
    b'O M [1414.213,1414.214] [1414.213,1414.214]', b'O D [2000000.000,2000000.000] [1.000,0.999]', b'O M [0.001,2000000.000] [0.001,1.000]',
    # an exact end between 2000000.000 and 2000000.001: 4 outward, accepted inward
    b'O M [0.000,1332445.037] [0.000,1.501]', b'I M [0.000,1332445.037] [0.000,1.501]',
    # CR is an ordinary byte
    b'O M ' + P + b' ' + P + b'\r', b'O\r M ' + P + b' ' + P, b'\r',
]
# The last line has no byte 10.
SLIP = b'\n'.join(LINES) + b'\nO A [0.001,0.001] [0.000,0.000]'

# ---- report: a total beyond the range, which no reader takes back, over blocks of both layouts

DAY = b''.join(reference.block_of(place, day, place % 2) for place, day in enumerate([records(30), [], records(1), [(9, 9, (GREATEST, -GREATEST))] * 30]))
