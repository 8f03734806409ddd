"""Q-13: blocks that carry the sums of their records, begun and added to."""
import ctypes
import random
import struct

COUNT, BEYOND = (7, 1, (-1000, 5)), (7, 1, (2000000001, 0))


def damaged(reference, block, place, data):
    """A block with other bytes, its sum of bytes made good."""
    return reference.sealed((block[:place] + data + block[place + len(data):])[:reference.SUMMED])


def cases(reference):
    """(record, lent bytes): what is accepted, each refusal at its edge, the order of the refusals; then generated ones."""
    rng = random.Random(13)
    end = lambda: rng.choice([0, 1, -1, reference.GREATEST, -reference.GREATEST, rng.randint(-reference.GREATEST, reference.GREATEST)])
    some = lambda count: [(rng.randrange(2**32), rng.randrange(2**32), (end(), end())) for _ in range(count)]
    empty, three, last, full = (reference.block_of(number, some(count), 1) for number, count in [(0, 0), (1, 3), (99, 29), (5, 30)])
    least, most = (reference.block_of(9, [(1, 1, (sign * reference.GREATEST,) * 2)] * 29, 1) for sign in (-1, 1))
    yield from ((COUNT, block) for block in (empty, three, last))
    yield from ((record, block) for block in (least, most) for record in [(1, 1, (-reference.GREATEST,) * 2), (1, 1, (reference.GREATEST,) * 2)])
    # 22: each sum, by its lowest and its highest byte; 15 in bytes 500 to 507; the old layout's bytes 484 to 507
    flipped = lambda block, place: damaged(reference, block, place, bytes([block[place] ^ 1]))
    yield from ((COUNT, flipped(block, place)) for block in (empty, three, last) for place in (484, 491, 492, 499, 500, 507))
    old = reference.block_of(1, some(3))
    yield from ((COUNT, flipped(old, place)) for place in (484, 499, 500, 507))
    # sums of the records before the last; both sums exchanged; the layout told otherwise
    yield COUNT, damaged(reference, three, 484, struct.pack('<qq', *reference.sums_of([r for r in reference.block_records(three, [1])][:2])))
    yield COUNT, damaged(reference, three, 484, three[492:500] + three[484:492])
    yield from ((COUNT, damaged(reference, block, 3, bytes([layout]))) for block in (old, three) for layout in (0, 1, 2, 255))
    # 14 before 22, 15 before 22, 22 before 13 and before 2, 13 before 2
    yield COUNT, flipped(three, 484)[:508] + bytes(4)
    yield COUNT, flipped(flipped(three, 484), 507)
    yield COUNT, flipped(full, 484)
    yield BEYOND, flipped(three, 484)
    yield BEYOND, full
    yield COUNT, full
    yield BEYOND, three
    for _ in range(400):
        block = reference.block_of(rng.randrange(100), some(rng.randrange(31)), rng.randrange(2))
        if rng.random() < 0.5:
            place = rng.choice([2, 3, rng.randrange(512), rng.randrange(484, 508)])
            block = damaged(reference, block, place, bytes([rng.randrange(256)]))
        yield rng.choice([COUNT, BEYOND, *some(1)]), block


def expected(reference, make, lent):
    return reference.stored(make, lent).decode()


def told(reference, number, lent):
    return ('R %d' % number if number else '0') + reference.runs(bytes(lent)).decode()


def ask(library, reference):
    word, size = ctypes.c_uint32, ctypes.c_size_t
    for number, layout, length in [(n, k, m) for n in (0, 99, 100) for k in (0, 1, 2, 255, 256, 2**32 - 1) for m in (511, 512)]:
        lent = (ctypes.c_uint8 * length)(*[35] * length)
        answer = told(reference, library.dzb_begin_block(word(number), word(layout), lent, size(length)), lent)
        yield 'begin %d %d %d' % (length, number, layout), answer, expected(reference, lambda: reference.begin_block(number, length, layout), b'#' * length)
    for record, block in cases(reference):
        box, line, (lower, upper) = record
        lent = (ctypes.c_uint8 * len(block))(*block)
        number = library.dzb_add_record(word(box), word(line), ctypes.c_int32(lower), ctypes.c_int32(upper), lent, size(len(block)))
        answer = told(reference, number, lent)
        yield 'add %d %d %d %d%s' % (box, line, lower, upper, reference.runs(block).decode()), answer, expected(reference, lambda: reference.add_record(record, block), block)
