"""Document 02, Q-8: the total of a sheet of trays, and what a refusal leaves of the lent ends."""
import ctypes
import random

NUMBER = ctypes.c_int32
END = 2000000000


def edges():
    """No trays; rounding once; partial sums beyond the range; each refusal at its edge, and their order."""
    near, far, back = [1001] * 4, [END] * 4, [-END, -END, END, END]
    return [
        [], near, near * 2, near * 200, [-1, -1, 1, 1], [-1, -1, 1, 1] * 3, [1000, 2000, 4000, -3000], [2000, -1000, 4000, -3000], [-1000, 2000, -3000, 4000],
        far + back, far * 100 + back * 100, back * 100 + far * 100, [END, END, 1000, 1000], [END, END, 1000, 1000, 1, 1, 1, 1], [END, END, 1001, 1001], far,
        [0, 0, 0, END + 1], far + [0, -END - 1, 0, 0], [END + 1], [0] * 799, [0] * 800, [0] * 801, [0] * 804, [1000] * 800, [END + 1] * 801, [1, 2, 3], [-2**31] * 4,
    ]


def generated(draw):
    """Trays of all kinds, some sheets beyond the range, some with an end or a number of ends that is refused; and each of them rearranged."""
    for _ in range(200):
        size = draw.choice([1000, 100000, END])
        trays = [[draw.randint(-size, size) for _ in range(4)] for _ in range(draw.choice([1, 2, 3, 50, 199, 200]))]
        far = draw.randint(-END, END)
        trays += [[far, far, END, END], [-far, -far, END, END]] if draw.random() < 0.5 else []
        if draw.random() < 0.1:
            draw.choice(trays)[draw.randrange(4)] = draw.choice([END + 1, -END - 1, 2**31 - 1, -2**31])
        ends = sum(trays, [])
        yield ends + [1] * draw.choice([0, 0, 0, 0, 0, 1, 2, 3])
        draw.shuffle(trays)
        yield sum(trays, [])


def expected(reference, way, ends):
    try:
        return '%d %d' % reference.sheet(way, ends)
    except reference.Refusal as refusal:
        return 'R %d, 77 77' % refusal.number


def ask(library, reference):
    for ends in edges() + list(generated(random.Random(8))):
        for way in (reference.OUTWARD, reference.INWARD):
            result = (NUMBER * 2)(77, 77)
            lent = (NUMBER * len(ends))(*ends)
            number = library.dzb_sheet(lent, ctypes.c_size_t(len(ends)), ctypes.c_bool(way == reference.INWARD), result)
            answer = ('R %d, %d %d' % (number, *result)) if number else '%d %d' % tuple(result)
            yield '%s sheet %s' % (way, ' '.join(map(str, ends))), answer, expected(reference, way, ends)
