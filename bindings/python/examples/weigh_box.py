"""Weighs boxes: empty box + coin mass times count = gross weight, solved for the count. Masses are in grams."""
from donzibrau import INWARD, OUTWARD, Equation, Pair, Refusal


def meaning(outward: Pair, inward: Pair) -> str:
    """What a count says; examples/weigh_box.c has the reasons."""
    if inward.is_proper:
        return 'proper: every count in the inward pair fits, whatever box and coins weigh within their ranges'
    if not outward.is_proper:
        return 'improper: whatever they weigh, some count between the inward ends fits, but no one count for all weights'
    return 'within a thousandth: neither can be told'


def weigh(box: Pair, coin: Pair, gross: Pair) -> None:
    print('box %s, coin %s, gross %s' % (box, coin, gross))
    try:
        weighing = Equation(a=box, c=coin, b=gross)
        outward, inward = weighing.solve(OUTWARD), weighing.solve(INWARD)
        print('  count outward %s  inward %s\n  %s' % (outward, inward, meaning(outward, inward)))
    except Refusal as refusal:
        print('  refused: R %d' % refusal.cause)


for coin, gross in [
    ('[7.480,7.520]', '[4552.000,4572.500]'), ('[7.480,7.520]', '[4540.000,4590.000]'), ('[7.480,7.520]', '[4560.000,4562.000]'),
    ('[0.000,7.520]', '[4560.000,4562.000]'),
]:
    weigh(Pair.read('[812.000,812.500]'), Pair.read(coin), Pair.read(gross))
