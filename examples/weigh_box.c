/* Weighs boxes: empty box + coin mass times count = gross weight, solved for the count. Masses are in grams. Run by ./build-c. */
#include "donzibrau.h"
#include <stdio.h>
#include <string.h>

static uint32_t read_pair(const char *text, dzb_pair pair) { return dzb_read((const uint8_t *)text, strlen(text), pair); }

static void print_pair(const char *name, const dzb_pair pair) {
    uint8_t text[DZB_TEXT_BYTES];
    size_t length;
    if (dzb_write(pair[0], pair[1], text, sizeof text, &length) == DZB_DONE) {
        printf("  %s %.*s", name, (int)length, (const char *)text);
    }
}

/* What a count says: it solves box + coin times count = gross, end for end. A proper one is no list of the counts that there can be: in the
 * second box below, [498.396,502.327], 496 coins fit for some weights (812.5 + 496 times 7.52 is 4542.42) and not for others (812 + 496 times
 * 7.48 is 4522.08). An outward pair that is proper around an inward one that is not: the solution lies within a thousandth. */
static const char *meaning(const dzb_pair outward, const dzb_pair inward) {
    if (inward[0] <= inward[1]) {
        return "proper: every count in the inward pair fits, whatever box and coins weigh within their ranges";
    }
    if (outward[0] > outward[1]) {
        return "improper: whatever they weigh, some count between the inward ends fits, but no one count for all weights";
    }
    return "within a thousandth: neither can be told";
}

static void weigh(const char *box_text, const char *coin_text, const char *gross_text) {
    dzb_pair box, coin, gross, outward, inward;
    printf("box %s, coin %s, gross %s\n", box_text, coin_text, gross_text);
    if (read_pair(box_text, box) || read_pair(coin_text, coin) || read_pair(gross_text, gross)) {
        printf("  a pair is not readable\n");
        return;
    }
    uint32_t refused = dzb_equation(box[0], box[1], coin[0], coin[1], gross[0], gross[1], DZB_OUTWARD, outward);
    if (refused == DZB_DONE) {
        refused = dzb_equation(box[0], box[1], coin[0], coin[1], gross[0], gross[1], DZB_INWARD, inward);
    }
    if (refused != DZB_DONE) {
        printf("  refused: R %u\n", (unsigned)refused);
        return;
    }
    print_pair("count outward", outward);
    print_pair("inward", inward);
    printf("\n  %s\n", meaning(outward, inward));
}

int main(void) {
    weigh("[812.000,812.500]", "[7.480,7.520]", "[4552.000,4572.500]");
    weigh("[812.000,812.500]", "[7.480,7.520]", "[4540.000,4590.000]");
    weigh("[812.000,812.500]", "[7.480,7.520]", "[4560.000,4562.000]");
    weigh("[812.000,812.500]", "[0.000,7.520]", "[4560.000,4562.000]");
    return 0;
}
