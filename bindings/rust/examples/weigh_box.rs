//! Weighs boxes: empty box + coin mass times count = gross weight, solved for the count. Masses are in grams.
use donzibrau::{Cause, Equation, Pair, Way};

/// What a count says; examples/weigh_box.c has the reasons.
fn meaning(outward: Pair, inward: Pair) -> &'static str {
    if inward.is_proper() {
        return "proper: every count in the inward pair fits, whatever box and coins weigh within their ranges";
    }
    if !outward.is_proper() {
        return "improper: whatever they weigh, some count between the inward ends fits, but no one count for all weights";
    }
    "within a thousandth: neither can be told"
}

fn weigh(a: &str, c: &str, b: &str) -> Result<(Pair, Pair), Cause> {
    let weighing = Equation { a: a.parse()?, c: c.parse()?, b: b.parse()? };
    Ok((weighing.solve(Way::Outward)?, weighing.solve(Way::Inward)?))
}

fn main() {
    for (coin, gross) in [
        ("[7.480,7.520]", "[4552.000,4572.500]"),
        ("[7.480,7.520]", "[4540.000,4590.000]"),
        ("[7.480,7.520]", "[4560.000,4562.000]"),
        ("[0.000,7.520]", "[4560.000,4562.000]"),
    ] {
        let empty = "[812.000,812.500]";
        println!("box {empty}, coin {coin}, gross {gross}");
        match weigh(empty, coin, gross) {
            Ok((outward, inward)) => println!("  count outward {outward}  inward {inward}\n  {}", meaning(outward, inward)),
            Err(cause) => println!("  refused: R {}", cause.number()),
        }
    }
}
