//! Demand 3 by enumeration: for every a, c, b with ends from −4 to 4, the count against searches that use no formula of the solution, of
//! rounding or of division; where c holds zero (02, Q-7), whether there is none, one or more than one solution too.
//!
//! a and b are in thousandths and c in whole units, so that solutions are twelfths of a thousandth: every pair of twelfths is tried
//! as a solution, and every pair of thousandths near it as a count.

use crate::exact::{Fraction, Pair};
use crate::library;
use crate::paper::{Operation, Way};
use std::collections::HashMap;

const LARGEST: i64 = 4;
/// Twelfths of a thousandth up to 8 thousandths: b − a reaches no further, and the farther end of a c other than [0, 0] is at least 1.
const TWELFTHS: i64 = 12 * 2 * LARGEST;
/// Thousandths near every solution.
const NEAR: i64 = 2 * LARGEST + 2;

type Ends = (i64, i64);

/// What was counted.
pub struct Enumerated {
    pub equations: u64,
    pub counts: u64,
    pub improper: u64,
    pub pairs_tried: u64,
    /// Where c holds zero: equations without a solution, with one, with more.
    pub none: u64,
    pub one: u64,
    pub several: u64,
}

fn ends() -> Vec<Ends> {
    let all = -LARGEST..=LARGEST;
    all.clone().flat_map(|l| all.clone().map(move |u| (l, u))).collect()
}

fn twelfths(x: Ends) -> Pair {
    Pair::new(Fraction::new(x.0 as i128, 12_000), Fraction::new(x.1 as i128, 12_000))
}

/// A pair of twelfths of thousandths as whole numbers of them.
fn in_twelfths(p: Pair) -> Ends {
    let of = |f: Fraction| {
        let scaled = f.times(Fraction::whole(12_000));
        assert!(scaled.floor() == scaled.ceiling());
        scaled.floor() as i64
    };
    (of(p.lower), of(p.upper))
}

/// For one c: the product c × x of every pair x of twelfths, and which x give it.
fn products(c: Pair) -> HashMap<Ends, Vec<Ends>> {
    let mut found: HashMap<Ends, Vec<Ends>> = HashMap::new();
    for l in -TWELFTHS..=TWELFTHS {
        for u in -TWELFTHS..=TWELFTHS {
            found.entry(in_twelfths(c.product(twelfths((l, u))))).or_default().push((l, u));
        }
    }
    found
}

/// Among all pairs of thousandths near x: the smallest that contains it, or the largest that lies in it. There has to be one.
fn searched(x: Pair, way: Way, tried: &mut u64) -> Ends {
    let near = -NEAR..=NEAR;
    let mut candidates: Vec<(Ends, Pair)> = Vec::new();
    for l in near.clone() {
        for u in near.clone() {
            *tried += 1;
            let p = Pair::thousandths(l, u);
            let fits = match way {
                Way::Outward => x.lies_in(p),
                Way::Inward => p.lies_in(x),
            };
            if fits {
                candidates.push(((l, u), p));
            }
        }
    }
    let better = |p: Pair, q: Pair| match way {
        Way::Outward => p.lies_in(q),
        Way::Inward => q.lies_in(p),
    };
    let mut best = candidates[0];
    for c in &candidates {
        if better(c.1, best.1) {
            best = *c;
        }
    }
    assert!(candidates.iter().all(|c| better(best.1, c.1)), "no pair of thousandths is the best for {x:?}");
    best.0
}

fn count(a: Ends, c: Ends, b: Ends, way: Way) -> Result<Ends, u32> {
    let e = [a.0, a.1, 1000 * c.0, 1000 * c.1, b.0, b.1].map(|x| x as i32);
    let mut result = [i32::MIN; 2];
    match library::operation(Operation::Equation, &e, way, &mut result) {
        0 => Ok((result[0] as i64, result[1] as i64)),
        number => Err(number),
    }
}

pub fn enumerate() -> Result<Enumerated, String> {
    let mut seen = Enumerated { equations: 0, counts: 0, improper: 0, pairs_tried: 0, none: 0, one: 0, several: 0 };
    let mut known: HashMap<(Ends, bool), Ends> = HashMap::new();
    for c in ends() {
        let whole = Pair::new(Fraction::whole(c.0 as i128), Fraction::whole(c.1 as i128));
        let holds_zero = whole.sign().is_none();
        let products = products(whole);
        for a in ends() {
            for b in ends() {
                seen.equations += 1;
                // a + y = b has the one solution y, end by end; c × x = y is looked up among all products.
                let y = (12 * (b.0 - a.0), 12 * (b.1 - a.1));
                let solutions = products.get(&y).map_or(&[][..], |x| &x[..]);
                if holds_zero {
                    *[&mut seen.none, &mut seen.one, &mut seen.several][solutions.len().min(2)] += 1;
                }
                let [x] = solutions else {
                    // 16 for none, 17 for more than one; where c is zero-free there is one.
                    let refused = Err(if solutions.is_empty() { 16 } else { 17 });
                    if !holds_zero || count(a, c, b, Way::Outward) != refused || count(a, c, b, Way::Inward) != refused {
                        return Err(format!("a {a:?} c {c:?} b {b:?} has {} solutions", solutions.len()));
                    }
                    continue;
                };
                for way in [Way::Outward, Way::Inward] {
                    let tried = &mut seen.pairs_tried;
                    let best = *known.entry((*x, way == Way::Inward)).or_insert_with(|| searched(twelfths(*x), way, tried));
                    seen.counts += 1;
                    seen.improper += (best.0 > best.1) as u64;
                    let counted = count(a, c, b, way);
                    if counted != Ok(best) {
                        return Err(format!(
                            "a {a:?} and b {b:?} thousandths, c {c:?} units, {way:?}: solution {x:?} twelfths of a thousandth, \
                             found by search {best:?}, library {counted:?}"
                        ));
                    }
                }
            }
        }
    }
    Ok(seen)
}
