//! Document 02, Q-14, "Putting a count back", asked of the library alone: nothing here computes, it only compares.
//!
//! First, generated equations: the sum of a and the product of c with the count, all in one way, contains b or lies in it. Second, every a, b, d of
//! whole units from −6 to 6, where no product is rounded: the conditional distributive law.

use crate::generate;
use crate::library;
use crate::paper::{Ends, Operation, Way};
use crate::random::Random;

const EQUATIONS: u64 = 500_000;
const UNITS: i64 = 6;

fn asked(operation: Operation, pairs: &[Ends], way: Way) -> Option<Ends> {
    let mut e = [0; 6];
    for (place, pair) in pairs.iter().enumerate() {
        (e[2 * place], e[2 * place + 1]) = (pair.0 as i32, pair.1 as i32);
    }
    let mut result = [0; 2];
    (library::operation(operation, &e, way, &mut result) == 0).then_some((result[0] as i64, result[1] as i64))
}

/// "[l, u] lies in [p, q] if p ≤ l and u ≤ q."
fn lies_in(a: Ends, b: Ends) -> bool {
    b.0 <= a.0 && a.1 <= b.1
}

fn holds_zero(p: Ends) -> bool {
    !(p.0 > 0 && p.1 > 0 || p.0 < 0 && p.1 < 0)
}

/// The sum of a and the product of c with a count.
fn put_back([a, c, b]: [Ends; 3], counted: Way, way: Way) -> Option<Ends> {
    let x = asked(Operation::Equation, &[a, c, b], counted)?;
    let y = asked(Operation::Product, &[c, x], way)?;
    asked(Operation::Sum, &[a, y], way)
}

fn kept(b: Ends, z: Ends, way: Way) -> bool {
    match way {
        Way::Outward => lies_in(b, z),
        Way::Inward => lies_in(z, b),
    }
}

/// How often all steps were accepted, how often the sum was not b itself, and how often c held zero.
fn equations(r: &mut Random) -> Result<[u64; 3], String> {
    let mut seen = [0; 3];
    // A count rounded the other way has to be noticed. (A product may be: b − a is in whole thousandths, and rounding passes none of these.)
    let mut broken = 0;
    for _ in 0..EQUATIONS {
        let pairs = generate::pairs_for(Operation::Equation, r);
        for way in [Way::Outward, Way::Inward] {
            let b = pairs[2];
            if let Some(z) = put_back(pairs, way, way) {
                if !kept(b, z, way) {
                    return Err(format!("a, c, b {pairs:?}, {way:?}: put back, the count gives {z:?}"));
                }
                seen = [seen[0] + 1, seen[1] + (z != b) as u64, seen[2] + holds_zero(pairs[1]) as u64];
            }
            broken += put_back(pairs, way.other(), way).is_some_and(|z| !kept(b, z, way)) as u64;
        }
    }
    if broken == 0 {
        return Err("a count rounded the other way is not noticed".to_string());
    }
    Ok(seen)
}

fn pairs() -> impl Iterator<Item = Ends> + Clone {
    (-UNITS..=UNITS).flat_map(|l| (-UNITS..=UNITS).map(move |u| (1000 * l, 1000 * u)))
}

/// a × d + b × d, where `dual` says which of the two terms take the dual of d.
fn terms(a: Ends, b: Ends, d: Ends, dual: [bool; 2], way: Way) -> Option<Ends> {
    let turned = asked(Operation::Dual, &[d], way)?;
    let left = asked(Operation::Product, &[a, if dual[0] { turned } else { d }], way)?;
    let right = asked(Operation::Product, &[b, if dual[1] { turned } else { d }], way)?;
    asked(Operation::Sum, &[left, right], way)
}

/// "the term whose sign differs from that of a + b takes the dual of d": how often, with terms of one sign and of two.
fn distributed() -> Result<[u64; 2], String> {
    let mut seen = [0; 2];
    let mut broken = [0; 2];
    let free = || pairs().filter(|p| !holds_zero(*p));
    for (a, b) in free().flat_map(|a| free().map(move |b| (a, b))) {
        let sum = asked(Operation::Sum, &[a, b], Way::Outward).ok_or("a small sum is refused")?;
        if holds_zero(sum) {
            continue;
        }
        let differs = [a, b].map(|term| (term.0 > 0) != (sum.0 > 0));
        for d in pairs() {
            for way in [Way::Outward, Way::Inward] {
                let whole = asked(Operation::Product, &[sum, d], way);
                if whole.is_none() || whole != terms(a, b, d, differs, way) {
                    return Err(format!("a {a:?}, b {b:?}, d {d:?}, {way:?}: (a + b) × d is {whole:?}"));
                }
                seen[(differs != [false; 2]) as usize] += 1;
                // No dual at all, and the dual in the other term.
                broken[0] += (whole != terms(a, b, d, [false; 2], way)) as u64;
                broken[1] += (differs != [false; 2] && whole != terms(a, b, d, [differs[1], differs[0]], way)) as u64;
            }
        }
    }
    if broken.contains(&0) {
        return Err("a dual in the wrong place is not noticed".to_string());
    }
    Ok(seen)
}

pub fn compare(seed: u64) -> Result<String, String> {
    let [all, wider, zero] = equations(&mut Random::for_block(seed, u64::MAX - 14))?;
    let [one, two] = distributed()?;
    Ok(format!(
        "counts put back: {all} contain b outward or lie in it inward, {wider} of them not b itself, {zero} with a c that holds zero\n\
         (a + b) × d, ends from -{UNITS} to {UNITS} units: {one} with terms of one sign, {two} with terms of two"
    ))
}
