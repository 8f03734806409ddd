//! Document 02, Q-7: the pairs of fractions x with c × x = d where c holds zero, by 01's cases of the product: by the kind of x.

use crate::exact::{Fraction, Pair, Sign};

#[derive(Clone, Copy, PartialEq, Eq, Debug)]
pub enum Solutions {
    None,
    One(Pair),
    Several,
}

pub fn solutions(c: Pair, d: Pair) -> Solutions {
    match c.direction() {
        Sign::Plus => of_proper(c, d),
        // The dual of a product is the product of the duals.
        Sign::Minus => match of_proper(c.dual(), d.dual()) {
            Solutions::One(x) => Solutions::One(x.dual()),
            found => found,
        },
    }
}

/// Whether so many times p is d, for a number above 0.
fn is_multiple(d: Pair, p: Pair) -> bool {
    let zero = Fraction::whole(0);
    let same_side = |e: Fraction, f: Fraction| if f == zero { e == zero } else { e.times(f) > zero };
    same_side(d.lower, p.lower) && same_side(d.upper, p.upper) && d.lower.times(p.upper) == d.upper.times(p.lower)
}

fn of_proper(c: Pair, d: Pair) -> Solutions {
    // In lowest terms, so that the cross products below fit 128 bits.
    let (c, d) = (c.reduced(), d.reduced());
    let zero = Fraction::whole(0);
    // A zero-free x of sign +: its upper end times c; of sign −: its lower end times the exchanged c. The other end is free.
    if is_multiple(d, c) || is_multiple(d, c.negation()) {
        return Solutions::Several;
    }
    // An x that holds zero and is improper: "one of each, [0, 0]".
    if d == Pair::new(zero, zero) {
        return Solutions::Several;
    }
    if c == Pair::new(zero, zero) || d.lower > zero || d.upper < zero {
        return Solutions::None;
    }
    // A proper x = [−p, q]: [min(−α·q, −β·p), max(α·p, β·q)] with c = [−α, β]. All solutions are below the largest p and q that keep
    // within d, and if there is a solution then these are one.
    let (alpha, beta) = (c.lower.negated(), c.upper);
    let (low, high) = (d.lower.negated(), d.upper);
    let bound = |d: Fraction, by: Fraction| (by > zero).then(|| d.times(by.reciprocal()).reduced());
    let least = |e: Option<Fraction>, f: Option<Fraction>| e.into_iter().chain(f).min().expect("an end that is not 0");
    let p = least(bound(low, beta), bound(high, alpha));
    let q = least(bound(low, alpha), bound(high, beta));
    let solves = |p: Fraction, q: Fraction| alpha.times(q).max(beta.times(p)) == low && alpha.times(p).max(beta.times(q)) == high;
    if !solves(p, q) {
        return Solutions::None;
    }
    // Where q alone reaches both ends of d, less of p does too; and the reverse.
    let p_idle = p > zero && alpha.times(q) == low && beta.times(q) == high;
    let q_idle = q > zero && beta.times(p) == low && alpha.times(p) == high;
    if p_idle || q_idle {
        return Solutions::Several;
    }
    Solutions::One(Pair::new(p.negated(), q))
}
