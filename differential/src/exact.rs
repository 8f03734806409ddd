//! Document 01, "The pair and its ends" and "The operations", on fractions of any size, left unrounded.
//! Written from the document's sentences, which stand above what they became.

use std::cmp::Ordering;

/// "A fraction is a whole number over a whole number above 0".
#[derive(Clone, Copy, Debug)]
pub struct Fraction {
    over: i128,
    under: i128,
}

impl Fraction {
    pub fn new(over: i128, under: i128) -> Fraction {
        assert!(under > 0);
        Fraction { over, under }
    }

    pub fn whole(n: i128) -> Fraction {
        Fraction::new(n, 1)
    }

    pub fn plus(self, other: Fraction) -> Fraction {
        Fraction::new(self.over * other.under + other.over * self.under, self.under * other.under)
    }

    pub fn negated(self) -> Fraction {
        Fraction::new(-self.over, self.under)
    }

    pub fn minus(self, other: Fraction) -> Fraction {
        self.plus(other.negated())
    }

    pub fn times(self, other: Fraction) -> Fraction {
        Fraction::new(self.over * other.over, self.under * other.under)
    }

    pub fn reciprocal(self) -> Fraction {
        assert!(self.over != 0);
        Fraction::new(self.under * self.over.signum(), self.over.abs())
    }

    /// Towards minus infinity.
    pub fn floor(self) -> i128 {
        self.over.div_euclid(self.under)
    }

    pub fn ceiling(self) -> i128 {
        -self.negated().floor()
    }

    /// Towards zero: one of the mistakes.
    pub fn truncated(self) -> i128 {
        self.over / self.under
    }

    /// The same fraction in its lowest terms.
    pub fn reduced(self) -> Fraction {
        let (mut a, mut b) = (self.over.abs(), self.under);
        while b != 0 {
            (a, b) = (b, a % b);
        }
        Fraction::new(self.over / a, self.under / a)
    }

    fn sign(self) -> i128 {
        self.over.signum()
    }
}

/// "two fractions are equal, or one is the smaller, as their cross products are"
impl Ord for Fraction {
    fn cmp(&self, other: &Fraction) -> Ordering {
        (self.over * other.under).cmp(&(other.over * self.under))
    }
}

impl PartialOrd for Fraction {
    fn partial_cmp(&self, other: &Fraction) -> Option<Ordering> {
        Some(self.cmp(other))
    }
}

impl PartialEq for Fraction {
    fn eq(&self, other: &Fraction) -> bool {
        self.cmp(other) == Ordering::Equal
    }
}

impl Eq for Fraction {}

/// "Signs multiply as usual".
#[derive(Clone, Copy, PartialEq, Eq, Debug)]
pub enum Sign {
    Plus,
    Minus,
}

impl Sign {
    fn times(self, other: Sign) -> Sign {
        if self == other {
            Sign::Plus
        } else {
            Sign::Minus
        }
    }

    fn negated(self) -> Sign {
        self.times(Sign::Minus)
    }
}

/// "A pair [l, u] has a lower end l and an upper end u, in any order."
#[derive(Clone, Copy, PartialEq, Eq, Debug)]
pub struct Pair {
    pub lower: Fraction,
    pub upper: Fraction,
}

impl Pair {
    pub fn new(lower: Fraction, upper: Fraction) -> Pair {
        Pair { lower, upper }
    }

    /// "an end e read as the fraction e over 1000"
    pub fn thousandths(lower: i64, upper: i64) -> Pair {
        Pair::new(Fraction::new(lower as i128, 1000), Fraction::new(upper as i128, 1000))
    }

    /// t(a): "+ if proper and − if improper", where "a pair with equal ends is proper".
    pub fn direction(self) -> Sign {
        if self.lower <= self.upper {
            Sign::Plus
        } else {
            Sign::Minus
        }
    }

    /// s(a): "It is zero-free if both ends are above 0 (sign +) or both below 0 (sign −). All other pairs hold zero".
    pub fn sign(self) -> Option<Sign> {
        match (self.lower.sign(), self.upper.sign()) {
            (1, 1) => Some(Sign::Plus),
            (-1, -1) => Some(Sign::Minus),
            _ => None,
        }
    }

    /// "[l, u] lies in [p, q] if p ≤ l and u ≤ q."
    pub fn lies_in(self, other: Pair) -> bool {
        other.lower <= self.lower && self.upper <= other.upper
    }

    /// The end with an index.
    fn end(self, index: Sign) -> Fraction {
        match index {
            Sign::Minus => self.lower,
            Sign::Plus => self.upper,
        }
    }

    pub fn reduced(self) -> Pair {
        Pair::new(self.lower.reduced(), self.upper.reduced())
    }

    /// "negation [−u, −l]"
    pub fn negation(self) -> Pair {
        Pair::new(self.upper.negated(), self.lower.negated())
    }

    /// "opposite [−l, −u]"
    pub fn opposite(self) -> Pair {
        Pair::new(self.lower.negated(), self.upper.negated())
    }

    /// "dual [u, l]"
    pub fn dual(self) -> Pair {
        Pair::new(self.upper, self.lower)
    }

    /// "join [smaller l, larger u]"
    pub fn join(self, b: Pair) -> Pair {
        Pair::new(self.lower.min(b.lower), self.upper.max(b.upper))
    }

    /// "meet [larger l, smaller u]"
    pub fn meet(self, b: Pair) -> Pair {
        Pair::new(self.lower.max(b.lower), self.upper.min(b.upper))
    }

    /// "Sum: [a− + b−, a+ + b+]."
    pub fn sum(self, b: Pair) -> Pair {
        Pair::new(self.lower.plus(b.lower), self.upper.plus(b.upper))
    }

    /// "Difference: [a− − b+, a+ − b−]."
    pub fn difference(self, b: Pair) -> Pair {
        Pair::new(self.lower.minus(b.upper), self.upper.minus(b.lower))
    }

    pub fn product(self, b: Pair) -> Pair {
        let a = self;
        match (a.sign(), b.sign()) {
            // "the lower end is (a with index −s(b)) times (b with index −s(a)); the upper end is (a with index s(b)) times
            // (b with index s(a))"
            (Some(s), Some(t)) => Pair::new(a.end(t.negated()).times(b.end(s.negated())), a.end(t).times(b.end(s))),
            (Some(d), None) => zero_free_times(a, d, b),
            // "With the roles changed, the same."
            (None, Some(d)) => zero_free_times(b, d, a),
            (None, None) => both_hold_zero(a, b),
        }
    }

    /// "Quotient a / b, b zero-free: a times [1/b+, 1/b−]."
    pub fn quotient(self, b: Pair) -> Pair {
        self.product(b.reciprocals())
    }

    pub fn reciprocals(self) -> Pair {
        Pair::new(self.upper.reciprocal(), self.lower.reciprocal())
    }
}

/// "a zero-free with sign d, b holding zero: the a end with index d·t(b) times b's end with index −d, then times b's end with
/// index d"
fn zero_free_times(a: Pair, d: Sign, b: Pair) -> Pair {
    let factor = a.end(d.times(b.direction()));
    Pair::new(factor.times(b.end(d.negated())), factor.times(b.end(d)))
}

/// "both proper, [min(a−·b+, a+·b−), max(a−·b−, a+·b+)]; both improper, [max(a−·b−, a+·b+), min(a−·b+, a+·b−)]; one of each,
/// [0, 0]"
fn both_hold_zero(a: Pair, b: Pair) -> Pair {
    let across = (a.lower.times(b.upper), a.upper.times(b.lower));
    let along = (a.lower.times(b.lower), a.upper.times(b.upper));
    match (a.direction(), b.direction()) {
        (Sign::Plus, Sign::Plus) => Pair::new(across.0.min(across.1), along.0.max(along.1)),
        (Sign::Minus, Sign::Minus) => Pair::new(along.0.max(along.1), across.0.min(across.1)),
        _ => Pair::new(Fraction::whole(0), Fraction::whole(0)),
    }
}
