use crate::sys::{self, Ends};
use crate::Cause;
use alloc::string::String;
use core::{fmt, str::FromStr};

/// The way of rounding.
#[derive(Clone, Copy, Debug, PartialEq, Eq, Hash)]
pub enum Way {
    /// The smallest pair of thousandths around the exact result: its lower end down, its upper end up.
    Outward,
    /// The largest pair of thousandths within the exact result: its lower end up, its upper end down.
    Inward,
}

impl Way {
    pub(crate) fn is_inward(self) -> bool {
        self == Way::Inward
    }
}

/// Two ends in thousandths, each from [`Pair::LEAST`] to [`Pair::GREATEST`], in any order.
///
/// ```
/// use donzibrau::{Cause, Pair, Way};
///
/// let a: Pair = "[1.001,1.001]".parse()?;
/// assert_eq!(a.product(a, Way::Outward)?.to_string(), "[1.002,1.003]");
/// assert_eq!(a.product(a, Way::Inward)?.to_string(), "[1.003,1.002]");
/// # Ok::<(), Cause>(())
/// ```
#[derive(Clone, Copy, Debug, PartialEq, Eq, Hash)]
#[repr(C)]
pub struct Pair {
    lower: i32,
    upper: i32,
}

type Two = unsafe extern "C" fn(i32, i32, i32, i32, bool, *mut Ends) -> u32;
type Write = unsafe extern "C" fn(i32, i32, *mut u8, usize, *mut usize) -> u32;

impl Pair {
    /// The least end.
    pub const LEAST: i32 = -2_000_000_000;
    /// The greatest end.
    pub const GREATEST: i32 = 2_000_000_000;
    /// `[0.000,0.000]`.
    pub const ZERO: Pair = Pair { lower: 0, upper: 0 };

    /// The pair with these ends, in thousandths. Refused: [`Cause::EndBeyondRange`].
    ///
    /// ```
    /// use donzibrau::{Cause, Pair};
    ///
    /// assert_eq!(Pair::new(1_500, 2_000)?, "[1.5,2]".parse()?);
    /// assert_eq!(Pair::new(0, 2_000_000_001), Err(Cause::EndBeyondRange));
    /// # Ok::<(), Cause>(())
    /// ```
    pub fn new(lower: i32, upper: i32) -> Result<Pair, Cause> {
        let range = Pair::LEAST..=Pair::GREATEST;
        if !range.contains(&lower) || !range.contains(&upper) {
            return Err(Cause::EndBeyondRange);
        }
        Ok(Pair { lower, upper })
    }

    /// The lower end, in thousandths.
    pub const fn lower(self) -> i32 {
        self.lower
    }

    /// The upper end, in thousandths.
    pub const fn upper(self) -> i32 {
        self.upper
    }

    /// Whether the lower end is not above the upper.
    pub const fn is_proper(self) -> bool {
        self.lower <= self.upper
    }

    /// Whether `other` lies in this pair: its lower end is not below, its upper end not above.
    ///
    /// ```
    /// use donzibrau::{Cause, Pair};
    ///
    /// assert!(Pair::new(1_000, 4_000)?.contains(Pair::new(3_000, 2_000)?));
    /// # Ok::<(), Cause>(())
    /// ```
    pub const fn contains(self, other: Pair) -> bool {
        self.lower <= other.lower && other.upper <= self.upper
    }

    /// `[-upper, -lower]`.
    pub fn negation(self) -> Pair {
        exact(|result| unsafe { sys::dzb_negation(self.lower, self.upper, result) })
    }

    /// `[-lower, -upper]`.
    pub fn opposite(self) -> Pair {
        exact(|result| unsafe { sys::dzb_opposite(self.lower, self.upper, result) })
    }

    /// `[upper, lower]`.
    ///
    /// ```
    /// use donzibrau::{Cause, Pair, Way};
    ///
    /// let a = Pair::new(2_000, 5_000)?;
    /// assert_eq!(a.difference(a.dual(), Way::Outward)?, Pair::ZERO);
    /// # Ok::<(), Cause>(())
    /// ```
    pub fn dual(self) -> Pair {
        exact(|result| unsafe { sys::dzb_dual(self.lower, self.upper, result) })
    }

    /// `[smaller lower, larger upper]`.
    pub fn join(self, other: Pair) -> Pair {
        exact(|result| unsafe { sys::dzb_join(self.lower, self.upper, other.lower, other.upper, result) })
    }

    /// `[larger lower, smaller upper]`.
    pub fn meet(self, other: Pair) -> Pair {
        exact(|result| unsafe { sys::dzb_meet(self.lower, self.upper, other.lower, other.upper, result) })
    }

    /// The sum. Refused: [`Cause::ResultBeyondRange`].
    pub fn sum(self, other: Pair, way: Way) -> Result<Pair, Cause> {
        self.rounded(sys::dzb_sum, other, way)
    }

    /// The difference. Refused: [`Cause::ResultBeyondRange`].
    pub fn difference(self, other: Pair, way: Way) -> Result<Pair, Cause> {
        self.rounded(sys::dzb_difference, other, way)
    }

    /// The product. Refused: [`Cause::ResultBeyondRange`].
    pub fn product(self, other: Pair, way: Way) -> Result<Pair, Cause> {
        self.rounded(sys::dzb_product, other, way)
    }

    /// The quotient. Refused: [`Cause::ZeroDivisor`] if `other` holds zero, [`Cause::ResultBeyondRange`].
    pub fn quotient(self, other: Pair, way: Way) -> Result<Pair, Cause> {
        self.rounded(sys::dzb_quotient, other, way)
    }

    /// The text `(m;r)` of the weighbridge office, centre and radius: the ends are m − r and m + r. Refused: [`Cause::OddSum`].
    ///
    /// ```
    /// use donzibrau::{Cause, Pair};
    ///
    /// let pair = Pair::new(1_000, 2_000)?;
    /// assert_eq!(pair.to_centre()?, "(1.500;0.500)");
    /// assert_eq!(Pair::from_centre("(1.500;0.500)")?, pair);
    /// assert_eq!(pair.dual().to_centre()?, "(1.500;-0.500)");
    /// assert_eq!(Pair::new(0, 1)?.to_centre(), Err(Cause::OddSum));
    /// # Ok::<(), Cause>(())
    /// ```
    pub fn to_centre(self) -> Result<String, Cause> {
        self.written(sys::dzb_write_centre, |text| text.into())
    }

    /// The pair with this text of the weighbridge office. Refused: [`Cause::Malformed`], then [`Cause::EndBeyondRange`].
    pub fn from_centre(text: &str) -> Result<Pair, Cause> {
        answer(|result| unsafe { sys::dzb_read_centre(text.as_ptr(), text.len(), result) })
    }

    /// A text of the library's, handed to `take`.
    fn written<T>(self, write: Write, take: impl FnOnce(&str) -> T) -> Result<T, Cause> {
        let (mut buffer, mut length) = ([0; 27], 0);
        let returned = unsafe { write(self.lower, self.upper, buffer.as_mut_ptr(), buffer.len(), &mut length) };
        Cause::judge(returned, ())?;
        Ok(take(core::str::from_utf8(&buffer[..length]).expect("digits, points and marks")))
    }

    fn rounded(self, operation: Two, other: Pair, way: Way) -> Result<Pair, Cause> {
        answer(|result| unsafe { operation(self.lower, self.upper, other.lower, other.upper, way.is_inward(), result) })
    }
}

/// What the library writes, or its refusal.
pub(crate) fn answer(call: impl FnOnce(&mut Ends) -> u32) -> Result<Pair, Cause> {
    let mut ends = [0; 2];
    let returned = call(&mut ends);
    Cause::judge(returned, Pair { lower: ends[0], upper: ends[1] })
}

/// What is refused only for an end beyond the range, and no [`Pair`] has one.
fn exact(call: impl FnOnce(&mut Ends) -> u32) -> Pair {
    answer(call).expect("the ends of a pair are in range")
}

/// The text, as `[1.500,2.000]`.
impl fmt::Display for Pair {
    fn fmt(&self, f: &mut fmt::Formatter<'_>) -> fmt::Result {
        self.written(sys::dzb_write, |text| f.pad(text)).unwrap_or(Err(fmt::Error))
    }
}

/// Reads a text: three, two, one or no digits behind each point. Refused: [`Cause::Malformed`], then [`Cause::EndBeyondRange`].
///
/// ```
/// use donzibrau::{Cause, Pair};
///
/// assert_eq!("[1.5,2]".parse::<Pair>()?.to_string(), "[1.500,2.000]");
/// assert_eq!("[1,5,2]".parse::<Pair>(), Err(Cause::Malformed));
/// # Ok::<(), Cause>(())
/// ```
impl FromStr for Pair {
    type Err = Cause;

    fn from_str(text: &str) -> Result<Pair, Cause> {
        answer(|result| unsafe { sys::dzb_read(text.as_ptr(), text.len(), result) })
    }
}

/// The equation a + c × x = b. Of a box on the scale: a is the empty box, c the mass of a coin, b the gross weight, x the count.
#[derive(Clone, Copy, Debug, PartialEq, Eq, Hash)]
#[allow(missing_docs)]
pub struct Equation {
    pub a: Pair,
    pub c: Pair,
    pub b: Pair,
}

impl Equation {
    /// Its x, if exactly one pair of fractions solves it, as where c holds no zero; rounded once. Refused: [`Cause::Unsolvable`] if none does,
    /// [`Cause::SeveralSolutions`] if more than one does, [`Cause::ResultBeyondRange`].
    ///
    /// ```
    /// use donzibrau::{Cause, Equation, Pair, Way};
    ///
    /// let read = |text: &str| text.parse::<Pair>();
    /// let equation = Equation { a: read("[0.5,0.6]")?, c: read("[2,4]")?, b: read("[6.5,20.6]")? };
    /// assert_eq!(equation.solve(Way::Outward)?.to_string(), "[3.000,5.000]");
    ///
    /// let worn = |b| Equation { a: Pair::ZERO, c: Pair::new(0, 2_000).unwrap(), b }.solve(Way::Outward);
    /// assert_eq!(worn(read("[-2,4]")?)?.to_string(), "[-1.000,2.000]");
    /// assert_eq!(worn(read("[0,4]")?), Err(Cause::SeveralSolutions));
    /// assert_eq!(worn(read("[1,4]")?), Err(Cause::Unsolvable));
    /// # Ok::<(), Cause>(())
    /// ```
    pub fn solve(self, way: Way) -> Result<Pair, Cause> {
        let Equation { a, c, b } = self;
        answer(|result| unsafe {
            sys::dzb_equation(a.lower, a.upper, c.lower, c.upper, b.lower, b.upper, way.is_inward(), result)
        })
    }
}

/// What there is to say of a pair that another machine claims to be the count.
#[derive(Clone, Copy, Debug, PartialEq, Eq, Hash)]
pub struct Claim {
    /// It contains the one exact solution.
    pub contains_solution: bool,
    /// It is moreover the count that [`Equation::solve`] gives outward.
    pub is_outward_count: bool,
}

impl Equation {
    /// Judges a claimed count. Refused: [`Cause::ZeroDivisor`] if c holds zero.
    ///
    /// ```
    /// use donzibrau::{Cause, Claim, Equation, Pair, Way};
    ///
    /// let weighing = Equation { a: Pair::ZERO, c: Pair::new(3_000, 3_000)?, b: Pair::new(1_000, 1_000)? };
    /// let ours = weighing.solve(Way::Outward)?;
    /// assert_eq!(weighing.judge(ours)?, Claim { contains_solution: true, is_outward_count: true });
    /// assert_eq!(weighing.judge(Pair::new(0, 1_000)?)?, Claim { contains_solution: true, is_outward_count: false });
    /// # Ok::<(), Cause>(())
    /// ```
    pub fn judge(self, claim: Pair) -> Result<Claim, Cause> {
        let Equation { a, c, b } = self;
        let mut replies = [0; 2];
        let returned = unsafe {
            sys::dzb_claim(a.lower, a.upper, c.lower, c.upper, b.lower, b.upper, claim.lower, claim.upper, &mut replies)
        };
        Cause::judge(returned, Claim { contains_solution: replies[0] == 1, is_outward_count: replies[1] == 1 })
    }
}

/// The answer to a line of the slip, its byte 10 not among the bytes. Refused: [`Cause::MalformedLine`], [`Cause::UnknownCode`], and what its pairs and
/// its operation refuse.
///
/// ```
/// use donzibrau::{line, Cause};
///
/// assert_eq!(line(b"O M [1.001,1.001] [1.001,1.001]")?.to_string(), "[1.002,1.003]");
/// assert_eq!(line(b""), Err(Cause::MalformedLine));
/// # Ok::<(), Cause>(())
/// ```
pub fn line(bytes: &[u8]) -> Result<Pair, Cause> {
    answer(|result| unsafe { sys::dzb_line(bytes.as_ptr(), bytes.len(), result) })
}
