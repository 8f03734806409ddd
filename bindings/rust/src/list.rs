use crate::pair::{Pair, Way};
use crate::sys;
use crate::Cause;
use alloc::vec::Vec;
use core::fmt;

/// A list of steps, built by functions: each makes the list of the operation applied to the values of lists.
///
/// ```
/// use donzibrau::{List, Pair, Stopped, Way};
///
/// let a = List::from(Pair::new(1_001, 1_001).unwrap());
/// let list = a.clone().product(a).dual();
/// assert_eq!(list.value(Way::Outward)?.to_string(), "[1.002,1.003]");
/// # Ok::<(), Stopped>(())
/// ```
///
/// Its bytes are what the machine's other programs lend: a step is one byte, and 8 follow the code of a constant.
#[derive(Clone, Debug, PartialEq, Eq, Hash)]
pub struct List(Vec<u8>);

/// A caller's own limits: at most so many values wait at once, at most so many steps. Above 16 and 64 they count as those.
#[derive(Clone, Copy, Debug, PartialEq, Eq, Hash)]
#[allow(missing_docs)]
pub struct Limits {
    pub values: usize,
    pub steps: usize,
}

impl Limits {
    /// The slip's: 16 values, 64 steps.
    pub const SLIP: Limits = Limits { values: 16, steps: 64 };
    /// The fare module's: 6 values, 20 steps.
    pub const FARE: Limits = Limits { values: 6, steps: 20 };
}

/// Why a list has no value, and at which step, counted from 0; for [`Cause::NotOneValue`] the count of steps read.
#[derive(Clone, Copy, Debug, PartialEq, Eq, Hash)]
#[allow(missing_docs)]
pub struct Stopped {
    pub cause: Cause,
    pub step: u32,
}

impl List {
    /// The list that gives this pair.
    pub fn constant(pair: Pair) -> List {
        let mut bytes = Vec::with_capacity(9);
        bytes.push(0);
        bytes.extend_from_slice(&pair.lower().to_le_bytes());
        bytes.extend_from_slice(&pair.upper().to_le_bytes());
        List(bytes)
    }

    /// The sum of two values.
    pub fn sum(self, other: List) -> List {
        self.two(other, 1)
    }

    /// The difference of two values.
    pub fn difference(self, other: List) -> List {
        self.two(other, 2)
    }

    /// The product of two values.
    pub fn product(self, other: List) -> List {
        self.two(other, 3)
    }

    /// The negation of a value.
    pub fn negation(self) -> List {
        self.one(4)
    }

    /// The opposite of a value, which is made in the other way.
    pub fn opposite(self) -> List {
        self.one(5)
    }

    /// The dual of a value, which is made in the other way.
    pub fn dual(self) -> List {
        self.one(6)
    }

    /// The join of two values.
    pub fn join(self, other: List) -> List {
        self.two(other, 7)
    }

    /// The meet of two values.
    pub fn meet(self, other: List) -> List {
        self.two(other, 8)
    }

    /// The quotient of two values.
    pub fn quotient(self, other: List) -> List {
        self.two(other, 9)
    }

    fn one(mut self, code: u8) -> List {
        self.0.push(code);
        self
    }

    fn two(mut self, other: List, code: u8) -> List {
        self.0.extend_from_slice(&other.0);
        self.one(code)
    }

    /// A list from its bytes, whatever they are: they are judged when its value is asked for.
    ///
    /// ```
    /// use donzibrau::{Cause, List, Stopped, Way};
    ///
    /// assert_eq!(List::from_bytes(&[]).value(Way::Outward), Err(Stopped { cause: Cause::NotOneValue, step: 0 }));
    /// ```
    pub fn from_bytes(bytes: &[u8]) -> List {
        List(bytes.to_vec())
    }

    /// The bytes of the list.
    pub fn as_bytes(&self) -> &[u8] {
        &self.0
    }

    /// Its value: outward it contains the exact value, inward it lies in it, where exact evaluation meets no divisor that holds zero.
    pub fn value(&self, way: Way) -> Result<Pair, Stopped> {
        answer(|result| unsafe { sys::dzb_list(self.0.as_ptr(), self.0.len(), way.is_inward(), result) })
    }

    /// Its value by a caller's own limits. A list that is accepted has the same value under wider limits.
    ///
    /// ```
    /// use donzibrau::{Cause, Limits, List, Pair, Stopped, Way};
    ///
    /// let one = || List::constant(Pair::new(1_000, 1_000).unwrap());
    /// let list = one().sum(one());
    /// assert_eq!(list.value_within(Way::Outward, Limits::FARE)?.to_string(), "[2.000,2.000]");
    /// let narrow = Limits { values: 1, steps: 20 };
    /// assert_eq!(list.value_within(Way::Outward, narrow), Err(Stopped { cause: Cause::StackOverflow, step: 1 }));
    /// # Ok::<(), Stopped>(())
    /// ```
    pub fn value_within(&self, way: Way, limits: Limits) -> Result<Pair, Stopped> {
        let Limits { values, steps } = limits;
        answer(|result| unsafe { sys::dzb_list_within(self.0.as_ptr(), self.0.len(), way.is_inward(), values, steps, result) })
    }

    /// The same by the burn-in engine, which is proved to give the result, refusal and step of [`List::value_within`]. It is slow, and takes more stack.
    ///
    /// ```
    /// use donzibrau::{Limits, List, Pair, Stopped, Way};
    ///
    /// let list = List::constant(Pair::new(1_001, 1_001).unwrap()).dual();
    /// assert_eq!(list.burnin_value(Way::Outward, Limits::SLIP), list.value_within(Way::Outward, Limits::SLIP));
    /// ```
    pub fn burnin_value(&self, way: Way, limits: Limits) -> Result<Pair, Stopped> {
        let Limits { values, steps } = limits;
        answer(|result| unsafe { sys::dzb_burnin_list(self.0.as_ptr(), self.0.len(), way.is_inward(), values, steps, result) })
    }
}

/// The number returned has the refusal in its low byte and the step above it.
fn answer(call: impl FnOnce(&mut sys::Ends) -> u32) -> Result<Pair, Stopped> {
    let mut step = 0;
    let judged = crate::pair::answer(|result| {
        let returned = call(result);
        step = returned / 256;
        returned % 256
    });
    judged.map_err(|cause| Stopped { cause, step })
}

impl From<Pair> for List {
    fn from(pair: Pair) -> List {
        List::constant(pair)
    }
}

impl fmt::Display for Stopped {
    fn fmt(&self, f: &mut fmt::Formatter<'_>) -> fmt::Result {
        write!(f, "{}, at step {}", self.cause, self.step)
    }
}

impl core::error::Error for Stopped {}
