use core::fmt;

/// Why something is refused: the table of causes, by name. [`Cause::number`] is the number that the slip prints behind `R`.
///
/// ```
/// use donzibrau::{Cause, Pair, Way};
///
/// let refused = Pair::new(1_000, 2_000)?.quotient(Pair::new(0, 1_000)?, Way::Outward);
/// assert_eq!(refused, Err(Cause::ZeroDivisor));
/// assert_eq!(Cause::ZeroDivisor.number(), 5);
/// assert_eq!(Cause::ZeroDivisor.to_string(), "R 5: the divisor holds zero");
/// # Ok::<(), Cause>(())
/// ```
#[derive(Clone, Copy, Debug, PartialEq, Eq, Hash, PartialOrd, Ord)]
#[non_exhaustive]
#[repr(u8)]
#[allow(missing_docs)] // the words are in `TABLE`
pub enum Cause {
    Malformed = 1,
    EndBeyondRange = 2,
    ShortBuffer = 3,
    ResultBeyondRange = 4,
    ZeroDivisor = 5,
    UnknownCode = 6,
    ShortConstant = 7,
    StackUnderflow = 8,
    StackOverflow = 9,
    TooManySteps = 10,
    NotOneValue = 11,
    MalformedLine = 12,
    BlockBounds = 13,
    BlockChecksum = 14,
    BlockLayout = 15,
    Unsolvable = 16,
    SeveralSolutions = 17,
    SheetBounds = 18,
    ConstantCount = 19,
    NotInSeries = 20,
    OddSum = 21,
    BlockSums = 22,
}

/// Each cause, in the order of its number from 1, and its words.
const TABLE: [(Cause, &str); 22] = [
    (Cause::Malformed, "the text of a pair is not in its form"),
    (Cause::EndBeyondRange, "an end is beyond the range"),
    (Cause::ShortBuffer, "the buffer is shorter than the text"),
    (Cause::ResultBeyondRange, "the result is beyond the range"),
    (Cause::ZeroDivisor, "the divisor holds zero"),
    (Cause::UnknownCode, "the code of a step, or a letter of a line, is unknown"),
    (Cause::ShortConstant, "fewer than 8 bytes follow the code of a constant"),
    (Cause::StackUnderflow, "too few values wait for a step"),
    (Cause::StackOverflow, "more values wait than the limit"),
    (Cause::TooManySteps, "there are more steps than the limit"),
    (Cause::NotOneValue, "the list does not leave exactly one value"),
    (Cause::MalformedLine, "the line is too long, or has the wrong number of fields"),
    (Cause::BlockBounds, "the block's number is above 99, it is not 512 bytes, or it is full"),
    (Cause::BlockChecksum, "the block's bytes do not add up to its sum"),
    (Cause::BlockLayout, "a field of the block breaks the layout"),
    (Cause::Unsolvable, "no pair solves the equation"),
    (Cause::SeveralSolutions, "more than one pair solves the equation"),
    (Cause::SheetBounds, "the sheet has more than 800 ends, or not a multiple of four"),
    (Cause::ConstantCount, "there are not one to four constants"),
    (Cause::NotInSeries, "the list is not in the series"),
    (Cause::OddSum, "the sum of the ends is odd in thousandths"),
    (Cause::BlockSums, "a sum that the block stores differs from its records"),
];

impl Cause {
    /// The number in the table of causes.
    pub const fn number(self) -> u32 {
        self as u32
    }

    /// The cause with this number, if there is one.
    ///
    /// ```
    /// use donzibrau::Cause;
    ///
    /// assert_eq!(Cause::from_number(12), Some(Cause::MalformedLine));
    /// assert_eq!(Cause::from_number(0), None);
    /// ```
    pub fn from_number(number: u32) -> Option<Cause> {
        TABLE.get((number as usize).checked_sub(1)?).map(|row| row.0)
    }

    /// What a function of the library returned: 0 is done.
    pub(crate) fn judge<T>(returned: u32, result: T) -> Result<T, Cause> {
        if returned == 0 {
            return Ok(result);
        }
        Err(Cause::from_number(returned).expect("a refusal that this crate has no name for: the library is of another version"))
    }
}

impl fmt::Display for Cause {
    fn fmt(&self, f: &mut fmt::Formatter<'_>) -> fmt::Result {
        write!(f, "R {}: {}", self.number(), TABLE[*self as usize - 1].1)
    }
}

impl core::error::Error for Cause {}

#[cfg(test)]
mod tests {
    use super::*;

    #[test]
    fn the_table_is_in_the_order_of_the_numbers() {
        for (place, row) in TABLE.iter().enumerate() {
            assert_eq!(row.0.number() as usize, place + 1);
        }
    }
}
