use crate::{sys, Cause, List, Pair};
use alloc::vec::Vec;

/// Every small list for burn-in: the well-formed lists of 1 to 5 steps over one to four constants, each once, lists of fewer steps first.
///
/// ```
/// use donzibrau::{Cause, Limits, Pair, Series, Way};
///
/// let constants = [Pair::new(1_001, 999)?];
/// assert_eq!(Series::over(&constants)?.count(), 577);
/// for list in Series::over(&constants)?.take(50) {
///     assert_eq!(list.value_within(Way::Inward, Limits::SLIP), list.burnin_value(Way::Inward, Limits::SLIP));
/// }
/// assert_eq!(Series::over(&[]).err(), Some(Cause::ConstantCount));
/// # Ok::<(), Cause>(())
/// ```
#[derive(Clone, Debug)]
pub struct Series {
    constants: Vec<Pair>,
    /// The list that is given next, a constant by its position; empty behind the last.
    next: Small,
}

/// A list of the series as the library writes it, and its length.
#[derive(Clone, Copy, Debug)]
struct Small {
    bytes: [u8; 10],
    length: usize,
}

impl Small {
    fn written(call: impl FnOnce(*mut u8, usize, *mut usize) -> u32) -> Result<Small, Cause> {
        let mut small = Small { bytes: [0; 10], length: 0 };
        let returned = call(small.bytes.as_mut_ptr(), small.bytes.len(), &mut small.length);
        Cause::judge(returned, small)
    }
}

impl Series {
    /// The series over these constants; equal ones at two positions remain two. Refused: [`Cause::ConstantCount`].
    pub fn over(constants: &[Pair]) -> Result<Series, Cause> {
        let next =
            Small::written(|bytes, length, written| unsafe { sys::dzb_first_list(constants.len(), bytes, length, written) })?;
        Ok(Series { constants: constants.to_vec(), next })
    }

    /// A small list with its constants in their places.
    fn placed(&self, small: &[u8]) -> List {
        let mut bytes = Vec::new();
        let mut rest = small.iter();
        while let Some(&code) = rest.next() {
            match (code, rest.as_slice().first()) {
                (0, Some(&position)) => {
                    bytes.extend_from_slice(List::constant(self.constants[usize::from(position)]).as_bytes());
                    rest.next();
                }
                _ => bytes.push(code),
            }
        }
        List::from_bytes(&bytes)
    }
}

impl Iterator for Series {
    type Item = List;

    fn next(&mut self) -> Option<List> {
        let Small { bytes, length } = self.next;
        if length == 0 {
            return None;
        }
        let next = Small::written(|buffer, room, written| unsafe {
            sys::dzb_next_list(self.constants.len(), bytes.as_ptr(), length, buffer, room, written)
        });
        self.next = next.expect("it is in the series, and the longest list has 10 bytes");
        Some(self.placed(&bytes[..length]))
    }
}
