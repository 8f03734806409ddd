use crate::pair::{answer, Pair, Way};
use crate::{sys, Cause};

/// A tray of a sheet: the mass of a coin, and the count.
#[derive(Clone, Copy, Debug, PartialEq, Eq, Hash)]
#[allow(missing_docs)]
#[repr(C)]
pub struct Tray {
    pub mass: Pair,
    pub count: Pair,
}

/// The total of a sheet of trays: the sum of mass times count, exact, rounded once. The same for trays in any order. Refused: [`Cause::SheetBounds`] for
/// more than 200 trays, then [`Cause::ResultBeyondRange`].
///
/// ```
/// use donzibrau::{total, Cause, Pair, Tray, Way};
///
/// let tray = Tray { mass: Pair::new(7_480, 7_520)?, count: Pair::new(500_000, 500_000)? };
/// assert_eq!(total(&[tray, tray], Way::Outward)?.to_string(), "[7480.000,7520.000]");
/// assert_eq!(total(&[], Way::Outward)?, Pair::ZERO);
/// assert_eq!(total(&[tray; 201], Way::Outward), Err(Cause::SheetBounds));
/// # Ok::<(), Cause>(())
/// ```
pub fn total(sheet: &[Tray], way: Way) -> Result<Pair, Cause> {
    // A tray is four ends in the order that the library asks for: two pairs of two, each laid out as C does.
    answer(|result| unsafe { sys::dzb_sheet(sheet.as_ptr().cast(), 4 * sheet.len(), way.is_inward(), result) })
}
