//! Directed (Kaucher) interval arithmetic in thousandths: the library `donzibrau`, every function of which is proved to answer what its definition
//! says, safe to call from Rust. No dependencies; `no_std` with `alloc`.
//!
//! A [`Pair`] is two ends in thousandths, the lower first, in any order: one whose lower end is above its upper end is *improper*, and that is an
//! answer, not an error. Each operation is exact and then rounded once, [`Way::Outward`] or [`Way::Inward`]. What can not be answered is refused
//! with a [`Cause`].
//!
//! A coin box on the scale: empty box plus coin mass times count equals gross weight.
//!
//! ```
//! use donzibrau::{Cause, Equation, Pair, Way};
//!
//! let weighing = Equation { a: "[812,812.5]".parse()?, c: "[7.48,7.52]".parse()?, b: "[4540,4590]".parse()? };
//! let count = weighing.solve(Way::Inward)?;
//! assert_eq!(count.to_string(), "[498.396,502.327]"); // proper: 499, 500, 501 and 502 fit, whatever box and coins weigh
//!
//! // The scale reads finer than such coins can be told apart.
//! let finer = Equation { b: "[4560,4562]".parse()?, ..weighing };
//! let count = finer.solve(Way::Inward)?;
//! assert_eq!((count.to_string().as_str(), count.is_proper()), ("[501.070,498.603]", false));
//! # Ok::<(), Cause>(())
//! ```
#![no_std]
#![warn(missing_docs)]

extern crate alloc;

mod block;
mod cause;
mod list;
mod pair;
mod series;
mod sheet;
mod sys;

pub use block::{Block, Layout};
pub use cause::Cause;
pub use list::{Limits, List, Stopped};
pub use pair::{line, Claim, Equation, Pair, Way};
pub use series::Series;
pub use sheet::{total, Tray};
