//! "The outward value then contains the exact value of the list ..; the inward value lies in it.", for "lists whose exact evaluation meets
//! no divisor that holds zero" (02, Q-1). Asked of the library alone: nothing here rounds, and no step is wanted in a way.

use crate::exact::Pair;
use crate::generate;
use crate::library;
use crate::paper::Way;
use crate::random::Random;

const LISTS: u64 = 1_000_000;

/// More products and quotients than this could leave 128 bits.
const PRODUCTS: usize = 2;

/// The exact value of a list that the library has accepted; none if an exact divisor holds zero.
fn exact_value(list: &[u8]) -> Option<Pair> {
    let mut waiting: Vec<Pair> = Vec::new();
    let mut at = 0;
    while at < list.len() {
        let code = list[at];
        at += 1;
        let later = if code == 0 { None } else { waiting.pop() };
        let earlier = if matches!(code, 1 | 2 | 3 | 7 | 8 | 9) { waiting.pop() } else { None };
        let value = match (code, earlier, later) {
            (0, ..) => {
                let end = |from: usize| i32::from_le_bytes([list[from], list[from + 1], list[from + 2], list[from + 3]]) as i64;
                at += 8;
                Pair::thousandths(end(at - 8), end(at - 4))
            }
            (1, Some(a), Some(b)) => a.sum(b),
            (2, Some(a), Some(b)) => a.difference(b),
            (3, Some(a), Some(b)) => a.product(b),
            (4, _, Some(a)) => a.negation(),
            (5, _, Some(a)) => a.opposite(),
            (6, _, Some(a)) => a.dual(),
            (7, Some(a), Some(b)) => a.join(b),
            (8, Some(a), Some(b)) => a.meet(b),
            (9, Some(a), Some(b)) => {
                b.sign()?;
                a.quotient(b)
            }
            _ => panic!("the library gave a value for {list:?}"),
        };
        waiting.push(value.reduced());
    }
    Some(waiting[0])
}

/// How many values were looked at.
pub fn check(seed: u64) -> Result<u64, String> {
    let mut r = Random::for_block(seed, u64::MAX - 1);
    let mut seen = 0;
    for _ in 0..LISTS {
        let list = generate::short_list(&mut r, PRODUCTS);
        for way in [Way::Outward, Way::Inward] {
            let mut result = [0; 2];
            if library::list(&list, way, &mut result) != 0 {
                continue;
            }
            let value = Pair::thousandths(result[0] as i64, result[1] as i64);
            let Some(exact) = exact_value(&list) else { continue };
            let kept = match way {
                Way::Outward => exact.lies_in(value),
                Way::Inward => value.lies_in(exact),
            };
            if !kept {
                return Err(format!("{list:?} {way:?} gives {result:?}, and its exact value is {exact:?}"));
            }
            seen += 1;
        }
    }
    Ok(seen)
}
