//! Document 02, Q-11, "Counts from other makers": read once more, and compared with `dzb_claim`.

use crate::exact::Pair;
use crate::generate;
use crate::library;
use crate::paper::{Ends, Operation, Way};
use crate::random::Random;
use std::collections::BTreeMap;

const RANGE: i64 = 2_000_000_000;

/// What stands in a lent byte before a call: a refusal leaves it.
const BEFORE: u8 = 77;

/// Readings that are wrong, each to be told from the library.
#[derive(Clone, Copy, PartialEq, Eq, Debug)]
enum Mistake {
    None,
    InwardCount,
    FirstFromTheCount,
    FourGivenBack,
    YesToEveryClaim,
    ClaimNotJudged,
}

const MISTAKES: [Mistake; 5] =
    [Mistake::InwardCount, Mistake::FirstFromTheCount, Mistake::FourGivenBack, Mistake::YesToEveryClaim, Mistake::ClaimNotJudged];

/// a, c, b and the claim.
type Asked = [Ends; 4];

/// Both replies, or a number.
type Told = Result<(bool, bool), u32>;

fn exact(p: Ends) -> Pair {
    Pair::thousandths(p.0, p.1)
}

fn beyond(p: &Ends) -> bool {
    p.0.abs() > RANGE || p.1.abs() > RANGE
}

/// "the one exact solution": (b − dual a) / dual c, which is put back here.
fn solution(a: Pair, c: Pair, b: Pair) -> Pair {
    let x = b.difference(a.dual()).quotient(c.dual());
    assert!(a.sum(c.product(x)) == b);
    x
}

/// "the outward count that we would print": what the library's equation returns.
fn count(asked: &Asked, way: Way) -> Result<Ends, u32> {
    let [a, c, b, _] = asked.map(|p| [p.0 as i32, p.1 as i32]);
    let mut result = [0; 2];
    match library::operation(Operation::Equation, &[a[0], a[1], c[0], c[1], b[0], b[1]], way, &mut result) {
        0 => Ok((result[0] as i64, result[1] as i64)),
        number => Err(number),
    }
}

fn read(mistake: Mistake, asked: &Asked) -> Told {
    let judged = if mistake == Mistake::ClaimNotJudged { &asked[..3] } else { &asked[..] };
    if judged.iter().any(beyond) {
        return Err(2);
    }
    let [a, c, b, claim] = asked.map(exact);
    if c.sign().is_none() {
        return Err(5);
    }
    let way = if mistake == Mistake::InwardCount { Way::Inward } else { Way::Outward };
    let count = count(asked, way);
    if mistake == Mistake::FourGivenBack {
        count?;
    }
    let contains = match mistake {
        Mistake::FirstFromTheCount => count.is_ok_and(|p| exact(p).lies_in(claim)),
        _ => solution(a, c, b).lies_in(claim),
    };
    let yes = mistake == Mistake::YesToEveryClaim;
    Ok((yes || contains, yes || count == Ok(asked[3])))
}

fn ask(asked: &Asked) -> Told {
    let ends = asked.map(|p| [p.0 as i32, p.1 as i32]);
    let mut replies = [BEFORE; 2];
    match (library::claim(ends.as_flattened(), &mut replies), replies) {
        (0, [contains @ 0..=1, printed @ 0..=1]) => Ok((contains == 1, printed == 1)),
        (number, [BEFORE, BEFORE]) if number != 0 => Err(number),
        (number, replies) => panic!("{asked:?} is answered {number} and leaves {replies:?}"),
    }
}

/// Claims near the count, where the replies change; others anywhere, some beyond the range.
fn generate(r: &mut Random) -> Asked {
    let [a, c, b] = generate::pairs_for(Operation::Equation, r);
    let near = |e: i64, r: &mut Random| (e + r.between(-2, 2)).clamp(-RANGE - 1, RANGE + 1);
    let mut asked = [a, c, b, generate::pair(r)];
    if let (true, Ok(p)) = (r.percent(70), count(&asked, Way::Outward)) {
        asked[3] = if r.percent(30) { p } else { (near(p.0, r), near(p.1, r)) };
    } else if r.percent(30) {
        asked[3] = (r.one_of(&[-RANGE, RANGE]), r.one_of(&[-RANGE, RANGE]));
    }
    if r.percent(5) {
        asked[r.index(4)].0 = r.one_of(&[-RANGE - 1, RANGE + 1]);
    }
    asked
}

/// How often each answer came: a number, or both replies.
fn compare_with(mistake: Mistake, cases: u64, r: &mut Random) -> Result<BTreeMap<String, u64>, String> {
    let mut seen = BTreeMap::new();
    for _ in 0..cases {
        let asked = generate(r);
        let (told, expected) = (ask(&asked), read(mistake, &asked));
        if told != expected {
            return Err(format!("a, c, b and the claim {asked:?}: library {told:?}, paper {expected:?}"));
        }
        let answer = match told {
            Ok((true, true)) => "our count".to_string(),
            Ok((true, false)) if count(&asked, Way::Outward) == Err(4) => "contains, ours out of range".to_string(),
            Ok((true, false)) => "contains".to_string(),
            Ok((false, printed)) => format!("no {printed}"),
            Err(number) => format!("R {number}"),
        };
        *seen.entry(answer).or_default() += 1;
    }
    Ok(seen)
}

pub fn compare(seed: u64) -> Result<String, String> {
    let mut r = Random::for_block(seed, u64::MAX - 11);
    let seen = compare_with(Mistake::None, 1_000_000, &mut r)?;
    let expected = ["R 2", "R 5", "contains", "contains, ours out of range", "no false", "our count"];
    if !seen.keys().eq(expected) {
        return Err(format!("dzb_claim came to {seen:?}"));
    }
    for mistake in MISTAKES {
        if compare_with(mistake, 100_000, &mut r).is_ok() {
            return Err(format!("the mistake {mistake:?} about claims is not noticed"));
        }
    }
    Ok(format!("dzb_claim: {seen:?}; {} mistakes made by the reference and found", MISTAKES.len()))
}
