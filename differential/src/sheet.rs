//! Document 02's sheet of trays, read once more, and the archive compared with that reading.

use crate::exact::{Fraction, Pair};
use crate::library;
use crate::paper::{refused, Answer, Mistake as PaperMistake, Paper, Way};
use crate::random::Random;
use std::collections::BTreeMap;

const ENDS: usize = 800;
const GREATEST: i64 = 2_000_000_000;
const CORRECT: Paper = Paper { mistake: PaperMistake::None };

/// Readings that are wrong, each to be told from the library.
#[derive(Clone, Copy, PartialEq, Eq, Debug)]
enum Mistake {
    None,
    RoundedAtEachTray,
    PartialSumsHeld,
    EndsBeforeShape,
    OneTrayMore,
    EndsMixedInFirst,
    LastTrayDropped,
}

const MISTAKES: [Mistake; 6] = [
    Mistake::RoundedAtEachTray,
    Mistake::PartialSumsHeld,
    Mistake::EndsBeforeShape,
    Mistake::OneTrayMore,
    Mistake::EndsMixedInFirst,
    Mistake::LastTrayDropped,
];

fn thousandths(lower: i32, upper: i32) -> Pair {
    Pair::thousandths(lower as i64, upper as i64)
}

impl Mistake {
    /// "18 first, if there are more than 800 ends or their number isn't a multiple of four, then 2, then 4."
    fn answer(self, ends: &[i32], way: Way) -> Answer {
        let most = if self == Mistake::OneTrayMore { ENDS + 4 } else { ENDS };
        let shape = ends.len() > most || ends.len() % 4 != 0;
        let outside = ends.iter().any(|end| (*end as i64).abs() > GREATEST);
        match (shape, outside) {
            (true, true) if self == Mistake::EndsBeforeShape => refused(2),
            (true, _) => refused(18),
            (false, true) => refused(2),
            (false, false) => self.total(ends, way),
        }
    }

    /// "the sum of mass times count over all trays, kept exact and rounded once"
    fn total(self, ends: &[i32], way: Way) -> Answer {
        let mut total = Pair::new(Fraction::whole(0), Fraction::whole(0));
        let last = ends.len().saturating_sub(4);
        for (at, tray) in ends.chunks(4).enumerate() {
            if self == Mistake::LastTrayDropped && 4 * at == last {
                break;
            }
            let mixed = self == Mistake::EndsMixedInFirst && at == 0;
            let (second, third) = if mixed { (tray[2], tray[1]) } else { (tray[1], tray[2]) };
            let mut product = thousandths(tray[0], second).product(thousandths(third, tray[3]));
            if self == Mistake::RoundedAtEachTray {
                match CORRECT.in_range(way, product) {
                    Answer::Value((lower, upper)) => product = Pair::thousandths(lower, upper),
                    beyond => return beyond,
                }
            }
            // In lowest terms, so that no number outgrows 128 bits.
            total = total.sum(product).reduced();
            if self == Mistake::PartialSumsHeld && CORRECT.in_range(way, total) == refused(4) {
                return refused(4);
            }
        }
        CORRECT.in_range(way, total)
    }
}

// ---- inputs

fn tray(r: &mut Random) -> [i32; 4] {
    let size = r.one_of(&[3, 1_000, 100_000, 100_000, 1_000_000]);
    [0; 4].map(|_| r.between(-size, size) as i32)
}

/// A tray as far away as can be, and the one that brings the sum back.
fn far_and_back(r: &mut Random) -> [[i32; 4]; 2] {
    let mass = if r.percent(50) { GREATEST as i32 } else { r.between(-GREATEST, GREATEST) as i32 };
    let count = GREATEST as i32;
    [[mass, mass, count, count], [-mass, -mass, count, count]]
}

fn trays(r: &mut Random) -> Vec<[i32; 4]> {
    let count = if r.percent(10) { r.one_of(&[0, 198, 199, 200, 201]) } else { r.index(12) };
    let mut trays: Vec<[i32; 4]> = (0..count).map(|_| tray(r)).collect();
    if r.percent(30) {
        trays.extend(far_and_back(r));
    }
    if r.percent(10) {
        let at = r.index(trays.len() + 1);
        trays.insert(at, [0; 4].map(|_| r.between(-GREATEST, GREATEST) as i32));
    }
    if r.percent(10) && !trays.is_empty() {
        let at = r.index(trays.len());
        trays[at][r.index(4)] = r.one_of(&[GREATEST + 1, -GREATEST - 1, i32::MAX as i64, i32::MIN as i64]) as i32;
    }
    shuffle(&mut trays, r);
    trays
}

fn shuffle(trays: &mut [[i32; 4]], r: &mut Random) {
    for k in (1..trays.len()).rev() {
        trays.swap(k, r.index(k + 1));
    }
}

// ---- comparisons

/// What the library answers; a refusal must leave the lent ends.
fn library_answer(ends: &[i32], way: Way) -> Result<Answer, String> {
    let mut result = [77, -77];
    match library::sheet(ends, way, &mut result) {
        0 => Ok(Answer::Value((result[0] as i64, result[1] as i64))),
        number if result == [77, -77] => Ok(refused(number)),
        number => Err(format!("a refusal, {number}, leaves {result:?}")),
    }
}

/// How often each cause came; 0 is a result.
fn compare_sheets(reading: Mistake, count: u64, r: &mut Random) -> Result<BTreeMap<u32, u64>, String> {
    let mut causes = BTreeMap::new();
    for _ in 0..count {
        let mut trays = trays(r);
        let way = r.one_of(&[Way::Outward, Way::Inward]);
        let mut ends = trays.concat();
        if r.percent(5) {
            ends.extend_from_slice(&tray(r)[..1 + r.index(3)]);
        }
        let (told, expected) = (library_answer(&ends, way)?, reading.answer(&ends, way));
        if told != expected {
            return Err(format!("dzb_sheet {way:?} {ends:?}: {told:?}, the paper: {expected:?}"));
        }
        shuffle(&mut trays, r);
        let again = library_answer(&trays.concat(), way)?;
        if ends.len() == 4 * trays.len() && again != told {
            return Err(format!("dzb_sheet {way:?} {ends:?}: {told:?}, and {again:?} in another order"));
        }
        let cause = match told {
            Answer::Value(_) => 0,
            Answer::Refused { number, .. } => number,
        };
        *causes.entry(cause).or_default() += 1;
    }
    Ok(causes)
}

pub fn compare(seed: u64) -> Result<String, String> {
    let mut r = Random::for_block(seed, u64::MAX - 2);
    let causes = compare_sheets(Mistake::None, 300_000, &mut r)?;
    if !causes.keys().eq(&[0, 2, 4, 18]) {
        return Err(format!("dzb_sheet came to the causes {causes:?}"));
    }
    let told: Vec<String> = causes.iter().map(|(cause, n)| format!("R {cause}: {n}").replace("R 0", "done")).collect();
    for mistake in MISTAKES {
        if compare_sheets(mistake, 30_000, &mut r).is_ok() {
            return Err(format!("the mistake {mistake:?} is not noticed"));
        }
    }
    Ok(format!("dzb_sheet: {}\nsheet mistakes made by the reference and found: {MISTAKES:?}", told.join(", ")))
}
