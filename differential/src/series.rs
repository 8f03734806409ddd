//! Document 02's small lists for burn-in, read once more, and the archive compared with that reading.

use crate::library;
use crate::random::Random;
use std::cmp::Ordering;
use std::collections::BTreeMap;

const LONGEST: usize = 10;
const MARGIN: usize = 3;
/// "Over 1, 2, 3, 4 constants".
const SIZES: [usize; 4] = [577, 2354, 5763, 11236];

/// Readings that are wrong, each to be told from the library.
#[derive(Clone, Copy, PartialEq, Eq, Debug)]
enum Mistake {
    None,
    CodesFirst,
    LongestFirst,
    LastThenFirst,
    EqualPositions,
    PositionFour,
    ListFirst,
}

const MISTAKES: [Mistake; 6] = [
    Mistake::CodesFirst,
    Mistake::LongestFirst,
    Mistake::LastThenFirst,
    Mistake::EqualPositions,
    Mistake::PositionFour,
    Mistake::ListFirst,
];

#[derive(Clone, Copy, PartialEq, Eq, Debug)]
enum Step {
    Constant(u8),
    Code(u8),
}

/// How many values a code takes; each leaves one.
fn takes(step: Step) -> usize {
    match step {
        Step::Constant(_) => 0,
        Step::Code(4..=6) => 1,
        Step::Code(_) => 2,
    }
}

fn leaves_one(list: &[Step]) -> bool {
    let mut waiting = 0;
    for step in list {
        if waiting < takes(*step) {
            return false;
        }
        waiting = waiting - takes(*step) + 1;
    }
    waiting == 1
}

fn bytes_of(list: &[Step]) -> Vec<u8> {
    list.iter()
        .flat_map(|step| match step {
            Step::Constant(position) => vec![0, *position],
            Step::Code(code) => vec![*code],
        })
        .collect()
}

/// "constants by position before codes 1 to 9"
fn compare_steps(a: &Step, b: &Step, mistake: Mistake) -> Ordering {
    let key = |step: &Step| match step {
        Step::Constant(position) => (mistake == Mistake::CodesFirst, *position),
        Step::Code(code) => (mistake != Mistake::CodesFirst, *code),
    };
    key(a).cmp(&key(b))
}

/// "Lists of fewer steps come first. Equal numbers of steps go by the first step that differs".
fn compare_lists(a: &[Step], b: &[Step], mistake: Mistake) -> Ordering {
    let lengths = if mistake == Mistake::LongestFirst { b.len().cmp(&a.len()) } else { a.len().cmp(&b.len()) };
    let differing = a.iter().zip(b).map(|(x, y)| compare_steps(x, y, mistake)).find(|o| *o != Ordering::Equal);
    lengths.then(differing.unwrap_or(Ordering::Equal))
}

/// Every list of 1 to 5 steps is tried; those that are well-formed are sorted.
fn series(count: u8, mistake: Mistake) -> Vec<Vec<u8>> {
    let positions = if mistake == Mistake::PositionFour { count + 1 } else { count };
    let steps: Vec<Step> = (0..positions).map(Step::Constant).chain((1..=9).map(Step::Code)).collect();
    let mut lists: Vec<Vec<Step>> = Vec::new();
    for length in 1..=5u32 {
        for number in 0..steps.len().pow(length) {
            let list: Vec<Step> = (0..length).map(|place| steps[number / steps.len().pow(place) % steps.len()]).collect();
            if leaves_one(&list) {
                lists.push(list);
            }
        }
    }
    lists.sort_by(|a, b| compare_lists(a, b, mistake));
    let same = |step: &Step| if let Step::Constant(_) = step { Step::Constant(0) } else { *step };
    if mistake == Mistake::EqualPositions {
        lists.dedup_by(|a, b| a.iter().map(same).eq(b.iter().map(same)));
    }
    lists.iter().map(|list| bytes_of(list)).collect()
}

struct Reading {
    lists: Vec<Vec<Vec<u8>>>,
    places: Vec<BTreeMap<Vec<u8>, usize>>,
    mistake: Mistake,
}

impl Reading {
    fn new(mistake: Mistake) -> Reading {
        let lists: Vec<_> = (1..=4).map(|count| series(count, mistake)).collect();
        let places =
            lists.iter().map(|all| all.iter().cloned().enumerate().map(|(place, list)| (list, place)).collect()).collect();
        Reading { lists, places, mistake }
    }

    /// The list that is given, none behind the last; or a refusal's number: "19 .., then 20", then 3.
    fn answer(&self, count: usize, list: Option<&[u8]>, room: usize) -> Result<Option<&Vec<u8>>, u32> {
        if !(1..=4).contains(&count) {
            let first_20 = self.mistake == Mistake::ListFirst && list.is_some_and(|list| list.is_empty());
            return Err(if first_20 { 20 } else { 19 });
        }
        let all = &self.lists[count - 1];
        let next = match list {
            None => all.first(),
            Some(list) => match self.places[count - 1].get(list) {
                None => return Err(20),
                Some(place) if self.mistake == Mistake::LastThenFirst => Some(&all[(place + 1) % all.len()]),
                Some(place) => all.get(place + 1),
            },
        };
        match next {
            Some(next) if next.len() > room => Err(3),
            _ => Ok(next),
        }
    }

    /// One call, every lent byte looked at.
    fn compare(&self, count: usize, list: Option<&[u8]>, room: usize) -> Result<u32, String> {
        let mut buffer = [0xa5u8; LONGEST + 2 * MARGIN];
        let mut expected = buffer;
        let mut written = 77;
        let lent = &mut buffer[MARGIN..MARGIN + room];
        let number = match list {
            None => library::first_list(count, lent, &mut written),
            Some(list) => library::next_list(count, list, lent, &mut written),
        };
        let (cause, length) = match self.answer(count, list, room) {
            Ok(Some(next)) => {
                expected[MARGIN..MARGIN + next.len()].copy_from_slice(next);
                (0, next.len())
            }
            Ok(None) => (0, 0),
            Err(cause) => (cause, 77),
        };
        if (number, written) != (cause, length) || buffer != expected {
            return Err(format!("series over {count}, {list:02x?}, room {room}: {number} {written} {buffer:02x?}, and read {cause} {length} {expected:02x?}"));
        }
        Ok(cause)
    }

    /// From the first list to the last, by what the library itself gives.
    fn walk(&self, count: usize) -> Result<usize, String> {
        let (mut list, mut length, mut met) = ([0u8; LONGEST], 0, 0);
        library::first_list(count, &mut list, &mut length);
        while length > 0 {
            met += 1;
            self.compare(count, Some(&list[..length]), LONGEST)?;
            let before = list;
            library::next_list(count, &before[..length], &mut list, &mut length);
            if met > 100_000 {
                return Err(format!("series over {count}: no end"));
            }
        }
        if met != self.lists[count - 1].len() {
            return Err(format!("series over {count}: {met} lists, and read {}", self.lists[count - 1].len()));
        }
        Ok(met)
    }

    /// Lists of the series, or none at all, with some bytes altered, cut off or added, in buffers of every length.
    fn damaged(&self, calls: usize, r: &mut Random) -> Result<BTreeMap<u32, usize>, String> {
        let mut causes = BTreeMap::new();
        for _ in 0..calls {
            let count = r.index(7);
            let all = &self.lists[r.index(4)];
            let mut list = if r.percent(2) { Vec::new() } else { all[r.index(all.len())].clone() };
            while r.percent(60) {
                match r.index(4) {
                    0 => {
                        list.pop();
                    }
                    1 => list.push(r.index(12) as u8),
                    2 if !list.is_empty() => {
                        let at = r.index(list.len());
                        list[at] = r.index(12) as u8;
                    }
                    _ => list.insert(r.index(list.len() + 1), r.one_of(&[0, 4, 255])),
                }
            }
            let given = if r.percent(5) { None } else { Some(list.as_slice()) };
            *causes.entry(self.compare(count, given, r.index(LONGEST + 1))?).or_insert(0) += 1;
        }
        Ok(causes)
    }
}

fn compare_all(mistake: Mistake, calls: usize, r: &mut Random) -> Result<String, String> {
    let reading = Reading::new(mistake);
    let mut sizes = Vec::new();
    for count in 1..=4 {
        reading.compare(count, None, LONGEST)?;
        sizes.push(reading.walk(count)?);
    }
    if sizes != SIZES {
        return Err(format!("series of {sizes:?} lists"));
    }
    let causes = reading.damaged(calls, r)?;
    if causes.keys().copied().ne([0, 3, 19, 20]) {
        return Err(format!("causes {causes:?}"));
    }
    Ok(format!("series of {sizes:?} lists, each next list met; {calls} calls with other lists, by cause {causes:?}"))
}

pub fn compare(seed: u64) -> Result<String, String> {
    let mut r = Random::for_block(seed, u64::MAX - 10);
    let told = compare_all(Mistake::None, 200_000, &mut r)?;
    for mistake in MISTAKES {
        if compare_all(mistake, 200_000, &mut r).is_ok() {
            return Err(format!("the mistake {mistake:?} is not noticed"));
        }
    }
    Ok(format!("{told}; mistakes made by the reference and found: {MISTAKES:?}"))
}
