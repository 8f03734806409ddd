//! From an input that fails to a smallest one: the first smaller input that still fails takes its place, until none does.

use crate::case::Case;
use crate::paper::{Operation, Paper, Way};

/// Where the constants' two ends stand in a list, of the steps that can be told apart.
fn constant_ends(list: &[u8]) -> Vec<usize> {
    let mut found = Vec::new();
    let mut at = 0;
    while at < list.len() {
        if list[at] == 0 && at + 9 <= list.len() {
            found.extend([at + 1, at + 5]);
            at += 8;
        }
        at += 1;
    }
    found
}

fn end_at(list: &[u8], at: usize) -> i32 {
    i32::from_le_bytes([list[at], list[at + 1], list[at + 2], list[at + 3]])
}

/// The sizes of the constants' ends, and the other bytes.
fn list_weight(list: &[u8]) -> u64 {
    let ends = constant_ends(list);
    let other = |at: usize| !ends.iter().any(|e| (*e..*e + 4).contains(&at));
    let codes: u64 = (0..list.len()).filter(|at| other(*at)).map(|at| list[at] as u64).sum();
    codes + ends.iter().map(|e| 2 * end_at(list, *e).unsigned_abs() as u64 + (end_at(list, *e) < 0) as u64).sum::<u64>()
}

/// A constant less, or constants with smaller ends: one end nearer to zero, or two that are small.
fn smaller_constants(list: &[u8]) -> Vec<Vec<u8>> {
    const SMALL: [i32; 9] = [0, 1, -1, 2, 3, -3, 999, 1000, 1001];
    let with = |list: &[u8], at: usize, end: i32| {
        let mut next = list.to_vec();
        next[at..at + 4].copy_from_slice(&end.to_le_bytes());
        next
    };
    let ends = constant_ends(list);
    let mut found = Vec::new();
    // A constant and a step less.
    for k in ends.iter().step_by(2) {
        let without = [&list[..k - 1], &list[k + 8..]].concat();
        found.extend((0..without.len()).map(|at| [&without[..at], &without[at + 1..]].concat()));
    }
    for k in &ends {
        found.extend(nearer(end_at(list, *k)).map(|e| with(list, *k, e)));
    }
    if ends.len() <= 8 {
        for (k, j) in ends.iter().flat_map(|k| ends.iter().map(move |j| (*k, *j))) {
            found.extend(
                SMALL.iter().flat_map(|e| SMALL.iter().map(move |f| (*e, *f))).map(|(e, f)| with(&with(list, k, e), j, f)),
            );
        }
    }
    found
}

/// What is made smaller: bytes first, then the numbers' sizes, then the way.
fn size(case: &Case) -> (usize, u64, u64) {
    let numbers = |ends: &[i32]| ends.iter().map(|e| 2 * e.unsigned_abs() as u64 + (*e < 0) as u64).sum::<u64>();
    let bytes = |b: &[u8]| (b.len(), b.iter().map(|x| *x as u64).sum::<u64>());
    let turned = |way: &Way| (*way == Way::Inward) as u64;
    match case {
        Case::Operation { ends, way, .. } => (0, numbers(ends), turned(way)),
        Case::Read { text } => (bytes(text).0, bytes(text).1, 0),
        Case::Write { ends, room } => (*room, numbers(ends), 0),
        Case::List { list, way } => (list.len(), list_weight(list), turned(way)),
        Case::Line { line } => (bytes(line).0, bytes(line).1, 0),
        Case::Within { list, way, limits } => (list.len(), list_weight(list) + limits.0.min(99) as u64 + limits.1.min(99) as u64, turned(way)),
    }
}

/// Nearer to zero: by all, a half, a quarter, .. of the number, and by one.
fn nearer(e: i32) -> impl Iterator<Item = i32> {
    let whole = e as i64;
    (0..32).map(move |k| (whole - whole / (1 << k)) as i32).chain([e - e.signum(), e / 1000 * 1000, e.checked_neg().unwrap_or(e)])
}

fn smaller_numbers<const N: usize>(ends: &[i32; N]) -> Vec<[i32; N]> {
    let mut found = Vec::new();
    for k in 0..N {
        for candidate in nearer(ends[k]) {
            let mut next = *ends;
            next[k] = candidate;
            found.push(next);
            // Two ends that have to stay together are moved together, by the same amount or in proportion.
            for j in (0..N).filter(|j| *j != k) {
                let moved = ends[j] as i64 + candidate as i64 - ends[k] as i64;
                let scaled = ends[j] as i64 * candidate as i64 / (ends[k] as i64).abs().max(1);
                for other in [moved, scaled] {
                    next[j] = other.clamp(i32::MIN as i64, i32::MAX as i64) as i32;
                    found.push(next);
                }
                next[j] = ends[j];
            }
        }
    }
    found
}

fn smaller_bytes(bytes: &[u8]) -> Vec<Vec<u8>> {
    let mut found = Vec::new();
    for cut in (1..=bytes.len()).rev() {
        for at in 0..=bytes.len() - cut {
            found.push([&bytes[..at], &bytes[at + cut..]].concat());
        }
    }
    for k in 0..bytes.len() {
        for candidate in [0, b'0', b'1', bytes[k] / 2, bytes[k].saturating_sub(1)] {
            let mut next = bytes.to_vec();
            next[k] = candidate;
            found.push(next);
        }
    }
    found
}

fn smaller(case: &Case) -> Vec<Case> {
    match case {
        Case::Operation { operation, ends, way } => {
            let mut found: Vec<Case> = smaller_numbers(ends)
                .into_iter()
                .map(|ends| Case::Operation { operation: *operation, ends, way: *way })
                .collect();
            found.push(Case::Operation { operation: *operation, ends: *ends, way: Way::Outward });
            found
        }
        Case::Read { text } => smaller_bytes(text).into_iter().map(|text| Case::Read { text }).collect(),
        Case::Write { ends, room } => {
            let mut found: Vec<Case> = smaller_numbers(ends).into_iter().map(|ends| Case::Write { ends, room: *room }).collect();
            found.extend((0..*room).map(|room| Case::Write { ends: *ends, room }));
            found
        }
        Case::List { list, way } => {
            let lists = smaller_bytes(list).into_iter().chain(smaller_constants(list));
            let mut found: Vec<Case> = lists.map(|list| Case::List { list, way: *way }).collect();
            found.push(Case::List { list: list.clone(), way: Way::Outward });
            found
        }
        Case::Line { line } => smaller_bytes(line).into_iter().map(|line| Case::Line { line }).collect(),
        Case::Within { list, way, limits } => {
            let lists = smaller_bytes(list).into_iter().chain(smaller_constants(list));
            let mut found: Vec<Case> = lists.map(|list| Case::Within { list, way: *way, limits: *limits }).collect();
            found.push(Case::Within { list: list.clone(), way: Way::Outward, limits: *limits });
            let nearer = [(limits.0.min(17), limits.1.min(65)), (limits.0.saturating_sub(1), limits.1), (limits.0, limits.1.saturating_sub(1))];
            found.extend(nearer.map(|limits| Case::Within { list: list.clone(), way: *way, limits }));
            found
        }
    }
}

/// Every input of an operation with ends from −3 to 3, in both ways.
fn small_inputs(operation: Operation) -> impl Iterator<Item = Case> {
    let given = 2 * operation.pairs();
    (0..2 * 7i32.pow(given as u32)).map(move |code| {
        let ends = std::array::from_fn(|k| if k < given { code / 2 / 7i32.pow(k as u32) % 7 - 3 } else { 0 });
        Case::Operation { operation, ends, way: if code % 2 == 0 { Way::Outward } else { Way::Inward } }
    })
}

/// A bound for inputs that would come down by one at a time.
const ROUNDS: usize = 2000;

/// `case` fails; the result fails too, and nothing that is tried from it does and is smaller.
pub fn smallest(case: Case, paper: Paper) -> Case {
    if let Case::Operation { operation, .. } = case {
        if let Some(small) = small_inputs(operation).filter(|c| c.compare(paper).is_err()).min_by_key(size) {
            return small;
        }
    }
    let mut least = case;
    for _ in 0..ROUNDS {
        let next = smaller(&least).into_iter().find(|c| size(c) < size(&least) && c.compare(paper).is_err());
        match next {
            Some(c) => least = c,
            None => break,
        }
    }
    least
}
