//! Inputs: random, at boundaries, improper, damaged.

use crate::case::{Case, OPERATIONS};
use crate::paper::{end_text, text_of, Operation, Way};
use crate::random::Random;

const RANGE: i64 = 2_000_000_000;

/// Ends at which something changes: zero, the thousandth, the unit, the range, 32 bits, squares near the range.
const BOUNDARIES: [i64; 24] = [
    0,
    1,
    -1,
    2,
    -2,
    3,
    -3,
    999,
    1000,
    1001,
    -999,
    -1000,
    -1001,
    44_721_359,
    44_721_360,
    1_414_213,
    1_414_214,
    1_999_999_999,
    -1_999_999_999,
    RANGE,
    -RANGE,
    1_000_000_000,
    -1_000_000_000,
    2_000_000,
];

/// An end in the range.
fn end(r: &mut Random) -> i64 {
    match r.below(8) {
        0 => r.one_of(&BOUNDARIES),
        1 => r.between(-9, 9),
        2 => r.between(-20, 20) * 1000 + r.between(-1, 1),
        3 => r.between(-RANGE, RANGE),
        // Every size as likely as every other.
        _ => {
            let bits = r.below(31);
            let size = r.between(0, RANGE >> bits);
            if r.percent(50) {
                size
            } else {
                -size
            }
        }
    }
}

/// An end just beyond the range, or far.
fn end_beyond(r: &mut Random) -> i64 {
    let any = r.between(RANGE + 1, i32::MAX as i64);
    let size = r.one_of(&[RANGE + 1, RANGE + 2, i32::MAX as i64, any]);
    if r.percent(50) {
        size
    } else {
        -size - r.between(0, 1)
    }
}

/// A pair of any kind; equal or neighbouring ends are as likely as apart.
pub fn pair(r: &mut Random) -> (i64, i64) {
    let lower = end(r);
    match r.below(5) {
        0 => (lower, lower),
        1 => (lower, (lower + r.between(-3, 3)).clamp(-RANGE, RANGE)),
        _ => (lower, end(r)),
    }
}

/// Both ends above zero or both below.
fn zero_free(r: &mut Random) -> (i64, i64) {
    let size = |e: i64| e.abs().max(1);
    let (lower, upper) = pair(r);
    if r.percent(50) {
        (size(lower), size(upper))
    } else {
        (-size(lower), -size(upper))
    }
}

fn clamped(x: i128) -> i64 {
    x.clamp(-RANGE as i128, RANGE as i128) as i64
}

/// For a c that holds zero, a d that c × x may reach (02, Q-7): so many times c or its negation, where there are many x; or ends on the two sides
/// of 0 that c's own are, of sizes near each other, or whatever they are.
fn solvable(c: (i64, i64), r: &mut Random) -> (i64, i64) {
    let times = r.between(0, 3);
    let (s, t) = (end(r).abs(), end(r).abs());
    let d = match r.below(4) {
        0 => (times * c.0, times * c.1),
        1 => (-times * c.1, -times * c.0),
        2 => (-s, s + r.between(-3, 3)),
        _ => (-s, t),
    };
    if c.0 <= c.1 || r.percent(10) {
        d
    } else {
        (d.1, d.0)
    }
}

/// The pairs that an operation is given: often such that its result is near the range's edge, or in it where random pairs would not be.
pub fn pairs_for(operation: Operation, r: &mut Random) -> [(i64, i64); 3] {
    let near = |x: i64, r: &mut Random| x + r.between(-3, 3);
    let mut p = [pair(r), pair(r), pair(r)];
    let target = |r: &mut Random| if r.percent(30) { near(r.one_of(&[RANGE, -RANGE]), r) } else { end(r) };
    match operation {
        Operation::Product if r.percent(40) => {
            let divided = |t: i64, e: i64| clamped(t as i128 * 1000 / if e == 0 { 1 } else { e as i128 });
            p[1] = (near(divided(target(r), p[0].0), r), near(divided(target(r), p[0].1), r));
        }
        Operation::Quotient => {
            if r.percent(85) {
                p[1] = zero_free(r);
            }
            if r.percent(50) {
                let times = |t: i64, e: i64| clamped(t as i128 * e as i128 / 1000);
                p[0] = (near(times(target(r), p[1].1), r), near(times(target(r), p[1].0), r));
            }
        }
        Operation::Equation => {
            if r.percent(88) {
                p[1] = zero_free(r);
            }
            let holds_zero = p[1].0.signum() * p[1].1.signum() <= 0;
            if holds_zero && r.percent(70) {
                let d = solvable(p[1], r);
                p[2] = (clamped((p[0].0 + d.0) as i128), clamped((p[0].1 + d.1) as i128));
            } else if r.percent(60) {
                let reached = |a: i64, c: i64, x: i64| clamped(a as i128 + c as i128 * x as i128 / 1000);
                let (x, y) = (target(r), target(r));
                p[2] = (near(reached(p[0].0, p[1].0, x), r), near(reached(p[0].1, p[1].1, y), r));
            }
        }
        Operation::Sum | Operation::Difference if r.percent(30) => {
            let s = if operation == Operation::Sum { 1 } else { -1 };
            p[1].0 = near(clamped((target(r) as i128 - p[0].0 as i128) * s), r);
            p[1].1 = near(clamped((target(r) as i128 - p[0].1 as i128) * s), r);
        }
        _ => {}
    }
    for q in p.iter_mut().take(operation.pairs()) {
        q.0 = clamped(q.0 as i128);
        q.1 = clamped(q.1 as i128);
        if r.percent(2) {
            q.0 = end_beyond(r);
        }
        if r.percent(2) {
            q.1 = end_beyond(r);
        }
    }
    p
}

fn way(r: &mut Random) -> Way {
    if r.percent(50) {
        Way::Outward
    } else {
        Way::Inward
    }
}

fn operation_case(r: &mut Random) -> Case {
    // The operations that round come more often.
    let operation = if r.percent(60) {
        r.one_of(&[Operation::Product, Operation::Quotient, Operation::Equation])
    } else {
        r.one_of(&OPERATIONS)
    };
    let p = pairs_for(operation, r);
    let mut ends = [0; 6];
    for k in 0..operation.pairs() {
        ends[2 * k] = p[k].0 as i32;
        ends[2 * k + 1] = p[k].1 as i32;
    }
    let rounds =
        !matches!(operation, Operation::Negation | Operation::Opposite | Operation::Dual | Operation::Join | Operation::Meet);
    Case::Operation { operation, ends, way: if rounds { way(r) } else { Way::Outward } }
}

// ---- texts

/// The ends of a text in form: seven digits reach beyond the range.
fn text_end(r: &mut Random) -> i64 {
    match r.below(12) {
        0 => r.between(-9_999_999_999, 9_999_999_999),
        1 => r.one_of(&[RANGE, -RANGE, RANGE + 1, -RANGE - 1, 9_999_999_999, -9_999_999_999]),
        _ => end(r),
    }
}

/// One of the texts that read as an end: zeros at the end of its fraction, and then the point, may be left out.
fn spelled(end: i64, r: &mut Random) -> String {
    let mut text = end_text(end);
    while r.percent(70) && text.contains('.') && text.ends_with(['0', '.']) {
        text.pop();
    }
    if text.ends_with('.') {
        text.pop();
    }
    text
}

fn valid_text(r: &mut Random) -> Vec<u8> {
    let round = r.one_of(&[1, 1, 10, 100, 1000]);
    let (lower, upper) = (text_end(r) / round * round, text_end(r) / round * round);
    format!("[{},{}]", spelled(lower, r), spelled(upper, r)).into_bytes()
}

/// An end that is nearly in form.
fn odd_end(r: &mut Random) -> Vec<u8> {
    let sign = r.one_of(&["", "", "-", "-", "+", "--", " "]);
    let digits = |n: usize, r: &mut Random| -> String { (0..n).map(|_| r.one_of(&['0', '1', '9', '5'])).collect() };
    let whole = r.index(9);
    let whole = digits(whole, r);
    let point = r.one_of(&[".", ".", ".", ".", ",", "", ".."]);
    let places = r.one_of(&[3, 3, 3, 3, 2, 4, 0]);
    let fraction = digits(places, r);
    format!("{sign}{whole}{point}{fraction}").into_bytes()
}

const BYTES_OF_TEXT: &[u8] = b"[],-.0123456789 \t\r\n\0+OIASMDE/:\x80\xff";

/// Some bytes replaced, put in, taken out, doubled or exchanged.
fn damaged(mut bytes: Vec<u8>, alphabet: &[u8], r: &mut Random) -> Vec<u8> {
    for _ in 0..1 + r.below(3) {
        let at = r.index(bytes.len() + 1);
        let byte = if r.percent(80) { r.one_of(alphabet) } else { r.next() as u8 };
        match r.below(6) {
            0 => bytes.insert(at, byte),
            _ if at >= bytes.len() => bytes.push(byte),
            1 => {
                bytes.remove(at);
            }
            2 => {
                let next = (at + 1).min(bytes.len() - 1);
                bytes.swap(at, next);
            }
            3 => bytes.truncate(at),
            _ => bytes[at] = byte,
        }
    }
    bytes
}

/// Bytes of a valid input and more behind, far beyond what any of them needs.
fn far_too_long(mut bytes: Vec<u8>, alphabet: &[u8], r: &mut Random) -> Vec<u8> {
    for _ in 0..1 + r.index(5000) {
        bytes.push(r.one_of(alphabet));
    }
    bytes
}

fn text(r: &mut Random) -> Vec<u8> {
    if r.below(200) == 0 {
        let text = valid_text(r);
        return far_too_long(text, BYTES_OF_TEXT, r);
    }
    match r.below(8) {
        0..=3 => valid_text(r),
        4 | 5 => damaged(valid_text(r), BYTES_OF_TEXT, r),
        6 => [b"[".as_slice(), &odd_end(r), b",", &odd_end(r), b"]"].concat(),
        _ => {
            let length = r.index(31);
            (0..length).map(|_| r.one_of(BYTES_OF_TEXT)).collect()
        }
    }
}

fn write_case(r: &mut Random) -> Case {
    let p = pair(r);
    let mut ends = [p.0 as i32, p.1 as i32];
    if r.percent(8) {
        ends[r.index(2)] = end_beyond(r) as i32;
    }
    let length = text_of((ends[0] as i64, ends[1] as i64)).len();
    let room = match r.below(4) {
        0 => r.index(40),
        1 => length - r.index(3),
        _ => length + r.index(12),
    };
    Case::Write { ends, room }
}

// ---- lists

/// How large a list's constants are: small ones keep long products in the range.
#[derive(Clone, Copy)]
enum Scale {
    Small,
    Unit,
    Any,
    Edge,
}

fn constant(scale: Scale, r: &mut Random) -> [u8; 9] {
    let one = |r: &mut Random| match scale {
        Scale::Small => r.between(-1500, 1500),
        Scale::Unit => r.one_of(&[1000, -1000, 999, 1001, -1001, 0, 500, 1]),
        Scale::Any => end(r),
        Scale::Edge => r.one_of(&[RANGE, -RANGE, RANGE - 1, 1, -1, 1000, 1001, 44_721_360, 2_000_000]),
    };
    let (lower, upper) = (one(r), one(r));
    let mut step = [0; 9];
    step[1..5].copy_from_slice(&(lower as i32).to_le_bytes());
    step[5..9].copy_from_slice(&(upper as i32).to_le_bytes());
    step
}

/// A list of `steps` steps at most `depth` values deep, which leaves one value if there is room left for that.
fn built(steps: usize, depth: usize, r: &mut Random) -> Vec<u8> {
    let scale = r.one_of(&[Scale::Small, Scale::Unit, Scale::Any, Scale::Edge]);
    let push = 20 + r.below(60);
    let mut list = Vec::new();
    let mut waiting = 0;
    for k in 0..steps {
        let left = steps - k;
        let must_fold = waiting >= left;
        if waiting == 0 || (!must_fold && waiting < depth && r.percent(push)) {
            list.extend_from_slice(&constant(scale, r));
            waiting += 1;
        } else if waiting >= 2 && (must_fold || r.percent(50)) {
            list.push(r.one_of(&[1, 2, 3, 3, 7, 8, 9, 9]));
            waiting -= 1;
        } else {
            list.push(r.one_of(&[4, 5, 5, 6, 6]));
        }
    }
    list
}

/// A list that leaves one value, with at most so many products and quotients.
pub fn short_list(r: &mut Random, products: usize) -> Vec<u8> {
    let steps = 2 + r.index(12);
    let mut list = built(steps, 4, r);
    let mut left = products;
    let mut at = 0;
    while at < list.len() {
        match list[at] {
            0 => at += 8,
            3 | 9 if left == 0 => list[at] = 1,
            3 | 9 => left -= 1,
            _ => {}
        }
        at += 1;
    }
    list
}

/// As deep as is allowed, or one deeper, then folded.
fn deep(r: &mut Random) -> Vec<u8> {
    let depth = 14 + r.index(4);
    let mut list = Vec::new();
    for _ in 0..depth {
        list.extend_from_slice(&constant(Scale::Small, r));
    }
    for _ in 0..depth - 1 - r.index(2) {
        if r.percent(20) {
            list.push(r.one_of(&[4, 5, 6]));
        }
        list.push(r.one_of(&[1, 2, 3, 7, 8, 9]));
    }
    list
}

fn list(r: &mut Random) -> Vec<u8> {
    if r.below(200) == 0 {
        let steps = 1 + r.index(64);
        let list = built(steps, 16, r);
        return far_too_long(list, &[1, 4, 5, 6, 8, 255], r);
    }
    match r.below(16) {
        0 => {
            let length = r.index(40);
            (0..length).map(|_| r.below(12) as u8).collect()
        }
        1 => {
            let length = r.index(700);
            (0..length).map(|_| r.next() as u8).collect()
        }
        2 => deep(r),
        // About the greatest count of steps, and beyond.
        3 => {
            let steps = 62 + r.index(6);
            built(steps, 16, r)
        }
        4 => {
            let steps = 1 + r.index(64);
            built(steps, 17, r)
        }
        5 | 6 => {
            let steps = 1 + r.index(30);
            let list = built(steps, 16, r);
            damaged(list, &[0, 1, 2, 3, 4, 5, 6, 7, 8, 9, 0x77, 0x88], r)
        }
        7 => {
            let mut list = built(1 + r.index(8), 4, r);
            let bad = [&[0u8][..], &(end_beyond(r) as i32).to_le_bytes(), &(end(r) as i32).to_le_bytes()].concat();
            list.extend_from_slice(&bad);
            if r.percent(50) {
                list.push(1);
            }
            list
        }
        _ => {
            let steps = 1 + r.index(16);
            built(steps, 6, r)
        }
    }
}

/// The fare module's, any about the greatest, and far beyond.
fn limits(r: &mut Random) -> (usize, usize) {
    match r.below(4) {
        0 => (6, 20),
        1 => (r.index(19), r.index(70)),
        2 => (r.index(7), r.index(20)),
        _ => (r.one_of(&[0, 15, 16, 17, usize::MAX]), r.one_of(&[0, 63, 64, 65, usize::MAX])),
    }
}

// ---- lines

fn valid_line(r: &mut Random) -> Vec<u8> {
    let (letter, operation) = r.one_of(&[
        ("A", Operation::Sum),
        ("S", Operation::Difference),
        ("M", Operation::Product),
        ("D", Operation::Quotient),
        ("E", Operation::Equation),
    ]);
    let p = pairs_for(operation, r);
    let mut line = format!("{} {letter}", if r.percent(50) { "O" } else { "I" });
    for q in p.iter().take(operation.pairs()) {
        line.push(' ');
        line.push_str(&format!("[{},{}]", spelled(q.0, r), spelled(q.1, r)));
    }
    line.into_bytes()
}

/// Fields of every sort, also empty ones, in any number.
fn fields(r: &mut Random) -> Vec<u8> {
    let mut found: Vec<Vec<u8>> = Vec::new();
    for k in 0..r.index(7) {
        found.push(match (k, r.below(12)) {
            (0, 0..=8) => r.one_of(&[b"O", b"I"]).to_vec(),
            (1, 0..=8) => vec![r.one_of(b"ASMDE")],
            (_, 9) => Vec::new(),
            (_, 10) => vec![r.one_of(b"oimOIASMDEX\0")],
            (_, 11) => text(r),
            _ => valid_text(r),
        });
    }
    found.join(&b' ')
}

/// A line made longer, to about the greatest length and beyond.
fn lengthened(mut line: Vec<u8>, r: &mut Random) -> Vec<u8> {
    let length = 90 + r.index(14);
    while line.len() < length {
        let byte = r.one_of(b" 0]x");
        line.push(byte);
    }
    line
}

pub fn line(r: &mut Random) -> Vec<u8> {
    if r.below(200) == 0 {
        let line = valid_line(r);
        return far_too_long(line, b" 0]", r);
    }
    match r.below(16) {
        0..=8 => valid_line(r),
        9 | 10 => {
            let line = valid_line(r);
            damaged(line, BYTES_OF_TEXT, r)
        }
        11 | 12 => fields(r),
        13 => {
            let line = valid_line(r);
            lengthened(line, r)
        }
        14 => {
            let length = r.index(100);
            (0..length).map(|_| r.one_of(BYTES_OF_TEXT)).collect()
        }
        // Three longest pairs: within 96 bytes.
        _ => {
            let long = |r: &mut Random| text_of((-RANGE + r.between(0, 9), -RANGE + r.between(0, 9)));
            format!("O E {} {} {}", long(r), long(r), long(r)).into_bytes()
        }
    }
}

pub fn case(r: &mut Random) -> Case {
    match r.below(100) {
        0..=54 => operation_case(r),
        55..=64 => Case::Read { text: text(r) },
        65..=71 => write_case(r),
        72..=82 => Case::List { list: list(r), way: way(r) },
        83..=87 => Case::Within { list: list(r), way: way(r), limits: limits(r) },
        _ => Case::Line { line: line(r) },
    }
}
