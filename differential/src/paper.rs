//! What document 01 answers: operations, the equation, text, lists, lines. Written from the document alone, in exact fractions;
//! the Rattle code and its definitions have no part in it.

use crate::exact::Pair;
use crate::held::{self, Solutions};

/// "An end is a signed whole number from −2,000,000,000 to 2,000,000,000"
const RANGE: i128 = 2_000_000_000;

#[derive(Clone, Copy, PartialEq, Eq, Debug)]
pub enum Way {
    Outward,
    Inward,
}

impl Way {
    pub fn other(self) -> Way {
        match self {
            Way::Outward => Way::Inward,
            Way::Inward => Way::Outward,
        }
    }
}

/// Two ends in thousandths, lower and upper.
pub type Ends = (i64, i64);

/// "one result or one refusal number", in a list with its step.
#[derive(Clone, Copy, PartialEq, Eq, Debug)]
pub enum Answer {
    Value(Ends),
    Refused { number: u32, step: u32 },
}

pub fn refused(number: u32) -> Answer {
    Answer::Refused { number, step: 0 }
}

#[derive(Clone, Copy, PartialEq, Eq, Debug)]
pub enum Operation {
    Sum,
    Difference,
    Product,
    Quotient,
    Equation,
    Negation,
    Opposite,
    Dual,
    Join,
    Meet,
}

impl Operation {
    pub fn pairs(self) -> usize {
        match self {
            Operation::Negation | Operation::Opposite | Operation::Dual => 1,
            Operation::Equation => 3,
            _ => 2,
        }
    }
}

/// "Mistakes a good programmer makes here": a reference that makes one of them has to be found out.
#[derive(Clone, Copy, PartialEq, Eq, Debug)]
pub enum Mistake {
    None,
    TowardsZero,
    OutwardBelowDual,
    RisingOrder,
    OrdinaryDifference,
    ReciprocalRounded,
}

pub const MISTAKES: [Mistake; 5] = [
    Mistake::TowardsZero,
    Mistake::OutwardBelowDual,
    Mistake::RisingOrder,
    Mistake::OrdinaryDifference,
    Mistake::ReciprocalRounded,
];

#[derive(Clone, Copy)]
pub struct Paper {
    pub mistake: Mistake,
}

fn beyond(end: i128) -> bool {
    !(-RANGE..=RANGE).contains(&end)
}

fn given_beyond(pair: Ends) -> bool {
    beyond(pair.0 as i128) || beyond(pair.1 as i128)
}

fn exact(pair: Ends) -> Pair {
    Pair::thousandths(pair.0, pair.1)
}

impl Paper {
    /// "Outward rounding takes the lower end down to the nearest thousandth and the upper end up. Inward takes the lower end up
    /// and the upper end down."
    fn rounded(self, way: Way, pair: Pair) -> (i128, i128) {
        let thousand = crate::exact::Fraction::whole(1000);
        let (mut lower, mut upper) = (pair.lower.times(thousand), pair.upper.times(thousand));
        if self.mistake == Mistake::RisingOrder && upper < lower {
            (lower, upper) = (upper, lower);
        }
        match (self.mistake, way) {
            (Mistake::TowardsZero, Way::Outward) => (lower.truncated(), upper.ceiling()),
            (Mistake::TowardsZero, Way::Inward) => (lower.ceiling(), upper.truncated()),
            (_, Way::Outward) => (lower.floor(), upper.ceiling()),
            (_, Way::Inward) => (lower.ceiling(), upper.floor()),
        }
    }

    /// 4: "a rounded end beyond the range".
    pub fn in_range(self, way: Way, pair: Pair) -> Answer {
        let (lower, upper) = self.rounded(way, pair);
        if beyond(lower) || beyond(upper) {
            refused(4)
        } else {
            Answer::Value((lower as i64, upper as i64))
        }
    }

    fn quotient(self, way: Way, a: Pair, b: Pair) -> Pair {
        if self.mistake == Mistake::ReciprocalRounded {
            let (lower, upper) = self.rounded(way, b.reciprocals());
            return a.product(Pair::thousandths(lower as i64, upper as i64));
        }
        a.quotient(b)
    }

    /// "Operations: 2, 5, 4."
    pub fn operation(self, operation: Operation, pairs: &[Ends], way: Way) -> Answer {
        assert_eq!(pairs.len(), operation.pairs());
        if pairs.iter().any(|p| given_beyond(*p)) {
            return refused(2);
        }
        let of = |k: usize| exact(pairs[k]);
        let result = match operation {
            Operation::Sum => of(0).sum(of(1)),
            Operation::Difference => of(0).difference(of(1)),
            Operation::Product => of(0).product(of(1)),
            Operation::Negation => of(0).negation(),
            Operation::Opposite => of(0).opposite(),
            Operation::Dual => of(0).dual(),
            Operation::Join => of(0).join(of(1)),
            Operation::Meet => of(0).meet(of(1)),
            Operation::Quotient => {
                if of(1).sign().is_none() {
                    return refused(5);
                }
                self.quotient(way, of(0), of(1))
            }
            // "Equation a + c × x = b, c zero-free: x = (b − dual a) / dual c, rounded once at the very end."; 02, Q-7: "Solve when exactly one
            // directed pair of fractions satisfies the equation, rounded as before .. 16 if no pair of fractions solves it and 17 if more
            // than one does, in the place of 5"
            Operation::Equation => {
                let (a, c, b) = (of(0), of(1), of(2));
                if c.sign().is_none() {
                    match held::solutions(c, b.sum(a.opposite())) {
                        Solutions::None => return refused(16),
                        Solutions::One(x) => x,
                        Solutions::Several => return refused(17),
                    }
                } else {
                    let left = if self.mistake == Mistake::OrdinaryDifference { a } else { a.dual() };
                    self.quotient(way, b.difference(left), c.dual())
                }
            }
        };
        self.in_range(way, result)
    }

    /// "A list: for each step in turn 10, 6, 7, 2, 8, 9; at the end 11; only then 4, at the earliest step to which it applies.", and with 02,
    /// Q-1, 5, "judged together with 4, after 11, the earliest step with either cause deciding".
    /// 02, Q-6: by the caller's limits of values that wait and of steps.
    pub fn list(self, list: &[u8], way: Way, limits: (usize, usize)) -> Answer {
        match steps_of(list, limits) {
            Ok(steps) => self.evaluated(&steps, way),
            Err((number, step)) => Answer::Refused { number, step },
        }
    }

    fn evaluated(self, steps: &[Step], way: Way) -> Answer {
        let wanted = self.ways(steps, way);
        let mut values: Vec<Ends> = Vec::new();
        for (k, step) in steps.iter().enumerate() {
            let operands: Vec<Ends> = step.operands.iter().map(|j| values[*j]).collect();
            let answer = match step.action {
                Action::Constant(pair) => Answer::Value(pair),
                Action::Operation(operation) => self.operation(operation, &operands, wanted[k]),
            };
            match answer {
                Answer::Value(pair) => values.push(pair),
                Answer::Refused { number, .. } => return Answer::Refused { number, step: k as u32 },
            }
        }
        Answer::Value(values[values.len() - 1])
    }

    /// "That way is the one asked if an even number of dual and opposite steps apply to the value later, directly or through
    /// other steps, and the other way if the number is odd."
    fn ways(self, steps: &[Step], way: Way) -> Vec<Way> {
        let mut wanted = vec![way; steps.len()];
        for k in (0..steps.len()).rev() {
            let turns = matches!(steps[k].action, Action::Operation(Operation::Dual | Operation::Opposite));
            for j in &steps[k].operands {
                wanted[*j] = if turns && self.mistake != Mistake::OutwardBelowDual { wanted[k].other() } else { wanted[k] };
            }
        }
        wanted
    }

    /// "A line: length (12), fewer than two fields (12), first field (6), second field (6), count of the other fields (12), then
    /// each pair from the left by 1, 2, then 5, 4."
    pub fn line(self, line: &[u8]) -> Answer {
        if line.len() > 96 {
            return refused(12);
        }
        let fields: Vec<&[u8]> = line.split(|b| *b == b' ').collect();
        if fields.len() < 2 {
            return refused(12);
        }
        let way = match fields[0] {
            b"O" => Way::Outward,
            b"I" => Way::Inward,
            _ => return refused(6),
        };
        let operation = match fields[1] {
            b"A" => Operation::Sum,
            b"S" => Operation::Difference,
            b"M" => Operation::Product,
            b"D" => Operation::Quotient,
            b"E" => Operation::Equation,
            _ => return refused(6),
        };
        if fields.len() - 2 != operation.pairs() {
            return refused(12);
        }
        let mut pairs = Vec::new();
        for field in &fields[2..] {
            match read(field) {
                Answer::Value(pair) => pairs.push(pair),
                refusal => return refusal,
            }
        }
        self.operation(operation, &pairs, way)
    }

    /// What the slip program prints for an input.
    pub fn output(self, input: &[u8]) -> Vec<u8> {
        let mut output = Vec::new();
        for (k, line) in lines_of(input).iter().take(999_999).enumerate() {
            let body = match self.line(line) {
                Answer::Value(pair) => text_of(pair),
                Answer::Refused { number, .. } => format!("R {number}"),
            };
            output.extend_from_slice(format!("{} {}\n", k + 1, body).as_bytes());
        }
        output
    }
}

/// "by lines, ended by byte 10 or by the end of input. If no byte follows the last byte 10, no further line is there; an empty
/// input has no lines."
fn lines_of(input: &[u8]) -> Vec<&[u8]> {
    let mut lines: Vec<&[u8]> = input.split(|b| *b == 10).collect();
    if lines.last().is_some_and(|l| l.is_empty()) {
        lines.pop();
    }
    lines
}

enum Action {
    Constant(Ends),
    Operation(Operation),
}

/// A step with the earlier steps whose values it takes, the later one last.
struct Step {
    action: Action,
    operands: Vec<usize>,
}

/// The slip's limits, and the most that any caller's count for.
pub const MOST: (usize, usize) = (16, 64);

/// The steps of a list that leaves exactly one value, or the refusal number and its step.
fn steps_of(list: &[u8], limits: (usize, usize)) -> Result<Vec<Step>, (u32, u32)> {
    let (most_values, most_steps) = (limits.0.min(MOST.0), limits.1.min(MOST.1));
    let mut steps: Vec<Step> = Vec::new();
    let mut waiting: Vec<usize> = Vec::new();
    let mut rest = list;
    while let Some((code, behind)) = rest.split_first() {
        let at = steps.len() as u32;
        // "A list has at most 64 steps, and at most 16 values wait at once."; "A limit above 16 or 64 counts as 16 or 64."
        if steps.len() == most_steps {
            return Err((10, at));
        }
        rest = behind;
        let action = match *code {
            0 => {
                if rest.len() < 8 {
                    return Err((7, at));
                }
                let pair = (
                    i32::from_le_bytes([rest[0], rest[1], rest[2], rest[3]]) as i64,
                    i32::from_le_bytes([rest[4], rest[5], rest[6], rest[7]]) as i64,
                );
                rest = &rest[8..];
                if given_beyond(pair) {
                    return Err((2, at));
                }
                Action::Constant(pair)
            }
            1 => Action::Operation(Operation::Sum),
            2 => Action::Operation(Operation::Difference),
            3 => Action::Operation(Operation::Product),
            4 => Action::Operation(Operation::Negation),
            5 => Action::Operation(Operation::Opposite),
            6 => Action::Operation(Operation::Dual),
            7 => Action::Operation(Operation::Join),
            8 => Action::Operation(Operation::Meet),
            9 => Action::Operation(Operation::Quotient),
            _ => return Err((6, at)),
        };
        let takes = match action {
            Action::Constant(_) => 0,
            Action::Operation(operation) => operation.pairs(),
        };
        if waiting.len() < takes {
            return Err((8, at));
        }
        let operands = waiting.split_off(waiting.len() - takes);
        if waiting.len() == most_values {
            return Err((9, at));
        }
        waiting.push(steps.len());
        steps.push(Step { action, operands });
    }
    if waiting.len() == 1 {
        Ok(steps)
    } else {
        Err((11, steps.len() as u32))
    }
}

/// "Text: 1, 2."
pub fn read(text: &[u8]) -> Answer {
    match in_form(text) {
        None => refused(1),
        Some(pair) if given_beyond(pair) => refused(2),
        Some(pair) => Answer::Value(pair),
    }
}

/// "A pair's text is `[`, end, `,`, end, `]`."
fn in_form(text: &[u8]) -> Option<Ends> {
    let inside = text.strip_prefix(b"[")?.strip_suffix(b"]")?;
    let ends: Vec<&[u8]> = inside.split(|b| *b == b',').collect();
    match ends[..] {
        [lower, upper] => Some((end_of(lower)?, end_of(upper)?)),
        _ => None,
    }
}

/// "An end is `-` if below zero, a whole part of 1 to 7 digits with no needless leading zero", then, with document 02's Q-2, "no point at
/// all, or a point with one to three digits; missing digits are zeros. `1.`, `-0` and `-0.0` stay malformed."
fn end_of(text: &[u8]) -> Option<i64> {
    let (negative, digits) = match text.strip_prefix(b"-") {
        Some(rest) => (true, rest),
        None => (false, text),
    };
    let parts: Vec<&[u8]> = digits.split(|b| *b == b'.').collect();
    let (whole, fraction) = match parts[..] {
        [whole] => (whole, &b"000"[..]),
        [whole, fraction] => (whole, fraction),
        _ => return None,
    };
    let all_digits = whole.iter().chain(fraction).all(|b| b.is_ascii_digit());
    let needless_zero = whole.len() > 1 && whole[0] == b'0';
    if !all_digits || !(1..=7).contains(&whole.len()) || !(1..=3).contains(&fraction.len()) || needless_zero {
        return None;
    }
    let missing = &b"00"[..3 - fraction.len()];
    let size: i64 = std::str::from_utf8(&[whole, fraction, missing].concat()).ok()?.parse().ok()?;
    match (negative, size) {
        (true, 0) => None,
        (true, _) => Some(-size),
        (false, _) => Some(size),
    }
}

pub fn text_of(pair: Ends) -> String {
    format!("[{},{}]", end_text(pair.0), end_text(pair.1))
}

pub fn end_text(end: i64) -> String {
    let sign = if end < 0 { "-" } else { "" };
    let size = end.unsigned_abs();
    format!("{sign}{}.{:03}", size / 1000, size % 1000)
}

/// "Writing text: 2, 3." The text and its length, or the refusal number.
pub fn write(pair: Ends, room: usize) -> Result<Vec<u8>, u32> {
    if given_beyond(pair) {
        return Err(2);
    }
    let text = text_of(pair).into_bytes();
    if room < text.len() {
        Err(3)
    } else {
        Ok(text)
    }
}
