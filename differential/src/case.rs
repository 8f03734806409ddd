//! One comparison: an input of one function, run by the library and by the paper, with every lent byte looked at afterwards.

use crate::library;
use crate::paper::{self, Answer, Operation, Paper, Way};
use std::fmt;

/// What the archive exports, with the causes that the papers give it (0: a result).
#[derive(Clone, Copy, PartialEq, Eq, Debug)]
pub struct Function {
    pub name: &'static str,
    pub causes: &'static [usize],
}

pub const FUNCTIONS: [Function; 15] = [
    Function { name: "dzb_sum", causes: &[0, 2, 4] },
    Function { name: "dzb_difference", causes: &[0, 2, 4] },
    Function { name: "dzb_product", causes: &[0, 2, 4] },
    Function { name: "dzb_quotient", causes: &[0, 2, 4, 5] },
    Function { name: "dzb_equation", causes: &[0, 2, 4, 16, 17] },
    Function { name: "dzb_negation", causes: &[0, 2] },
    Function { name: "dzb_opposite", causes: &[0, 2] },
    Function { name: "dzb_dual", causes: &[0, 2] },
    Function { name: "dzb_join", causes: &[0, 2] },
    Function { name: "dzb_meet", causes: &[0, 2] },
    Function { name: "dzb_read", causes: &[0, 1, 2] },
    Function { name: "dzb_write", causes: &[0, 2, 3] },
    Function { name: "dzb_list", causes: &[0, 2, 4, 5, 6, 7, 8, 9, 10, 11] },
    Function { name: "dzb_line", causes: &[0, 1, 2, 4, 5, 6, 12, 16, 17] },
    Function { name: "dzb_list_within", causes: &[0, 2, 4, 5, 6, 7, 8, 9, 10, 11] },
];

pub const OPERATIONS: [Operation; 10] = [
    Operation::Sum,
    Operation::Difference,
    Operation::Product,
    Operation::Quotient,
    Operation::Equation,
    Operation::Negation,
    Operation::Opposite,
    Operation::Dual,
    Operation::Join,
    Operation::Meet,
];

#[derive(Clone, PartialEq, Eq, Debug)]
pub enum Case {
    /// Ends of the pairs in order; those that the operation doesn't take are 0.
    Operation {
        operation: Operation,
        ends: [i32; 6],
        way: Way,
    },
    Read {
        text: Vec<u8>,
    },
    Write {
        ends: [i32; 2],
        room: usize,
    },
    List {
        list: Vec<u8>,
        way: Way,
    },
    Line {
        line: Vec<u8>,
    },
    /// A list by a caller's limits, values that wait and steps: through both engines.
    Within {
        list: Vec<u8>,
        way: Way,
        limits: (usize, usize),
    },
}

/// What both gave: the number of the cause (0: a result), and whether the pair is improper.
#[derive(Clone, Copy, Debug)]
pub struct Met {
    pub cause: usize,
    pub improper: bool,
}

/// What the library left and what it should have left.
#[derive(Clone, Debug)]
pub struct Difference {
    pub library: String,
    pub paper: String,
}

/// Margins around what is lent, in elements.
const MARGIN: usize = 4;

/// Ends beyond the range, which no result can equal.
fn canary(k: usize) -> i32 {
    i32::MIN + 1 + k as i32
}

/// The returned number: 0, or the refusal number and 256 times the step.
fn returned_for(answer: Answer) -> u32 {
    match answer {
        Answer::Value(_) => 0,
        Answer::Refused { number, step } => number + 256 * step,
    }
}

/// Compares the returned number and the lent result, with its margins.
fn compare_result(expected: Answer, call: impl FnOnce(&mut [i32; 2]) -> u32) -> Result<Met, Difference> {
    let before: [i32; MARGIN + 2 + MARGIN] = std::array::from_fn(canary);
    let mut memory = before;
    let lent: &mut [i32; 2] = (&mut memory[MARGIN..MARGIN + 2]).try_into().expect("two elements");
    let returned = call(lent);
    let mut after = before;
    if let Answer::Value((lower, upper)) = expected {
        after[MARGIN] = lower as i32;
        after[MARGIN + 1] = upper as i32;
    }
    if returned == returned_for(expected) && memory == after {
        let improper = matches!(expected, Answer::Value((lower, upper)) if lower > upper);
        return Ok(Met { cause: (returned % 256) as usize, improper });
    }
    Err(Difference { library: shown(returned, &before, &memory), paper: shown(returned_for(expected), &before, &after) })
}

/// What a call left: `[l,u]`, or `R number` with a step, and the memory where more was touched than that says.
fn shown(returned: u32, before: &[i32], after: &[i32]) -> String {
    let (lower, upper) = (after[MARGIN], after[MARGIN + 1]);
    let outside = |memory: &[i32]| [&memory[..MARGIN], &memory[MARGIN + 2..]].concat();
    match returned {
        0 if outside(before) == outside(after) => format!("[{lower},{upper}]"),
        _ if before == after && returned < 256 => format!("R {returned}"),
        _ if before == after => format!("R {} at step {}", returned % 256, returned / 256),
        _ => format!("returns {returned} and leaves {after:?} of {before:?}"),
    }
}

/// Calls with a copy of the bytes that has margins, and finds whether a byte of it was changed.
fn with_margins<R>(bytes: &[u8], call: impl FnOnce(&[u8]) -> R) -> (R, bool) {
    let mut memory = vec![0xa5; MARGIN];
    memory.extend_from_slice(bytes);
    memory.extend_from_slice(&[0xa5; MARGIN]);
    let before = memory.clone();
    let r = call(&memory[MARGIN..MARGIN + bytes.len()]);
    (r, memory == before)
}

fn compare_bytes(expected: Answer, bytes: &[u8], call: impl FnOnce(&[u8], &mut [i32; 2]) -> u32) -> Result<Met, Difference> {
    let (compared, untouched) = with_margins(bytes, |held| compare_result(expected, |result| call(held, result)));
    if untouched {
        return compared;
    }
    Err(Difference { library: "changed its input".to_string(), paper: "an input is only read".to_string() })
}

fn compare_write(ends: [i32; 2], room: usize) -> Result<Met, Difference> {
    const UNTOLD: usize = usize::MAX - 7;
    let before: Vec<u8> = (0..MARGIN + room + MARGIN).map(|k| 0x80 | (k % 125) as u8).collect();
    let mut memory = before.clone();
    let mut told = UNTOLD;
    let returned = library::write(ends[0], ends[1], &mut memory[MARGIN..MARGIN + room], &mut told);
    let mut after = before;
    let (number, length) = match paper::write((ends[0] as i64, ends[1] as i64), room) {
        Ok(text) => {
            after[MARGIN..MARGIN + text.len()].copy_from_slice(&text);
            (0, text.len())
        }
        Err(number) => (number, UNTOLD),
    };
    if returned == number && told == length && memory == after {
        return Ok(Met { cause: number as usize, improper: number == 0 && ends[0] > ends[1] });
    }
    Err(Difference {
        library: format!("returns {returned}, tells {told}, memory \"{}\"", memory.escape_ascii()),
        paper: format!("{number}, tells {length}, memory \"{}\"", after.escape_ascii()),
    })
}

pub fn pairs(operation: Operation, ends: &[i32; 6]) -> Vec<(i64, i64)> {
    (0..operation.pairs()).map(|k| (ends[2 * k] as i64, ends[2 * k + 1] as i64)).collect()
}

impl Case {
    /// Its place in `FUNCTIONS`.
    pub fn function(&self) -> usize {
        match self {
            Case::Operation { operation, .. } => OPERATIONS.iter().position(|o| o == operation).expect("an operation"),
            Case::Read { .. } => 10,
            Case::Write { .. } => 11,
            Case::List { .. } => 12,
            Case::Line { .. } => 13,
            Case::Within { .. } => 14,
        }
    }

    /// What both gave, or what differs.
    pub fn compare(&self, paper: Paper) -> Result<Met, Difference> {
        match self {
            Case::Operation { operation, ends, way } => {
                let given: [(i64, i64); 3] = std::array::from_fn(|k| (ends[2 * k] as i64, ends[2 * k + 1] as i64));
                let expected = paper.operation(*operation, &given[..operation.pairs()], *way);
                compare_result(expected, |result| library::operation(*operation, ends, *way, result))
            }
            Case::Read { text } => compare_bytes(paper::read(text), text, library::read),
            Case::Write { ends, room } => compare_write(*ends, *room),
            Case::List { list, way } => {
                compare_bytes(paper.list(list, *way, paper::MOST), list, |held, result| library::list(held, *way, result))
            }
            Case::Line { line } => compare_bytes(paper.line(line), line, library::line),
            Case::Within { list, way, limits } => {
                let expected = paper.list(list, *way, *limits);
                compare_bytes(expected, list, |held, result| library::burnin_list(held, *way, *limits, result))?;
                compare_bytes(expected, list, |held, result| library::list_within(held, *way, *limits, result))
            }
        }
    }
}

impl fmt::Display for Case {
    fn fmt(&self, f: &mut fmt::Formatter) -> fmt::Result {
        let name = FUNCTIONS[self.function()].name;
        match self {
            Case::Operation { operation, ends, way } => {
                write!(f, "{name}")?;
                for (lower, upper) in pairs(*operation, ends) {
                    write!(f, " [{lower},{upper}]")?;
                }
                if !matches!(operation.pairs(), 1) && !matches!(operation, Operation::Join | Operation::Meet) {
                    write!(f, " {way:?}")?;
                }
                Ok(())
            }
            Case::Read { text } => write!(f, "{name} \"{}\"", text.escape_ascii()),
            Case::Write { ends, room } => write!(f, "{name} [{},{}] into {room} bytes", ends[0], ends[1]),
            Case::List { list, way } => write!(f, "{name} {list:?} {way:?}"),
            Case::Line { line } => write!(f, "{name} \"{}\"", line.escape_ascii()),
            Case::Within { list, way, limits } => write!(f, "{name} {list:?} {way:?} {limits:?}"),
        }
    }
}
