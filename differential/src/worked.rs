//! Document 01, "Values to meet": each is asked of the library and of the reference, so that the reference is held to the paper too.

use crate::case::Case;
use crate::paper::{Answer, MOST, Operation, Paper, Way};

type Ends = (i64, i64);

fn units(l: i64, u: i64) -> Ends {
    (1000 * l, 1000 * u)
}

fn constant(p: Ends) -> Vec<u8> {
    [&[0u8][..], &(p.0 as i32).to_le_bytes(), &(p.1 as i32).to_le_bytes()].concat()
}

fn repeated(step: &[u8], n: usize) -> Vec<u8> {
    step.repeat(n)
}

fn operation(operation: Operation, pairs: &[Ends], way: Way) -> Case {
    let mut ends = [0; 6];
    for (k, p) in pairs.iter().enumerate() {
        ends[2 * k] = p.0 as i32;
        ends[2 * k + 1] = p.1 as i32;
    }
    Case::Operation { operation, ends, way }
}

fn value(p: Ends) -> Answer {
    Answer::Value(p)
}

fn number(number: u32) -> Answer {
    Answer::Refused { number, step: 0 }
}

fn at(number: u32, step: u32) -> Answer {
    Answer::Refused { number, step }
}

/// So many constants, then their sum.
fn deep(depth: usize) -> Vec<u8> {
    [repeated(&constant((1, 1)), depth), repeated(&[1], depth - 1)].concat()
}

#[rustfmt::skip]
fn values() -> Vec<(Case, Answer)> {
    use Operation::*;
    use Way::*;
    let exact = (1001, 1001);
    let mut long = constant((1, 1));
    long.extend(repeated(&[4], 63));
    let mut longer = long.clone();
    longer.push(255);
    let product_dual = [constant(exact), constant(exact), vec![3, 6]].concat();
    vec![
        (operation(Product, &[exact, exact], Outward), value((1002, 1003))),
        (operation(Product, &[exact, exact], Inward), value((1003, 1002))),
        (operation(Product, &[units(-1, 2), units(-3, 4)], Outward), value(units(-6, 8))),
        (operation(Product, &[units(2, -1), units(4, -3)], Outward), value(units(8, -6))),
        (operation(Product, &[units(-1, 2), units(4, -3)], Outward), value((0, 0))),
        (operation(Product, &[units(1, 2), units(4, -3)], Outward), value(units(4, -3))),
        (operation(Product, &[(-1, -1), (1, 1)], Outward), value((-1, 0))),
        (operation(Product, &[(-1, -1), (1, 1)], Inward), value((0, -1))),
        (operation(Quotient, &[units(-1, -1), units(3, 3)], Outward), value((-334, -333))),
        (operation(Equation, &[(0, 0), units(2, 4), units(6, 8)], Outward), value(units(3, 2))),
        (operation(Equation, &[(0, 0), units(2, 4), units(-4, 8)], Outward), value(units(-1, 2))),
        // 02, Q-7: c [0, 2] and d [−2, 4], [0, 4], [1, 4]
        (operation(Equation, &[(0, 0), units(0, 2), units(-2, 4)], Outward), value(units(-1, 2))),
        (operation(Equation, &[(0, 0), units(0, 2), units(0, 4)], Outward), number(17)),
        (operation(Equation, &[(0, 0), units(0, 2), units(1, 4)], Outward), number(16)),
        (operation(Difference, &[units(2, 5), units(5, 2)], Outward), value((0, 0))),
        (Case::List { list: product_dual, way: Outward }, value((1002, 1003))),
        (operation(Product, &[units(2000, 2000), units(1000, 1000)], Outward), value((2_000_000_000, 2_000_000_000))),
        (operation(Product, &[units(2000, 2000), (1_000_001, 1_000_001)], Outward), number(4)),
        (operation(Sum, &[units(2_000_000, 2_000_000), (1, 1)], Outward), number(4)),
        (operation(Quotient, &[units(1, 1), (1, 1)], Outward), value(units(1000, 1000))),
        (operation(Quotient, &[units(1, 1), (0, 1)], Outward), number(5)),
        (Case::Read { text: b"[9999999.000,0.000]".to_vec() }, number(2)),
        (Case::Read { text: b"[10000000.000,0.000]".to_vec() }, number(1)),
        (Case::List { list: deep(16), way: Outward }, value((16, 16))),
        (Case::List { list: deep(17), way: Outward }, at(9, 16)),
        (Case::List { list: long, way: Outward }, value((-1, -1))),
        (Case::List { list: longer, way: Outward }, at(10, 64)),
        // 02, Q-6: the fare module's 6 and 20, and no values or no steps at all.
        (Case::Within { list: deep(6), way: Outward, limits: (6, 20) }, value((6, 6))),
        (Case::Within { list: deep(7), way: Outward, limits: (6, 20) }, at(9, 6)),
        (Case::Within { list: deep(1), way: Outward, limits: (0, 20) }, at(9, 0)),
        (Case::Within { list: deep(1), way: Outward, limits: (6, 0) }, at(10, 0)),
        (Case::Within { list: Vec::new(), way: Outward, limits: (0, 0) }, at(11, 0)),
        (Case::Line { line: b"O M [1.001,1.001] [1.001,1.001]".to_vec() }, value((1002, 1003))),
        (Case::Line { line: b"I M [1.001,1.001] [1.001,1.001]".to_vec() }, value((1003, 1002))),
        (Case::Line { line: b"O E [0.500,0.600] [2.000,4.000] [6.500,20.600]".to_vec() }, value((3000, 5000))),
        (Case::Line { line: b"O D [1.000,2.000] [0.000,1.000]".to_vec() }, number(5)),
        // Source document 000, section 4.2.
        (operation(Equation, &[(5100, 3000), (-7200, -11500), units(1, 2)], Outward), value((86, 570))),
        (operation(Equation, &[(5100, 3000), (-7200, -11500), units(1, 2)], Inward), value((87, 569))),
    ]
}

fn of_reference(case: &Case, paper: Paper) -> Answer {
    match case {
        Case::Operation { operation, ends, way } => paper.operation(*operation, &crate::case::pairs(*operation, ends), *way),
        Case::Read { text } => crate::paper::read(text),
        Case::List { list, way } => paper.list(list, *way, MOST),
        Case::Within { list, way, limits } => paper.list(list, *way, *limits),
        Case::Line { line } => paper.line(line),
        Case::Write { .. } => unreachable!("the paper shows no value for writing alone"),
    }
}

/// How many values were met.
pub fn meet(paper: Paper) -> Result<usize, String> {
    let values = values();
    for (case, expected) in &values {
        let answer = of_reference(case, paper);
        if answer != *expected {
            return Err(format!("the reference answers {answer:?} and not {expected:?} to {case}"));
        }
        if let Err(d) = case.compare(paper) {
            return Err(format!("{case}\n  library: {}\n  paper:   {}", d.library, d.paper));
        }
    }
    Ok(values.len())
}
