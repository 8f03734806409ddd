//! A program run on an input; the slip program, run on whole inputs and compared with what document 01 prints for them.

use crate::generate;
use crate::paper::Paper;
use crate::random::Random;
use std::io::Write;
use std::process::{Command, Stdio};

/// Runs the program on an input, written in pieces of random sizes so that reads end anywhere.
pub fn run(path: &str, input: &[u8], r: &mut Random) -> Result<Vec<u8>, String> {
    let mut child =
        Command::new(path).stdin(Stdio::piped()).stdout(Stdio::piped()).spawn().map_err(|e| format!("{path}: {e}"))?;
    let mut stdin = child.stdin.take().ok_or("no standard input")?;
    let mut pieces = Vec::new();
    let mut at = 0;
    while at < input.len() {
        let size = if r.percent(50) { 1 + r.index(40) } else { 1 + r.index(70_000) };
        let end = (at + size).min(input.len());
        pieces.push(input[at..end].to_vec());
        at = end;
    }
    let writer = std::thread::spawn(move || {
        for piece in pieces {
            // The slip stops reading after its last line, the report after a refusal.
            if stdin.write_all(&piece).and_then(|_| stdin.flush()).is_err() {
                return;
            }
        }
    });
    let output = child.wait_with_output().map_err(|e| e.to_string())?;
    writer.join().map_err(|_| "the writer stopped".to_string())?;
    Ok(output.stdout)
}

fn input(lines: usize, r: &mut Random) -> Vec<u8> {
    let mut input = Vec::new();
    for _ in 0..lines {
        match r.below(200) {
            0 => {
                let length = r.index(40_000);
                input.extend((0..length).map(|_| r.one_of(b" O[x0")));
            }
            1 => {}
            _ => input.extend_from_slice(&generate::line(r)),
        }
        input.push(10);
    }
    // The last line may end without byte 10.
    if r.percent(50) {
        input.pop();
    }
    input
}

/// The first output line that differs, with the input line of that number.
fn difference(input: &[u8], printed: &[u8], expected: &[u8]) -> String {
    let of = |b: &[u8], k: usize| b.split(|x| *x == 10).nth(k).unwrap_or(b"(no line)").escape_ascii().to_string();
    let same = printed.iter().zip(expected).take_while(|(x, y)| x == y);
    let line = same.filter(|(x, _)| **x == 10).count();
    format!(
        "the slip program differs at line {}: \"{}\"\n  program: {}\n  paper:   {}",
        line + 1,
        of(input, line),
        of(printed, line),
        of(expected, line)
    )
}

pub fn compare(path: &str, seed: u64, paper: Paper) -> Result<String, String> {
    let mut r = Random::for_block(seed, u64::MAX);
    let mut inputs: Vec<Vec<u8>> = vec![Vec::new(), vec![10], vec![b'x'], b"O\n\n".to_vec()];
    for _ in 0..20 {
        let lines = r.index(60);
        inputs.push(input(lines, &mut r));
    }
    inputs.push(input(100_000, &mut r));
    // More lines than the program reads.
    inputs.push(b"O A [0.001,0.002] [0.001,0.001]\n".repeat(1_000_003));
    let mut lines = 0;
    for input in &inputs {
        let printed = run(path, input, &mut r)?;
        let expected = paper.output(input);
        if printed != expected {
            return Err(difference(input, &printed, &expected));
        }
        lines += expected.iter().filter(|b| **b == 10).count();
    }
    Ok(format!("the slip program: {} inputs, {lines} output lines compared", inputs.len()))
}
