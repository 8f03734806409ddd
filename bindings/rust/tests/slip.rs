//! The lines that the slip program is tested with, and its answers (crates/slip), through the crate.
use donzibrau::line;
use std::{fs, path::Path};

#[test]
fn the_lines_of_the_slip_have_its_answers() {
    let slip = Path::new(env!("CARGO_MANIFEST_DIR")).join("../../crates/slip");
    let (questions, answers) = (fs::read(slip.join("stdin")).unwrap(), fs::read_to_string(slip.join("stdout")).unwrap());
    let ended = questions.strip_suffix(b"\n").unwrap_or(&questions);
    let told: String = (ended.split(|byte| *byte == b'\n').enumerate())
        .map(|(place, bytes)| match line(bytes) {
            Ok(pair) => format!("{} {pair}\n", place + 1),
            Err(cause) => format!("{} R {}\n", place + 1, cause.number()),
        })
        .collect();
    assert!(told == answers);
}
