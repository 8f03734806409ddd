//! Document 02's centre and spread, read once more, and the archive compared with that reading.

use crate::library;
use crate::paper::end_text;
use crate::random::Random;
use std::collections::BTreeMap;

const GREATEST: i64 = 2_000_000_000;
const ROOM: usize = 32;

/// Readings that are wrong, each to be told from the library.
#[derive(Clone, Copy, PartialEq, Eq, Debug)]
enum Mistake {
    None,
    NegativeRadiusRefused,
    NegativeRadiusMadePositive,
    OddSumRounded,
    Exchanged,
    ShorterFigures,
    RoomBeforeParity,
}

const OF_READING: [Mistake; 4] =
    [Mistake::NegativeRadiusRefused, Mistake::NegativeRadiusMadePositive, Mistake::Exchanged, Mistake::ShorterFigures];

const OF_WRITING: [Mistake; 4] =
    [Mistake::NegativeRadiusMadePositive, Mistake::OddSumRounded, Mistake::Exchanged, Mistake::RoomBeforeParity];

type Causes = BTreeMap<u32, u64>;

fn beyond(ends: (i64, i64)) -> bool {
    ends.0.abs() > GREATEST || ends.1.abs() > GREATEST
}

impl Mistake {
    /// "An end is `-` if below zero, a whole part of 1 to 7 digits with no needless leading zero, `.`, and three digits."
    fn end(self, text: &str) -> Option<i64> {
        let size = text.strip_prefix('-').unwrap_or(text);
        let (whole, part) = match size.split_once('.') {
            None if self == Mistake::ShorterFigures => (size, "0"),
            split => split?,
        };
        let digits = |s: &str| s.bytes().all(|b| b.is_ascii_digit());
        let three = part.len() == 3 || self == Mistake::ShorterFigures && (1..4).contains(&part.len());
        if !digits(whole) || !digits(part) || !(1..8).contains(&whole.len()) || !three || whole.len() > 1 && whole.starts_with('0') {
            return None;
        }
        let value: i64 = format!("{whole}{part:0<3}").parse().ok()?;
        match (text.starts_with('-'), value) {
            (true, 0) => None,
            (true, _) => Some(-value),
            (false, _) => Some(value),
        }
    }

    fn parts(self, text: &[u8]) -> Option<(i64, i64)> {
        let inside = std::str::from_utf8(text).ok()?.strip_prefix('(')?.strip_suffix(')')?;
        let (centre, radius) = inside.split_once(';')?;
        let (centre, radius) = (self.end(centre)?, self.end(radius)?);
        match self {
            Mistake::NegativeRadiusRefused if radius < 0 => None,
            Mistake::NegativeRadiusMadePositive => Some((centre, radius.abs())),
            Mistake::Exchanged => Some((radius, centre)),
            _ => Some((centre, radius)),
        }
    }

    /// "from it, 1, then 2 if an end is beyond the range"
    fn read(self, text: &[u8]) -> Result<(i64, i64), u32> {
        let (centre, radius) = self.parts(text).ok_or(1u32)?;
        let ends = (centre - radius, centre + radius);
        if beyond(ends) { Err(2) } else { Ok(ends) }
    }

    /// "to the office's text, 21 after 2 and before 3"
    fn write(self, ends: (i64, i64), room: usize) -> Result<String, u32> {
        let (centre, radius) = ((ends.0 + ends.1) / 2, (ends.1 - ends.0) / 2);
        let text = match self {
            Mistake::NegativeRadiusMadePositive => format!("({};{})", end_text(centre), end_text(radius.abs())),
            Mistake::Exchanged => format!("({};{})", end_text(radius), end_text(centre)),
            _ => format!("({};{})", end_text(centre), end_text(radius)),
        };
        let odd = (ends.0 + ends.1) % 2 != 0 && self != Mistake::OddSumRounded;
        let short = room < text.len();
        let (odd, short) = if self == Mistake::RoomBeforeParity { (odd && !short, short) } else { (odd, short && !odd) };
        match (beyond(ends), odd, short) {
            (true, _, _) => Err(2),
            (_, true, _) => Err(21),
            (_, _, true) => Err(3),
            _ => Ok(text),
        }
    }
}

fn end(r: &mut Random) -> i64 {
    match r.below(6) {
        0 => r.between(-3, 3),
        1 => r.one_of(&[GREATEST, -GREATEST, GREATEST + 1, -GREATEST - 1, GREATEST / 2, -GREATEST / 2]),
        2 => r.between(-20_000, 20_000),
        3 => r.between(i32::MIN as i64, i32::MAX as i64),
        _ => r.between(-GREATEST, GREATEST),
    }
}

/// A text in form or nearly: ends of up to eight digits, then at times one byte changed, put in or left out.
fn text(r: &mut Random) -> Vec<u8> {
    let mut part = || match r.below(8) {
        0 => end_text(r.between(-99_999_999_999, 99_999_999_999)),
        1 => r.one_of(&["1.5", "2", "-0.000", "-0.001", "0.000", "00.000", "1.", ".500", "+1.000", "1.2345", "9999999.999", "-9999999.999"]).to_string(),
        _ => end_text(end(r)),
    };
    let mut text = format!("({};{})", part(), part()).into_bytes();
    if r.percent(20) {
        let at = r.index(text.len());
        match r.below(3) {
            0 => text[at] = r.one_of(b"()[];,.-0159 \n"),
            1 => text.insert(at, r.one_of(b"()[];,.-0159 \n")),
            _ => {
                text.remove(at);
            }
        }
    }
    text
}

fn compare_read(reading: Mistake, count: u64, r: &mut Random) -> Result<Causes, String> {
    let mut causes = Causes::new();
    for _ in 0..count {
        let text = text(r);
        let mut result = [7, -7];
        let number = library::read_centre(&text, &mut result);
        let expected = reading.read(&text);
        let met = match expected {
            Ok(ends) => number == 0 && ends == (result[0] as i64, result[1] as i64),
            Err(cause) => number == cause && result == [7, -7],
        };
        if !met {
            return Err(format!("reading {:?}: {number}, {result:?}, the paper: {expected:?}", text.escape_ascii().to_string()));
        }
        *causes.entry(number).or_default() += 1;
    }
    Ok(causes)
}

fn compare_write(reading: Mistake, count: u64, r: &mut Random) -> Result<Causes, String> {
    let mut causes = Causes::new();
    for _ in 0..count {
        let ends = (end(r), end(r));
        let room = if r.percent(50) { r.index(ROOM) } else { ROOM };
        let mut buffer = [0xaa; ROOM];
        let mut length = 77;
        let number = library::write_centre(ends.0 as i32, ends.1 as i32, &mut buffer[..room], &mut length);
        let expected = reading.write(ends, room);
        let mut left = [0xaa; ROOM];
        if let Ok(text) = &expected {
            left[..text.len()].copy_from_slice(text.as_bytes());
        }
        let told = expected.as_ref().map_or_else(|cause| (*cause, 77), |text| (0, text.len()));
        if (number, length) != told || buffer != left {
            return Err(format!("writing {ends:?} into {room}: {number}, {length}, {:?}, the paper: {expected:?}", buffer.escape_ascii().to_string()));
        }
        *causes.entry(number).or_default() += 1;
    }
    Ok(causes)
}

/// Every cause that the paper names has to have come, and no other.
fn all_came(name: &str, causes: &Causes, expected: &[u32]) -> Result<String, String> {
    if !causes.keys().eq(expected) {
        return Err(format!("{name} came to the causes {causes:?}, and the paper names {expected:?}"));
    }
    Ok(format!("{name}: {causes:?}"))
}

pub fn compare(seed: u64) -> Result<String, String> {
    let mut r = Random::for_block(seed, u64::MAX - 12);
    let mut told = vec![
        all_came("dzb_read_centre", &compare_read(Mistake::None, 1_000_000, &mut r)?, &[0, 1, 2])?,
        all_came("dzb_write_centre", &compare_write(Mistake::None, 1_000_000, &mut r)?, &[0, 2, 3, 21])?,
    ];
    for mistake in OF_READING {
        if compare_read(mistake, 100_000, &mut r).is_ok() {
            return Err(format!("the mistake {mistake:?} is not noticed in reading"));
        }
    }
    for mistake in OF_WRITING {
        if compare_write(mistake, 100_000, &mut r).is_ok() {
            return Err(format!("the mistake {mistake:?} is not noticed in writing"));
        }
    }
    told.push(format!("office mistakes made by the reference and found: {OF_READING:?} in reading, {OF_WRITING:?} in writing"));
    Ok(told.join("\n"))
}
