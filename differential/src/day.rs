//! Document 02's day file (Q-4, and Q-13 with block sums), read once more, and the archive and the report program compared with that reading.

use crate::library;
use crate::program;
use crate::random::Random;
use std::collections::BTreeMap;

const BYTES: usize = 512;
const SUMMED: usize = 508;
const SUMS: usize = 484;
const RECORDS: usize = 30;
const BLOCKS: usize = 100;
const GREATEST: i64 = 2_000_000_000;
const MARGIN: usize = 4;

#[derive(Clone, Copy, PartialEq, Eq, Debug)]
struct Record {
    case: u32,
    line: u32,
    lower: i32,
    upper: i32,
}

/// Readings that are wrong, each to be told from the library or from the program.
#[derive(Clone, Copy, PartialEq, Eq, Debug)]
enum Mistake {
    None,
    SumOf507Bytes,
    LayoutBeforeSum,
    UnusedBytesUnseen,
    FullBeforeLayout,
    RecordInFront,
    SumsBeforeLayout,
    UpperSumUnseen,
    SumsTrusted,
    SumsOfRecordsBefore,
    OldSumsUnseen,
    PlacesFromOne,
    OneBlockMore,
    TotalHeldToRange,
}

const OF_ADDING: [Mistake; 10] = [
    Mistake::SumOf507Bytes,
    Mistake::LayoutBeforeSum,
    Mistake::UnusedBytesUnseen,
    Mistake::FullBeforeLayout,
    Mistake::RecordInFront,
    Mistake::SumsBeforeLayout,
    Mistake::UpperSumUnseen,
    Mistake::SumsTrusted,
    Mistake::SumsOfRecordsBefore,
    Mistake::OldSumsUnseen,
];

const OF_REPORTS: [Mistake; 7] = [
    Mistake::SumsBeforeLayout,
    Mistake::UpperSumUnseen,
    Mistake::SumsTrusted,
    Mistake::OldSumsUnseen,
    Mistake::PlacesFromOne,
    Mistake::OneBlockMore,
    Mistake::TotalHeldToRange,
];

fn beyond(record: &Record) -> bool {
    [record.lower, record.upper].iter().any(|end| (*end as i64).abs() > GREATEST)
}

fn sum(bytes: &[u8]) -> u32 {
    bytes.iter().map(|b| *b as u32).sum()
}

fn seal(bytes: &mut [u8]) {
    let sum = sum(&bytes[..SUMMED]);
    bytes[SUMMED..BYTES].copy_from_slice(&sum.to_le_bytes());
}

/// The lower ends and the upper ends, each summed.
fn totals(records: &[Record]) -> [i64; 2] {
    records.iter().fold([0, 0], |[lower, upper], record| [lower + record.lower as i64, upper + record.upper as i64])
}

fn put_sums(bytes: &mut [u8], sums: [i64; 2]) {
    bytes[SUMS..SUMS + 8].copy_from_slice(&sums[0].to_le_bytes());
    bytes[SUMS + 8..SUMS + 16].copy_from_slice(&sums[1].to_le_bytes());
}

/// "A block begins as 512 zero bytes and is filled in." Byte 3 is the layout; where it is 1 the sums stand behind the records.
fn block(number: u16, layout: u8, records: &[Record]) -> Vec<u8> {
    let mut bytes = vec![0; BYTES];
    bytes[0..2].copy_from_slice(&number.to_le_bytes());
    bytes[2] = records.len() as u8;
    bytes[3] = layout;
    if layout == 1 {
        put_sums(&mut bytes, totals(records));
    }
    for (k, record) in records.iter().enumerate() {
        let words = [record.case, record.line, record.lower as u32, record.upper as u32];
        for (j, word) in words.iter().enumerate() {
            let at = 4 + 16 * k + 4 * j;
            bytes[at..at + 4].copy_from_slice(&word.to_le_bytes());
        }
    }
    seal(&mut bytes);
    bytes
}

fn word(bytes: &[u8], at: usize) -> u32 {
    (0..4).map(|k| (bytes[at + k] as u32) << (8 * k)).sum()
}

fn number_of(bytes: &[u8]) -> u16 {
    bytes[0] as u16 + 256 * bytes[1] as u16
}

fn records_of(bytes: &[u8]) -> Vec<Record> {
    let record = |at| Record {
        case: word(bytes, at),
        line: word(bytes, at + 4),
        lower: word(bytes, at + 8) as i32,
        upper: word(bytes, at + 12) as i32,
    };
    (0..(bytes[2] as usize).min(RECORDS)).map(|k| record(4 + 16 * k)).collect()
}

impl Mistake {
    /// The records of a block: one that is not the block of its own number, layout and records, but for the sums, breaks the layout.
    fn judge(self, bytes: &[u8], number: impl Fn(u16) -> bool) -> Result<Vec<Record>, u32> {
        if bytes.len() != BYTES {
            return Err(13);
        }
        let summed = if self == Mistake::SumOf507Bytes { SUMMED - 1 } else { SUMMED };
        let sums = sum(&bytes[..summed]) == word(bytes, SUMMED);
        let records = records_of(bytes);
        let mut made = block(number_of(bytes), bytes[3], &records);
        if self == Mistake::UnusedBytesUnseen {
            let used = 4 + 16 * records.len();
            made[used..SUMS].copy_from_slice(&bytes[used..SUMS]);
        }
        let judged = if self == Mistake::UpperSumUnseen { SUMS..SUMS + 8 } else { SUMS..SUMS + 16 };
        let kept = bytes[3] != 1 || self == Mistake::SumsTrusted || made[judged.clone()] == bytes[judged];
        if bytes[3] == 1 || self == Mistake::OldSumsUnseen {
            made[SUMS..SUMS + 16].copy_from_slice(&bytes[SUMS..SUMS + 16]);
        }
        let layout = bytes[3] <= 1 && made[..SUMMED] == bytes[..SUMMED] && number(number_of(bytes)) && !records.iter().any(beyond);
        match (sums, layout) {
            (true, true) if kept => Ok(records),
            (true, true) => Err(22),
            (false, false) if self == Mistake::LayoutBeforeSum => Err(15),
            (true, false) if self == Mistake::SumsBeforeLayout && !kept => Err(22),
            (false, _) => Err(14),
            (true, false) => Err(15),
        }
    }

    fn begin(self, number: u32, layout: u32, length: usize) -> Result<Vec<u8>, u32> {
        if number >= BLOCKS as u32 || length != BYTES {
            return Err(13);
        }
        match layout {
            0 | 1 => Ok(block(number as u16, layout as u8, &[])),
            _ => Err(15),
        }
    }

    fn add(self, record: Record, bytes: &[u8]) -> Result<Vec<u8>, u32> {
        if self == Mistake::FullBeforeLayout && bytes.len() == BYTES && bytes[2] as usize == RECORDS {
            return Err(13);
        }
        let mut records = self.judge(bytes, |number| (number as usize) < BLOCKS)?;
        if records.len() == RECORDS {
            return Err(13);
        }
        if beyond(&record) {
            return Err(2);
        }
        let at = if self == Mistake::RecordInFront { 0 } else { records.len() };
        let before = totals(&records);
        records.insert(at, record);
        let mut made = block(number_of(bytes), bytes[3], &records);
        if self == Mistake::SumsOfRecordsBefore && bytes[3] == 1 {
            put_sums(&mut made, before);
            seal(&mut made);
        }
        Ok(made)
    }

    /// The number and the place of a refusal, or the records of all blocks.
    fn records(self, file: &[u8]) -> Result<Vec<Record>, (u32, usize)> {
        let mut records = Vec::new();
        let most = if self == Mistake::OneBlockMore { BLOCKS + 1 } else { BLOCKS };
        for (place, bytes) in file.chunks(BYTES).enumerate() {
            if place == most {
                return Err((13, place));
            }
            let shown = if self == Mistake::PlacesFromOne { place + 1 } else { place };
            records.extend(self.judge(bytes, |number| number as usize == place).map_err(|cause| (cause, shown))?);
        }
        Ok(records)
    }

    fn report(self, file: &[u8]) -> (u32, String) {
        let text = |end: i64| format!("{}{}.{:03}", if end < 0 { "-" } else { "" }, end.abs() / 1000, end.abs() % 1000);
        match self.records(file) {
            Err((cause, place)) => (cause, format!("R {cause} {place}\n")),
            Ok(records) => {
                let [lower, upper] = totals(&records);
                if self == Mistake::TotalHeldToRange && lower.abs().max(upper.abs()) > GREATEST {
                    return (4, "R 4\n".to_string());
                }
                (0, format!("{} [{},{}]\n", records.len(), text(lower), text(upper)))
            }
        }
    }
}

// ---- inputs

fn end(r: &mut Random) -> i32 {
    match r.below(20) {
        0 => r.one_of(&[GREATEST + 1, -GREATEST - 1, i32::MAX as i64, i32::MIN as i64]) as i32,
        1..=4 => r.one_of(&[0, 1, -1, GREATEST, -GREATEST]) as i32,
        _ => r.between(-GREATEST, GREATEST) as i32,
    }
}

fn record(r: &mut Random) -> Record {
    Record { case: r.next() as u32, line: r.next() as u32, lower: end(r), upper: end(r) }
}

/// One whose ends are in the range.
fn sound_record(r: &mut Random) -> Record {
    loop {
        let made = record(r);
        if !beyond(&made) {
            return made;
        }
    }
}

fn sound_block(number: u16, r: &mut Random) -> Vec<u8> {
    let count = if r.percent(40) { r.one_of(&[0, 1, 29, 30]) } else { r.index(RECORDS + 1) };
    let records: Vec<Record> = (0..count).map(|_| sound_record(r)).collect();
    block(number, r.below(2) as u8, &records)
}

/// A block with a byte, a field or its sum changed, and its sum mostly made good; sometimes some bytes less or more.
fn damage(bytes: &mut Vec<u8>, r: &mut Random) {
    let at = match r.below(4) {
        0 => r.index(4),
        1 => 4 + 16 * (bytes[2] as usize).min(RECORDS) + r.index(8),
        2 => SUMMED - 1 - r.index(24),
        _ => r.index(BYTES),
    };
    match r.below(6) {
        0 => bytes[at] ^= 1 << r.below(8),
        1 => bytes[2] = r.index(256) as u8,
        2 => {
            let slot = 4 + 16 * r.index(RECORDS) + r.one_of(&[8, 12]);
            bytes[slot..slot + 4].copy_from_slice(&end(r).to_le_bytes());
        }
        _ => bytes[at] = r.next() as u8,
    }
    if r.percent(70) {
        seal(bytes);
    }
    if r.percent(5) {
        let length = r.one_of(&[0, 1, 4, 507, 508, 511, 513, 600]);
        bytes.resize(length, 0);
    }
}

fn lent(r: &mut Random) -> Vec<u8> {
    let number = if r.percent(5) { r.one_of(&[100, 101, 256, 355, u16::MAX]) } else { r.index(BLOCKS) as u16 };
    let mut bytes = sound_block(number, r);
    if r.percent(60) {
        damage(&mut bytes, r);
    }
    bytes
}

fn file(r: &mut Random) -> Vec<u8> {
    let blocks = if r.percent(20) { r.one_of(&[0, 1, 99, 100, 101, 102]) } else { r.index(8) };
    let mut blocks: Vec<Vec<u8>> = (0..blocks).map(|place| sound_block(place as u16, r)).collect();
    for _ in 0..r.index(3) {
        if !blocks.is_empty() {
            let place = r.index(blocks.len());
            let bytes = &mut blocks[place];
            damage(bytes, r);
            bytes.resize(BYTES, 0);
        }
    }
    let mut file = blocks.concat();
    if r.percent(30) {
        file.truncate(file.len().saturating_sub(r.index(BYTES)));
    }
    file
}

// ---- comparisons

/// How often each cause came; 0 is a result.
type Causes = BTreeMap<u32, u64>;

/// The returned number and every byte behind a call, with the margins around what was lent.
fn compare_call(given: &[u8], expected: &Result<Vec<u8>, u32>, call: impl FnOnce(&mut [u8]) -> u32) -> Result<u32, String> {
    let with_margins = |bytes: &[u8]| [&[0xa5; MARGIN][..], bytes, &[0xa5; MARGIN]].concat();
    let mut memory = with_margins(given);
    let returned = call(&mut memory[MARGIN..MARGIN + given.len()]);
    let (number, left) = match expected {
        Ok(bytes) => (0, with_margins(bytes)),
        Err(cause) => (*cause, with_margins(given)),
    };
    if returned == number && memory == left {
        return Ok(number);
    }
    let at = memory.iter().zip(&left).position(|(x, y)| x != y).map(|at| at as i64 - MARGIN as i64);
    Err(format!("returns {returned} for {number}, and the first byte that differs is {at:?}"))
}

fn compare_begin(reading: Mistake, count: u64, r: &mut Random) -> Result<Causes, String> {
    let mut causes = Causes::new();
    for _ in 0..count {
        let number = if r.percent(80) { r.below(120) as u32 } else { r.next() as u32 };
        let length = if r.percent(80) { BYTES } else { r.index(600) };
        let layout = if r.percent(80) { r.below(2) as u32 } else { r.one_of(&[2, 3, 255, 256, 257, u32::MAX]) };
        let given: Vec<u8> = (0..length).map(|_| r.next() as u8).collect();
        let cause = compare_call(&given, &reading.begin(number, layout, length), |bytes| library::begin_block(number, layout, bytes))
            .map_err(|message| format!("dzb_begin_block {number}, {layout}, {length} bytes: {message}"))?;
        *causes.entry(cause).or_default() += 1;
    }
    Ok(causes)
}

fn compare_add(reading: Mistake, count: u64, r: &mut Random) -> Result<Causes, String> {
    let mut causes = Causes::new();
    for _ in 0..count {
        let (record, given) = (record(r), lent(r));
        let ends = (record.lower, record.upper);
        let cause = compare_call(&given, &reading.add(record, &given), |bytes| {
            library::add_record(record.case, record.line, ends, bytes)
        })
        .map_err(|message| format!("dzb_add_record {record:?} to {given:02x?}: {message}"))?;
        *causes.entry(cause).or_default() += 1;
    }
    Ok(causes)
}

/// From a begun block on, record by record: 30 of them, and a 31st refused.
fn compare_days(count: u64, r: &mut Random) -> Result<(), String> {
    for _ in 0..count {
        let (number, layout) = (r.index(BLOCKS) as u16, r.below(2) as u8);
        let records: Vec<Record> = (0..RECORDS + 1).map(|_| sound_record(r)).collect();
        let mut bytes = vec![0xff; BYTES];
        let mut returned = vec![library::begin_block(number as u32, layout as u32, &mut bytes)];
        for record in &records {
            returned.push(library::add_record(record.case, record.line, (record.lower, record.upper), &mut bytes));
        }
        let sound = returned[..RECORDS + 1].iter().all(|n| *n == 0) && returned[RECORDS + 1] == 13;
        if !sound || bytes != block(number, layout, &records[..RECORDS]) {
            return Err(format!("block {number} of layout {layout}, {records:?}: {returned:?}, left {bytes:02x?}"));
        }
    }
    Ok(())
}

fn compare_reports(path: &str, reading: Mistake, count: u64, r: &mut Random) -> Result<Causes, String> {
    let mut causes = Causes::new();
    for _ in 0..count {
        let file = file(r);
        let (cause, expected) = reading.report(&file);
        let printed = program::run(path, &file, r)?;
        if printed != expected.as_bytes() {
            let printed = printed.escape_ascii();
            return Err(format!("the report program on {} bytes: \"{printed}\", the paper: {expected:?}", file.len()));
        }
        *causes.entry(cause).or_default() += 1;
    }
    Ok(causes)
}

/// Every cause that the paper names has to have come, and no other.
fn all_came(name: &str, causes: &Causes, expected: &[u32]) -> Result<String, String> {
    if !causes.keys().eq(expected) {
        return Err(format!("{name} came to the causes {causes:?}, and the paper names {expected:?}"));
    }
    let told: Vec<String> = causes.iter().map(|(cause, n)| format!("R {cause}: {n}").replace("R 0", "done")).collect();
    Ok(format!("{name}: {}", told.join(", ")))
}

fn noticed<T>(mistake: Mistake, compared: Result<T, String>) -> Result<String, String> {
    match compared {
        Ok(_) => Err(format!("the mistake {mistake:?} is not noticed")),
        Err(_) => Ok(format!("{mistake:?}")),
    }
}

pub fn compare(report: Option<&str>, seed: u64) -> Result<String, String> {
    let mut r = Random::for_block(seed, u64::MAX - 1);
    let mut told = vec![
        all_came("dzb_begin_block", &compare_begin(Mistake::None, 20_000, &mut r)?, &[0, 13, 15])?,
        all_came("dzb_add_record", &compare_add(Mistake::None, 1_000_000, &mut r)?, &[0, 2, 13, 14, 15, 22])?,
    ];
    compare_days(2_000, &mut r)?;
    told.push("2000 blocks begun and filled, a 31st record refused".to_string());
    let mut mistakes = Vec::new();
    for mistake in OF_ADDING {
        mistakes.push(noticed(mistake, compare_add(mistake, 100_000, &mut r))?);
    }
    if let Some(path) = report {
        let causes = compare_reports(path, Mistake::None, 1_000, &mut r)?;
        told.push(all_came("the report program", &causes, &[0, 13, 14, 15, 22])?);
        for mistake in OF_REPORTS {
            mistakes.push(noticed(mistake, compare_reports(path, mistake, 1_000, &mut r))?);
        }
    }
    told.push(format!("day-file mistakes made by the reference and found: {}", mistakes.join(", ")));
    Ok(told.join("\n"))
}
