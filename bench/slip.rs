// The slip's job in plain, careful Rust: an independent reading of document 01 with Q-2's form of an end, standard library only. It is one of
// the benchmark's yardsticks and no part of the product.
use std::io::{self, BufRead, BufReader, BufWriter, Write};

const LEAST: i64 = -2_000_000_000;
const GREATEST: i64 = 2_000_000_000;

#[derive(Clone, Copy)]
struct Pair {
    lower: i64,
    upper: i64,
}

fn is_outside(end: i64) -> bool {
    end < LEAST || end > GREATEST
}

// An end at the front of the text, and what follows it.
fn read_end(text: &[u8]) -> Option<(i64, &[u8])> {
    let (minus, text) = match text.split_first() {
        Some((b'-', rest)) => (true, rest),
        _ => (false, text),
    };
    let mut value: i64 = 0;
    let mut count = 0;
    while count < text.len() && text[count].is_ascii_digit() {
        if count == 7 {
            return None;
        }
        value = value * 10 + (text[count] - b'0') as i64;
        count += 1;
    }
    if count == 0 || (count > 1 && text[0] == b'0') {
        return None;
    }
    let mut text = &text[count..];
    let mut places = 0;
    if let Some((b'.', part)) = text.split_first() {
        while places < 3 && places < part.len() && part[places].is_ascii_digit() {
            value = value * 10 + (part[places] - b'0') as i64;
            places += 1;
        }
        if places == 0 {
            return None;
        }
        text = &part[places..];
    }
    for _ in places..3 {
        value *= 10;
    }
    if minus && value == 0 {
        return None;
    }
    Some((if minus { -value } else { value }, text))
}

fn read_form(text: &[u8]) -> Option<Pair> {
    let (lower, rest) = read_end(text.strip_prefix(b"[")?)?;
    let (upper, rest) = read_end(rest.strip_prefix(b",")?)?;
    if rest != b"]" {
        return None;
    }
    Some(Pair { lower, upper })
}

fn read_pair(text: &[u8]) -> Result<Pair, u8> {
    let pair = read_form(text).ok_or(1)?;
    if is_outside(pair.lower) || is_outside(pair.upper) {
        return Err(2);
    }
    Ok(pair)
}

fn sign(a: Pair) -> i64 {
    if a.lower > 0 && a.upper > 0 {
        1
    } else if a.lower < 0 && a.upper < 0 {
        -1
    } else {
        0
    }
}

fn is_proper(a: Pair) -> bool {
    a.lower <= a.upper
}

fn end(a: Pair, positive: bool) -> i64 {
    if positive { a.upper } else { a.lower }
}

fn dual(a: Pair) -> Pair {
    Pair { lower: a.upper, upper: a.lower }
}

// The exact product, in millionths.
fn product(a: Pair, b: Pair) -> Pair {
    match (sign(a), sign(b)) {
        (0, 0) => {
            if is_proper(a) != is_proper(b) {
                return Pair { lower: 0, upper: 0 };
            }
            let small = (a.lower * b.upper).min(a.upper * b.lower);
            let large = (a.lower * b.lower).max(a.upper * b.upper);
            if is_proper(a) {
                Pair { lower: small, upper: large }
            } else {
                Pair { lower: large, upper: small }
            }
        }
        (0, _) => product(b, a),
        (s, 0) => {
            let factor = end(a, (s > 0) == is_proper(b));
            Pair { lower: factor * end(b, s < 0), upper: factor * end(b, s > 0) }
        }
        (s, r) => Pair { lower: end(a, r < 0) * end(b, s < 0), upper: end(a, r > 0) * end(b, s > 0) },
    }
}

fn floor(n: i64, d: i64) -> i64 {
    n.div_euclid(d) // d is above 0
}

fn ceiling(n: i64, d: i64) -> i64 {
    -(-n).div_euclid(d)
}

fn rounded(low: (i64, i64), high: (i64, i64), outward: bool) -> Result<Pair, u8> {
    let pair = if outward {
        Pair { lower: floor(low.0, low.1), upper: ceiling(high.0, high.1) }
    } else {
        Pair { lower: ceiling(low.0, low.1), upper: floor(high.0, high.1) }
    };
    if is_outside(pair.lower) || is_outside(pair.upper) {
        return Err(4);
    }
    Ok(pair)
}

// n thousandths over d thousandths, as a fraction of thousandths with a denominator above 0.
fn fraction(n: i64, d: i64) -> (i64, i64) {
    if d < 0 { (-n * 1000, -d) } else { (n * 1000, d) }
}

// a times [1/b+, 1/b-], b zero-free: each end of the product picks an end of a and the end of b of the other index.
fn quotient(a: Pair, b: Pair, outward: bool) -> Result<Pair, u8> {
    let r = sign(b);
    if r == 0 {
        return Err(5);
    }
    let (low, high) = match sign(a) {
        0 => {
            let divisor = end(b, (r > 0) != is_proper(a));
            (fraction(end(a, r < 0), divisor), fraction(end(a, r > 0), divisor))
        }
        s => (fraction(end(a, r < 0), end(b, s > 0)), fraction(end(a, r > 0), end(b, s < 0))),
    };
    rounded(low, high, outward)
}

fn difference(a: Pair, b: Pair) -> Pair {
    Pair { lower: a.lower - b.upper, upper: a.upper - b.lower }
}

// 02, Q-7: of a c that holds zero, the end that decides; 16 if no pair of fractions solves c times x = d, 17 if more than one does.
fn deciding(c: Pair, d: Pair) -> Result<i64, u8> {
    if !is_proper(c) {
        return deciding(dual(c), dual(d));
    }
    let (far, near) = if -c.lower > c.upper { (c.lower, c.upper) } else { (c.upper, c.lower) };
    let (m, n, above, below) = (far.abs(), near.abs(), d.upper, -d.lower);
    if above < 0 || below < 0 || m * above < n * below || m * below < n * above || (m == 0 && above + below > 0) {
        return Err(16);
    }
    if m * above == n * below || m * below == n * above { Err(17) } else { Ok(far) }
}

fn equation(a: Pair, c: Pair, b: Pair, outward: bool) -> Result<Pair, u8> {
    let d = difference(b, dual(a));
    if sign(c) == 0 {
        let end = deciding(c, d)?;
        return quotient(d, Pair { lower: end, upper: end }, outward);
    }
    quotient(d, dual(c), outward)
}

fn answer(line: &[u8]) -> Result<Pair, u8> {
    if line.len() > 96 {
        return Err(12);
    }
    let mut fields: [&[u8]; 5] = [&[]; 5];
    let mut count = 0;
    for field in line.split(|&b| b == b' ') {
        if count < 5 {
            fields[count] = field;
        }
        count += 1;
    }
    if count < 2 {
        return Err(12);
    }
    let outward = match fields[0] {
        b"O" => true,
        b"I" => false,
        _ => return Err(6),
    };
    let pairs = match fields[1] {
        b"A" | b"S" | b"M" | b"D" => 2,
        b"E" => 3,
        _ => return Err(6),
    };
    if count != 2 + pairs {
        return Err(12);
    }
    let a = read_pair(fields[2])?;
    let b = read_pair(fields[3])?;
    match fields[1] {
        b"A" => rounded((a.lower + b.lower, 1), (a.upper + b.upper, 1), outward),
        b"S" => {
            let d = difference(a, b);
            rounded((d.lower, 1), (d.upper, 1), outward)
        }
        b"M" => {
            let p = product(a, b);
            rounded((p.lower, 1000), (p.upper, 1000), outward)
        }
        b"D" => quotient(a, b, outward),
        _ => {
            let third = read_pair(fields[4])?;
            equation(a, b, third, outward)
        }
    }
}

fn put_number(mut n: u64, out: &mut Vec<u8>) {
    let mut digits = [0u8; 20];
    let mut at = 20;
    loop {
        at -= 1;
        digits[at] = b'0' + (n % 10) as u8;
        n /= 10;
        if n == 0 {
            break;
        }
    }
    out.extend_from_slice(&digits[at..]);
}

fn put_end(end: i64, out: &mut Vec<u8>) {
    if end < 0 {
        out.push(b'-');
    }
    let size = end.unsigned_abs();
    put_number(size / 1000, out);
    let part = size % 1000;
    out.extend_from_slice(&[b'.', b'0' + (part / 100) as u8, b'0' + (part / 10 % 10) as u8, b'0' + (part % 10) as u8]);
}

fn main() -> io::Result<()> {
    let mut input = BufReader::new(io::stdin().lock());
    let mut output = BufWriter::new(io::stdout().lock());
    let mut line = Vec::new();
    let mut out = Vec::new();
    for number in 1..=999_999 {
        line.clear();
        if input.read_until(b'\n', &mut line)? == 0 {
            break;
        }
        if line.last() == Some(&b'\n') {
            line.pop();
        }
        out.clear();
        put_number(number, &mut out);
        out.push(b' ');
        match answer(&line) {
            Ok(pair) => {
                out.push(b'[');
                put_end(pair.lower, &mut out);
                out.push(b',');
                put_end(pair.upper, &mut out);
                out.push(b']');
            }
            Err(cause) => {
                out.extend_from_slice(b"R ");
                put_number(cause as u64, &mut out);
            }
        }
        out.push(b'\n');
        output.write_all(&out)?;
    }
    output.flush()
}
