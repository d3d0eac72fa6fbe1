// Integer spellings with the answers that Rust gives for them. README.md beside this file says how to run it.
//
// `answer` is the Int case of parser.rs's parse_lit: underscores dropped, the prefix taken, i64::from_str_radix.
use std::io::Write;
use std::num::IntErrorKind;

/// An answer as one byte (a fault's number, or 4, 5, 6 for a value with no sign, `+` or `-`) and a magnitude.
fn answer(spelling: &[u8]) -> (u8, u64) {
    let mut s = match std::str::from_utf8(spelling) {
        Ok(s) => s.to_owned(),
        // No &str has these bytes. Each becomes the character of its number: as little a digit as the byte is, and at the same place.
        Err(_) => spelling.iter().map(|&b| b as char).collect(),
    };
    s.retain(|c| c != '_');
    let base = match s.as_bytes() {
        [b'0', b'x', ..] => 16,
        [b'0', b'o', ..] => 8,
        [b'0', b'b', ..] => 2,
        _ => 10,
    };
    let s = &s[if base == 10 { 0 } else { 2 }..];
    let sign = match s.as_bytes().first() {
        Some(b'+') => 5,
        Some(b'-') => 6,
        _ => 4,
    };
    match i64::from_str_radix(s, base) {
        Ok(value) => (sign, value.unsigned_abs()),
        Err(error) => match error.kind() {
            IntErrorKind::Empty => (0, 0),
            IntErrorKind::InvalidDigit => (1, 0),
            IntErrorKind::PosOverflow => (2, 0),
            IntErrorKind::NegOverflow => (3, 0),
            kind => panic!("{kind:?} for {spelling:?}"),
        },
    }
}

/// A number's digits in a radix.
fn digits(mut n: u128, radix: u128) -> String {
    let mut out = Vec::new();
    loop {
        out.push(char::from_digit((n % radix) as u32, radix as u32).unwrap());
        n /= radix;
        if n == 0 {
            return out.iter().rev().collect();
        }
    }
}

const RADICES: [(&str, u128); 4] = [("", 10), ("0x", 16), ("0o", 8), ("0b", 2)];

fn spellings() -> Vec<Vec<u8>> {
    let mut all: Vec<Vec<u8>> = Vec::new();
    let mut add = |s: &[u8]| all.push(s.to_vec());

    // those that the customer's document and its readers name
    for s in [
        "9223372036854775807", "9223372036854775808", "-9223372036854775808", "-9223372036854775809", "+9223372036854775807",
        "+9223372036854775808", "0x-1", "0_x1", "0_x_1", "_0_x_1_", "0x+_1", "0x_-_1", "+", "-", "0x", "0o", "0b", "0x+", "0x-", "0b-",
        "__", "_", "", "_+", "+_", "-_", "_-_1", "+_1", "1_+", "++1", "--1", "+-1", "-+1", "0x--1", "-0x1", "+0x1", "0X1", "0O1", "0B1",
        "00x1", "0x0x1", "-0", "+0", "0", "00", "0_0", "1_000_000", "1__0", "0b102", "0o78", "0xfg", "0xFF", "0xff", "0xFf", "12a", "1 ", " 1",
        "1.5", "1e5", "1-", "1+1", "\u{e9}", "1\u{e9}", "\u{0663}", "\u{ff11}", "9\u{0}",
    ] {
        add(s.as_bytes());
    }
    // either order of overflow and an invalid digit, and both at the same byte
    for s in [
        "9223372036854775808g", "922337203685477580g8", "9223372036854775807g", "9223372036854775807_g", "92233720368547758070",
        "-9223372036854775809g", "-922337203685477580g9", "-9223372036854775808g", "0x7fffffffffffffffg", "0x8000000000000000g",
        "0x-8000000000000000g", "0x-8000000000000001g", "99999999999999999999999999999999999999g", "g99999999999999999999999999999999999999",
        "0o777777777777777777777_8", "0b2", "0b111111111111111111111111111111111111111111111111111111111111111_2",
    ] {
        add(s.as_bytes());
    }
    // every byte as the only digit, in every radix
    for (prefix, _) in RADICES {
        for b in 0..=255u8 {
            add(&[prefix.as_bytes(), &[b]].concat());
        }
    }
    // numbers about the limits, in every radix, with every sign, with zeros or underscores in front
    for (prefix, radix) in RADICES {
        for sign in ["", "+", "-", "_-_"] {
            for centre in [1u128 << 63, 1 << 64] {
                for n in centre - 1..=centre + 1 {
                    for lead in ["", "000", "_"] {
                        add(format!("{prefix}{sign}{lead}{}", digits(n, radix)).as_bytes());
                    }
                }
            }
        }
    }
    // upper case, and more zeros than any number has digits
    add(b"0x7FFFFFFFFFFFFFFF");
    add(b"0x-8000000000000000");
    add(b"0xDEADbeef");
    for n in [20, 64, 200] {
        add(&[&vec![b'0'; n][..], b"7"].concat());
        add(&[&vec![b'0'; n][..], b"9223372036854775808"].concat());
        add(&[b"0b", &vec![b'0'; n][..], b"2"].concat());
        add(&vec![b'_'; n]);
    }
    // numbers of every length, from a fixed row of them, in either case
    let mut n = 1u64;
    for size in 1..=64 {
        n = n.wrapping_mul(6364136223846793005).wrapping_add(1442695040888963407);
        let (prefix, radix) = RADICES[size % 4];
        let sign = ["", "", "-", "+", "_"][size % 5];
        let spelled = digits((n >> (64 - size)) as u128, radix);
        add(format!("{prefix}{sign}{spelled}").as_bytes());
        add(format!("{prefix}{sign}{}", spelled.to_uppercase()).as_bytes());
    }
    // every spelling of at most three of these bytes
    let bytes = [b'0', b'1', b'x', b'b', b'o', b'_', b'+', b'-', b'g', 0xff];
    for a in bytes {
        add(&[a]);
        for b in bytes {
            add(&[a, b]);
            for c in bytes {
                add(&[a, b, c]);
            }
        }
    }
    all
}

fn main() {
    let as_text = std::env::args().nth(1).as_deref() == Some("text");
    let mut out = std::io::stdout().lock();
    for spelling in spellings() {
        let (kind, magnitude) = answer(&spelling);
        if as_text {
            let said = match kind {
                0 => "empty".to_owned(),
                1 => "invalid digit".to_owned(),
                2 => "too large".to_owned(),
                3 => "too small".to_owned(),
                _ => format!("{}{magnitude}", ["", "+", "-"][kind as usize - 4]),
            };
            writeln!(out, "\"{}\" {said}", spelling.escape_ascii()).unwrap();
        } else {
            out.write_all(&[spelling.len() as u8]).unwrap();
            out.write_all(&spelling).unwrap();
            out.write_all(&[kind]).unwrap();
            out.write_all(&magnitude.to_le_bytes()).unwrap();
        }
    }
}
