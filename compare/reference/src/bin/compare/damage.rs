//! Damage to a text, at every kind of place.

use crate::generate::{line_starts, pad};
use crate::rng::Rng;
use reference::text::MOST_BYTES;

pub fn damage(r: &mut Rng, mut text: Vec<u8>) -> Vec<u8> {
    for _ in 0..r.pick(&[1, 1, 1, 1, 2, 3]) {
        text = once(r, text);
    }
    text
}

/// Every byte of the text wrong in several ways, taken out and doubled, and
/// every truncation.
pub fn at_every_place(r: &mut Rng, text: &[u8], mut each: impl FnMut(Vec<u8>)) {
    for i in 0..text.len() {
        let old = text[i];
        let digit = if old == b'9' { b'8' } else { b'9' };
        let mut wrong = vec![b'\n', b'\r', b'=', b' ', b'0', digit, b'a', b'-', 0, 0x80, 0xFF, old ^ 0x20, old ^ 0x80, r.pick(BYTES), r.next() as u8];
        wrong.sort();
        wrong.dedup();
        for new in wrong.into_iter().filter(|&new| new != old) {
            let mut t = text.to_vec();
            t[i] = new;
            each(t);
        }
        let mut t = text.to_vec();
        t.remove(i);
        each(t);
        let mut t = text.to_vec();
        t.insert(i, old);
        each(t);
        let mut t = text.to_vec();
        t.insert(i, r.pick(BYTES));
        each(t);
        each(text[..i].to_vec());
    }
}

/// Where a line stands: start, its `=` if any, end without the line feed.
struct Line {
    start: usize,
    equals: Option<usize>,
    end: usize,
}

fn some_line(r: &mut Rng, text: &[u8]) -> Line {
    let starts = line_starts(text);
    // Terms, the last lines and the others alike.
    let i = match r.below(5) {
        0 => r.index(starts.len().min(6)),
        1 => starts.len() - 1 - r.index(starts.len().min(3)),
        _ => r.index(starts.len()),
    };
    let start = starts[i];
    let end = text[start..].iter().position(|&b| b == b'\n').map_or(text.len(), |n| start + n);
    let equals = text[start..end].iter().position(|&b| b == b'=').map(|n| start + n);
    Line { start, equals, end }
}

fn replace(text: &mut Vec<u8>, from: usize, to: usize, with: &[u8]) {
    text.splice(from..to, with.iter().copied());
}

const BYTES: &[u8] = b"\n\n\r=00119/:-+ \t.,\0aAdo_\x0b\x0c\x7f\x80\xff\xb2";

const NUMBERS: &[&str] = &[
    "", "0", "00", "01", "-0", "+0", "-1", "+1", "1", "2", "6", "399", "400", "4294967294", "4294967295", "4294967296",
    "4294967297", "4294967295 ", "04294967295", "42949672950", "9999999999", "10000000000", "8589934592",
    "18446744073709551615", "18446744073709551616", "18446744073709551617", "36893488147419103233",
    "340282366920938463463374607431768211457", "00000000000000000001", "0x1", "1e3", "1_0", "1,0", "1.0", " 1", "1 ",
    "1\t", "1\r", "\u{663}", "one", "NaN", "1=1", "=1", "/", ":", "1/", "1:", "10000000", "10000001", "9999999", "99999", "100000",
];

const WORDS: &[&str] = &[
    "", "Pay", "PAY", "pay ", " pay", "payy", "pa", "pays", "reverse", "revers", "credit", "charge", "estimate", "read",
    "reads", "warn", "warning", "mark", "plan", "disconnect", "disconnec", "connect", "connects", "pay\r", "pay\0", "open",
    "day", "price", "price", "prices", "pric", "Price", "price ", "instalment", "withdraw", "form", "0", "1", "pay=", "pay", "con",
    "dis", "recredit", "c", "estimated",
];

const KEYS: &[&str] = &[
    "open", "price", "connect", "cutoff", "share", "day", "do", "amount", "number", "kind", "usage", "wh", "from", "to",
    "Day", "DO", "d", "da", "days", "day ", " day", "amoun", "amounts", "form", "", "t", "w", "\u{feff}open",
];

const DATES: &[&str] = &[
    "2024-1-01", "2024-01-1", "24-01-01", "2024-02-29", "2023-02-29", "2024-02-30", "2024-13-01", "2024-13-99",
    "0000-00-00", "1999-12-31", "2100-01-01", "2100-02-29", "2099-12-31", "2000-01-01", "9999-12-31", "2024/01/01",
    "20240101", "2024-01-01 ", " 2024-01-01", "2024-01-01T00", "2024-01-0x", "2O24-01-01", "2024-01--1", "02024-01-01",
    "2024-001-01", "-024-01-01", "2024-01-01-", "2024-00-10", "2024-10-00", "2024:01:01", "2024-0/-01", "2024-0:-01",
    "", "-", "2024-01-", "2024-12-32", "2024-11-31", "2024 01 01", "2024-01-01\r", "----------", "+024-01-01",
];

fn once(r: &mut Rng, mut text: Vec<u8>) -> Vec<u8> {
    if text.is_empty() {
        return vec![r.pick(BYTES)];
    }
    let line = some_line(r, &text);
    // A byte of that line, its line feed included.
    let at = (line.start + r.index(line.end - line.start + 1)).min(text.len() - 1);
    match r.below(28) {
        0 => text[at] ^= 1 << r.below(8),
        1 => text[at] = r.next() as u8,
        2 => text[at] = r.pick(BYTES),
        3 => text.insert(at, r.pick(BYTES)),
        4 | 5 => {
            text.remove(at);
        }
        6 => text.insert(line.end, r.pick(b"\r \t0\0=")),
        7 => {
            // Carriage returns before every line feed, or in their place.
            let with: &[u8] = r.pick(&[b"\r\n", b"\r", b"\n\n", b"\n\r"]);
            text = text.iter().flat_map(|&b| if b == b'\n' { with.to_vec() } else { vec![b] }).collect();
        }
        8 => {
            // The final line feed.
            if text.last() == Some(&b'\n') {
                text.pop();
            }
        }
        9 => text.extend_from_slice(r.pick(&[&b"\n"[..], b"\n\n", b" ", b"\0", b"x", b"\r\n", b"day", b"day=", b"day=0", b"day=0\n", b"=\n"])),
        10 => text.insert(line.start, b'\n'),
        11 | 12 | 13 => {
            if let Some(e) = line.equals {
                let with = if &text[line.start..e] == b"open" { r.pick(DATES) } else { r.pick(NUMBERS) };
                replace(&mut text, e + 1, line.end, with.as_bytes());
            }
        }
        14 => {
            // A leading zero or a sign.
            if let Some(e) = line.equals {
                text.insert(e + 1, r.pick(b"000+- 1"));
            }
        }
        15 | 16 => {
            // Another word after some `do=`.
            let dos: Vec<usize> = text.windows(3).enumerate().filter(|(_, w)| w == b"do=").map(|(i, _)| i).collect();
            if !dos.is_empty() {
                let i = r.pick(&dos) + 3;
                let end = text[i..].iter().position(|&b| b == b'\n').map_or(text.len(), |n| i + n);
                let word = r.pick(WORDS);
                replace(&mut text, i, end, word.as_bytes());
            }
        }
        17 | 18 => {
            let key = r.pick(KEYS);
            if let Some(e) = line.equals {
                replace(&mut text, line.start, e, key.as_bytes());
            }
        }
        27 => {
            // The field of a price under the key of an amount, where its record has it, or an amount's under a price's.
            let (from, to) = r.pick(&[
                (&b"do=price\nprice="[..], &b"do=price\namount="[..]),
                (b"do=pay\namount=", b"do=price\namount="),
                (b"do=pay\namount=", b"do=pay\nprice="),
                (b"do=credit\namount=", b"do=price\namount="),
            ]);
            let places: Vec<usize> = text.windows(from.len()).enumerate().filter(|(_, w)| *w == from).map(|(i, _)| i).collect();
            if !places.is_empty() {
                let i = r.pick(&places);
                replace(&mut text, i, i + from.len(), to);
            }
        }
        19 => {
            // A line out.
            let end = (line.end + 1).min(text.len());
            text.drain(line.start..end);
        }
        20 => {
            // A line twice.
            let end = (line.end + 1).min(text.len());
            let copy = text[line.start..end].to_vec();
            replace(&mut text, line.start, line.start, &copy);
        }
        21 => {
            // Two lines change places.
            let other = some_line(r, &text);
            let (a, b) = if line.start < other.start { (line, other) } else { (other, line) };
            if a.start < b.start {
                let first = text[a.start..a.end].to_vec();
                let second = text[b.start..b.end].to_vec();
                replace(&mut text, b.start, b.end, &first);
                replace(&mut text, a.start, a.end, &second);
            }
        }
        22 => text.truncate(r.index(text.len() + 1)),
        23 => text.truncate(line.start),
        24 => {
            // To the limit of length, with events or with anything.
            let target = MOST_BYTES - 1 + r.index(3);
            if r.percent(50) && text.len() + 100 < target {
                pad(r, &mut text, target);
            } else {
                let fill = r.pick(b"\n0x\0");
                text.resize(target, fill);
            }
        }
        25 => match r.below(4) {
            0 => replace(&mut text, 0, 0, b"\xef\xbb\xbf"),
            1 => replace(&mut text, 0, 0, b"\n"),
            2 => {
                let copy = text.clone();
                text.extend_from_slice(&copy);
            }
            _ => {
                text.drain(..at);
            }
        },
        _ => {
            // The `=` of the line.
            if let Some(e) = line.equals {
                match r.below(4) {
                    0 => {
                        text.remove(e);
                    }
                    1 => text.insert(e, b'='),
                    2 => replace(&mut text, e, e + 1, b" = "),
                    _ => text[e] = r.pick(b":- \n"),
                }
            }
        }
    }
    text
}
