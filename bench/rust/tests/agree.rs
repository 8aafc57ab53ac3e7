//! The fast account against compare/reference, whose ledger keeps the list L and reads all off it: what `prepay` and `summary` print for
//! random texts, and single posts and rows. TEXTS in the environment: how many texts of each of five makings (default 20,000).

use fast::account::*;
use fast::mix::{self, Rng};
use fast::text;
use reference::calendar::Date;
use reference::ledger::{self, Book, Ledger};
use std::sync::atomic::{AtomicU64, Ordering::Relaxed};

fn texts() -> u64 {
    std::env::var("TEXTS").ok().map_or(20_000, |s| s.parse().expect("TEXTS"))
}

fn pick<T: Copy>(r: &mut Rng, of: &[T]) -> T {
    of[r.below(of.len() as u32) as usize]
}

fn some_terms(r: &mut Rng) -> Terms {
    let connect = pick(r, &[0, 1, 1_000, 5_000, 7_500]);
    Terms {
        year: pick(r, &[2000, 2023, 2024, 2096, 2099]),
        month: r.range(1, 12),
        day: r.range(1, 28),
        price: pick(r, &[1, 40, 1_250, 99_999]),
        connect,
        cutoff: pick(r, &[0, 1, 500, 1_000]).min(connect),
        share: pick(r, &[0, 1, 33, 50]),
    }
}

/// Now and then a limit, or beyond it.
fn wild_terms(r: &mut Rng) -> Terms {
    let mut t = some_terms(r);
    match r.below(12) {
        0 => t.year = pick(r, &[1999, 2100, 0, 9999]),
        1 => t.month = pick(r, &[0, 2, 13, 99]),
        2 => t.day = pick(r, &[0, 29, 30, 31, 32, 99]),
        3 => t.price = pick(r, &[0, 99_999, 100_000, u32::MAX]),
        4 => t.connect = pick(r, &[7_500, 7_501]),
        5 => t.cutoff = pick(r, &[1_000, 1_001]),
        6 => t.share = pick(r, &[50, 51]),
        _ => {}
    }
    t
}

/// Any sort, fields at and over their limits.
fn wild_event(r: &mut Rng, day: &mut u32) -> Event {
    if r.below(6) == 0 {
        *day = (*day + pick(r, &[1, 1, 1, 2, 3, 7])).min(399);
    }
    let x = match r.below(40) {
        0 => day.saturating_sub(1),
        1 if r.below(100) == 0 => pick(r, &[398, 399]),
        1 => pick(r, &[400, 401, u32::MAX]),
        _ => *day,
    };
    let amount = match r.below(20) {
        0 => pick(r, &[0, 1, 9_999_999, 10_000_000, 10_000_001, u32::MAX]),
        1 => 10_000_000,
        _ => r.range(1, 9_000),
    };
    let numbers = pick(r, &[4, 20, 140]);
    let near = |r: &mut Rng| (x.min(500) + r.below(12)).saturating_sub(4);
    Event {
        sort: r.range(1, 11),
        day: x,
        amount,
        number: r.below(numbers),
        kind: match r.below(12) {
            0 => pick(r, &[0, 4, 6, 257, u32::MAX]),
            _ => r.range(1, 3),
        },
        usage: match r.below(8) {
            0 => r.below(402),
            _ => near(r).saturating_sub(3),
        },
        wh: pick(r, &[0, 39, 40, 30_000, 9_999_999, 10_000_000, amount]),
        from: near(r),
        to: match r.below(8) {
            0 => pick(r, &[398, 399, 400]),
            _ => near(r) + 3,
        },
    }
}

fn wild_text(r: &mut Rng, most: u32) -> Vec<u8> {
    let mut out = Vec::new();
    text::write_terms(&mut out, &wild_terms(r));
    let mut day = pick(r, &[0, 0, 50, 390]);
    if r.below(5) == 0 {
        // A plan on the edge.
        let amount = pick(r, &[4_999, 5_000, 5_001, 1]);
        let kind = r.range(1, 2);
        for e in [Event { sort: MARK, from: day, to: day, ..Event::default() }, Event { sort: CHARGE, amount, ..Event::default() }] {
            text::write_event(&mut out, &Event { day, kind: 1, ..e });
        }
        text::write_event(&mut out, &Event { sort: PLAN, day: day + r.below(5), kind, ..Event::default() });
    }
    let payer = r.below(40) == 0;
    for _ in 0..r.below(most) {
        let mut e = wild_event(r, &mut day);
        if payer && r.below(3) > 0 {
            e.sort = PAY;
        }
        text::write_event(&mut out, &e);
    }
    out
}

/// A few bytes changed, taken out or put in, a number's own edges, or the end cut off.
fn damage(r: &mut Rng, out: &mut Vec<u8>) {
    for _ in 0..r.range(1, 3) {
        if out.is_empty() {
            return;
        }
        let at = r.below(out.len() as u32) as usize;
        let byte = pick(r, b"\n\n\n=0019-+ x\r\0daybcemoprw");
        match r.below(6) {
            5 => {
                let Some(start) = out[at..].iter().position(|&b| b == b'=').map(|i| at + i + 1) else { return };
                let end = out[start..].iter().position(|&b| b == b'\n').map_or(out.len(), |i| start + i);
                let numbers: [&[u8]; 8] = [b"4294967295", b"4294967296", b"4294967297", b"42949672950", b"99999999999", b"00", b"01", b""];
                out.splice(start..end, pick(r, &numbers).iter().copied());
            }
            0 => out[at] = byte,
            1 => out.insert(at, byte),
            2 => drop(out.remove(at)),
            3 => out.truncate(at),
            _ => {
                // A whole line twice, or none of it.
                let start = out[..at].iter().rposition(|&b| b == b'\n').map_or(0, |i| i + 1);
                let end = out[at..].iter().position(|&b| b == b'\n').map_or(out.len(), |i| at + i + 1);
                let line = out[start..end].to_vec();
                if r.below(2) == 0 {
                    out.splice(start..start, line);
                } else {
                    out.drain(start..end);
                }
            }
        }
    }
}

/// How often each code was answered.
static CODES: [AtomicU64; 17] = [const { AtomicU64::new(0) }; 17];

fn check(text: &[u8], what: &str) {
    let run = reference::text::run(text);
    match &run {
        reference::text::Run::NoAccount(code) => drop(CODES[*code as usize].fetch_add(1, Relaxed)),
        reference::text::Run::Account { steps, .. } => {
            for s in steps {
                CODES[s.answer.code as usize].fetch_add(1, Relaxed);
            }
        }
    }
    let good = reference::text::print(&run);
    let mut out = vec![0xaa; 700_000.min(1_000 + text.len() * 10)];
    let len = text::transcript(text, &mut out);
    if good.as_bytes() != &out[..len] {
        std::fs::write("/tmp/agree-failed.txt", text).unwrap();
        panic!("{what}: prepay differs, the text is in /tmp/agree-failed.txt");
    }
    assert!(out[len..].iter().skip(128).all(|&b| b == 0xaa));
    let mut pieces = text::Pieces::new(Vec::new());
    text::prepay(text, &mut pieces);
    assert!(pieces.into_inner() == good.as_bytes(), "{what}: in pieces");
    let mut months = Vec::new();
    text::summary(text, &mut months);
    assert!(reference::summary::print(&run).as_bytes() == months, "{what}: summary differs");
}

#[test]
fn worked_example() {
    let mut text = b"open=2024-01-01\nprice=1250\nconnect=5000\ncutoff=1000\nshare=50\n".to_vec();
    text.extend_from_slice(
        b"day=0\ndo=pay\namount=6000\nday=0\ndo=connect\nday=2\ndo=estimate\nusage=1\nwh=30000\nday=3\ndo=read\nusage=1\nwh=32000\n\
          day=3\ndo=warn\nday=3\ndo=charge\nkind=1\namount=4700\nday=3\ndo=disconnect\nday=4\ndo=disconnect\nday=5\ndo=pay\namount=4000\n\
          day=5\ndo=connect\n",
    );
    let good = "n=1 code=0 value=0 balance=6000 plan=0\nn=2 code=0 value=0 balance=6000 plan=0\nn=3 code=0 value=375 balance=5625 plan=0\n\
                n=4 code=0 value=400 balance=5600 plan=0\nn=5 code=0 value=0 balance=5600 plan=0\nn=6 code=0 value=0 balance=900 plan=0\n\
                n=7 code=13 value=0 balance=900 plan=0\nn=8 code=0 value=0 balance=900 plan=0\nn=9 code=0 value=1 balance=4900 plan=0\n\
                n=10 code=12 value=0 balance=4900 plan=0\nsettled=4900 estimates=0\n";
    let mut out = vec![0; 1_000];
    let len = text::transcript(&text, &mut out);
    assert_eq!(std::str::from_utf8(&out[..len]).unwrap(), good);
    check(&text, "worked example");
}

#[test]
fn random_texts() {
    let n = texts();
    let mut bytes = 0;
    for seed in 0..n {
        let r = &mut Rng::new(seed);
        let mixed = |r: &mut Rng, limit: u32| mix::text(r.next(), &some_terms(r), limit as usize).0;
        let limit = r.range(100, 6_000);
        let all = [
            ("mix", mixed(r, limit)),
            ("wild", wild_text(r, 300)),
            ("short wild", wild_text(r, 12)),
            ("damaged mix", {
                let mut t = mixed(r, limit);
                damage(r, &mut t);
                t
            }),
            ("damaged wild", {
                let mut t = wild_text(r, 30);
                damage(r, &mut t);
                t
            }),
        ];
        for (name, text) in all {
            bytes += text.len();
            check(&text, &format!("{name}, seed {seed}"));
        }
    }
    println!("{} texts, {bytes} bytes: prepay and summary agree", 5 * n);
    // Full accounts (4) come in the long texts, 16 in the rows.
    let counts: Vec<u64> = CODES.iter().map(|c| c.load(Relaxed)).collect();
    println!("answers by code 0 to 15: {:?}", &counts[..16]);
    assert!((0..=15).all(|c| c == 4 || counts[c] > 0 || n < 100), "a code never came up");
}

/// Full accounts, whole 65,536 bytes and a byte more.
#[test]
fn long_texts() {
    let n = (texts() / 40).max(1);
    for seed in 0..n {
        let r = &mut Rng::new(seed ^ 0x5555);
        check(&mix::text(r.next(), &some_terms(r), text::MAX_TEXT).0, "long mix");
        // 4,096 warnings and more of all.
        let mut full = Vec::new();
        text::write_terms(&mut full, &some_terms(r));
        for _ in 0..20 {
            text::write_event(&mut full, &Event { day: 3, ..wild_event(r, &mut 3) });
        }
        while full.len() + 14 * 20 < text::MAX_TEXT {
            let warn = Event { sort: WARN, day: 3, ..Event::default() };
            let e = if r.below(100) == 0 { wild_event(r, &mut 3) } else { warn };
            text::write_event(&mut full, &Event { day: 3, ..e });
        }
        check(&full, "full");
        let mut at = full.clone();
        while at.len() < text::MAX_TEXT {
            at.push(b'x');
        }
        at.truncate(text::MAX_TEXT);
        check(&at, "65,536 bytes");
        at.push(b'\n');
        check(&at, "65,537 bytes");
    }
    println!("{} long texts agree", 4 * n);
}

fn as_reference(e: &Event) -> ledger::Event {
    let Event { amount, number, kind, usage, wh, from, to, .. } = *e;
    match e.sort {
        PAY => ledger::Event::Pay { amount },
        REVERSE => ledger::Event::Reverse { number },
        CREDIT => ledger::Event::Credit { amount },
        CHARGE => ledger::Event::Charge { kind, amount },
        ESTIMATE => ledger::Event::Estimate { usage, wh },
        READ => ledger::Event::Read { usage, wh },
        WARN => ledger::Event::Warn,
        MARK => ledger::Event::Mark { kind, from, to },
        PLAN => ledger::Event::Plan { kind },
        DISCONNECT => ledger::Event::Disconnect,
        CONNECT => ledger::Event::Connect,
        _ => unreachable!(),
    }
}

/// Posts and rows against the ledger's step; a sort outside limits is 3, after 2.
#[test]
fn posts_and_rows() {
    let mut posted = 0;
    for seed in 0..texts() / 4 {
        let r = &mut Rng::new(seed ^ 0x7777);
        let t = some_terms(r);
        let open = Date::new(t.year, t.month, t.day);
        let terms = ledger::Terms { open, price: t.price, connect: t.connect, cutoff: t.cutoff, share: t.share };
        let mut l = Ledger::open(terms).unwrap();
        let mut a = Account::open(&t).unwrap();
        let mut by_row = a;
        let mut day = 0;
        let mut row: Vec<Event> = Vec::new();
        let mut good = Vec::new();
        for _ in 0..r.below(400) {
            let mut e = wild_event(r, &mut day);
            let mut answer = l.clone().step(e.day, as_reference(&e));
            if r.below(50) == 0 {
                e.sort = pick(r, &[0, 12, 256 + 1, u32::MAX]);
                answer = ledger::Answer { code: if e.day < l.last_day() || e.day > 399 { 2 } else { 3 }, value: 0 };
            } else {
                l.step(e.day, as_reference(&e));
            }
            let got = a.post(&e);
            assert_eq!((got.code, got.value as i64), (answer.code, answer.value), "{e:?}");
            assert_eq!((a.balance(), a.plan() as i64, a.service()), (l.balance, l.plan, l.service));
            row.push(e);
            good.push(got.code);
            posted += 1;
        }
        assert_eq!((a.settled(), a.estimates() as i64), (l.settled(), l.standing_estimates()));
        let mut codes = vec![99; row.len() + 3];
        if !row.is_empty() {
            assert_eq!(by_row.row(&row, &mut codes[..row.len() - 1]), 16);
            assert!(codes.iter().all(|&c| c == 99));
        }
        assert_eq!(by_row.row(&row, &mut codes), 0);
        assert_eq!(&codes[..row.len()], &good[..]);
        assert!(codes[row.len()..].iter().all(|&c| c == 99));
        assert_eq!((by_row.balance(), by_row.plan(), by_row.settled(), by_row.service()), (a.balance(), a.plan(), a.settled(), a.service()));
    }
    println!("{posted} posts agree");
}
