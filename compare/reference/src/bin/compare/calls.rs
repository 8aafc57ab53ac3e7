//! Lists of calls on one account: openings, single posts, rows, readings, figures;
//! and wrong numbers put into the account in between.
//! Each is made of events as the texts have them, or of arbitrary records, cut into
//! calls; the library under test and the reference get the same.

use crate::cells::{self, Cell};
use crate::generate;
use crate::lent::{guarded_page, guarded_row, Guarded, LEAST_PAGE};
use crate::rng::Rng;
use crate::stats::CallStats;
use reference::calendar::Date;
use reference::head::{self, Figures, Reading};
use reference::ledger::{Answer, Terms};
use reference::numbers::{Numbers, TermCells};
use reference::page;
use reference::rows::{Books, Head, Record};
use reference::summary::{self, Summary};
use reference::text::Reader;
use std::fmt::Write;

#[derive(Clone, Debug, PartialEq, Eq)]
pub enum Call {
    Open(Terms),
    Post(Record),
    /// A row, and how many bytes its lent buffer has.
    Row(Vec<Record>, usize),
    /// The figures of months 0 to 14 and of this one.
    Figures(u32),
    /// A month's page, into a buffer of this length.
    Page(u32, Length),
    /// Not a call: the account's numbers are changed by another hand.
    Set(Vec<(Cell, u64)>),
}

/// So many bytes; or so many more, or fewer, than the page has.
#[derive(Clone, Copy, Debug, PartialEq, Eq)]
pub enum Length {
    Bytes(u32),
    Page(i32),
}

impl Length {
    fn bytes(self, page: &Result<String, u8>) -> usize {
        let page = page.as_ref().map_or(LEAST_PAGE, |p| p.len());
        match self {
            Length::Bytes(n) => n as usize,
            Length::Page(more) => page.saturating_add_signed(more as isize),
        }
    }
}

#[derive(Clone, Debug, PartialEq, Eq)]
pub struct List {
    pub calls: Vec<Call>,
}

/// Where the two sides part.
#[derive(Clone, Debug)]
pub struct Difference {
    pub call: usize,
    pub what: String,
}

// Making lists.

const KINDS: [(&str, u64); 14] = [
    ("steered", 42),
    ("damaged", 15),
    ("pointed", 15),
    ("arbitrary", 16),
    ("random", 10),
    ("payments", 7),
    ("prices", 8),
    ("terms", 7),
    ("pages", 6),
    ("year", 4),
    ("long", 4),
    ("full", 4),
    ("deep", 3),
    ("long random", 3),
];

/// Wrong numbers, and after each lot an event that looks at them.
fn pointed(r: &mut Rng) -> List {
    let mut calls = Vec::new();
    let mut terms = generate::good_terms(r);
    for i in 0..r.pick(&[3, 10, 30, 60]) {
        if i == 0 || r.percent(20) {
            terms = generate::good_terms(r);
            calls.push(Call::Open(terms));
        }
        let x = r.below(400) as u32;
        if r.percent(30) {
            let month = generate::month(r, &terms, x);
            calls.push(Call::Set(cells::of_page(r, &terms, month)));
            for _ in 0..r.range(1, 3) {
                calls.push(Call::Page(month, buffer_of_page(r)));
            }
            if r.percent(50) {
                calls.push(Call::Figures(generate::far_month(r)));
            }
            continue;
        }
        let (cells, record) = cells::pointed(r, &terms, x);
        calls.push(Call::Set(cells));
        calls.push(if r.percent(80) { Call::Post(record) } else { Call::Row(vec![record, near_record(r, x), record], 3) });
        if r.percent(20) {
            calls.push(Call::Figures(generate::far_month(r)));
        }
    }
    calls.push(Call::Figures(generate::far_month(r)));
    calls.push(page_call(r, &terms, &[]));
    List { calls }
}

/// A list and the name of the generator that made it.
pub fn list(r: &mut Rng) -> (List, &'static str) {
    let kind = KINDS[r.weighted(&KINDS.map(|k| k.1))].0;
    if kind == "pointed" {
        return (pointed(r), kind);
    }
    let (terms, mut records) = match kind {
        "arbitrary" => arbitrary(r),
        "damaged" if r.percent(50) => arbitrary(r),
        "terms" => (terms_of_any_size(r), (0..r.below(5)).map(|_| any_record(r, 0)).collect()),
        _ => of_text(&match kind {
            "steered" | "damaged" => generate::guided(r, 3_000, 40),
            "random" => generate::random(r, 1_500),
            "payments" => generate::payments(r),
            "prices" => generate::prices(r),
            "pages" => generate::pages(r),
            "year" => generate::year(r),
            "long" => generate::guided(r, generate::WHOLE, 5_000),
            "full" => generate::full(r),
            "deep" => generate::deep(r),
            _ => generate::random(r, generate::WHOLE),
        }),
    };
    // What stands in the fields that a sort does not name.
    let unnamed = r.below(3);
    for record in &mut records {
        if unnamed > 0 {
            let other = if unnamed == 1 { any_record(r, record.day) } else { near_record(r, record.day) };
            *record = with_unnamed(record, &other);
        }
    }
    // Records of any numbers in between.
    let strange = r.pick(&[0, 0, 1, 5, 25]);
    let mut with_strange = Vec::with_capacity(records.len());
    for record in records {
        if r.percent(strange) {
            with_strange.push(match r.below(5) {
                0 | 1 => any_record(r, record.day),
                2 | 3 => near_record(r, record.day),
                _ => one_overgrown(r, record),
            });
        }
        with_strange.push(record);
    }
    let mut calls = vec![Call::Open(terms)];
    calls.extend(cut(r, &terms, with_strange));
    // Another account in its place.
    if r.percent(3) {
        calls.insert(r.index(calls.len() + 1), Call::Open(generate::good_terms(r)));
    }
    if kind == "damaged" {
        for _ in 0..r.pick(&[1, 1, 2, 3, 10]) {
            let at = r.index(calls.len());
            calls.insert(at, Call::Set(cells::damage(r, &coming(&calls[at..]))));
        }
    }
    (List { calls }, kind)
}

/// The first records of calls.
fn coming(calls: &[Call]) -> Vec<Record> {
    let records = |call: &Call| match call {
        Call::Post(e) => vec![*e],
        Call::Row(row, _) => row.clone(),
        _ => Vec::new(),
    };
    calls.iter().take(8).flat_map(records).take(8).collect()
}

/// The terms and events of a text, as far as it is well formed.
pub fn of_text(text: &[u8]) -> (Terms, Vec<Record>) {
    let mut reader = Reader { rest: text };
    let terms = reader.terms().expect("terms of a text without damage");
    let mut records = Vec::new();
    while !reader.rest.is_empty() {
        let Some((day, event)) = reader.event() else { break };
        records.push(Record::of(day, event));
    }
    (terms, records)
}

fn terms_of_any_size(r: &mut Rng) -> Terms {
    let good = r.percent(50);
    let mut t = if good { generate::good_terms(r) } else { generate::edge_terms(r) };
    for _ in 0..if good { 1 } else { r.below(3) } {
        let field = match r.below(7) {
            0 => &mut t.open.year,
            1 => &mut t.open.month,
            2 => &mut t.open.day,
            3 => &mut t.price,
            4 => &mut t.connect,
            5 => &mut t.cutoff,
            _ => &mut t.share,
        };
        *field = if r.percent(50) { overgrown(r, *field) } else { r.any_u32() };
    }
    t
}

/// A number that is `n` again where fewer bits are kept.
fn overgrown(r: &mut Rng, n: u32) -> u32 {
    n.wrapping_add(r.pick(&[1 << 8, 1 << 16, 3 << 16, 1 << 24, 1 << 31]))
}

/// The record with one field of too many bits.
fn one_overgrown(r: &mut Rng, mut record: Record) -> Record {
    let e = &mut record;
    let fields = [
        &mut e.sort, &mut e.day, &mut e.amount, &mut e.number, &mut e.kind, &mut e.usage, &mut e.wh, &mut e.from, &mut e.to,
    ];
    let field = fields.into_iter().nth(r.index(9)).unwrap();
    *field = overgrown(r, *field);
    record
}

fn any_number(r: &mut Rng) -> u32 {
    match r.below(5) {
        0 => r.pick(&[0, 1, 2, 5, 6, 127, 128, 255, 256, 257, 398, 399, 400, 65_535, 65_536, 1 << 31, u32::MAX - 1, u32::MAX]),
        1 => r.next() as u32,
        _ => r.any_u32(),
    }
}

fn any_sort(r: &mut Rng) -> u32 {
    match r.below(10) {
        0 => r.pick(&[0, 13, 14, 255, 256, 257, 263, 267, 268, 65_536 + 7, (1 << 31) + 3, u32::MAX]),
        1 => r.any_u32(),
        _ => r.range(1, 12) as u32,
    }
}

/// Mostly `x`, seldom a later one that would be accepted: all after it would be 2.
fn some_day(r: &mut Rng, x: u32) -> u32 {
    let n = any_number(r);
    match r.below(10) {
        0 if x < n && n < 400 && r.percent(95) => x.wrapping_sub(1),
        0 => n,
        _ => x,
    }
}

/// Every field any number; the day mostly `x`.
fn any_record(r: &mut Rng, x: u32) -> Record {
    Record {
        sort: any_sort(r),
        day: some_day(r, x),
        amount: any_number(r),
        number: any_number(r),
        kind: any_number(r),
        usage: any_number(r),
        wh: any_number(r),
        from: any_number(r),
        to: any_number(r),
    }
}

/// Every field a number that is good for some sort.
fn near_record(r: &mut Rng, x: u32) -> Record {
    let near = |r: &mut Rng| x.wrapping_add(r.range(-3, 9) as u32);
    Record {
        sort: any_sort(r),
        day: if r.percent(90) { x } else { near(r) },
        amount: if r.percent(90) { r.range(0, 9_000) as u32 } else { r.pick(&[0, 99_999, 100_000, 131_072]) },
        number: r.below(6) as u32,
        kind: r.range(0, 6) as u32,
        usage: near(r),
        wh: r.range(0, 60_000) as u32,
        from: near(r),
        to: near(r),
    }
}

/// `record` with the fields of `other` where its sort names none.
fn with_unnamed(record: &Record, other: &Record) -> Record {
    let &Record { sort, day, amount, number, kind, usage, wh, from, to } = record;
    let other = Record { sort, day, ..*other };
    match sort {
        1 | 3 | 12 => Record { amount, ..other },
        2 => Record { number, ..other },
        4 => Record { kind, amount, ..other },
        5 | 6 => Record { usage, wh, ..other },
        8 => Record { kind, from, to, ..other },
        9 => Record { kind, ..other },
        _ => other,
    }
}

fn arbitrary(r: &mut Rng) -> (Terms, Vec<Record>) {
    let terms = generate::good_terms(r);
    let mut x = if r.percent(10) { 390 } else { r.below(4) as u32 };
    let wild = r.pick(&[5, 30, 70, 100]);
    let mut records = Vec::new();
    for _ in 0..r.pick(&[1, 3, 10, 40, 200, 600]) {
        if r.percent(20) {
            x = (x + r.pick(&[1, 1, 2, 7])).min(399);
        }
        records.push(if r.percent(wild) { any_record(r, x) } else { near_record(r, x) });
    }
    (terms, records)
}

/// Into calls: single posts, rows of all lengths, and calls that change nothing.
fn cut(r: &mut Rng, terms: &Terms, records: Vec<Record>) -> Vec<Call> {
    let most_row = r.pick(&[0, 1, 2, 5, 5, 20, 20, 100, 300, 600, 5_000]);
    let single = r.pick(&[0, 10, 50, 90]);
    let idle = r.pick(&[0, 3, 15, 40]);
    let mut calls = Vec::new();
    let mut rest = &records[..];
    while !rest.is_empty() {
        while r.percent(idle) {
            calls.push(idle_call(r, terms, rest));
        }
        if most_row == 0 || r.percent(single) {
            calls.push(Call::Post(rest[0]));
            rest = &rest[1..];
        } else {
            let count = (r.below(most_row as u64) as usize + 1).min(rest.len());
            let (row, after) = rest.split_at(count);
            calls.push(Call::Row(row.to_vec(), count + longer(r)));
            rest = after;
        }
    }
    if r.percent(50) {
        calls.push(idle_call(r, terms, &records));
    }
    calls.push(Call::Figures(generate::far_month(r)));
    for _ in 0..r.range(1, 3) {
        calls.push(page_call(r, terms, &records));
    }
    calls
}

/// The page of a month, mostly one that holds a record.
fn page_call(r: &mut Rng, terms: &Terms, records: &[Record]) -> Call {
    let record = records.get(r.index(records.len().max(1))).copied().unwrap_or_default();
    let day = if matches!(record.sort, 5 | 6) { record.usage } else { record.day };
    Call::Page(generate::month(r, terms, day), buffer_of_page(r))
}

fn buffer_of_page(r: &mut Rng) -> Length {
    match r.below(10) {
        0..=2 => Length::Page(0),
        3 | 4 => Length::Page(-1),
        5 => Length::Page(r.pick(&[1, 1, 2, 7, 8, 73, 255, 4_096])),
        6 => Length::Page(r.pick(&[-2, -72, -73, -74, -437, -438])),
        7 => Length::Bytes(r.pick(&[0, 0, 1, 72, 73, 365, 437, 438, 439])),
        8 => Length::Bytes(r.below(600) as u32),
        _ => Length::Bytes(r.below(12_000) as u32),
    }
}

fn longer(r: &mut Rng) -> usize {
    match r.below(6) {
        0..=2 => 0,
        3 => 1,
        4 => r.below(20) as usize,
        _ => r.pick(&[7, 8, 15, 63, 64, 255, 256, 1_000, 5_000]),
    }
}

/// A call that changes nothing: refused terms, an empty row, a short buffer, the figures, a page.
fn idle_call(r: &mut Rng, terms: &Terms, rest: &[Record]) -> Call {
    match r.below(11) {
        9 | 10 => page_call(r, terms, &rest[..rest.len().min(20)]),
        0 => Call::Figures(generate::far_month(r)),
        1 | 2 => Call::Row(Vec::new(), longer(r)),
        3 => Call::Open(loop {
            let terms = terms_of_any_size(r);
            if !terms.within_limits() {
                break terms;
            }
        }),
        _ => {
            let most = r.pick(&[1, 2, 10, 300]);
            let count = 1 + r.index(rest.len().clamp(1, most));
            let mut row: Vec<Record> = rest.iter().copied().cycle().take(if rest.is_empty() { 0 } else { count }).collect();
            if row.is_empty() {
                row.push(any_record(r, 0));
            }
            let short = match r.below(4) {
                0 => 0,
                1 => r.index(row.len()),
                _ => row.len() - 1,
            };
            Call::Row(row, short)
        }
    }
}

// Running them.

fn figures(s: &Summary) -> Figures {
    Figures {
        code: s.code as u64,
        kept_count: s.kept_count as u64,
        kept_sum: s.kept_sum as u64,
        reversed_count: s.reversed_count as u64,
        reversed_sum: s.reversed_sum as u64,
        metered_wh: s.metered_wh as u64,
        metered_cost: s.metered_cost as u64,
        estimated_wh: s.estimated_wh as u64,
        estimated_cost: s.estimated_cost as u64,
        charges: s.kinds,
        average: s.average as u64,
        missing: s.missing as u64,
    }
}

/// What a buffer or an account holds beforehand: nothing that a call writes.
const FILLS: [u8; 5] = [0xEE, 0xFF, 0x5A, 0x80, 0x77];

/// The first difference of the two sides, if there is one. The reference works twice: on the account's numbers as they stand, which it
/// changes as it should; and from an opening on, until another hand changes them, on its ledger. A second account gets the same calls, its
/// posts as rows of one event and its rows as posts: its numbers must be the same.
pub fn run(list: &List, account: &mut Guarded<Numbers>, mut stats: Option<&mut CallStats>) -> Option<Difference> {
    let differs = |call: usize, what: String| Some(Difference { call, what });
    let mut books = Books::default();
    account.held = Numbers::filled(FILLS[list.calls.len() % FILLS.len()]);
    let mut second = Guarded::new(account.held);
    let mut damaged = false;
    for (i, call) in list.calls.iter().enumerate() {
        let fill = FILLS[i % FILLS.len()];
        let before = account.held;
        let mut good = before;
        let mut accepted = 0;
        match call {
            Call::Open(terms) => {
                let code = good.open(*terms);
                if books.open(*terms) != code {
                    return differs(i, format!("the reference differs from itself: numbers {code}"));
                }
                let got = head::open(&mut account.held, &TermCells::of(terms));
                if got != code {
                    return differs(i, format!("reference {code}, tested {got}"));
                }
                accepted = (code == 0) as usize;
                if code == 0 {
                    second.held = Numbers::filled(fill);
                    damaged = false;
                }
                head::open(&mut second.held, &TermCells::of(terms));
                if let Some(s) = stats.as_deref_mut() {
                    s.opened[code as usize] += 1;
                }
            }
            Call::Post(record) => {
                let answer = good.post(record);
                if !damaged && books.post(record) != answer {
                    return differs(i, format!("the reference differs from itself: numbers {answer:?}"));
                }
                let got = head::post(&mut account.held, record);
                if (answer.code as u64, answer.value as u64) != (got.code, got.value) {
                    return differs(i, format!("reference {answer:?}, tested {got:?}"));
                }
                accepted = (answer.code == 0) as usize;
                head::row(&mut second.held, &[*record], &mut [fill]);
                if let Some(s) = stats.as_deref_mut() {
                    s.note_event(record, answer.code, false, damaged);
                    if damaged {
                        s.look(&before, record, answer.code);
                    }
                }
            }
            Call::Row(row, buffer) => {
                let (mut codes, mut by_books) = (vec![fill; *buffer], vec![fill; *buffer]);
                let answer = good.row(row, &mut codes);
                // Event by event on the second account: whether a total comes above 2^60 goes by the sums that the library keeps.
                for (k, e) in row.iter().enumerate().filter(|_| answer == 0) {
                    let was = second.held;
                    good = was;
                    let one = good.post(e);
                    let got = head::post(&mut second.held, e);
                    if (one.code as u64, one.value as u64) != (got.code, got.value) {
                        return differs(i, format!("event {} of the row posted singly: reference {one:?}, tested {got:?}", k + 1));
                    }
                    if let Some(what) = cells::difference(&good, &second.held, (one.code == 0) as usize) {
                        return differs(i, format!("event {} of the row posted singly: the account's numbers, {what}", k + 1));
                    }
                    if one.code != 0 && second.held != was {
                        return differs(i, format!("event {} of the row posted singly was refused, but the account has changed", k + 1));
                    }
                    codes[k] = one.code;
                    good = second.held;
                }
                if !damaged && (books.row(row, &mut by_books), by_books) != (answer, codes.clone()) {
                    return differs(i, format!("the reference differs from itself: numbers {answer} {codes:?}"));
                }
                match guarded_row(&mut account.held, row, *buffer, fill) {
                    Err(what) => return differs(i, what),
                    Ok((got, _)) if got != answer => return differs(i, format!("the row's answer: reference {answer}, tested {got}")),
                    Ok((_, got)) => {
                        if let Some(k) = (0..codes.len()).find(|&k| codes[k] != got[k]) {
                            let part = if k < row.len() && answer == 0 { "code" } else { "a byte that must stay" };
                            return differs(i, format!("byte {k} of the buffer, {part}: reference {}, tested {}", codes[k], got[k]));
                        }
                    }
                }
                accepted = if answer == 0 { codes[..row.len()].iter().filter(|&&c| c == 0).count() } else { 0 };
                if let Some(s) = stats.as_deref_mut() {
                    s.note_row(row, *buffer, answer, &codes, damaged);
                }
            }
            Call::Figures(far) => {
                if let Some(s) = stats.as_deref_mut() {
                    s.figures += 1;
                }
                for month in (0..=summary::LAST_MONTH).chain([*far]) {
                    let of_month = summary::summary(&good, month);
                    if !damaged && books.summary(month) != of_month {
                        return differs(i, format!("the reference differs from itself: numbers {of_month:?}"));
                    }
                    let (of_month, got) = (figures(&of_month), head::summary(&account.held, month));
                    if of_month != got {
                        return differs(i, format!("month {month}: reference {of_month:?}, tested {got:?}"));
                    }
                }
                // The numbers themselves are those of the ledger.
                if let (false, Some(ledger)) = (damaged, &books.ledger) {
                    if let Some(what) = cells::difference(&Numbers::of(ledger), &good, 0) {
                        return differs(i, format!("the ledger's numbers, {what}"));
                    }
                }
            }
            Call::Page(month, length) => {
                let page = page::page(&good, *month);
                let buffer = length.bytes(&page);
                let (mut bytes, mut by_books) = (vec![fill; buffer], vec![fill; buffer]);
                let answer = good.page(*month, &mut bytes);
                if !damaged && (books.page(*month, &mut by_books), &by_books) != (answer, &bytes) {
                    return differs(i, format!("the reference differs from itself: numbers {answer:?}"));
                }
                let Answer { code, value } = answer;
                match guarded_page(account, *month, buffer, fill) {
                    Err(what) => return differs(i, what),
                    Ok((got, _)) if (got.code, got.value) != (code as u64, value as u64) => {
                        return differs(i, format!("month {month}, {buffer} bytes: reference {answer:?}, tested {got:?}"));
                    }
                    Ok((_, got)) => {
                        if let Some(k) = (0..buffer).find(|&k| bytes[k] != got[k]) {
                            let part = if (k as i64) < value { "of the page" } else { "that must stay" };
                            return differs(i, format!("month {month}, byte {k} of {buffer}, {part}: reference {}, tested {}", bytes[k], got[k]));
                        }
                    }
                }
                if let Some(s) = stats.as_deref_mut() {
                    s.note_page(&good, *month, &page, buffer, damaged);
                }
            }
            Call::Set(cells) => {
                for &(cell, value) in cells {
                    cell.set(&mut account.held, value);
                    cell.set(&mut second.held, value);
                }
                good = account.held;
                (accepted, damaged) = (1, true);
                if let Some(s) = stats.as_deref_mut() {
                    s.sets += 1;
                    s.set_cells += cells.len() as u64;
                }
            }
        }
        if !(account.guards_stand() && second.guards_stand()) {
            return differs(i, "bytes around the account were written".into());
        }
        if accepted == 0 && account.held != before {
            return differs(i, "nothing was accepted, but the account has changed".into());
        }
        if let Some(what) = cells::difference(&good, &account.held, accepted) {
            return differs(i, format!("the account's numbers, {what}"));
        }
        if account.held != second.held {
            return differs(i, "a second account, posted to in rows where this one was singly and the other way round, has other numbers".into());
        }
        let (by_numbers, got) = (account.held.readings(), head::readings(&account.held));
        if by_numbers != got {
            return differs(i, format!("afterwards: reference {by_numbers:?}, tested {got:?}"));
        }
        if let Some(s) = stats.as_deref_mut() {
            s.readings += 1;
        }
        if let (false, Some(ledger)) = (damaged, &books.ledger) {
            // The two sums are read off the whole list: after each call while it is short.
            let sums = ledger.list.len() < 200 || i % 32 == 0 || i + 1 == list.calls.len();
            let by_ledger = Reading {
                balance: ledger.balance,
                settled: if sums { ledger.settled() } else { got.settled },
                plan: ledger.plan as u64,
                estimates: if sums { ledger.standing_estimates() as u64 } else { got.estimates },
                service: ledger.service as u64,
            };
            if by_ledger != got {
                return differs(i, format!("afterwards: the ledger {by_ledger:?}, tested {got:?}"));
            }
        }
    }
    None
}

// As text, to be kept and run again.

fn write_record(out: &mut String, word: &str, e: &Record) {
    let Record { sort, day, amount, number, kind, usage, wh, from, to } = e;
    writeln!(out, "{word} {sort} {day} {amount} {number} {kind} {usage} {wh} {from} {to}").unwrap();
}

pub fn write(list: &List) -> String {
    let mut out = String::from("# open: year month day price connect cutoff share\n");
    out.push_str("# post, and each event of a row: sort day amount number kind usage wh from to\n");
    out.push_str("# row: its buffer's bytes, its events; figures: one more month; set: how many numbers of the account, their values\n");
    out.push_str("# page: its month, its buffer's bytes; with a sign: how many more than the page has\n");
    for call in &list.calls {
        match call {
            Call::Open(Terms { open: Date { year, month, day }, price, connect, cutoff, share }) => {
                writeln!(out, "open {year} {month} {day} {price} {connect} {cutoff} {share}").unwrap();
            }
            Call::Post(e) => write_record(&mut out, "post", e),
            Call::Row(row, buffer) => {
                writeln!(out, "row {buffer} {}", row.len()).unwrap();
                row.iter().for_each(|e| write_record(&mut out, " ", e));
            }
            Call::Figures(far) => writeln!(out, "figures {far}").unwrap(),
            Call::Page(month, Length::Bytes(n)) => writeln!(out, "page {month} {n}").unwrap(),
            Call::Page(month, Length::Page(more)) => writeln!(out, "page {month} {more:+}").unwrap(),
            Call::Set(cells) => {
                writeln!(out, "set {}", cells.len()).unwrap();
                cells.iter().for_each(|(cell, value)| writeln!(out, "  {} {value}", cell.name()).unwrap());
            }
        }
    }
    out
}

pub fn read(text: &str) -> Option<List> {
    let mut lines = text.lines().filter(|l| !l.starts_with('#')).map(|l| l.split_whitespace().collect::<Vec<&str>>());
    let numbers = |words: &[&str]| words.iter().map(|w| w.parse().ok()).collect::<Option<Vec<u32>>>();
    let record = |words: &[&str]| {
        let n = numbers(words)?;
        let [sort, day, amount, number, kind, usage, wh, from, to] = n[..] else { return None };
        Some(Record { sort, day, amount, number, kind, usage, wh, from, to })
    };
    let mut calls = Vec::new();
    while let Some(words) = lines.next() {
        calls.push(match words[..] {
            ["open", ..] => {
                let [year, month, day, price, connect, cutoff, share] = numbers(&words[1..])?[..] else { return None };
                Call::Open(Terms { open: Date::new(year, month, day), price, connect, cutoff, share })
            }
            ["post", ..] => Call::Post(record(&words[1..])?),
            ["figures", far] => Call::Figures(far.parse().ok()?),
            ["page", month, n] if n.starts_with(['+', '-']) => Call::Page(month.parse().ok()?, Length::Page(n.parse().ok()?)),
            ["page", month, n] => Call::Page(month.parse().ok()?, Length::Bytes(n.parse().ok()?)),
            ["set", count] => {
                let cell = |words: Vec<&str>| match words[..] {
                    [group, index, field, value] => Some((Cell::read(group, index, field)?, value.parse().ok()?)),
                    _ => None,
                };
                Call::Set((0..count.parse().ok()?).map(|_| cell(lines.next()?)).collect::<Option<_>>()?)
            }
            ["row", buffer, count] => {
                let row = (0..count.parse().ok()?).map(|_| record(&lines.next()?)).collect::<Option<_>>()?;
                Call::Row(row, buffer.parse().ok()?)
            }
            _ => return None,
        });
    }
    Some(List { calls })
}

// Making a failing list small.

/// `fails` must hold for `list`; the result is a list for which it holds too.
pub fn shrink(list: &List, mut tries: usize, mut fails: impl FnMut(&List) -> bool) -> List {
    let mut list = list.clone();
    let mut attempt = |list: &mut List, candidate: List| {
        if tries == 0 {
            return false;
        }
        tries -= 1;
        let better = fails(&candidate);
        if better {
            *list = candidate;
        }
        better
    };
    loop {
        let before = write(&list).len();
        // Calls out, runs of them first.
        let mut run = list.calls.len().next_power_of_two();
        while run >= 1 {
            let mut end = list.calls.len();
            while end > 0 {
                let start = end.saturating_sub(run);
                let mut candidate = list.clone();
                candidate.calls.drain(start..end);
                attempt(&mut list, candidate);
                end = start.min(list.calls.len());
            }
            run /= 2;
        }
        // Events out of rows, then rows as single posts.
        for i in (0..list.calls.len()).rev() {
            let Call::Row(row, buffer) = &list.calls[i] else { continue };
            let (mut row, mut buffer) = (row.clone(), *buffer);
            let mut run = row.len().next_power_of_two();
            while run >= 1 {
                let mut end = row.len();
                while end > 0 {
                    let start = end.saturating_sub(run);
                    let mut less = row.clone();
                    less.drain(start..end);
                    // A short buffer stays short by as much, a long one long.
                    let less_buffer = buffer.saturating_sub(end - start);
                    let mut candidate = list.clone();
                    candidate.calls[i] = Call::Row(less.clone(), less_buffer);
                    if attempt(&mut list, candidate) {
                        (row, buffer) = (less, less_buffer);
                    }
                    end = start.min(row.len());
                }
                run /= 2;
            }
            if row.len() <= 20 {
                let mut candidate = list.clone();
                candidate.calls.splice(i..=i, row.iter().map(|&e| Call::Post(e)));
                attempt(&mut list, candidate);
            }
        }
        // Numbers set out.
        for i in 0..list.calls.len() {
            let Call::Set(cells) = &list.calls[i] else { continue };
            let mut cells = cells.clone();
            let mut run = cells.len().next_power_of_two();
            while run >= 1 {
                let mut end = cells.len();
                while end > 0 {
                    let start = end.saturating_sub(run);
                    let mut less = cells.clone();
                    less.drain(start..end);
                    let mut candidate = list.clone();
                    candidate.calls[i] = Call::Set(less.clone());
                    if attempt(&mut list, candidate) {
                        cells = less;
                    }
                    end = start.min(cells.len());
                }
                run /= 2;
            }
        }
        // Numbers: a sort's unnamed fields to 0, the others smaller.
        for i in 0..list.calls.len() {
            let count = match &list.calls[i] {
                Call::Post(_) => 1,
                Call::Row(row, _) => row.len(),
                Call::Open(_) | Call::Figures(_) | Call::Page(..) | Call::Set(_) => 0,
            };
            for k in 0..count.min(40) {
                for field in 1..9 {
                    for new in [0, 1, 2, 5, 10, 100, 1_000] {
                        let mut candidate = list.clone();
                        let e = match &mut candidate.calls[i] {
                            Call::Post(e) => e,
                            Call::Row(row, _) => &mut row[k],
                            Call::Open(_) | Call::Figures(_) | Call::Page(..) | Call::Set(_) => unreachable!(),
                        };
                        let at = [
                            &mut e.sort, &mut e.day, &mut e.amount, &mut e.number, &mut e.kind, &mut e.usage, &mut e.wh,
                            &mut e.from, &mut e.to,
                        ];
                        let at = at.into_iter().nth(field).unwrap();
                        if *at <= new {
                            break;
                        }
                        *at = new;
                        if attempt(&mut list, candidate) {
                            break;
                        }
                    }
                }
            }
        }
        if write(&list).len() >= before {
            return list;
        }
    }
}
