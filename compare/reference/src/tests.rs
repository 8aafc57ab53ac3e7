use crate::calendar::*;
use crate::head::END;
use crate::ledger::*;
use crate::numbers::*;
use crate::page;
use crate::rows::*;
use crate::summary;
use crate::text::*;

const TERMS: &str = "open=2024-01-01\nprice=1250\nconnect=5000\ncutoff=1000\nshare=50\n";

const EXAMPLE: &str = "open=2024-01-01\nprice=1250\nconnect=5000\ncutoff=1000\nshare=50\n\
day=0\ndo=pay\namount=6000\n\
day=0\ndo=connect\n\
day=2\ndo=estimate\nusage=1\nwh=30000\n\
day=3\ndo=read\nusage=1\nwh=32000\n\
day=3\ndo=warn\n\
day=3\ndo=charge\nkind=1\namount=4700\n\
day=3\ndo=disconnect\n\
day=4\ndo=disconnect\n\
day=5\ndo=pay\namount=4000\n\
day=5\ndo=connect\n";

const ANSWER: &str = "n=1 code=0 value=0 balance=6000 plan=0
n=2 code=0 value=0 balance=6000 plan=0
n=3 code=0 value=375 balance=5625 plan=0
n=4 code=0 value=400 balance=5600 plan=0
n=5 code=0 value=0 balance=5600 plan=0
n=6 code=0 value=0 balance=900 plan=0
n=7 code=13 value=0 balance=900 plan=0
n=8 code=0 value=0 balance=900 plan=0
n=9 code=0 value=1 balance=4900 plan=0
n=10 code=12 value=0 balance=4900 plan=0
settled=4900 estimates=0
";

fn terms() -> Terms {
    Terms { open: Date::new(2024, 1, 1), price: 1250, connect: 5000, cutoff: 1000, share: 50 }
}

fn ledger() -> Ledger {
    Ledger::open(terms()).unwrap()
}

/// Moves B to `target` by a credit or a charge on day `x`.
fn bring(l: &mut Ledger, x: u32, target: i64) {
    let d = target - l.balance;
    if d > 0 {
        ok(l, x, Event::Credit { amount: d as u32 });
    } else if d < 0 {
        ok(l, x, Event::Charge { kind: 5, amount: -d as u32 });
    }
    assert_eq!(l.balance, target);
}

#[track_caller]
fn ok(l: &mut Ledger, x: u32, e: Event) -> i64 {
    let a = l.step(x, e);
    assert_eq!(a.code, 0);
    a.value
}

#[track_caller]
fn no(l: &mut Ledger, x: u32, e: Event, code: u8) {
    let before = l.clone();
    assert_eq!(l.step(x, e), Answer { code, value: 0 });
    assert_eq!(*l, before);
}

// Worked examples.

#[test]
fn worked_example() {
    assert_eq!(prepay(EXAMPLE.as_bytes()), ANSWER);
}

#[test]
fn worked_example_summary() {
    let out = summary::print(&run(EXAMPLE.as_bytes()));
    let lines: Vec<&str> = out.lines().collect();
    assert_eq!(lines.len(), 15);
    assert_eq!(lines[0], "m=0 code=0 kept_count=2 kept_sum=10000 reversed_count=0 reversed_sum=0 metered_wh=32000 metered_cost=400 estimated_wh=0 estimated_cost=0 kind1=4700 kind2=0 kind3=0 kind4=0 kind5=0 average=15938 missing=0");
    assert_eq!(lines[1], "m=1 code=0 kept_count=0 kept_sum=0 reversed_count=0 reversed_sum=0 metered_wh=0 metered_cost=0 estimated_wh=0 estimated_cost=0 kind1=0 kind2=0 kind3=0 kind4=0 kind5=0 average=0 missing=1");
    // Day 399 is 2025-02-03, month 13.
    assert!(lines[13].starts_with("m=13 code=0 "));
    assert_eq!(lines[14], "m=14 code=3 kept_count=0 kept_sum=0 reversed_count=0 reversed_sum=0 metered_wh=0 metered_cost=0 estimated_wh=0 estimated_cost=0 kind1=0 kind2=0 kind3=0 kind4=0 kind5=0 average=0 missing=0");
}

/// A line of a page, as a person would type it.
fn typed(label: &str, figure: &str) -> String {
    let mut line = [b' '; 72];
    line[..label.len()].copy_from_slice(label.as_bytes());
    line[72 - figure.len()..].copy_from_slice(figure.as_bytes());
    String::from_utf8(line.to_vec()).unwrap() + "\n"
}

#[track_caller]
fn prints(l: &Ledger, m: u32, lines: &[(&str, &str)], kinds: [&str; 3], average: &str) {
    let [three, four, five] = kinds;
    let last = [("Kind 3", three), ("Kind 4", four), ("Kind 5", five), ("Average", average)];
    let page: String = lines.iter().chain(&last).map(|(label, figure)| typed(label, figure)).collect();
    assert_eq!(page::page(l, m).unwrap(), page);
}

fn average(l: &Ledger, m: u32) -> String {
    page::page(l, m).unwrap().lines().last().unwrap().strip_prefix("Average").unwrap()[51..].to_string()
}

#[test]
fn worked_example_page() {
    let Run::Account { ledger, .. } = run(EXAMPLE.as_bytes()) else { panic!() };
    let lines = [("Month 2024-01", ""), ("Paid 2024-01-01", "60.00"), ("Paid 2024-01-06", "40.00"), ("Usage 32000 Wh", "4.00")];
    prints(&ledger, 0, &lines, ["0.00", "0.00", "0.00"], "159.38");
    prints(&ledger, 12, &[("Month 2025-01", ""), ("Usage 0 Wh", "0.00")], ["0.00", "0.00", "0.00"], "");
    assert_eq!(page::page(&ledger, 14), Err(3));
}

#[test]
fn page_of_a_month() {
    // Day 0 is 2023-12-31, day 1 New Year, day 60 2024-02-29, day 61 March 1.
    let mut l = Ledger::open(Terms { open: Date::new(2023, 12, 31), ..terms() }).unwrap();
    ok(&mut l, 0, Event::Pay { amount: 1 });
    for amount in [12_345, 999, 10_000_000] {
        ok(&mut l, 1, Event::Pay { amount });
    }
    ok(&mut l, 31, Event::Reverse { number: 2 });
    ok(&mut l, 31, Event::Pay { amount: 9 });
    ok(&mut l, 31, Event::Charge { kind: 1, amount: 777 });
    ok(&mut l, 31, Event::Charge { kind: 3, amount: 9 });
    ok(&mut l, 31, Event::Charge { kind: 4, amount: 60 });
    ok(&mut l, 31, Event::Charge { kind: 4, amount: 39 });
    ok(&mut l, 32, Event::Charge { kind: 5, amount: 5 });
    ok(&mut l, 32, Event::Read { usage: 31, wh: 32_000 });
    ok(&mut l, 32, Event::Estimate { usage: 30, wh: 30_000 });
    ok(&mut l, 32, Event::Estimate { usage: 0, wh: 40 });
    ok(&mut l, 60, Event::Pay { amount: 6_000 });
    ok(&mut l, 61, Event::Pay { amount: 6_100 });
    prints(&l, 0, &[("Month 2023-12", ""), ("Paid 2023-12-31", "0.01"), ("Usage 40 Wh", "0.01")], ["0.00", "0.00", "0.00"], "25.00");
    let paid = [("Paid 2024-01-01", "123.45"), ("Paid 2024-01-01", "100000.00"), ("Paid 2024-01-31", "0.09")];
    let lines = [&[("Month 2024-01", "")], &paid[..], &[("Usage 62000 Wh", "7.75")]].concat();
    // The average: 775 + 777 cents for 62 kWh.
    prints(&l, 1, &lines, ["0.09", "0.99", "0.00"], "25.03");
    prints(&l, 2, &[("Month 2024-02", ""), ("Paid 2024-02-29", "60.00"), ("Usage 0 Wh", "0.00")], ["0.00", "0.00", "0.05"], "");
    // A reversal is no event of the payment's month, and counts there.
    ok(&mut l, 399, Event::Reverse { number: 5 });
    assert_eq!(page::page(&l, 2).unwrap().len(), 438);
    // Day 399 is 2025-02-02, month 14.
    ok(&mut l, 399, Event::Pay { amount: 100 });
    prints(&l, 14, &[("Month 2025-02", ""), ("Paid 2025-02-02", "1.00"), ("Usage 0 Wh", "0.00")], ["0.00", "0.00", "0.00"], "");
    for m in [15, 16, 24, 256, u32::MAX] {
        assert_eq!(page::page(&l, m), Err(3));
    }
}

#[test]
fn page_average() {
    let mut l = ledger();
    ok(&mut l, 1, Event::Read { usage: 0, wh: 0 });
    ok(&mut l, 1, Event::Charge { kind: 2, amount: 1 });
    assert_eq!(average(&l, 0), " ".repeat(14));
    ok(&mut l, 2, Event::Read { usage: 1, wh: 1 });
    assert_eq!(average(&l, 0), "       1000.00");
    for amount in [[10_000_000; 9].as_slice(), &[9_999_998]].concat() {
        ok(&mut l, 2, Event::Charge { kind: 1, amount });
    }
    assert_eq!(average(&l, 0), "99999999000.00");
    ok(&mut l, 2, Event::Charge { kind: 1, amount: 1 });
    assert_eq!(average(&l, 0), " ".repeat(14));
    // Wh that cost nothing have an average.
    ok(&mut l, 33, Event::Read { usage: 32, wh: 39 });
    assert_eq!(average(&l, 1), "          0.00");
}

#[test]
fn page_in_a_buffer() {
    let mut l = ledger();
    for _ in 0..128 {
        ok(&mut l, 30, Event::Pay { amount: 10 });
    }
    let page = page::page(&l, 0).unwrap();
    assert_eq!((page.len(), page::page(&l, 1).unwrap().len()), (9_782, 438));
    for (m, room, code, value) in [(0, 9_782, 0, 9_782), (0, 9_781, 16, 0), (0, 0, 16, 0), (0, 9_799, 0, 9_782), (14, 0, 3, 0), (14, 9_782, 3, 0)] {
        let mut out = vec![99; room];
        let answer = page::put(&l, m, &mut out);
        assert_eq!(answer, Answer { code, value });
        let written = answer.value as usize;
        assert_eq!(out[..written], page.as_bytes()[..written]);
        assert!(out[written..].iter().all(|&b| b == 99));
    }
}

#[test]
fn page_of_a_text() {
    let of = |text: &str, m| page::print(&run(text.as_bytes()), m);
    assert_eq!(of("", 0), "n=0 code=15 value=0 balance=0 plan=0\n");
    assert_eq!(of(&TERMS.replace("50\n", "51\n"), 15), "n=0 code=1 value=0 balance=0 plan=0\n");
    assert_eq!(of(TERMS, 14), "code=3 value=0\n");
    let broken = format!("{TERMS}day=0\ndo=pay\namount=5\nday=0\ndo=pay\namount=05\n");
    assert_eq!(of(&broken, 0).lines().count(), 7);
    let argument = |args: &[&str]| page::argument(args);
    assert_eq!([argument(&["0"]), argument(&["14"]), argument(&["4294967295"])], [Some(0), Some(14), Some(u32::MAX)]);
    for wrong in [&[][..], &[""], &["00"], &["01"], &["+1"], &["-1"], &["4294967296"], &["1 "], &["one"], &["0", "0"]] {
        assert_eq!(argument(wrong), None);
    }
}

// "Either side of the line".

#[test]
fn line_costs() {
    assert_eq!([39, 40, 30_000, 32_000].map(|wh| cost_at(1_250, wh)), [0, 1, 375, 400]);
    assert_eq!(cost_at(99_999, 9_999_999), 9_999_899);
}

#[test]
fn line_cutoff() {
    for (b, code) in [(1000, 12), (999, 0)] {
        let mut l = ledger();
        ok(&mut l, 0, Event::Credit { amount: 5000 });
        ok(&mut l, 0, Event::Connect);
        ok(&mut l, 0, Event::Warn);
        bring(&mut l, 0, b);
        assert_eq!(l.step(1, Event::Disconnect).code, code);
    }
}

#[test]
fn line_warnings() {
    for (x, code) in [(3, 13), (4, 0), (10, 0), (11, 13)] {
        let mut l = ledger();
        ok(&mut l, 0, Event::Credit { amount: 5000 });
        ok(&mut l, 0, Event::Connect);
        bring(&mut l, 0, 0);
        ok(&mut l, 3, Event::Warn);
        assert_eq!(l.step(x, Event::Disconnect).code, code, "day {x}");
    }
    // A newer warning does not hide an older one.
    let mut l = ledger();
    ok(&mut l, 0, Event::Credit { amount: 5000 });
    ok(&mut l, 0, Event::Connect);
    bring(&mut l, 0, 0);
    ok(&mut l, 3, Event::Warn);
    ok(&mut l, 4, Event::Warn);
    ok(&mut l, 4, Event::Disconnect);
}

#[test]
fn line_plan() {
    let mut l = ledger();
    bring(&mut l, 0, -6000);
    assert_eq!(ok(&mut l, 0, Event::Plan { kind: 2 }), 11_000);
    assert_eq!((l.balance, l.plan), (5000, 11_000));
    ok(&mut l, 0, Event::Pay { amount: 4001 });
    assert_eq!((l.balance, l.plan), (7001, 9000));
    // R is not counted against the cutoff.
    ok(&mut l, 0, Event::Connect);
    ok(&mut l, 0, Event::Warn);
    no(&mut l, 1, Event::Disconnect, 12);
}

#[test]
fn line_weather() {
    for (x, b, code) in [(4, -5000, 0), (7, -5000, 0), (8, -5000, 9), (7, -4999, 9)] {
        let mut l = ledger();
        ok(&mut l, 0, Event::Mark { kind: 1, from: 4, to: 4 });
        bring(&mut l, 0, b);
        assert_eq!(l.step(x, Event::Plan { kind: 1 }).code, code, "day {x} balance {b}");
    }
    // Other marks are no weather.
    let mut l = ledger();
    ok(&mut l, 0, Event::Mark { kind: 2, from: 0, to: 9 });
    ok(&mut l, 0, Event::Mark { kind: 3, from: 0, to: 9 });
    bring(&mut l, 0, -5000);
    no(&mut l, 4, Event::Plan { kind: 1 }, 9);
}

#[test]
fn line_2100() {
    assert_eq!(Date::new(2099, 12, 31).plus(60), Date::new(2100, 3, 1));
}

// Calendar.

#[test]
fn known_weekdays() {
    // 0 is Monday.
    for (y, m, d, w) in [
        (2000, 1, 1, 5),
        (2000, 2, 29, 1),
        (2001, 9, 11, 1),
        (2008, 2, 29, 4),
        (2024, 1, 1, 0),
        (2024, 2, 29, 3),
        (2024, 12, 25, 2),
        (2038, 1, 19, 1),
        (2099, 12, 31, 3),
        (2100, 1, 1, 4),
        (2100, 2, 28, 6),
        (2100, 3, 1, 0),
        (2101, 1, 1, 5),
    ] {
        assert_eq!(Date::new(y, m, d).weekday(), w, "{y}-{m}-{d}");
    }
}

#[test]
fn leap_years() {
    assert!(is_leap(2000) && is_leap(2024) && is_leap(2096));
    assert!(!is_leap(2023) && !is_leap(2100) && !is_leap(2101));
    assert_eq!((2000..2100).filter(|&y| is_leap(y)).count(), 25);
}

#[test]
fn walk_of_the_calendar() {
    let mut date = Date::new(2000, 1, 1);
    let mut number = 0;
    while date < Date::new(2102, 1, 1) {
        assert!(date.exists());
        assert_eq!(date.number(), number);
        let next = date.next();
        assert!(date < next);
        assert_eq!(next.weekday(), (date.weekday() + 1) % 7);
        date = next;
        number += 1;
    }
    // 102 years with 25 leap days.
    assert_eq!(number, 102 * 365 + 25);
    for (y, m, d) in [(2023, 2, 29), (2100, 2, 29), (2024, 2, 30), (2024, 4, 31), (2024, 13, 1), (2024, 0, 1), (2024, 1, 0), (2024, 1, 32)] {
        assert!(!Date::new(y, m, d).exists());
    }
    assert!(Date::new(2024, 2, 29).exists());
}

#[test]
fn month_fourteen() {
    // 2024-01-31 plus 399 days is 2025-03-05, month 14.
    let l = Ledger::open(Terms { open: Date::new(2024, 1, 31), ..terms() }).unwrap();
    assert_eq!(summary::summary(&l, 14).code, 0);
    assert!(summary::summary(&l, 14).missing);
    assert_eq!(summary::summary(&ledger(), 14).code, 3);
    assert_eq!(summary::summary(&ledger(), 15).code, 3);
}

// Rules.

#[test]
fn terms_limits() {
    let t = terms();
    let good = |t: Terms| assert!(t.within_limits(), "{t:?}");
    let bad = |t: Terms| assert!(!t.within_limits(), "{t:?}");
    good(t);
    good(Terms { open: Date::new(2000, 1, 1), ..t });
    good(Terms { open: Date::new(2099, 12, 31), ..t });
    bad(Terms { open: Date::new(1999, 12, 31), ..t });
    bad(Terms { open: Date::new(2100, 1, 1), ..t });
    bad(Terms { open: Date::new(2023, 2, 29), ..t });
    good(Terms { price: 1, ..t });
    bad(Terms { price: 0, ..t });
    good(Terms { price: 99_999, ..t });
    bad(Terms { price: 100_000, ..t });
    good(Terms { connect: 7500, ..t });
    bad(Terms { connect: 7501, ..t });
    good(Terms { connect: 1000, ..t });
    bad(Terms { connect: 999, ..t });
    good(Terms { connect: 0, cutoff: 0, ..t });
    bad(Terms { cutoff: 1001, ..t });
    good(Terms { share: 0, ..t });
    bad(Terms { share: 51, ..t });
}

#[test]
fn reversal_takes_back_its_own_parts() {
    let mut l = ledger();
    bring(&mut l, 0, -6000);
    ok(&mut l, 0, Event::Plan { kind: 2 });
    assert_eq!(ok(&mut l, 0, Event::Pay { amount: 30_000 }), 0);
    assert_eq!((l.balance, l.plan), (24_000, 0));
    ok(&mut l, 0, Event::Reverse { number: 0 });
    assert_eq!((l.balance, l.plan), (5000, 11_000));
    no(&mut l, 0, Event::Reverse { number: 0 }, 6);
    no(&mut l, 0, Event::Reverse { number: 1 }, 6);
    no(&mut l, 0, Event::Reverse { number: u32::MAX }, 6);
    assert_eq!(l.settled(), -6000);
    // R > 0 while no plan can start: 9 comes before 10.
    no(&mut l, 0, Event::Plan { kind: 2 }, 9);
    bring(&mut l, 0, -1);
    no(&mut l, 0, Event::Plan { kind: 2 }, 10);
    // The reversed payment keeps its number.
    assert_eq!(ok(&mut l, 0, Event::Pay { amount: 1 }), 1);
}

#[test]
fn read_replaces_estimate() {
    let mut l = ledger();
    assert_eq!(ok(&mut l, 2, Event::Estimate { usage: 1, wh: 30_000 }), 375);
    assert_eq!((l.settled(), l.standing_estimates(), l.balance), (0, 375, -375));
    no(&mut l, 2, Event::Estimate { usage: 1, wh: 1 }, 8);
    assert_eq!(ok(&mut l, 2, Event::Read { usage: 1, wh: 32_000 }), 400);
    assert_eq!((l.settled(), l.standing_estimates(), l.balance), (-400, 0, -400));
    no(&mut l, 2, Event::Estimate { usage: 1, wh: 1 }, 8);
    no(&mut l, 2, Event::Read { usage: 1, wh: 1 }, 8);
    no(&mut l, 2, Event::Read { usage: 2, wh: 1 }, 7);
    no(&mut l, 2, Event::Read { usage: 400, wh: 1 }, 7);
    no(&mut l, 2, Event::Read { usage: 400, wh: 10_000_000 }, 3);
    ok(&mut l, 399, Event::Read { usage: 398, wh: 9_999_999 });
    no(&mut l, 399, Event::Read { usage: 399, wh: 0 }, 7);
    no(&mut l, 400, Event::Warn, 2);
    no(&mut l, 398, Event::Warn, 2);
}

#[test]
fn marks_and_bars() {
    let mut l = ledger();
    no(&mut l, 5, Event::Mark { kind: 1, from: 4, to: 6 }, 3);
    no(&mut l, 5, Event::Mark { kind: 1, from: 6, to: 5 }, 3);
    no(&mut l, 5, Event::Mark { kind: 0, from: 6, to: 6 }, 3);
    no(&mut l, 5, Event::Mark { kind: 4, from: 6, to: 6 }, 3);
    no(&mut l, 5, Event::Mark { kind: 3, from: 6, to: 400 }, 3);
    ok(&mut l, 0, Event::Mark { kind: 3, from: 398, to: 399 });
    ok(&mut l, 0, Event::Mark { kind: 2, from: 8, to: 9 });
    let barred: Vec<u32> = (0..16).filter(|&k| l.is_barred(k)).collect();
    assert_eq!(barred, [5, 6, 8, 9, 12, 13]);
    // Connect is granted on any day, disconnect is not.
    ok(&mut l, 0, Event::Credit { amount: 5000 });
    ok(&mut l, 5, Event::Connect);
    no(&mut l, 5, Event::Connect, 11);
    ok(&mut l, 5, Event::Warn);
    bring(&mut l, 5, 0);
    no(&mut l, 6, Event::Disconnect, 14);
    ok(&mut l, 7, Event::Disconnect);
    no(&mut l, 7, Event::Disconnect, 11);
    no(&mut l, 7, Event::Connect, 12);
}

#[test]
fn full() {
    let mut l = ledger();
    for i in 0..128 {
        assert_eq!(ok(&mut l, 0, Event::Pay { amount: 1 }), i);
    }
    no(&mut l, 0, Event::Pay { amount: 1 }, 5);
    no(&mut l, 0, Event::Pay { amount: 0 }, 3);
    ok(&mut l, 0, Event::Reverse { number: 127 });
    no(&mut l, 0, Event::Pay { amount: 1 }, 5);
    while l.list.len() < 4096 {
        ok(&mut l, 1, Event::Warn);
    }
    no(&mut l, 1, Event::Warn, 4);
    no(&mut l, 1, Event::Pay { amount: 1 }, 4);
    no(&mut l, 1, Event::Pay { amount: 0 }, 3);
    no(&mut l, 0, Event::Pay { amount: 0 }, 2);
}

// T-01: prices.

/// The ledger and the numbers beside each other: each event is answered alike, and the readings and cells are the same afterwards.
struct Both {
    ledger: Ledger,
    numbers: Numbers,
}

impl Both {
    fn new() -> Both {
        Both { ledger: ledger(), numbers: numbers() }
    }

    #[track_caller]
    fn post(&mut self, x: u32, e: Event) -> Answer {
        let before = (self.ledger.clone(), self.numbers);
        let answer = self.ledger.step(x, e);
        assert_eq!(self.numbers.post(&Record::of(x, e)), answer);
        if answer.code != 0 {
            assert!(answer.value == 0 && (self.ledger.clone(), self.numbers) == before);
        }
        let (r, l) = (self.numbers.readings(), &self.ledger);
        assert_eq!((r.balance, r.settled, r.estimates as i64), (l.balance, l.settled(), l.standing_estimates()));
        assert_eq!(self.numbers.prices, Numbers::of(l).prices);
        assert_eq!(self.numbers.days, Numbers::of(l).days);
        answer
    }

    #[track_caller]
    fn code(&mut self, x: u32, e: Event) -> u8 {
        self.post(x, e).code
    }

    /// A good price: 0, the value 0, and B, R and service stay.
    #[track_caller]
    fn price(&mut self, x: u32, price: u32) {
        let before = (self.ledger.balance, self.ledger.plan, self.ledger.service, self.ledger.list.len());
        assert_eq!(self.post(x, Event::Price { price }), Answer { code: 0, value: 0 });
        let after = (self.ledger.balance, self.ledger.plan, self.ledger.service, self.ledger.list.len() - 1);
        assert_eq!((after, self.ledger.last_day()), (before, x));
    }

    /// Warnings on day x until so many events are accepted.
    fn fill(&mut self, x: u32, events: usize) {
        while self.ledger.list.len() < events {
            assert_eq!(self.ledger.step(x, Event::Warn), self.numbers.post(&Record::of(x, Event::Warn)));
        }
    }
}

#[test]
fn price_limits() {
    let mut b = Both::new();
    for (price, code) in [(0, 3), (1, 0), (99_999, 0), (100_000, 3), (65_536 + 1_250, 0), ((1 << 17) + 1_250, 3), (1 << 31, 3), (u32::MAX, 3)] {
        assert_eq!(b.code(3, Event::Price { price }), code, "{price}");
    }
    assert_eq!(b.ledger.price_on(3), 65_536 + 1_250);
    assert_eq!(b.code(2, Event::Price { price: 0 }), 2);
    assert_eq!(b.code(2, Event::Price { price: 5 }), 2);
    assert_eq!(b.code(400, Event::Price { price: 5 }), 2);
    b.price(399, 5);
    // The opening price stays.
    assert_eq!((b.ledger.terms.price, b.numbers.terms.price), (1_250, 1_250));
}

#[test]
fn sixteen_price_days() {
    let mut b = Both::new();
    for day in 1..=16 {
        b.price(day, 1_000 + day);
        // A second one on the same day takes no second place.
        b.price(day, 2_000 + day);
    }
    b.price(16, 7);
    for price in [1, 99_999] {
        assert_eq!(b.code(17, Event::Price { price }), 17);
    }
    assert_eq!(b.code(17, Event::Price { price: 0 }), 3);
    b.price(16, 8);
    assert_eq!([0, 1, 15, 16, 17, 399].map(|u| b.ledger.price_on(u)), [1_250, 2_001, 2_015, 8, 8, 8]);
    assert_eq!(b.code(17, Event::Warn), 0);
    assert_eq!(b.code(16, Event::Price { price: 9 }), 2);
    assert_eq!(b.code(17, Event::Price { price: 9 }), 17);
}

#[test]
fn price_on_day_0() {
    let mut b = Both::new();
    b.price(0, 2_500);
    b.price(0, 5_000);
    assert_eq!(b.post(1, Event::Read { usage: 0, wh: 30_000 }), Answer { code: 0, value: 1_500 });
    // It has taken none of the sixteen places.
    for day in 1..=16 {
        b.price(day, 10 * day);
    }
    assert_eq!(b.code(17, Event::Price { price: 1 }), 17);
    assert_eq!([0, 1, 16].map(|u| b.ledger.price_on(u)), [5_000, 10, 160]);
    assert_eq!(b.numbers.terms.price, 1_250);
}

#[test]
fn price_of_the_usage_day() {
    let cost = |b: &mut Both, x, usage| b.post(x, Event::Estimate { usage, wh: 30_000 });
    // Whenever they are posted, before the move or after it.
    for (fourth, fifth) in [(5, 6), (6, 6), (7, 9), (399, 399)] {
        let mut b = Both::new();
        if fourth == 5 {
            assert_eq!(cost(&mut b, 5, 4), Answer { code: 0, value: 375 });
        }
        b.price(5, 2_500);
        if fourth > 5 {
            assert_eq!(cost(&mut b, fourth, 4), Answer { code: 0, value: 375 });
        }
        assert_eq!(cost(&mut b, fifth, 5), Answer { code: 0, value: 750 });
        assert_eq!(b.ledger.balance, -375 - 750);
        assert_eq!(b.post(399, Event::Read { usage: 4, wh: 32_000 }), Answer { code: 0, value: 400 });
        assert_eq!(b.post(399, Event::Read { usage: 5, wh: 32_000 }), Answer { code: 0, value: 800 });
        assert_eq!(b.post(399, Event::Read { usage: 398, wh: 32_000 }), Answer { code: 0, value: 800 });
        assert_eq!(b.post(399, Event::Read { usage: 0, wh: 32_000 }), Answer { code: 0, value: 400 });
        assert_eq!((b.ledger.settled(), b.ledger.standing_estimates()), (-2_400, 0));
    }
}

#[test]
fn estimate_read_after_the_move() {
    let mut b = Both::new();
    assert_eq!(b.post(5, Event::Estimate { usage: 4, wh: 30_000 }).value, 375);
    b.price(5, 2_500);
    b.price(9, 5_000);
    assert_eq!((b.ledger.standing_estimates(), b.ledger.balance), (375, -375));
    assert_eq!(b.post(9, Event::Read { usage: 4, wh: 32_000 }), Answer { code: 0, value: 400 });
    assert_eq!((b.ledger.settled(), b.ledger.standing_estimates(), b.ledger.balance), (-400, 0, -400));
    // The same in the month's figures, which keep the costs as posted.
    assert_eq!(b.post(10, Event::Estimate { usage: 9, wh: 30_000 }).value, 1_500);
    b.price(10, 1);
    let s = summary::summary(&b.ledger, 0);
    assert_eq!((s.metered_cost, s.estimated_cost, s.average), (400, 1_500, 3_065));
    assert_eq!(summary::summary(&b.numbers, 0), s);
}

#[test]
fn price_when_full() {
    let mut b = Both::new();
    for day in 1..=16 {
        b.price(day, day);
    }
    b.fill(16, MOST_EVENTS);
    // Account and table are full: 2, 3, 4, 17.
    assert_eq!(b.code(15, Event::Price { price: 0 }), 2);
    for (x, price, code) in [(17, 0, 3), (17, 100_000, 3), (17, 1, 4), (16, 1, 4), (16, 0, 3)] {
        assert_eq!(b.code(x, Event::Price { price }), code);
    }
    // The last of the 4,096.
    let mut b = Both::new();
    b.fill(0, MOST_EVENTS - 1);
    b.price(0, 9);
    assert_eq!([b.code(0, Event::Price { price: 9 }), b.code(0, Event::Price { price: 0 })], [4, 3]);
}

/// The law of the ledger: while L has no price event, the opening price is in force on every day. And a later event changes no usage day's cost.
#[test]
fn price_laws() {
    let mut b = Both::new();
    for record in full_records() {
        let costs: Vec<u32> = b.numbers.days.iter().map(|d| if d.state == 1 || d.state == 2 { d.cost } else { 0 }).collect();
        let event = record.event().unwrap();
        let read = match event {
            Event::Read { usage, .. } | Event::Estimate { usage, .. } => usage as usize,
            _ => 400,
        };
        b.post(record.day, event);
        if !b.ledger.list.iter().any(|e| matches!(e.event, Event::Price { .. })) {
            assert!((0..400).all(|u| b.ledger.price_on(u) == 1_250 && b.numbers.price_on(u) == 1_250));
        }
        for u in (0..400).filter(|&u| u != read) {
            assert_eq!(b.numbers.days[u].cost, costs[u]);
        }
    }
    assert_eq!([35, 36, 399].map(|u| b.ledger.price_on(u)), [1_250, 2_500, 2_500]);
    // In any order: the numbers keep each cost as it was posted, the ledger's is worked out of the whole list.
    let mut b = Both::new();
    let (mut s, mut x, mut posted) = (3u64, 0, [0; 3]);
    let mut pick = |n: u64| {
        s = s.wrapping_mul(6364136223846793005).wrapping_add(1442695040888963407);
        ((s >> 33) % n) as u32
    };
    for _ in 0..600 {
        x += (pick(4) == 0) as u32;
        let wh = pick(60_000);
        let (i, e) = match pick(9) {
            0..=3 => (0, Event::Estimate { usage: pick(x as u64 + 1), wh }),
            4..=7 => (1, Event::Read { usage: pick(x as u64 + 1), wh }),
            _ => (2, Event::Price { price: 1 + wh }),
        };
        posted[i] += (b.code(x, e) == 0) as u32;
    }
    assert!(posted.iter().all(|&n| n > 20), "{posted:?}");
}

#[test]
fn price_in_text() {
    let text = format!(
        "{TERMS}day=0\ndo=price\nprice=2500\nday=5\ndo=price\nprice=100000\nday=5\ndo=price\nprice=5000\n\
         day=6\ndo=read\nusage=4\nwh=30000\nday=6\ndo=estimate\nusage=5\nwh=30000\nday=6\ndo=price\nprice=4294967295\n"
    );
    let lines = [
        "n=1 code=0 value=0 balance=0 plan=0", "n=2 code=3 value=0 balance=0 plan=0", "n=3 code=0 value=0 balance=0 plan=0",
        "n=4 code=0 value=750 balance=-750 plan=0", "n=5 code=0 value=1500 balance=-2250 plan=0", "n=6 code=3 value=0 balance=-2250 plan=0",
        "settled=-750 estimates=1500", "",
    ];
    assert_eq!(prepay(text.as_bytes()), lines.join("\n"));
    let month = summary::print(&run(text.as_bytes()));
    assert!(month.contains("metered_wh=30000 metered_cost=750 estimated_wh=30000 estimated_cost=1500"));
}

// Text.

#[test]
fn terms_in_text() {
    let one = |code| format!("n=0 code={code} value=0 balance=0 plan=0\n");
    let with = |from: &str, to: &str| prepay(TERMS.replace(from, to).as_bytes());
    assert_eq!(prepay(TERMS.as_bytes()), "settled=0 estimates=0\n");
    assert_eq!(prepay(b""), one(15));
    assert_eq!(prepay(&TERMS.as_bytes()[..TERMS.len() - 1]), one(15));
    assert_eq!(with("2024-01-01", "2024-13-99"), one(1));
    assert_eq!(with("2024-01-01", "0000-00-00"), one(1));
    assert_eq!(with("2024-01-01", "1999-01-01"), one(1));
    assert_eq!(with("2024-01-01", "2100-01-01"), one(1));
    assert_eq!(with("2024-01-01", "2024-1-01"), one(15));
    assert_eq!(with("2024-01-01", "2024-01-01 "), one(15));
    assert_eq!(with("2024-01-01", "2024/01/01"), one(15));
    assert_eq!(with("price=1250", "price=0"), one(1));
    assert_eq!(with("price=1250", "price=4294967295"), one(1));
    assert_eq!(with("price=1250", "price=4294967296"), one(15));
    assert_eq!(with("price=1250", "price=01250"), one(15));
    assert_eq!(prepay(TERMS.replace("1250", "0").replace("=50\n", "=x\n").as_bytes()), one(15));
    // Refused terms hide whatever stands in the events.
    assert_eq!(prepay(format!("{}garbage", TERMS.replace("1250", "0")).as_bytes()), one(1));
}

#[test]
fn broken_events() {
    let tail = |s: &str| {
        let out = prepay(format!("{TERMS}day=0\ndo=pay\namount=7\n{s}").as_bytes());
        out.strip_prefix("n=1 code=0 value=0 balance=7 plan=0\n").unwrap().to_string()
    };
    let broken = "n=2 code=15 value=0 balance=7 plan=0\nsettled=7 estimates=0\n";
    for s in [
        "\n", " ", "x", "\0", "\r\n", "day=0", "day=0\n", "day=0\ndo=warn", "day=0\r\ndo=warn\r\n",
        "day=0\ndo=Pay\namount=1\n", "day=0\ndo=\n", "day=0\ndo=pay\n", "day=0\ndo=pay\namount=\n",
        "day=0\ndo=pay\namount=01\n", "day=0\ndo=pay\namount=+1\n", "day=0\ndo=pay\namount=-1\n",
        "day=0\ndo=pay\namount=4294967296\n", "day=0\ndo=pay\namount=99999999999999999999999\n",
        "day=00\ndo=warn\n", "do=warn\nday=0\n", "day=500\ndo=form\n", "day=0\ndo=charge\namount=1\nkind=1\n",
        "day=0\ndo=price\namount=1\n", "day=0\ndo=price\n", "day=0\ndo=price\nprice=01\n", "day=0\ndo=price\nprice=4294967296\n",
        "day=0\ndo=Price\nprice=1\n", "day=0\ndo=price\nPrice=1\n", "price=1\n", "day=0\ndo=pay\nprice=1\n",
        "day=0\ndo=pay\namount=1 \n", "day=0\ndo=pay\nnumber=1\n", "amount=7\n", "day =0\ndo=warn\n",
    ] {
        assert_eq!(tail(s), broken, "{s:?}");
    }
    // The event before a surplus line is posted.
    assert_eq!(
        tail("day=0\ndo=warn\namount=1\nday=0\ndo=warn\n"),
        "n=2 code=0 value=0 balance=7 plan=0\nn=3 code=15 value=0 balance=7 plan=0\nsettled=7 estimates=0\n"
    );
    // A number that the form allows but the field does not.
    assert_eq!(
        tail("day=0\ndo=pay\namount=4294967295\nday=4294967295\ndo=warn\nday=0\ndo=reverse\nnumber=4294967295\nday=0\ndo=read\nusage=4294967295\nwh=0\n"),
        "n=2 code=3 value=0 balance=7 plan=0\nn=3 code=2 value=0 balance=7 plan=0\nn=4 code=6 value=0 balance=7 plan=0\nn=5 code=7 value=0 balance=7 plan=0\nsettled=7 estimates=0\n"
    );
}

#[test]
fn length_of_the_text() {
    // 61 bytes of terms, 4,675 warnings of 14 bytes, a credit of 25 or 26.
    let warns = "day=0\ndo=warn\n".repeat(4675);
    let good = format!("{TERMS}{warns}day=0\ndo=credit\namount=7\n");
    assert_eq!(good.len(), MOST_BYTES);
    let out = prepay(good.as_bytes());
    let lines: Vec<&str> = out.lines().collect();
    assert_eq!(lines.len(), 4677);
    assert_eq!(lines[4095], "n=4096 code=0 value=0 balance=0 plan=0");
    assert_eq!(lines[4096], "n=4097 code=4 value=0 balance=0 plan=0");
    assert_eq!(lines[4676], "settled=0 estimates=0");
    let long = format!("{TERMS}{warns}day=0\ndo=credit\namount=77\n");
    assert_eq!(long.len(), MOST_BYTES + 1);
    assert_eq!(prepay(long.as_bytes()), "n=0 code=15 value=0 balance=0 plan=0\n");
    let refused = good.replace("price=1250", "price=0000");
    assert_eq!(prepay(refused.as_bytes()), "n=0 code=15 value=0 balance=0 plan=0\n");
}

/// The identity of the minutes' demand 3, over a long mixed run.
#[test]
fn settled_identity() {
    let mut l = ledger();
    let mut s = 1u64;
    let mut pick = |n: u64| {
        s = s.wrapping_mul(6364136223846793005).wrapping_add(1442695040888963407);
        ((s >> 33) % n) as u32
    };
    for i in 0..3000u32 {
        let x = i / 8;
        let amount = pick(9000) + 1;
        let e = match pick(9) {
            0 => Event::Pay { amount },
            1 => Event::Reverse { number: pick(30) },
            2 => Event::Credit { amount },
            3 | 4 => Event::Charge { kind: pick(5) + 1, amount },
            5 => Event::Estimate { usage: pick(400), wh: amount * 9 },
            6 => Event::Read { usage: pick(400), wh: amount * 9 },
            7 if pick(3) == 0 => Event::Price { price: amount },
            _ => Event::Plan { kind: 2 },
        };
        l.step(x, e);
        assert_eq!(l.balance - l.plan, l.settled() - l.standing_estimates());
    }
}

// Records and rows.

fn example_records() -> Vec<Record> {
    let mut reader = Reader { rest: EXAMPLE.as_bytes() };
    reader.terms().unwrap();
    let mut records = Vec::new();
    while let Some((day, event)) = reader.event() {
        records.push(Record::of(day, event));
    }
    records
}

#[test]
fn records_and_events() {
    for record in example_records() {
        assert_eq!(Record::of(record.day, record.event().unwrap()), record);
    }
    assert_eq!(example_records().iter().map(|r| r.sort).collect::<Vec<u32>>(), [1, 11, 5, 6, 7, 4, 10, 10, 1, 11]);
}

fn opened() -> Books {
    let mut head = Books::default();
    assert_eq!(head.open(terms()), 0);
    head
}

#[test]
fn rows_of_the_worked_example() {
    let records = example_records();
    let good = [0, 0, 0, 0, 0, 0, 13, 0, 0, 12];
    let mut singly = opened();
    assert_eq!(records.iter().map(|r| singly.post(r).code).collect::<Vec<u8>>(), good);
    for length in 1..=10 {
        let mut head = opened();
        for (row, good) in records.chunks(length).zip(good.chunks(length)) {
            // One byte too short, then two bytes longer.
            let before = head.ledger.clone();
            let mut short = vec![99; row.len() - 1];
            assert_eq!(head.row(row, &mut short), 16);
            assert!(short.iter().all(|&b| b == 99) && head.ledger == before);
            let mut codes = vec![99; row.len() + 2];
            assert_eq!(head.row(row, &mut codes), 0);
            assert_eq!(codes[..row.len()], *good);
            assert_eq!(codes[row.len()..], [99, 99]);
            // An empty row.
            let before = head.ledger.clone();
            assert_eq!(head.row(&[], &mut codes), 0);
            assert_eq!(head.row(&[], &mut []), 0);
            assert!(head.ledger == before);
        }
        assert!(head.ledger == singly.ledger);
    }
}

#[test]
fn sorts_outside_their_limits() {
    let mut head = opened();
    head.post(&Record { sort: 7, day: 5, ..Record::default() });
    for sort in [0, 13, 256 + 7, 256 + 12, u32::MAX] {
        for (day, code) in [(4, 2), (5, 3), (399, 3), (400, 2)] {
            assert_eq!(head.post(&Record { sort, day, ..Record::default() }), Answer { code, value: 0 });
        }
    }
}

#[test]
fn refused_terms_make_no_account() {
    let mut head = Books::default();
    assert_eq!(head.open(Terms { share: 51, ..terms() }), 1);
    let mut codes = [99; 11];
    assert_eq!(head.row(&example_records(), &mut codes), 0);
    assert_eq!(codes, [1, 1, 1, 1, 1, 1, 1, 1, 1, 1, 99]);
    // Nor do they take one away.
    let mut head = opened();
    head.post(&example_records()[0]);
    assert_eq!(head.open(Terms { share: 51, ..terms() }), 1);
    assert_eq!(head.ledger.as_ref().unwrap().balance, 6_000);
    assert_eq!(head.open(terms()), 0);
    assert_eq!(head.ledger.unwrap().balance, 0);
}

#[test]
fn event_by_event() {
    let text = format!("{TERMS}day=0\ndo=warn\nday=1\ndo=pay\namount=7\n");
    let (mut at, read) = read_terms(text.as_bytes());
    assert_eq!((at, read), (Progress { place: TERMS.len() as u32, code: 0 }, Some(terms())));
    assert_eq!(read_event(text.as_bytes(), &mut at), (0, Some((0, Event::Warn))));
    assert_eq!(at, Progress { place: TERMS.len() as u32 + 14, code: 0 });
    // Cut off, then whole: the place stays at 15, and 15 stays.
    let (mut broken, cut) = (at, &text.as_bytes()[..text.len() - 1]);
    for text in [cut, text.as_bytes()] {
        assert_eq!(read_event(text, &mut broken), (15, None));
        assert_eq!(broken, Progress { code: 15, ..at });
    }
    assert_eq!(read_event(text.as_bytes(), &mut at), (0, Some((1, Event::Pay { amount: 7 }))));
    for _ in 0..2 {
        assert_eq!(read_event(text.as_bytes(), &mut at), (END, None));
        assert_eq!(at, Progress { place: text.len() as u32, code: 255 });
    }
    // Terms refused by 1 are read; malformed ones are not, nor is a text too long.
    assert!(read_terms(text.replace("share=50", "share=51").as_bytes()).1.is_some());
    let long = vec![b'\n'; MOST_BYTES + 1];
    for bad in [text.replace("share=50", "share=-1").as_bytes(), &[text.as_bytes(), &long].concat()] {
        assert_eq!(read_terms(bad), (Progress { place: 0, code: 15 }, None));
    }
    assert_eq!(read_event(&long, &mut Progress { place: long.len() as u32, code: 0 }), (15, None));
    assert_eq!(read_event(b"", &mut Progress { place: 1, code: 0 }), (15, None));
    assert_eq!(read_event(b"", &mut Progress { place: 0, code: 256 }), (15, None));
}

// Numbers.

fn numbers() -> Numbers {
    Numbers::fresh(terms())
}

/// Events that together touch every sort of cell.
fn full_records() -> Vec<Record> {
    let mut records = example_records();
    let of = |day, event| Record::of(day, event);
    records.extend([
        of(5, Event::Mark { kind: 1, from: 5, to: 7 }),
        of(5, Event::Mark { kind: 3, from: 7, to: 8 }),
        of(5, Event::Estimate { usage: 4, wh: 99_999 }),
        of(6, Event::Charge { kind: 2, amount: 20_000 }),
        of(6, Event::Plan { kind: 1 }),
        of(33, Event::Pay { amount: 3_001 }),
        of(33, Event::Reverse { number: 2 }),
        of(33, Event::Charge { kind: 5, amount: 9 }),
        of(34, Event::Credit { amount: 7_000 }),
        of(34, Event::Connect),
        of(35, Event::Estimate { usage: 34, wh: 5_000 }),
        of(36, Event::Read { usage: 4, wh: 1 }),
        of(36, Event::Pay { amount: 0 }),
        of(36, Event::Price { price: 2_500 }),
        of(37, Event::Read { usage: 35, wh: 30_000 }),
        of(37, Event::Estimate { usage: 36, wh: 30_000 }),
        of(37, Event::Price { price: 100_000 }),
    ]);
    records
}

#[test]
fn numbers_of_a_ledger() {
    let (mut head, mut n) = (opened(), numbers());
    for record in full_records() {
        assert_eq!(head.post(&record), n.post(&record), "{record:?}");
        let ledger = head.ledger.as_ref().unwrap();
        let of = Numbers::of(ledger);
        let r = n.readings();
        assert_eq!((r.balance, r.settled), (ledger.balance, ledger.settled()));
        assert_eq!((r.plan as i64, r.estimates as i64, r.service == 1), (ledger.plan, ledger.standing_estimates(), ledger.service));
        // Credit and debit by their difference.
        assert_eq!(Numbers { totals: Totals { credit: of.totals.credit, debit: of.totals.debit, ..n.totals }, ..n }, of);
        for m in 0..=15 {
            assert_eq!(summary::summary(&n, m), summary::summary(ledger, m));
        }
    }
    assert_eq!((n.totals.count, n.totals.events, n.totals.last, n.totals.on), (3, 23, 37, 1));
    assert_eq!([n.days[35].cost, n.days[36].cost], [375, 750]);
    assert_eq!((n.marks[7], n.payments[2].part, n.payments[2].reversed), (5, 1_500, 1));
}

fn all_refused(n: &Numbers) -> bool {
    let mut after = *n;
    full_records().iter().all(|r| after.post(r) == Answer { code: 1, value: 0 })
        && after == *n
        && (0..17).all(|m| summary::summary(n, m) == summary::Summary { code: 1, ..Default::default() })
        && (0..17).all(|m| page::put(n, m, &mut []) == Answer { code: 1, value: 0 })
}

#[test]
fn numbers_that_are_no_account() {
    let with = |change: fn(&mut Numbers)| {
        let mut n = numbers();
        change(&mut n);
        n
    };
    assert!(all_refused(&with(|n| n.terms = TermCells::default())));
    assert!(all_refused(&with(|n| n.terms.share = 51)));
    assert!(all_refused(&with(|n| n.totals.count = 129)));
    assert!(all_refused(&with(|n| n.totals.credit = (1 << 60) + 1)));
    assert!(all_refused(&with(|n| n.totals.debit = u64::MAX)));
    assert!(all_refused(&with(|n| n.totals.plan = (1 << 60) + 1)));
    assert!(all_refused(&with(|n| n.totals.standing = (1 << 60) + 1)));
    for n in [
        with(|n| n.totals.count = 128),
        with(|n| n.totals.credit = 1 << 60),
        with(|n| n.totals.debit = 1 << 60),
        with(|n| n.totals.plan = 1 << 60),
        with(|n| n.totals.standing = 1 << 60),
        with(|n| n.spare = 9),
    ] {
        assert_eq!({ n }.post(&Record::of(0, Event::Warn)).code, 0);
        assert!(!all_refused(&n));
    }
    // Readings have no code.
    let r = with(|n| (n.totals.credit, n.totals.plan) = (5, u64::MAX)).readings();
    assert_eq!((r.balance, r.settled, r.plan), (5, 0, u64::MAX));
    assert_eq!(with(|n| (n.totals.credit, n.totals.debit) = (5, u64::MAX)).readings().balance, 0);
}

#[test]
fn damaged_numbers() {
    let credit = Record::of(0, Event::Credit { amount: 10_000 });
    let mut n = numbers();
    // Any other number is off; blank; not reversed.
    n.totals.on = 7;
    n.days[0] = DayCells { state: 9, wh: 8, cost: 7 };
    n.totals.count = 1;
    n.payments[0] = PaymentCells { day: 1_000, amount: 30, part: 10, reversed: 2 };
    assert!(n.readings().service == 0 && n.usage(0) == Usage::Blank && !n.is_reversed(0));
    assert_eq!(summary::summary(&n, 0).kept_count, 0);
    assert_eq!(n.post(&credit).code, 0);
    assert_eq!((n.totals.on, n.days[0].cost, n.payments[0].reversed), (7, 7, 2));
    assert_eq!(n.post(&Record::of(0, Event::Reverse { number: 0 })).code, 0);
    assert_eq!((n.readings().balance, n.totals.plan, n.payments[0].reversed), (9_980, 10, 1));
    assert_eq!(n.post(&Record::of(0, Event::Connect)).code, 0);
    assert_eq!(n.totals.on, 1);
    assert_eq!(n.post(&Record::of(1, Event::Estimate { usage: 0, wh: 40 })), Answer { code: 0, value: 1 });
    assert_eq!(n.days[0], DayCells { state: 1, wh: 40, cost: 1 });
    // A day's cost is what stands there.
    n.days[0].cost = 100;
    n.totals.standing = 150;
    assert_eq!(n.post(&Record::of(1, Event::Read { usage: 0, wh: 40 })), Answer { code: 0, value: 1 });
    assert_eq!((n.readings().balance, n.totals.standing, n.days[0].state), (9_980 - 1 + 100 - 1, 50, 2));
    // A charge's sum; the other refusals come first.
    n.charges[1] = (1 << 60) + 1;
    let charge = |day, amount| Record::of(day, Event::Charge { kind: 2, amount });
    assert_eq!([n.post(&charge(1, 5)).code, n.post(&charge(1, 0)).code, n.post(&charge(0, 0)).code, n.post(&charge(31, 5)).code], [1, 3, 2, 0]);
    n.charges[1] = 1 << 60;
    n.totals.last = 1;
    assert_eq!(n.post(&charge(1, 5)).code, 0);
    // 2^40 of any kind in a month's figures, and on its page; after 3.
    n.terms = numbers().terms;
    let code = |n: &Numbers, m| {
        let code = summary::summary(n, m).code;
        assert_eq!(page::page(n, m).err(), Some(code).filter(|&c| c != 0));
        assert_eq!(page::put(n, m, &mut []), Answer { code: if code == 0 { 16 } else { code }, value: 0 });
        code
    };
    assert_eq!([code(&n, 0), code(&n, 1), code(&n, 14)], [1, 0, 3]);
    n.charges[70..].fill(u64::MAX);
    assert_eq!(code(&n, 14), 3);
    n.charges[..5].fill(1 << 40);
    assert_eq!(code(&n, 0), 0);
    assert_eq!(summary::summary(&n, 0).kinds, [1 << 40; 5]);
    assert!(page::page(&n, 0).unwrap().contains("        10995116277.76\n"));
    for kind in 0..5 {
        let mut n = n;
        n.charges[kind] += 1;
        assert_eq!([code(&n, 0), code(&n, 1)], [1, 0]);
    }
    // The last day and the count of events as they stand.
    n.totals.last = 400;
    assert_eq!(n.post(&credit).code, 2);
    (n.totals.last, n.totals.events) = (0, 4_095);
    assert_eq!([n.post(&credit).code, n.post(&credit).code], [0, 4]);
}

#[test]
fn price_cells() {
    let price = |x, price| Record::of(x, Event::Price { price });
    let read = |x, usage| Record::of(x, Event::Read { usage, wh: 100_000 });
    let cells = |n: &Numbers| n.prices.iter().map(|p| (p.day, p.price)).collect::<Vec<(u32, u32)>>();
    let mut fresh = vec![(400, 0); 17];
    fresh[0] = (0, 1_250);
    assert_eq!(cells(&numbers()), fresh);
    // A price goes to the first cell whose day is not below its own.
    let mut n = numbers();
    for (x, p) in [(0, 7), (4, 8), (4, 9), (6, 10)] {
        assert_eq!(n.post(&price(x, p)), Answer { code: 0, value: 0 });
    }
    assert_eq!(cells(&n)[..4], [(0, 7), (4, 9), (6, 10), (400, 0)]);
    assert_eq!((n.terms.price, n.totals.events, n.totals.last), (1_250, 4, 6));
    // Days out of order.
    let with = |from: &[(u32, u32)]| {
        let mut n = numbers();
        for (cell, &(day, price)) in n.prices.iter_mut().zip(from) {
            *cell = PriceCells { day, price };
        }
        n
    };
    let n = with(&[(0, 10), (50, 20), (5, 30), (60, 40), (7, 50)]);
    assert_eq!([0, 4, 5, 49, 50, 59, 60, 399].map(|u| n.price_on(u)), [10, 10, 10, 10, 30, 30, 50, 50]);
    let mut after = n;
    assert_eq!(after.post(&price(7, 60)).code, 0);
    assert_eq!(cells(&after)[..3], [(0, 10), (7, 60), (5, 30)]);
    // Day 400 in the middle; where the first cell is above, the opening price.
    let n = with(&[(0, 10), (400, 20), (5, 30)]);
    assert_eq!([0, 399].map(|u| n.price_on(u)), [10, 10]);
    let n = with(&[(3, 10), (2, 20)]);
    assert_eq!([0, 2, 3, 4].map(|u| n.price_on(u)), [1_250, 1_250, 20, 20]);
    // Other events leave every cell as it was.
    let mut after = with(&[(0, 10), (401, u32::MAX), (5, 30)]);
    let before = after.prices;
    assert_eq!([after.post(&read(9, 8)).code, after.post(&Record::of(9, Event::Warn)).code], [0, 0]);
    assert_eq!(after.prices, before);
    // All seventeen at or below: the last cell's; and no place.
    let n = with(&[(0, 10); 17]);
    assert_eq!([0, 399].map(|u| n.price_on(u)), [10, 10]);
    let mut after = with(&[(2, 10); 17]);
    assert_eq!([after.post(&price(3, 5)).code, after.post(&price(3, 0)).code, after.post(&price(2, 5)).code], [17, 3, 0]);
    assert_eq!(cells(&after)[..2], [(2, 5), (2, 10)]);
    let mut zeros = with(&[(0, 0); 17]);
    assert_eq!(zeros.post(&read(9, 8)), Answer { code: 0, value: 0 });
    assert_eq!(zeros.post(&price(9, 5)).code, 17);
    assert_eq!(zeros.days[8], DayCells { state: 2, wh: 100_000, cost: 0 });
}

#[test]
fn price_that_no_account_has() {
    let read = |x, usage, wh| Record::of(x, Event::Read { usage, wh });
    let with = |price| {
        let mut n = numbers();
        n.prices[1] = PriceCells { day: 5, price };
        n.totals.last = 6;
        n
    };
    assert_eq!(with(99_999).post(&read(6, 5, 100_000)), Answer { code: 0, value: 99_999 });
    for price in [100_000, u32::MAX] {
        let mut n = with(price);
        n.days[5].state = 2;
        let before = n;
        let mut codes = |events: &[Record]| events.iter().map(|e| n.post(e).code).collect::<Vec<u8>>();
        // After 2, 3 and 7; before 8.
        assert_eq!(codes(&[read(5, 5, 0), read(6, 5, 10_000_000), read(6, 5, 0)]), [2, 3, 1]);
        assert_eq!(codes(&[6, 399, 400, u32::MAX].map(|usage| read(6, usage, 0))), [7, 7, 7, 7]);
        assert_eq!(codes(&[5, 6].map(|usage| Record::of(6, Event::Estimate { usage, wh: 0 }))), [1, 7]);
        assert_eq!(n, before);
        n.totals.events = 4_096;
        assert_eq!(n.post(&read(6, 5, 0)).code, 4);
        // Other events and other days do not look at it.
        n.totals.events = 9;
        assert_eq!([n.post(&read(6, 4, 100_000)).value, n.post(&Record::of(6, Event::Price { price: 3 })).code as i64], [1_250, 0]);
        assert_eq!((n.prices[1].price, n.prices[2].price), (price, 3));
        assert_eq!(summary::summary(&n, 0).code, 0);
    }
}

#[test]
fn opening_over_any_numbers() {
    let mut n = numbers();
    n.totals.standing = 3;
    n.prices[16] = PriceCells { day: 9, price: 8 };
    let before = n;
    assert_eq!((n.open(Terms { share: 51, ..terms() }), n), (1, before));
    assert_eq!((n.open(terms()), n), (0, numbers()));
}
