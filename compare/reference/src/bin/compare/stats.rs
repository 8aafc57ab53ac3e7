//! What the texts reached, counted on the reference's side.

use crate::lent::LEAST_PAGE;
use reference::calendar::Date;
use reference::ledger::{cost_at, Book, Entry, Event, Ledger, Payment, Usage, MOST_EVENTS};
use reference::head::PAGE_ROOM;
use reference::numbers::Numbers;
use reference::rows::Record;
use reference::summary::summary;
use reference::text::{Run, MOST_BYTES};
use std::collections::BTreeMap;
use Event::*;

pub const SORTS: [&str; 12] = [
    "pay", "reverse", "credit", "charge", "estimate", "read", "warn", "mark", "plan", "disconnect", "connect", "price",
];
/// The codes are 0 to 17.
const CODES: usize = 18;
/// Of events: all but 1, 15 and 16; and 1 too on numbers that are no account.
const EVENT_CODES: [usize; 16] = [0, 1, 2, 3, 4, 5, 6, 7, 8, 9, 10, 11, 12, 13, 14, 17];

fn sort(e: Event) -> usize {
    match e {
        Pay { .. } => 0,
        Reverse { .. } => 1,
        Credit { .. } => 2,
        Charge { .. } => 3,
        Estimate { .. } => 4,
        Read { .. } => 5,
        Warn => 6,
        Mark { .. } => 7,
        Plan { .. } => 8,
        Disconnect => 9,
        Connect => 10,
        Price { .. } => 11,
    }
}

#[derive(Default)]
pub struct Stats {
    pub texts: u64,
    pub bytes: u64,
    pub events: u64,
    /// Answers to events by code, then the terms' 1 and 15.
    pub codes: [u64; CODES],
    pub terms_refused: u64,
    pub terms_malformed: u64,
    pub by_sort: [[u64; CODES]; SORTS.len()],
    pub makers: BTreeMap<&'static str, u64>,
    /// Near-limit situations, by name.
    pub edges: BTreeMap<&'static str, u64>,
    /// Pages of accounts by month, 15 being any later one; and what they had.
    pub months: [u64; 16],
    pub pages: BTreeMap<&'static str, u64>,
}

impl Stats {
    fn edge(&mut self, name: &'static str, seen: bool) {
        *self.edges.entry(name).or_default() += seen as u64;
    }

    pub fn note(&mut self, text: &[u8], run: &Run, maker: &'static str) {
        self.texts += 1;
        self.bytes += text.len() as u64;
        *self.makers.entry(maker).or_default() += 1;
        self.edge("text: empty", text.is_empty());
        self.edge("text: 65,535 bytes", text.len() == MOST_BYTES - 1);
        self.edge("text: 65,536 bytes", text.len() == MOST_BYTES);
        self.edge("text: 65,537 bytes", text.len() == MOST_BYTES + 1);
        self.edge("text: longer", text.len() > MOST_BYTES + 1);
        let (ledger, steps) = match run {
            Run::NoAccount(1) => {
                self.terms_refused += 1;
                return;
            }
            Run::NoAccount(_) => {
                self.terms_malformed += 1;
                return;
            }
            Run::Account { ledger, steps } => (ledger, steps),
        };
        self.edge("text: terms only", steps.is_empty());
        self.edge("text: over 1,000 events", steps.len() > 1_000);
        self.edge("text: over 4,000 events", steps.len() > 4_000);
        let last = ledger.terms.open.plus(399);
        self.edge("terms: month 14 exists", last.months_after(ledger.terms.open) == 14);

        let mut l = Ledger::open(ledger.terms).unwrap();
        for step in steps {
            self.events += 1;
            self.codes[step.answer.code as usize] += 1;
            if let Some((x, event)) = step.posted {
                self.by_sort[sort(event)][step.answer.code as usize] += 1;
                self.look(&l, x, event, step.answer.code);
                l.step(x, event);
            }
            self.edge("B outside 32 bits", step.balance != step.balance as i32 as i64);
            self.edge("R over 32 bits", step.plan > u32::MAX as i64);
            self.edge("value over 32 bits", step.answer.value > u32::MAX as i64);
        }
    }

    /// The page of a month of a text's account.
    pub fn note_page(&mut self, run: &Run, m: u32) {
        let Run::Account { ledger: l, .. } = run else { return };
        self.months[m.min(15) as usize] += 1;
        let mut had = |name, seen: bool| *self.pages.entry(name).or_default() += seen as u64;
        let s = summary(l, m);
        had("month 14 with days", m == 14 && s.code == 0);
        had("month 14 without days (3)", m == 14 && s.code == 3);
        had("a later month (3)", m > 14 && s.code == 3);
        had("printed", s.code == 0);
        if s.code != 0 {
            return;
        }
        had("in the opening year's next year", m > 0 && l.terms.open.month + m > 12 && l.terms.open.month + m <= 24);
        had("in the year after that", l.terms.open.month + m > 24);
        had("payments kept: 0", s.kept_count == 0);
        had("payments kept: 1", s.kept_count == 1);
        had("payments kept: 2 to 9", (2..=9).contains(&s.kept_count));
        had("payments kept: 10 to 127", (10..=127).contains(&s.kept_count));
        had("payments kept: 128", s.kept_count == 128);
        had("payments kept and reversed", s.kept_count > 0 && s.reversed_count > 0);
        had("payments reversed alone", s.kept_count == 0 && s.reversed_count > 0);
        let kept = l.list_payments().into_iter().filter(|p| !p.reversed);
        let dates: Vec<(Date, Payment)> = kept.map(|p| (l.terms.open.plus(p.day), p)).collect();
        let here = |d: &Date| d.months_after(l.terms.open) == m;
        had("a payment on the first of the month", dates.iter().any(|(d, _)| here(d) && d.day == 1));
        had("a payment on the last of the month", dates.iter().any(|(d, _)| here(d) && !here(&d.next())));
        had("a payment on February 29", dates.iter().any(|(d, _)| here(d) && (d.month, d.day) == (2, 29)));
        had("a payment on the day before the month", dates.iter().any(|(d, _)| !here(d) && here(&d.next())));
        had("a payment on the day after the month", dates.iter().any(|(d, _)| !here(d) && d.day == 1 && d.months_after(l.terms.open) == m + 1));
        had("a payment below 10 cents", dates.iter().any(|(d, p)| here(d) && p.amount < 10));
        had("usage: metered alone", s.metered_cost > 0 && s.estimated_wh == 0);
        had("usage: estimated alone", s.metered_wh == 0 && s.estimated_cost > 0);
        had("usage: both", s.metered_cost > 0 && s.estimated_cost > 0);
        for (i, &sum) in s.kinds.iter().enumerate().skip(2) {
            let other = s.kinds[i % 3 + 2];
            had("kinds 3 to 5: 0.00", sum == 0);
            had("kinds 3 to 5: below 10 cents", 0 < sum && sum < 10);
            had("kinds 3 to 5: 10 cents to a dollar", 10 <= sum && sum < 100);
            had("kinds 3 to 5: more", sum >= 100);
            had("kinds 3 to 5: unlike the next one's", sum != other);
        }
        let width = format!("{}.{:02}", s.average / 100, s.average % 100).len();
        had("average: missing", s.missing);
        had("average: missing, with charges", s.missing && s.kinds[0] + s.kinds[1] > 0);
        had("average: below a cent", !s.missing && s.average < 100);
        had("average: up to 13 columns", !s.missing && s.average >= 100 && width < 14);
        had("average: 14 columns", width == 14);
        had("average: 99999999000.00", s.average == 9_999_999_900_000);
        had("average: 15 columns and more", width > 14);
        had("average: 10,000,000,000,000", s.average == 10_000_000_000_000);
    }

    /// `l` is the ledger just before the event.
    fn look(&mut self, l: &Ledger, x: u32, event: Event, code: u8) {
        let (b, r) = (l.balance, l.plan);
        let ok = code == 0;
        self.edge("day 398 accepted", ok && x == 398);
        self.edge("day 399 accepted", ok && x == 399);
        self.edge("day 400 refused", x == 400 && code == 2);
        self.edge("day one too early", code == 2 && x < 400 && x + 1 == l.last_day());
        self.edge("event 4,095 accepted", ok && l.list.len() == 4_094);
        self.edge("event 4,096 accepted", ok && l.list.len() == 4_095);
        match event {
            Pay { amount } => {
                let share = amount as i64 * l.terms.share as i64 / 100;
                self.edge("payment 126 accepted", ok && l.payments().count() == 126);
                self.edge("payment 127 accepted", ok && l.payments().count() == 127);
                self.edge("pay: R caps the plan part", ok && 0 < r && r < share);
                self.edge("pay: R just the share", ok && 0 < r && r == share);
                self.edge("pay: share below R", ok && share < r && 0 < share);
                self.edge("pay: share rounded", ok && 0 < r && amount as i64 * l.terms.share as i64 % 100 != 0);
            }
            Reverse { number } => {
                let part = l.payment(number).map_or(0, |p: &Entry| p.to_plan);
                let anew = l.payment(number).map_or(0, |p: &Entry| {
                    r.min((p.to_plan + p.to_balance) * l.terms.share as i64 / 100)
                });
                self.edge("reverse: with a plan part", ok && part > 0);
                self.edge("reverse: split anew would differ", ok && part != anew);
                self.edge("reverse: R was 0", ok && part > 0 && r == 0);
                self.edge("reverse: twice", code == 6 && l.payment(number).is_some());
                self.edge("reverse: number = count", code == 6 && l.payments().count() as u32 == number);
            }
            Estimate { usage, wh } | Read { usage, wh } => {
                let price = l.price_on(usage) as i64;
                let rest = (wh as i64 * price + 50_000) % 100_000;
                self.edge("usage: cost just reached", ok && rest < price);
                self.edge("usage: cost just missed", ok && rest + price >= 100_000);
                self.edge("usage: u = x", code == 7 && usage == x);
                self.edge("usage: u = x - 1", ok && usage + 1 == x);
                let state = if x < 400 && usage < x { l.usage(usage) } else { Usage::Blank };
                self.look_at_prices(l, x, event, ok);
                if matches!(event, Read { .. }) {
                    self.edge("read: on an estimate", ok && state != Usage::Blank);
                    self.edge("read: on a blank day", ok && state == Usage::Blank);
                    self.edge("read: on a metered day", code == 8);
                } else {
                    self.edge("estimate: on an estimate", code == 8 && matches!(state, Usage::Estimated { .. }));
                    self.edge("estimate: on a metered day", code == 8 && matches!(state, Usage::Metered { .. }));
                }
            }
            Plan { kind } if kind == 1 && (ok || code >= 9) => {
                self.edge("plan 1: B = -5000, accepted", ok && b == -5_000);
                self.edge("plan 1: B = -4999", code == 9 && b == -4_999);
                if b <= -5_000 {
                    let nearest = (0..=x).rev().find(|&w| l.is_weather(w));
                    let days = nearest.map(|w| l.business_days(w + 1, x));
                    self.edge("plan 1: no business day since", days == Some(0));
                    self.edge("plan 1: one business day since", days == Some(1));
                    self.edge("plan 1: two business days since", days == Some(2));
                    self.edge("plan 1: no weather day", days.is_none());
                }
                self.edge("plan: 9 though R > 0", code == 9 && r > 0);
            }
            Plan { kind } if kind == 2 && (ok || code >= 9) => {
                self.edge("plan 2: B = -1, accepted", ok && b == -1);
                self.edge("plan 2: B = 0", code == 9 && b == 0);
                self.edge("plan: 9 though R > 0", code == 9 && r > 0);
            }
            Disconnect if ok || code >= 12 => {
                let cutoff = l.terms.cutoff as i64;
                self.edge("cut: B = cutoff", code == 12 && b == cutoff);
                self.edge("cut: B = cutoff - 1, granted", ok && b == cutoff - 1);
                self.edge("cut: granted, R > 0", ok && r > 0);
                self.edge("cut: B - R below, B not", code == 12 && b - r < cutoff);
                if b < cutoff {
                    let ages: Vec<u32> =
                        l.list.iter().filter(|e| e.event == Warn).map(|e| x - e.day).collect();
                    let any = |low: u32, high: u32| ages.iter().any(|&a| low <= a && a <= high);
                    self.edge("cut: youngest warning 0 days", any(0, 0) && !any(1, 7));
                    self.edge("cut: only good warning 1 day", any(1, 1) && !any(2, 7));
                    self.edge("cut: only good warning 7 days", any(7, 7) && !any(1, 6));
                    self.edge("cut: youngest warning 8 days", any(8, 8) && !any(0, 7));
                    self.edge("cut: warned today and before", any(0, 0) && any(1, 7));
                    let weekend = l.terms.is_weekend(x);
                    self.edge("cut: barred by weekend alone", code == 14 && weekend && !l.is_covered(x));
                    self.edge("cut: barred by marks alone", code == 14 && !weekend);
                    let near = (x > 0 && l.is_covered(x - 1)) || l.is_covered(x + 1);
                    self.edge("cut: granted beside a mark", ok && near);
                }
            }
            Connect if ok || code == 12 => {
                let connect = l.terms.connect as i64;
                self.edge("connect: B = connect - 1", code == 12 && b == connect - 1);
                self.edge("connect: B = connect, granted", ok && b == connect);
                self.edge("connect: granted on a barred day", ok && l.is_barred(x));
            }
            Price { price } => {
                let days = l.price_days();
                let same_day = l.list.iter().filter(|e| matches!(e.event, Price { .. }) && e.day == x).count();
                let no_place = days.len() == 16 && !days.contains(&x);
                self.edge("price: 0 (3)", code == 3 && price == 0);
                self.edge("price: 1, accepted", ok && price == 1);
                self.edge("price: 99,999, accepted", ok && price == 99_999);
                self.edge("price: 100,000 (3)", code == 3 && price == 100_000);
                self.edge("price: 2^32 - 1 (3)", code == 3 && price == u32::MAX);
                self.edge("price: on day 0", ok && x == 0 && same_day == 0);
                self.edge("price: on day 0 again", ok && x == 0 && same_day > 0);
                self.edge("price: second of its day", ok && x > 0 && same_day == 1);
                self.edge("price: third of its day, or later", ok && x > 0 && same_day > 1);
                self.edge("price: fifteenth day", ok && days.len() == 14 && !days.contains(&x));
                self.edge("price: sixteenth day", ok && days.len() == 15 && !days.contains(&x));
                self.edge("price: seventeenth day (17)", code == 17);
                self.edge("price: sixteenth day again", ok && days.len() == 16);
                let on_day_0 = l.list.iter().any(|e| matches!(e.event, Price { .. }) && e.day == 0);
                self.edge("price: sixteen days, and one on day 0", ok && days.len() == 16 && on_day_0);
                self.edge("price: 3, and no place", code == 3 && no_place);
                self.edge("price: 3, and 4,096 events", code == 3 && l.list.len() == MOST_EVENTS);
                self.edge("price: 3, 4,096 events, no place", code == 3 && l.list.len() == MOST_EVENTS && no_place);
                self.edge("price: 4, a place", code == 4 && !no_place);
                self.edge("price: 4, and no place", code == 4 && no_place);
                self.edge("price: the last of 4,096 events", ok && l.list.len() == MOST_EVENTS - 1);
            }
            _ => {}
        }
    }

    /// An estimate or a read beside the moves of the price.
    fn look_at_prices(&mut self, l: &Ledger, x: u32, event: Event, ok: bool) {
        let (Estimate { usage, wh } | Read { usage, wh }) = event else { return };
        let moved: Vec<(usize, u32)> =
            l.list.iter().enumerate().filter(|(_, e)| matches!(e.event, Price { .. })).map(|(i, e)| (i, e.day)).collect();
        if !ok || moved.is_empty() {
            return;
        }
        let at = |price: u32| cost_at(price, wh);
        let cost = at(l.price_on(usage));
        self.edge("usage: before the first move", usage < moved[0].1);
        self.edge("usage: the day before a move", moved.iter().any(|m| m.1 == usage + 1));
        self.edge("usage: the day of a move", moved.iter().any(|m| m.1 == usage));
        self.edge("usage: the day after a move", moved.iter().any(|m| m.1 + 1 == usage));
        self.edge("usage: between two moves", moved[0].1 <= usage && moved.iter().any(|m| usage < m.1));
        self.edge("usage: other than at the opening price", cost != at(l.terms.price));
        self.edge("usage: other than at the posting's price", cost != at(l.price_on(x)));
        self.edge("usage: other than a day earlier", usage > 0 && cost != at(l.price_on(usage - 1)));
        let estimated = l.list.iter().position(|e| matches!(e.event, Estimate { usage: u, .. } if u == usage));
        if let (Read { .. }, Some(i)) = (event, estimated) {
            let e = l.list[i];
            self.edge("read: a move since its estimate", moved.iter().any(|m| m.0 > i));
            self.edge("read: moves before its day and since", moved[0].1 <= usage && moved.iter().any(|m| m.0 > i));
            self.edge("read: other than at its estimate's posting", cost != at(l.price_on(e.day)));
        }
    }

    pub fn print(&self) {
        println!("texts {}, bytes {}, events {}", self.texts, self.bytes, self.events);
        println!("\nterms: refused (1) {}, malformed or too long (15) {}", self.terms_refused, self.terms_malformed);
        println!("texts by generator:");
        for (name, n) in &self.makers {
            println!("  {name:<14} {n:>9}");
        }
        println!("\nanswers by code (1 stands for terms, 15 for terms and events):");
        for code in (0..CODES).filter(|&c| c != 16) {
            let n = match code {
                1 => self.terms_refused,
                15 => self.codes[15] + self.terms_malformed,
                c => self.codes[c],
            };
            println!("  code {code:<2} {n:>10}");
        }
        println!("\nevents by sort and code (0 is accepted):");
        print!("  {:<10}", "");
        let columns: Vec<usize> = EVENT_CODES.into_iter().filter(|&c| c != 1).collect();
        for c in &columns {
            print!(" {c:>8}");
        }
        println!();
        for (i, name) in SORTS.iter().enumerate() {
            print!("  {name:<10}");
            for &c in &columns {
                match self.by_sort[i][c] {
                    0 => print!(" {:>8}", "."),
                    n => print!(" {n:>8}"),
                }
            }
            println!();
        }
        println!("\nnear the limits:");
        for (name, n) in &self.edges {
            println!("  {name:<42} {n:>9}");
        }
        println!("\npages asked for by month (0 to 14, then later ones): {:?}", self.months);
        for (name, n) in &self.pages {
            println!("  {name:<42} {n:>9}");
        }
    }
}

/// What the lists of calls reached.
#[derive(Default)]
pub struct CallStats {
    pub lists: u64,
    pub calls: u64,
    pub makers: BTreeMap<&'static str, u64>,
    /// Terms accepted and refused.
    pub opened: [u64; 2],
    pub posts: u64,
    /// Rows by length of their buffer, and by their own length.
    pub rows: BTreeMap<&'static str, u64>,
    pub lengths: BTreeMap<&'static str, u64>,
    pub rows_in_all: u64,
    pub row_events: u64,
    pub figures: u64,
    /// Pages by code and by their buffer; and what numbers that another hand changed showed.
    pub pages: BTreeMap<(u8, &'static str), u64>,
    pub odd_pages: BTreeMap<&'static str, u64>,
    pub readings: u64,
    /// Answers to events (1: of no account), and rows answered 16.
    pub codes: [u64; CODES],
    /// By sort, the last one being no sort.
    pub by_sort: [[u64; CODES]; SORTS.len() + 1],
    /// How often, and how many, numbers were changed by another hand; answers to events after that.
    pub sets: u64,
    pub set_cells: u64,
    pub damaged: [u64; CODES],
    /// What such an account had, at single posts.
    pub odd: BTreeMap<&'static str, u64>,
}

impl CallStats {
    pub fn note_event(&mut self, record: &Record, code: u8, in_row: bool, damaged: bool) {
        *(if in_row { &mut self.row_events } else { &mut self.posts }) += 1;
        self.damaged[code as usize] += damaged as u64;
        self.codes[code as usize] += 1;
        let sort = record.event().map_or(SORTS.len(), sort);
        self.by_sort[sort][code as usize] += 1;
    }

    /// `n` are the numbers just before the event, on whose account another hand has been.
    pub fn look(&mut self, n: &Numbers, record: &Record, code: u8) {
        let mut odd = |name, seen: bool| *self.odd.entry(name).or_default() += seen as u64;
        let t = &n.totals;
        let most = 1 << 60;
        odd("no account by its terms", !n.terms().within_limits());
        odd("no account by its count", t.count > 128);
        odd("no account by a total", [t.credit, t.debit, t.plan, t.standing].iter().any(|&sum| sum > most));
        odd("accepted, a total at 2^60", code == 0 && [t.credit, t.debit, t.plan, t.standing].contains(&most));
        odd("accepted, a total in reach of 2^60", code == 0 && t.credit.max(t.debit) >= most - 10_000_000);
        odd("accepted, `on` neither 0 nor 1", code == 0 && t.on > 1);
        let ok = code == 0;
        let cells = &n.prices;
        let in_order = cells.windows(2).all(|w| w[0].day < w[1].day || w[1].day == 400);
        if let (Some(Estimate { usage, .. } | Read { usage, .. }), 7) = (record.event(), code) {
            odd("usage: price of no account, 7 applies (7)", n.price_on(usage) > 99_999);
            odd("usage: price of no account, its day above 399 (7)", n.price_on(usage) > 99_999 && usage > 399);
        }
        if let (Some(Estimate { usage, .. } | Read { usage, .. }), true) = (record.event(), ok || code > 7 || n.is_account() && code == 1) {
            let above = cells.iter().position(|p| p.day > usage);
            let from_400 = above.filter(|&i| cells[i].day == 400).map_or(&[][..], |i| &cells[i..]);
            let in_8 = n.row_applies(8, record.day, record.event().unwrap());
            odd("usage: no cell above its day", above.is_none());
            odd("usage: the first cell above its day", above == Some(0));
            odd("usage: days of the prices out of order", !in_order);
            odd("usage: day 400 before a cell not above its day", from_400.iter().any(|p| p.day <= usage));
            odd("usage: of all zeros", ok && cells.iter().all(|p| p.day == 0 && p.price == 0));
            odd("usage: price 0", ok && n.price_on(usage) == 0);
            odd("usage: price 99,999", ok && n.price_on(usage) == 99_999);
            odd("usage: price 100,000 (1)", code == 1 && n.price_on(usage) == 100_000);
            odd("usage: price 2^32 - 1 (1)", code == 1 && n.price_on(usage) == u32::MAX);
            odd("usage: price of no account, 8 applies (1)", code == 1 && in_8);
        }
        match record.event() {
            Some(Reverse { number }) if ok => {
                let p = n.payments[number as usize];
                odd("reversed: neither 0 nor 1 before", p.reversed > 1);
                odd("reversed: part above amount", p.part > p.amount);
                odd("reversed: day past 399", p.day > 399);
            }
            Some(Charge { .. }) => odd("charge refused by its sum alone", code == 1 && n.is_account()),
            Some(Estimate { usage, .. }) if ok => odd("estimated: a state above 2 before", n.days[usage as usize].state > 2),
            Some(Read { usage, .. }) if ok => {
                let day = n.days[usage as usize];
                odd("read: a state above 2 before", day.state > 2);
                odd("read: an estimate", day.state == 1);
                odd("read: an estimate above the standing ones", day.state == 1 && day.cost as u64 > t.standing);
            }
            Some(Mark { from, .. }) if ok => odd("marked: other bits there", n.marks[from as usize] > 7),
            Some(Price { .. }) => {
                let place = cells.iter().position(|p| p.day >= record.day);
                odd("price: days of the prices out of order", ok && !in_order);
                odd("price: into the first cell", ok && place == Some(0));
                odd("price: into the last cell", ok && place == Some(cells.len() - 1));
                let later = place.map_or(&[][..], |i| &cells[i + 1..]);
                odd("price: before a cell of a day not later", ok && later.iter().any(|p| p.day <= record.day));
                odd("price: over a price that no account has", ok && place.is_some_and(|i| cells[i].price > 99_999));
                odd("price: no place (17)", code == 17);
            }
            Some(Plan { .. }) if ok => odd("plan of more than 2^32", n.balance() < -(1 << 32)),
            Some(Disconnect) => {
                odd("cut", ok);
                odd("cut, barred, or warned by odd bytes", (ok || code > 12) && {
                    let x = record.day as usize;
                    n.marks[x] > 7 || n.warned[x.saturating_sub(7)..x].iter().any(|&w| w > 1)
                });
            }
            _ => {}
        }
    }

    /// A page of `n` asked for in a buffer, `page` being the page or a refusal.
    pub fn note_page(&mut self, n: &Numbers, month: u32, page: &Result<String, u8>, buffer: usize, damaged: bool) {
        let length = page.as_ref().map_or(LEAST_PAGE, |p| p.len());
        let kind = match buffer {
            0 => "no buffer",
            b if b == length => "as long as the page",
            b if b + 1 == length => "one byte short",
            b if b < length => "shorter",
            b if b == length + 1 => "one byte longer",
            _ => "longer",
        };
        let code = match page {
            Ok(_) if buffer < length => 16,
            Ok(_) => 0,
            Err(code) => *code,
        };
        *self.pages.entry((code, kind)).or_default() += 1;
        if !damaged {
            return;
        }
        let mut odd = |name, seen: bool| *self.odd_pages.entry(name).or_default() += seen as u64;
        let account = n.is_account();
        let sums = n.charges.chunks(5).nth(month as usize).unwrap_or(&[0; 5]);
        let most = 1u64 << 40;
        odd("no account (1)", !account);
        odd("no account, and no days (1)", !account && month > 14);
        odd("charges of kind 1 or 2 above 2^40 alone (1)", code == 1 && account && sums[2..].iter().all(|&s| s <= most));
        odd("charges of kinds 3 to 5 above 2^40 alone (1)", code == 1 && account && sums[..2].iter().all(|&s| s <= most));
        odd("charges above 2^40 in a month without days (3)", code == 3 && sums.iter().any(|&s| s > most));
        odd("charges of kinds 1 and 2 of 2^40", code == 0 && sums[..2].contains(&most));
        odd("charges of kinds 3 to 5 of 2^40", code == 0 && sums[2..].contains(&most));
        odd("printed", code == 0);
        let Ok(printed) = page else { return };
        let s = summary(n, month);
        odd("usage of 0 Wh with a cost", s.metered_wh + s.estimated_wh == 0 && s.metered_cost + s.estimated_cost > 0);
        odd("usage of 32 bits and more", s.metered_cost + s.estimated_cost > u32::MAX as i64);
        odd("usage of 13 columns", s.metered_cost + s.estimated_cost >= 100_000_000_000);
        odd("128 payments", printed.len() == PAGE_ROOM);
        odd("a payment of 2^32 - 1", printed.contains("42949672.95"));
        odd("a payment of nothing", printed.lines().any(|l| l.starts_with("Paid") && l.ends_with(" 0.00")));
        odd("an average of 14 columns", printed.lines().any(|l| l.starts_with("Average") && !l.ends_with(' ') && l.as_bytes()[58] != b' '));
    }

    pub fn note_row(&mut self, row: &[Record], buffer: usize, answer: u8, codes: &[u8], damaged: bool) {
        self.rows_in_all += 1;
        let kind = match (row.len(), buffer) {
            (0, 0) => "empty, no buffer",
            (0, _) => "empty, a buffer",
            (n, b) if b == n => "buffer as long",
            (n, b) if b == n + 1 => "buffer one byte longer",
            (n, b) if b > n => "buffer longer",
            (n, b) if b + 1 == n => "buffer one byte short (16)",
            (_, 0) => "no buffer (16)",
            _ => "buffer much too short (16)",
        };
        *self.rows.entry(kind).or_default() += 1;
        let length = match row.len() {
            0 => "0",
            1 => "1",
            2..=9 => "2 to 9",
            10..=99 => "10 to 99",
            100..=299 => "100 to 299",
            300..=999 => "300 to 999",
            _ => "more",
        };
        *self.lengths.entry(length).or_default() += 1;
        if answer == 16 {
            self.codes[16] += 1;
        } else {
            for (record, &code) in row.iter().zip(codes) {
                self.note_event(record, code, true, damaged);
            }
        }
    }

    pub fn print(&self) {
        println!(
            "lists of calls {}, calls {}: single posts {}, rows {} with {} events, figures of all months {}; readings compared {}",
            self.lists, self.calls, self.posts, self.rows_in_all, self.row_events, self.figures, self.readings
        );
        println!("accounts opened {}, terms refused (1) {}", self.opened[0], self.opened[1]);
        println!("pages {}, by code and buffer:", self.pages.values().sum::<u64>());
        for ((code, name), n) in &self.pages {
            println!("  code {code:<2} {name:<20} {n:>9}");
        }
        println!("pages of accounts on which another hand has been:");
        for (name, n) in &self.odd_pages {
            println!("  {name:<50} {n:>9}");
        }
        println!("lists by generator:");
        for (name, n) in &self.makers {
            println!("  {name:<14} {n:>9}");
        }
        println!("\nrows by their buffer:");
        for (name, n) in &self.rows {
            println!("  {name:<28} {n:>9}");
        }
        println!("rows by their length:");
        for (name, n) in &self.lengths {
            println!("  {name:<28} {n:>9}");
        }
        println!("\nanswers by code (1: events of no account; 16: rows; 15 is of texts):");
        for (code, n) in self.codes.iter().enumerate() {
            println!("  code {code:<2} {n:>10}");
        }
        println!("\nnumbers put into accounts by another hand: {} times, {} numbers; events on such accounts by code:", self.sets, self.set_cells);
        for (code, n) in self.damaged.iter().enumerate() {
            println!("  code {code:<2} {n:>10}");
        }
        println!("single posts on such accounts:");
        for (name, n) in &self.odd {
            println!("  {name:<50} {n:>9}");
        }
        println!("\nrecords by sort and code (0 is accepted):");
        print!("  {:<10}", "");
        for c in EVENT_CODES {
            print!(" {c:>8}");
        }
        println!();
        for (i, row) in self.by_sort.iter().enumerate() {
            print!("  {:<10}", SORTS.get(i).unwrap_or(&"no sort"));
            for n in EVENT_CODES.map(|c| row[c]) {
                match n {
                    0 => print!(" {:>8}", "."),
                    n => print!(" {n:>8}"),
                }
            }
            println!();
        }
    }
}
