//! Event texts: guided by the reference's own state, or random.

use crate::damage;
use crate::rng::Rng;
use reference::calendar::{days_in_month, Date};
use std::ffi::OsString;
use std::os::unix::ffi::OsStringExt;
use reference::ledger::{cost_at, Book, Event, Ledger, Terms, Usage, LAST_DAY, MOST_AMOUNT, MOST_EVENTS, MOST_PRICE, MOST_PRICE_DAYS, MOST_WH};
use reference::text::{write_event, write_terms, Run, MOST_BYTES};
use Event::*;

const KINDS: [(&str, u64); 15] = [
    ("guided", 34),
    ("random", 10),
    ("damaged", 30),
    ("terms", 8),
    ("payments", 4),
    ("prices", 6),
    ("pages", 8),
    ("year", 3),
    ("long", 3),
    ("full", 2),
    ("deep", 2),
    ("length", 2),
    ("edge", 1),
    ("long random", 1),
    ("long damaged", 1),
];

/// A text may have as many bytes.
pub const WHOLE: usize = MOST_BYTES;

/// A text and the name of the generator that made it.
pub fn text(r: &mut Rng) -> (Vec<u8>, &'static str) {
    let kind = r.weighted(&KINDS.map(|k| k.1));
    let text = match KINDS[kind].0 {
        "guided" => guided(r, 3_000, 40),
        "random" => random(r, 1_500),
        "damaged" => {
            let base = if r.percent(80) { guided(r, 700, 7) } else { random(r, 400) };
            damage::damage(r, base)
        }
        "terms" => terms_text(r),
        "payments" => payments(r),
        "prices" => prices(r),
        "pages" => pages(r),
        "year" => year(r),
        "long" => guided(r, MOST_BYTES, 5_000),
        "full" => full(r),
        "deep" => deep(r),
        "length" => length(r),
        "edge" => edge(r),
        "long random" => random(r, MOST_BYTES),
        _ => {
            let base = long_base(r);
            damage::damage(r, base)
        }
    };
    (text, KINDS[kind].0)
}

// Terms.

fn good_date(r: &mut Rng) -> Date {
    const EDGES: [(u32, u32, u32); 16] = [
        (2000, 1, 1), (2000, 2, 28), (2000, 2, 29), (2000, 12, 31), (2023, 1, 31), (2023, 2, 28),
        (2024, 1, 1), (2024, 1, 31), (2024, 2, 29), (2027, 3, 31), (2096, 2, 29), (2098, 12, 31),
        (2099, 1, 25), (2099, 2, 28), (2099, 11, 30), (2099, 12, 31),
    ];
    if r.percent(30) {
        let (y, m, d) = r.pick(&EDGES);
        return Date::new(y, m, d);
    }
    let year = r.range(2000, 2099) as u32;
    let month = r.range(1, 12) as u32;
    let last = days_in_month(year, month);
    let day = if r.percent(30) { last } else { r.range(1, last as i64) as u32 };
    Date::new(year, month, day)
}

pub fn good_terms(r: &mut Rng) -> Terms {
    if r.percent(10) {
        return Terms { open: Date::new(2024, 1, 1), price: 1250, connect: 5000, cutoff: 1000, share: 50 };
    }
    let price = match r.below(8) {
        0 => 1,
        1 => 99_999,
        2 => r.pick(&[2, 3, 50_000, 49_999, 99_998]),
        3 => 1250,
        4 => r.range(1, 99_999) as u32,
        _ => r.range(500, 3_000) as u32,
    };
    let cutoff = match r.below(6) {
        0 => 0,
        1 => 1_000,
        2 => r.pick(&[1, 999]),
        _ => r.range(0, 1_000) as u32,
    };
    let connect = match r.below(7) {
        0 => cutoff,
        1 => cutoff + 1,
        2 => 7_500,
        3 => 5_000,
        _ => r.range(cutoff as i64, 7_500) as u32,
    };
    let share = match r.below(6) {
        0 => 0,
        1 | 2 => 50,
        3 => r.pick(&[1, 33, 49]),
        _ => r.range(0, 50) as u32,
    };
    Terms { open: good_date(r), price, connect, cutoff, share }
}

/// Terms at or over one limit or two.
pub fn edge_terms(r: &mut Rng) -> Terms {
    let mut t = good_terms(r);
    for _ in 0..r.range(1, 2) {
        match r.below(6) {
            0 => {
                let dates = [
                    (1999, 12, 31), (2100, 1, 1), (2100, 2, 28), (2100, 2, 29), (2023, 2, 29), (2024, 2, 30), (2099, 2, 29),
                    (2000, 2, 29), (2024, 4, 31), (2024, 6, 31), (2024, 9, 31), (2024, 11, 31), (2024, 13, 1),
                    (2024, 0, 1), (2024, 1, 0), (2024, 1, 32), (2024, 12, 32), (0, 0, 0), (9999, 99, 99), (2024, 13, 99),
                    (1900, 2, 28), (2000, 1, 1), (2099, 12, 31), (1, 1, 1), (2400, 2, 29), (2024, 2, 29),
                ];
                let (y, m, d) = r.pick(&dates);
                t.open = Date::new(y, m, d);
            }
            1 => t.price = r.pick(&[0, 1, 99_999, 100_000, 65_536 + 1250, u32::MAX]),
            2 => t.connect = r.pick(&[0, 999, 1_000, 7_500, 7_501, 65_536, u32::MAX]),
            3 => t.cutoff = r.pick(&[0, 1_000, 1_001, 65_536, u32::MAX]),
            4 => {
                let c = t.connect.min(1_000);
                t.connect = c;
                t.cutoff = r.pick(&[c.saturating_sub(1), c, c + 1]);
            }
            _ => t.share = r.pick(&[0, 50, 51, 100, 256, 256 + 50, u32::MAX]),
        }
    }
    t
}

/// Each line of the terms by itself good, over its limit, or malformed.
fn mixed_terms(r: &mut Rng) -> Vec<u8> {
    let t = good_terms(r);
    let open = format!("{:04}-{:02}-{:02}", t.open.year, t.open.month, t.open.day);
    let over_dates: [&str; 5] = ["2023-02-29", "1999-12-31", "2100-01-01", "0000-00-00", "2024-13-99"];
    let broken_dates: [&str; 5] = ["2024-1-01", "", "2024-01-01 ", "2024/01/01", "20240101"];
    let broken: [&str; 6] = ["", "01", "00", "-1", "4294967296", "1\r"];
    let mut out = String::new();
    for (key, good, over) in [
        ("open", open, over_dates),
        ("price", t.price.to_string(), ["0", "100000", "0", "4294967295", "165535"]),
        ("connect", t.connect.to_string(), ["7501", "65536", "4294967295", "9999", "10000"]),
        ("cutoff", t.cutoff.to_string(), ["1001", "7501", "65536", "4294967295", "2000"]),
        ("share", t.share.to_string(), ["51", "100", "256", "306", "4294967295"]),
    ] {
        let value = match r.below(10) {
            0..=6 => &good,
            7 | 8 => r.pick(&over),
            _ if key == "open" => r.pick(&broken_dates),
            _ => r.pick(&broken),
        };
        out.push_str(&format!("{key}={value}\n"));
    }
    out.into_bytes()
}

fn terms_text(r: &mut Rng) -> Vec<u8> {
    if r.percent(30) {
        return mixed_terms(r);
    }
    let mut out = Vec::new();
    let t = if r.percent(70) { edge_terms(r) } else { good_terms(r) };
    write_terms(&mut out, &t);
    for _ in 0..r.below(3) {
        write_event(&mut out, r.pick(&[0, 1, 400]), r.pick(&[Warn, Connect, Pay { amount: 3 }]));
    }
    if r.percent(50) {
        // Bytes of the terms alone are touched.
        let end = line_starts(&out).get(5).copied().unwrap_or(out.len());
        let rest = out.split_off(end);
        out = damage::damage(r, out);
        out.extend(rest);
    }
    out
}

pub fn line_starts(text: &[u8]) -> Vec<usize> {
    let mut at = vec![0];
    at.extend(text.iter().enumerate().filter(|(_, &b)| b == b'\n').map(|(i, _)| i + 1));
    if at.last() == Some(&text.len()) && !text.is_empty() {
        at.pop();
    }
    at
}

// Guided texts.

/// Writes events and keeps the reference's ledger beside them.
struct Guide<'a> {
    r: &'a mut Rng,
    l: Ledger,
    out: Vec<u8>,
    /// The day of the next event, as a rule.
    x: u32,
    /// How far the days may go, and the bytes.
    top: u32,
    limit: usize,
    stopped: bool,
}

impl<'a> Guide<'a> {
    fn new(r: &'a mut Rng, terms: Terms, top: u32, limit: usize) -> Guide<'a> {
        let l = Ledger::open(terms).expect("good terms");
        let mut out = Vec::new();
        write_terms(&mut out, &terms);
        let x = if r.percent(50) { 0 } else { r.range(0, 6) as u32 };
        Guide { r, l, out, x, top, limit, stopped: false }
    }

    fn post(&mut self, x: u32, e: Event) -> u8 {
        let before = self.out.len();
        write_event(&mut self.out, x, e);
        if self.out.len() > self.limit {
            self.out.truncate(before);
            self.stopped = true;
            return 255;
        }
        self.l.step(x, e).code
    }

    fn now(&mut self, e: Event) -> u8 {
        self.post(self.x, e)
    }

    fn advance(&mut self, days: u32) {
        self.x = (self.x + days).min(self.top);
    }

    /// Up to `days` further, so that x is a business day.
    fn advance_to_business_day(&mut self) {
        for _ in 0..2 {
            if self.l.terms.is_weekend(self.x) {
                self.advance(1);
            }
        }
    }

    /// Brings B to `target` if two events can.
    fn steer(&mut self, target: i64) {
        for _ in 0..2 {
            let d = target - self.l.balance;
            let amount = d.unsigned_abs().min(MOST_AMOUNT as u64) as u32;
            if d > 0 {
                let pay = self.l.plan == 0 && self.r.percent(25) && self.l.payments().count() < 128;
                self.now(if pay { Pay { amount } } else { Credit { amount } });
            } else if d < 0 {
                let kind = self.r.range(1, 5) as u32;
                self.now(Charge { kind, amount });
            }
        }
    }

    fn near(&mut self, target: i64) {
        let off = self.r.pick(&[-1, -1, 0, 0, 1]);
        self.steer(target + off);
    }

    fn switch_on(&mut self) {
        if !self.l.service {
            let connect = self.l.terms.connect as i64;
            if self.r.percent(40) {
                self.near(connect);
            } else if self.l.balance < connect {
                self.steer(connect);
            }
            if self.now(Connect) == 12 {
                self.steer(connect);
                self.now(Connect);
            }
        }
    }

    fn cut(&mut self) {
        if self.r.percent(90) {
            self.switch_on();
        }
        let warned = self.x;
        if self.r.percent(85) {
            self.now(Warn);
        }
        let cutoff = self.l.terms.cutoff as i64;
        let gap = self.r.pick(&[0, 0, 1, 1, 2, 4, 6, 7, 7, 8, 8, 9]);
        if self.r.percent(25) {
            let on = warned + gap;
            let kind = self.r.range(1, 3) as u32;
            let from = on.saturating_sub(self.r.pick(&[0, 0, 1])) + self.r.pick(&[0, 0, 0, 1]);
            let to = from + self.r.pick(&[0, 0, 1]);
            self.now(Mark { kind, from, to });
        }
        if self.r.percent(50) {
            self.near(cutoff);
        }
        self.advance(gap);
        if self.r.percent(60) {
            self.advance_to_business_day();
        }
        if self.r.percent(20) {
            self.now(Warn);
        }
        match self.r.below(4) {
            0 => {}
            1 => self.steer(cutoff - 1),
            2 => self.near(cutoff),
            _ => {
                let low = self.r.range(-6_000, cutoff - 1);
                self.steer(low);
            }
        }
        self.now(Disconnect);
        if self.r.percent(30) {
            self.now(Disconnect);
        }
        if self.r.percent(30) {
            self.advance(1);
            self.now(Disconnect);
        }
    }

    fn reconnect(&mut self) {
        let connect = self.l.terms.connect as i64;
        self.near(connect);
        self.now(Connect);
        if self.r.percent(30) {
            self.near(connect);
            self.now(Connect);
        }
    }

    fn plan_weather(&mut self) {
        if self.r.percent(85) {
            let from = self.x + self.r.pick(&[0, 0, 0, 1, 2, 3]);
            let to = from + self.r.pick(&[0, 0, 1, 2]);
            let kind = self.r.pick(&[1, 1, 1, 1, 1, 2, 3]);
            self.now(Mark { kind, from, to });
            let wait = self.r.pick(&[0, 0, 1, 1, 2, 2, 3, 3, 4, 5]);
            self.advance(to.min(LAST_DAY) - self.x.min(to) + wait);
        }
        if self.l.plan > 0 && self.r.percent(70) {
            self.pay_off();
        }
        let target = self.r.pick(&[-5_000, -5_000, -5_000, -5_001, -4_999, -4_999, -90_000]);
        self.steer(target);
        self.now(Plan { kind: 1 });
        if self.r.percent(20) {
            self.now(Plan { kind: 1 });
        }
    }

    fn plan_offered(&mut self) {
        if self.l.plan > 0 && self.r.percent(60) {
            self.pay_off();
        }
        let target = self.r.pick(&[-1, -1, 0, 0, 1, -77, -1_000, -9_999]);
        self.steer(target);
        self.now(Plan { kind: 2 });
        if self.r.percent(20) {
            let low = self.r.range(-7_000, 10);
            self.steer(low);
            let kind = self.r.range(1, 2) as u32;
            self.now(Plan { kind });
        }
    }

    /// A payment that takes R to 0, if the share allows it.
    fn pay_off(&mut self) {
        let share = self.l.terms.share as i64;
        if share > 0 {
            let amount = (self.l.plan * 100 + share - 1) / share;
            let amount = amount.clamp(1, MOST_AMOUNT as i64) as u32;
            self.now(Pay { amount });
        }
    }

    fn pay(&mut self) {
        let share = self.l.terms.share as i64;
        let amount = match self.r.below(6) {
            0 if share > 0 && self.l.plan > 0 => {
                // Either side of the amount whose share is just R.
                let exact = (self.l.plan * 100 + share - 1) / share;
                (exact + self.r.range(-2, 2)).clamp(1, MOST_AMOUNT as i64) as u32
            }
            1 => self.r.range(1, 9) as u32,
            2 => self.r.pick(&[1, 99, 100, 101, MOST_AMOUNT - 1, MOST_AMOUNT]),
            _ => self.r.range(1, 9_000) as u32,
        };
        self.now(Pay { amount });
    }

    fn reverse(&mut self) {
        let count = self.l.payments().count() as u32;
        let number = match self.r.below(8) {
            0 => count,
            1 => count.saturating_sub(1),
            2 => self.r.pick(&[0, 1, 127, 128, 255, 256, 65_536, u32::MAX]),
            3 if count > 0 => self.r.pick(&[256, 65_536, 1 << 31]) + self.r.below(count as u64) as u32,
            _ => self.r.below(count.max(1) as u64) as u32,
        };
        self.now(Reverse { number });
        if self.r.percent(20) {
            self.now(Reverse { number });
        }
    }

    /// Wh next to a step of the usage day's cost, or at the limits.
    fn wh(&mut self, usage: u32) -> u32 {
        let price = self.l.price_on(usage) as i64;
        match self.r.below(10) {
            0 => 0,
            1 => self.r.pick(&[1, 39, 40, MOST_WH - 1, MOST_WH]),
            2 => self.r.range(0, MOST_WH as i64) as u32,
            3 => self.r.range(0, 40_000) as u32,
            _ => {
                let top = cost_at(price as u32, MOST_WH);
                let cents = match self.r.below(3) {
                    0 => self.r.range(0, 3),
                    1 => self.r.range(0, 1_000),
                    _ => self.r.range(0, top),
                };
                let step = (cents * 100_000 - 50_000 + price - 1).div_euclid(price);
                (step + self.r.range(-1, 1)).clamp(0, MOST_WH as i64) as u32
            }
        }
    }

    fn usage_day(&mut self) -> u32 {
        let x = self.x;
        let estimated: Vec<u32> = self
            .l
            .list
            .iter()
            .rev()
            .take(60)
            .filter_map(|e| match e.event {
                Estimate { usage, .. } => Some(usage),
                _ => None,
            })
            .collect();
        let moves = self.l.price_days();
        match self.r.below(12) {
            10 | 11 if !moves.is_empty() => (self.r.pick(&moves) + self.r.pick(&[0, 0, 1, 2])).saturating_sub(1),
            0 => x,
            1 => x + 1,
            2 => self.r.pick(&[0, 1, 398, 399, 400, 65_536, u32::MAX]),
            3 | 4 => x.saturating_sub(1),
            5 | 6 | 7 if !estimated.is_empty() => self.r.pick(&estimated),
            _ => self.r.below(x.max(1) as u64) as u32,
        }
    }

    fn usage(&mut self) {
        for _ in 0..self.r.range(1, 3) {
            let usage = self.usage_day();
            let wh = self.wh(usage);
            let estimate = self.r.percent(50);
            self.now(if estimate { Estimate { usage, wh } } else { Read { usage, wh } });
            if self.r.percent(30) {
                let wh = self.wh(usage);
                let read = self.r.percent(80);
                self.now(if read { Read { usage, wh } } else { Estimate { usage, wh } });
            }
        }
    }

    /// At the limits, one that is or was in force, or any.
    fn price_number(&mut self) -> u32 {
        match self.r.below(14) {
            0 => self.r.pick(&[0, MOST_PRICE + 1, u32::MAX, (1 << 17) + 1_250, 1 << 31]),
            1 => 0,
            2 => MOST_PRICE + 1,
            3 => 1,
            4 => MOST_PRICE,
            5 => self.l.terms.price,
            6 => self.l.price_on(self.x),
            _ => self.good_price(),
        }
    }

    fn good_price(&mut self) -> u32 {
        self.r.range(1, MOST_PRICE as i64) as u32
    }

    fn price(&mut self) -> u8 {
        let price = self.price_number();
        self.now(Price { price })
    }

    /// A move of the price, estimates before it, reads and estimates after it, of days on both its sides.
    fn price_moves(&mut self) {
        let day = self.x;
        for _ in 0..self.r.below(3) {
            let usage = day.saturating_sub(1 + self.r.below(3) as u32);
            let wh = self.wh(usage);
            self.now(Estimate { usage, wh });
        }
        for _ in 0..self.r.pick(&[1, 1, 1, 2, 3]) {
            self.price();
        }
        let days = self.r.pick(&[0, 1, 1, 2, 2, 3, 9]);
        self.advance(days);
        if self.r.percent(25) {
            self.price();
        }
        for _ in 0..self.r.below(4) {
            let usage = (day + self.r.pick(&[0, 0, 1, 2, 3, 3])).saturating_sub(2);
            let wh = self.wh(usage);
            let read = self.r.percent(70);
            self.now(if read { Read { usage, wh } } else { Estimate { usage, wh } });
        }
    }

    /// Good prices on different days, until so many days after day 0 have one.
    fn fill_prices(&mut self, days: usize) {
        while self.l.price_days().len() < days && self.x < self.top && !self.stopped {
            let on = self.r.pick(&[1, 1, 1, 1, 2]);
            self.advance(on);
            let price = self.good_price();
            self.now(Price { price });
        }
    }

    /// A usage day of few Wh, and charges of kinds 1 and 2 such that its month has an average of 14 characters or 15, or nearly.
    fn wide_average(&mut self, usage: u32) {
        let wh = self.r.pick(&[1, 1, 1, 1, 2, 3]);
        let read = self.r.percent(50);
        self.now(if read { Read { usage, wh } } else { Estimate { usage, wh } });
        let tax = self.r.pick(&[0, 0, 0, 1, 9_999_999]);
        let off = self.r.pick(&[-100_000_000, -2, -1, -1, -1, 0, 0, 0, 1]);
        let mut charges = wh as i64 * 100_000_000 - self.l.cost(usage, wh) + off - tax;
        if tax > 0 {
            self.now(Charge { kind: 2, amount: tax as u32 });
        }
        while charges > 0 && !self.stopped {
            let amount = charges.min(MOST_AMOUNT as i64) as u32;
            self.now(Charge { kind: 1, amount });
            charges -= amount as i64;
        }
    }

    fn marks(&mut self) {
        let x = self.x;
        let from = x + self.r.pick(&[0, 0, 1, 2, 5]);
        let to = match self.r.below(8) {
            0 => from.wrapping_sub(1),
            1 => self.r.pick(&[398, 399, 400, 401]),
            _ => from + self.r.pick(&[0, 0, 1, 3, 9]),
        };
        let from = if self.r.percent(8) { x.wrapping_sub(1) } else { from };
        let kind = self.r.range(1, 3) as u32;
        self.now(Mark { kind, from, to });
    }

    fn strange(&mut self) {
        let x = match self.r.below(10) {
            0 => self.l.last_day().wrapping_sub(1),
            1 => self.r.pick(&[398, 399, 400, 401, 65_536, 256, u32::MAX]),
            2 => self.l.last_day(),
            _ => self.x,
        };
        let e = strange_event(self.r, x, self.l.payments().count() as u32);
        self.post(x, e);
        self.x = self.x.max(self.l.last_day());
    }

    /// A day at the end, or out of order, with an event good otherwise.
    fn day_trick(&mut self) {
        let last = self.l.last_day();
        let x = match self.r.below(8) {
            0 | 1 => last.wrapping_sub(1),
            2 => 400,
            3 if self.top == LAST_DAY => 398,
            4 if self.top == LAST_DAY && self.r.percent(30) => 399,
            5 => self.r.pick(&[256, 400, 401, 512, 65_536, 65_536 + last, u32::MAX]),
            6 => 0,
            _ => last,
        };
        let e = self.r.pick(&[Warn, Connect, Disconnect, Pay { amount: 5 }, Credit { amount: 5 }, Plan { kind: 2 }, Price { price: 5 }]);
        self.post(x, e);
        self.x = self.x.max(self.l.last_day());
    }

    fn scenario(&mut self) {
        match self.r.weighted(&[14, 6, 8, 8, 8, 6, 10, 4, 10, 4, 6, 3, 6]) {
            0 => self.cut(),
            1 => self.reconnect(),
            2 => self.plan_weather(),
            3 => self.plan_offered(),
            4 => self.pay(),
            5 => self.reverse(),
            6 => self.usage(),
            7 => self.marks(),
            8 => self.strange(),
            9 => self.day_trick(),
            10 => {
                let days = self.r.pick(&[1, 1, 1, 2, 3, 5, 7]);
                self.advance(days);
            }
            11 => self.price_moves(),
            _ => {
                self.now(Warn);
            }
        }
    }
}

/// Any sort, fields at, over and far over their limits.
fn strange_event(r: &mut Rng, x: u32, payments: u32) -> Event {
    let amount = |r: &mut Rng| match r.below(10) {
        0 => 0,
        1 => MOST_AMOUNT + 1,
        2 => r.pick(&[MOST_AMOUNT, MOST_AMOUNT - 1, u32::MAX, 1 << 31, 20_000_000]),
        3 => r.any_u32(),
        4 => 1,
        _ => r.range(1, 9_999) as u32,
    };
    let kind = |r: &mut Rng| match r.below(10) {
        0 => 0,
        1 => r.pick(&[256 + 1, 256 + 2, 65_536 + 1, u32::MAX, 10, 11]),
        2 => 6,
        _ => r.range(1, 5) as u32,
    };
    let near = |r: &mut Rng| match r.below(10) {
        0 => r.pick(&[0, 398, 399, 400, 401, u32::MAX]),
        1 => x.wrapping_add(r.pick(&[256, 65_536])),
        2 => r.any_u32(),
        3 | 4 => x.saturating_sub(r.below(9) as u32),
        _ => x.wrapping_add(r.range(-2, 3) as u32),
    };
    let wh = |r: &mut Rng| match r.below(8) {
        0 => MOST_WH + 1,
        1 => r.pick(&[MOST_WH, u32::MAX, 1 << 31]),
        2 => r.any_u32(),
        _ => r.range(0, 50_000) as u32,
    };
    let price = |r: &mut Rng| match r.below(8) {
        0 => 0,
        1 => MOST_PRICE + 1,
        2 => r.pick(&[1, MOST_PRICE, u32::MAX, (1 << 17) + 7, (1 << 24) + 7]),
        3 => r.any_u32(),
        _ => r.range(1, 9_999) as u32,
    };
    match r.below(12) {
        11 => Price { price: price(r) },
        0 => Pay { amount: amount(r) },
        1 => Reverse { number: if r.percent(70) { r.below(payments as u64 + 2) as u32 } else { r.any_u32() } },
        2 => Credit { amount: amount(r) },
        3 => Charge { kind: kind(r), amount: amount(r) },
        4 => Estimate { usage: near(r), wh: wh(r) },
        5 => Read { usage: near(r), wh: wh(r) },
        6 => Warn,
        7 => Mark { kind: kind(r), from: near(r), to: near(r) },
        8 => Plan { kind: if r.percent(30) { kind(r) } else { r.range(0, 3) as u32 } },
        9 => Disconnect,
        _ => Connect,
    }
}

/// Up to `scenarios` scenarios of a few events each.
pub fn guided(r: &mut Rng, limit: usize, scenarios: u64) -> Vec<u8> {
    let limit = r.range(limit as i64 / 8, limit as i64) as usize;
    let top = r.pick(&[LAST_DAY, LAST_DAY, LAST_DAY, 60, 14]);
    let n = r.below(scenarios) + 1;
    let terms = good_terms(r);
    let long = scenarios > 100;
    let mut g = Guide::new(r, terms, top, limit);
    if g.r.percent(12) {
        // Late in the account's life: the last days are 398 and 399.
        g.x = g.r.range(380, 399) as u32;
        g.top = LAST_DAY;
    }
    for _ in 0..n {
        // A long text must not run into day 399 at once.
        let clock = g.x;
        g.scenario();
        if long && g.r.percent(80) {
            g.x = clock.max(g.l.last_day());
        }
        if g.stopped {
            break;
        }
    }
    g.out
}

/// About 128 payments, on the way with a plan, reversals and days.
pub fn payments(r: &mut Rng) -> Vec<u8> {
    let terms = good_terms(r);
    let mut g = Guide::new(r, terms, LAST_DAY, 12_000);
    let target = g.r.range(125, 128) as usize;
    while g.l.payments().count() < target && !g.stopped {
        match g.r.below(60) {
            0 => g.plan_offered(),
            1 => g.reverse(),
            2 => g.advance(3),
            3 => g.strange(),
            _ => g.pay(),
        }
    }
    for _ in 0..g.r.below(12) {
        match g.r.below(4) {
            0 => g.reverse(),
            1 => g.strange(),
            _ => g.pay(),
        }
    }
    g.out
}

/// Prices on about sixteen days, several on some of them, and usage on both sides of each.
pub fn prices(r: &mut Rng) -> Vec<u8> {
    let terms = good_terms(r);
    let mut g = Guide::new(r, terms, LAST_DAY, 9_000);
    if g.r.percent(60) {
        g.x = 0;
        for _ in 0..g.r.pick(&[1, 1, 2, 3]) {
            g.price();
        }
    }
    let target = g.r.pick(&[3, 14, 15, 16, 16, 16]);
    let far = g.r.pick(&[1, 3, 20]);
    while g.l.price_days().len() < target && g.x < LAST_DAY && !g.stopped {
        let days = g.r.range(1, far) as u32;
        g.advance(days);
        match g.r.below(4) {
            0 => g.price_moves(),
            1 => g.usage(),
            _ => {}
        }
        for _ in 0..g.r.pick(&[1, 1, 1, 2, 3]) {
            g.price();
        }
    }
    // The last of these days again, then others.
    for _ in 0..g.r.range(4, 12) {
        match g.r.below(8) {
            0 => g.advance(1),
            1 | 2 => g.price_moves(),
            3 | 4 => g.usage(),
            5 => g.strange(),
            _ => {
                g.price();
            }
        }
    }
    g.out
}

// Months.

/// A month that no account has, counted from its opening month.
pub fn far_month(r: &mut Rng) -> u32 {
    r.pick(&[15, 16, 24, 127, 128, 255, 256, 257, 269, 65_536, 65_537, 1 << 31, u32::MAX - 1, u32::MAX])
}

/// Mostly the month of a day, else any.
pub fn month(r: &mut Rng, terms: &Terms, day: u32) -> u32 {
    match r.below(20) {
        0..=12 if terms.within_limits() && day <= LAST_DAY => terms.month_of(day),
        13 | 14 => r.pick(&[12, 13, 14, 14, 15]),
        15 => far_month(r),
        _ => r.range(0, 15) as u32,
    }
}

/// Mostly a month that holds an event of the account, or its usage day.
pub fn month_of(r: &mut Rng, run: &Run) -> u32 {
    let Run::Account { ledger, .. } = run else { return r.range(0, 15) as u32 };
    let entry = ledger.list.get(r.index(ledger.list.len().max(1)));
    let day = match entry.map(|e| (e.day, e.event)) {
        Some((_, Estimate { usage, .. } | Read { usage, .. })) if r.percent(80) => usage,
        Some((day, _)) => day,
        None => 0,
    };
    month(r, &ledger.terms, day)
}

/// Arguments that name no month.
pub fn bad_arguments(r: &mut Rng) -> Vec<OsString> {
    const WRONG: [&[u8]; 26] = [
        b"", b"00", b"01", b"014", b"+1", b"-1", b"-0", b" 1", b"1 ", b"1\n", b"\n", b"4294967296", b"4294967297", b"42949672950",
        b"18446744073709551616", b"00000000000", b"0x1", b"1e1", b"1.0", b"one", b"2024-01", b"--help", b"month=1", b"\xff", b"1\xff",
        "\u{661}".as_bytes(),
    ];
    const TWO: [[&[u8]; 2]; 6] = [[b"0", b"0"], [b"1", b""], [b"", b"1"], [b"--", b"1"], [b"0", b"01"], [b"x", b"1"]];
    let args: &[&[u8]] = match r.below(6) {
        0 => &[],
        1 => &r.pick(&TWO),
        2 => &[b"0", b"1", b"2"],
        _ => &[r.pick(&WRONG)],
    };
    args.iter().map(|a| OsString::from_vec(a.to_vec())).collect()
}

/// The days of a month, counted from the opening month.
pub fn days_of(terms: &Terms, month: u32) -> Vec<u32> {
    let (mut date, mut days) = (terms.open, Vec::new());
    for day in 0..=LAST_DAY {
        if date.months_after(terms.open) == month {
            days.push(day);
        }
        date = date.next();
    }
    days
}

/// A month and the days beside it, for its page: payments, none to all of an account's, some of them reversed; small and large charges of
/// every kind; usage of both sorts, one of them, or none; an average near 14 characters.
pub fn pages(r: &mut Rng) -> Vec<u8> {
    let terms = good_terms(r);
    let mut g = Guide::new(r, terms, LAST_DAY, 14_000);
    let month = if g.r.percent(50) { g.r.range(0, 14) as u32 } else { g.r.pick(&[0, 0, 1, 2, 11, 12, 13, 14, 14, 14]) };
    let mut days = days_of(&terms, month);
    if days.is_empty() {
        days = days_of(&terms, 13);
    }
    let (first, last) = (days[0], days[days.len() - 1]);
    let end = (last + 3).min(LAST_DAY);
    let some_day = |r: &mut Rng| match r.below(6) {
        0 => first,
        1 => last,
        2 => (last + 1).min(LAST_DAY),
        3 => first.saturating_sub(1),
        _ => r.range(first as i64, last as i64) as u32,
    };
    // The days of payments: all on one, or on any.
    let payments = g.r.pick(&[0, 0, 1, 1, 2, 3, 5, 12, 40, 127, 128, 128]);
    let one_day = if g.r.percent(40) { Some(some_day(g.r)) } else { None };
    let mut paid: Vec<u32> = (0..payments).map(|_| one_day.unwrap_or_else(|| some_day(g.r))).collect();
    if g.r.percent(40) {
        // All in the month.
        paid.iter_mut().for_each(|day| *day = (*day).clamp(first, last));
    }
    let reversals = g.r.pick(&[0, 0, 5, 30, 100]);
    let charges = g.r.pick(&[0, 10, 40]);
    let small = g.r.percent(60);
    let wide = g.r.percent(30);
    // Of a hundred days how many are estimated, and read.
    let (estimated, read) = if wide { (0, 0) } else { g.r.pick(&[(0, 0), (0, 0), (60, 0), (0, 60), (50, 40), (90, 90), (3, 3)]) };
    let no_energy = g.r.percent(15);
    let usage = if wide { first.min(LAST_DAY - 1) } else { last };
    for x in first.saturating_sub(1)..=end {
        g.x = x;
        for _ in 0..paid.iter().filter(|&&day| day == x).count() {
            let amount = g.r.pick(&[1, 9, 10, 99, 100, 101, 999, 1_005, 12_345, 999_999, MOST_AMOUNT - 1, MOST_AMOUNT]);
            let number = g.l.payments().count() as u32;
            g.now(Pay { amount });
            if g.r.percent(reversals / 2) {
                g.now(Reverse { number });
            }
        }
        for _ in 0..2 {
            if g.r.percent(charges) {
                let kind = if wide { g.r.range(3, 5) } else { g.r.range(1, 5) } as u32;
                let amount = if small { g.r.pick(&[1, 5, 9, 10, 50, 90, 99, 100, 101, 1_000]) } else { g.r.range(1, MOST_AMOUNT as i64) as u32 };
                g.now(Charge { kind, amount });
            }
        }
        if x > 0 {
            for (share, is_read) in [(estimated, false), (read, true)] {
                if g.r.percent(share) {
                    let usage = x - 1 - g.r.below(3).min(x as u64 - 1) as u32;
                    let wh = if no_energy { 0 } else { g.wh(usage) };
                    g.now(if is_read { Read { usage, wh } } else { Estimate { usage, wh } });
                }
            }
        }
        if wide && x == usage + 1 {
            g.wide_average(usage);
        }
        if g.r.percent(3) {
            g.strange();
            g.x = x;
        }
    }
    g.x = g.l.last_day().max(end);
    for number in 0..g.l.payments().count() as u32 {
        if g.r.percent(reversals) {
            g.now(Reverse { number });
        }
    }
    g.out
}

/// Usage over the whole account's life, for the summaries.
pub fn year(r: &mut Rng) -> Vec<u8> {
    let terms = good_terms(r);
    let mut g = Guide::new(r, terms, LAST_DAY, MOST_BYTES);
    let step = g.r.range(1, 6) as u32;
    let rich = g.r.percent(30);
    while g.x < LAST_DAY && !g.stopped {
        g.advance(step);
        let usage = g.x - 1;
        let wh = if rich { MOST_WH - g.r.below(3) as u32 } else { g.wh(usage) };
        match g.r.below(4) {
            0 => {
                g.now(Estimate { usage, wh });
            }
            1 => {
                g.now(Read { usage, wh });
            }
            2 => g.usage(),
            _ => {}
        }
        match g.r.below(8) {
            4 if g.r.percent(60) => {
                g.price();
            }
            0 => {
                let kind = g.r.range(1, 5) as u32;
                let amount = if rich { MOST_AMOUNT } else { g.r.range(1, 5_000) as u32 };
                g.now(Charge { kind, amount });
            }
            1 => g.pay(),
            2 => g.reverse(),
            3 => g.strange(),
            _ => {}
        }
    }
    // Late reads, in any order.
    for _ in 0..g.r.below(200) {
        let usage = g.r.below(401) as u32;
        let wh = g.wh(usage);
        let open = !matches!(g.l.usage(usage), Usage::Metered { .. });
        if open || g.r.percent(20) {
            let read = g.r.percent(70);
            g.now(if read { Read { usage, wh } } else { Estimate { usage, wh } });
        }
    }
    g.out
}

/// 4,095 to 4,097 accepted events and what comes then.
pub fn full(r: &mut Rng) -> Vec<u8> {
    let terms = good_terms(r);
    let priced = r.percent(35);
    let top = if priced { 60 } else { r.pick(&[7, 9, 9, 40]) };
    let mut g = Guide::new(r, terms, top, 2_000);
    for _ in 0..20 {
        g.scenario();
    }
    g.limit = MOST_BYTES;
    g.stopped = false;
    if g.r.percent(40) {
        // Full of payments too.
        let target = g.r.range(126, 128) as usize;
        while g.l.payments().count() < target && !g.stopped {
            let amount = g.r.range(1, 9) as u32;
            g.now(Pay { amount });
        }
    }
    if priced {
        // Full of prices too, or all but full.
        let days = g.r.pick(&[MOST_PRICE_DAYS - 1, MOST_PRICE_DAYS, MOST_PRICE_DAYS, MOST_PRICE_DAYS]);
        g.fill_prices(days);
    }
    let target = g.r.pick(&[MOST_EVENTS - 2, MOST_EVENTS - 1, MOST_EVENTS]);
    let x = g.l.last_day();
    while g.l.list.len() < target && !g.stopped {
        g.post(x, Warn);
    }
    g.x = x;
    g.limit -= g.r.pick(&[0, 0, 1_000, 2_500]).min(MOST_BYTES - g.out.len());
    while !g.stopped {
        if g.r.percent(if priced { 40 } else { 5 }) {
            g.price();
            let days = g.r.pick(&[0, 0, 0, 1]);
            g.advance(days);
        } else if g.r.percent(50) {
            g.scenario();
        } else {
            g.strange();
        }
    }
    g.out
}

/// Sums far beyond 32 bits.
pub fn deep(r: &mut Rng) -> Vec<u8> {
    let terms = good_terms(r);
    let mut g = Guide::new(r, terms, LAST_DAY, MOST_BYTES);
    let up = g.r.percent(35);
    let mixed = g.r.percent(20);
    for _ in 0..g.r.range(200, 1_600) {
        let amount = MOST_AMOUNT - g.r.pick(&[0, 0, 0, 1, 12_345]);
        let kind = g.r.pick(&[1, 1, 2, 5, 4]);
        if mixed && g.r.percent(50) {
            g.now(Credit { amount });
        } else {
            g.now(if up { Credit { amount } } else { Charge { kind, amount } });
        }
        if g.r.percent(1) {
            g.advance(3);
        }
        if g.r.percent(2) {
            g.strange();
        }
    }
    g.now(Plan { kind: 2 });
    for _ in 0..300 {
        match g.r.below(8) {
            0 => g.usage(),
            1 => g.reverse(),
            2 => {
                g.now(Plan { kind: 2 });
            }
            3 => {
                let kind = g.r.range(1, 5) as u32;
                g.now(Charge { kind, amount: MOST_AMOUNT });
            }
            4 => g.advance(1),
            5 => g.strange(),
            _ => {
                let amount = MOST_AMOUNT - g.r.below(3) as u32;
                g.now(Pay { amount });
            }
        }
    }
    g.out
}

fn long_base(r: &mut Rng) -> Vec<u8> {
    match r.below(4) {
        0 => full(r),
        1 => deep(r),
        2 => random(r, MOST_BYTES),
        _ => guided(r, MOST_BYTES, 5_000),
    }
}

/// Texts of about 65,536 bytes, to the byte.
fn length(r: &mut Rng) -> Vec<u8> {
    let mut out = if r.percent(50) { guided(r, 20_000, 500) } else { long_base(r) };
    let target = MOST_BYTES - 1 + r.index(3);
    pad(r, &mut out, target);
    out
}

/// Adds warnings until the text has `target` bytes. The text must be well
/// formed; events are taken off its end if it is too long for that.
pub fn pad(r: &mut Rng, out: &mut Vec<u8>, target: usize) {
    while out.len() + 28 > target {
        let cut = out.windows(5).rposition(|w| w == b"\nday=").map_or(0, |i| i + 1);
        out.truncate(cut);
        if cut == 0 {
            return;
        }
    }
    // A warning has 14 bytes with a day of one digit, 23 with ten.
    let day = |digits: usize, r: &mut Rng| match digits {
        1 => r.range(0, 9) as u32,
        3 => r.pick(&[398, 399, 400, 399, 100]),
        d => 10u32.pow(d as u32 - 1),
    };
    let same = r.pick(&[1, 1, 3]);
    loop {
        let gap = target - out.len();
        let digits = match gap {
            0 => break,
            14..=23 => gap - 13,
            28..=46 => (gap / 2 - 13).min(10),
            _ => same,
        };
        write_event(out, day(digits, r), Warn);
    }
}

/// The shortest texts and other corners.
fn edge(r: &mut Rng) -> Vec<u8> {
    let mut terms = Vec::new();
    write_terms(&mut terms, &good_terms(r));
    match r.below(9) {
        0 => Vec::new(),
        1 => terms,
        2 => b"\n".to_vec(),
        3 => vec![r.next() as u8; r.pick(&[1, 5, 65_536, 65_537])],
        4 => {
            terms.resize(r.pick(&[65_535, 65_536, 65_537, 65_538, 131_072, 200_000]), r.pick(&[b'\n', b'0', 0, b'=']));
            terms
        }
        5 => {
            // Good but too long, by much.
            let n = r.pick(&[4_700, 5_000, 9_400, 20_000]);
            for _ in 0..n {
                terms.extend_from_slice(b"day=0\ndo=warn\n");
            }
            terms
        }
        6 => (0..r.below(300)).map(|_| r.next() as u8).collect(),
        7 => {
            terms.truncate(r.index(terms.len()));
            terms
        }
        _ => {
            // One event of each sort, whatever its answer.
            for e in [
                Pay { amount: 1 }, Reverse { number: 0 }, Credit { amount: 1 }, Charge { kind: 1, amount: 1 },
                Estimate { usage: 0, wh: 1 }, Read { usage: 0, wh: 1 }, Warn, Mark { kind: 1, from: 9, to: 9 },
                Plan { kind: 1 }, Disconnect, Connect, Price { price: 1 },
            ] {
                write_event(&mut terms, r.pick(&[0, 1, 1, 1]), e);
            }
            terms
        }
    }
}

// Random texts.

/// No ledger here: sorts and fields at random, of all sizes.
pub fn random(r: &mut Rng, limit: usize) -> Vec<u8> {
    let limit = r.range(100, limit as i64) as usize;
    let terms = if r.percent(4) { edge_terms(r) } else { good_terms(r) };
    let mut out = Vec::new();
    write_terms(&mut out, &terms);
    let wild = r.percent(20);
    let slow = r.pick(&[1, 5, 30, 60]);
    let mut x = 0u32;
    loop {
        if r.percent(slow) {
            x = (x + r.pick(&[1, 1, 2, 7])).min(399);
        }
        let day = if r.percent(3) { r.any_u32() } else { x };
        let amount = if wild && r.percent(30) { r.any_u32() } else { r.range(1, 9_000) as u32 };
        let kind = if wild && r.percent(30) { r.any_u32() } else { r.range(0, 6) as u32 };
        let e = match r.below(12) {
            11 => Price { price: amount.wrapping_mul(r.pick(&[1, 1, 7, 13])) },
            0 => Pay { amount },
            1 => Reverse { number: r.below(if wild { 200 } else { 12 }) as u32 },
            2 => Credit { amount },
            3 => Charge { kind, amount },
            4 => Estimate { usage: r.below(x as u64 + 2) as u32, wh: amount.wrapping_mul(7) },
            5 => Read { usage: r.below(x as u64 + 2) as u32, wh: amount.wrapping_mul(7) },
            6 => Warn,
            7 => Mark { kind: kind % 5, from: x + r.below(4) as u32, to: x + r.below(9) as u32 },
            8 => Plan { kind: kind % 4 },
            9 => Disconnect,
            _ => Connect,
        };
        let before = out.len();
        write_event(&mut out, day, e);
        if out.len() > limit {
            out.truncate(before);
            return out;
        }
    }
}
