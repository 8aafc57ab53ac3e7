//! The account: opening terms, events, answers, rows, readings and month summaries.

pub const DAYS: usize = 400;
pub const MOST_EVENTS: u32 = 4_096;
pub const MOST_PAYMENTS: usize = 128;
pub const MOST_AMOUNT: u32 = 10_000_000;
pub const MOST_WH: u32 = 9_999_999;
pub const MONTHS: usize = 15;

/// Both sides can be lent the same row.
pub use crate::head::{Event, Terms};

#[derive(Clone, Copy)]
pub struct Answer {
    pub code: u8,
    pub value: u64,
}

pub const PAY: u32 = 1;
pub const REVERSE: u32 = 2;
pub const CREDIT: u32 = 3;
pub const CHARGE: u32 = 4;
pub const ESTIMATE: u32 = 5;
pub const READ: u32 = 6;
pub const WARN: u32 = 7;
pub const MARK: u32 = 8;
pub const PLAN: u32 = 9;
pub const DISCONNECT: u32 = 10;
pub const CONNECT: u32 = 11;

#[derive(Clone, Copy, PartialEq, Eq)]
enum State {
    Blank,
    Estimated,
    Metered,
}

#[derive(Clone, Copy)]
struct Day {
    state: State,
    wh: u32,
    cost: u32,
}

#[derive(Clone, Copy)]
struct Payment {
    day: u32,
    amount: u32,
    part: u32,
    reversed: bool,
}

/// One account, of a fixed size and with no pointer in it.
#[derive(Clone, Copy)]
pub struct Account {
    balance: i64,
    plan: u64,
    /// Costs of estimated days.
    estimates: u64,
    /// Kept payments and credits less charges and reads.
    settled: i64,
    events: u32,
    last: u32,
    count: u32,
    /// The month of `last`.
    month: u32,
    /// 0 is Monday.
    weekday: u32,
    service: bool,
    price: u32,
    connect: u32,
    cutoff: u32,
    share: u32,
    /// First day of each month; day 400 and later for those that hold none.
    starts: [u16; MONTHS + 1],
    days: [Day; DAYS],
    marks: [u8; DAYS],
    warned: [u8; DAYS],
    payments: [Payment; MOST_PAYMENTS],
    charges: [[u64; 5]; MONTHS],
}

fn days_in_month(year: u32, month: u32) -> u32 {
    match month {
        1 | 3 | 5 | 7 | 8 | 10 | 12 => 31,
        4 | 6 | 9 | 11 => 30,
        2 => 28 + (year % 4 == 0 && (year % 100 != 0 || year % 400 == 0)) as u32,
        _ => 0,
    }
}

/// 0 is Monday (Sakamoto's rule).
fn weekday(year: u32, month: u32, day: u32) -> u32 {
    let y = year - (month < 3) as u32;
    let shift = [0, 3, 2, 5, 0, 3, 5, 1, 4, 6, 2, 4][month as usize - 1];
    (y + y / 4 - y / 100 + y / 400 + shift + day + 6) % 7
}

impl Terms {
    pub fn within_limits(&self) -> bool {
        (2000..=2099).contains(&self.year)
            && self.day >= 1
            && self.day <= days_in_month(self.year, self.month)
            && (1..=99_999).contains(&self.price)
            && self.connect <= 7_500
            && self.cutoff <= 1_000
            && self.cutoff <= self.connect
            && self.share <= 50
    }
}

#[derive(Clone, Copy, Debug, Default, PartialEq, Eq)]
pub struct Summary {
    pub code: u8,
    pub kept: (u32, u64),
    pub reversed: (u32, u64),
    pub metered: (u64, u64),
    pub estimated: (u64, u64),
    pub charges: [u64; 5],
    pub average: u64,
    pub missing: bool,
}

#[cold]
#[inline(never)]
fn refuse(code: u8) -> Answer {
    Answer { code, value: 0 }
}

fn bad_amount(amount: u32) -> bool {
    amount.wrapping_sub(1) >= MOST_AMOUNT
}

impl Account {
    /// A fresh account, or none for terms outside their limits (code 1).
    pub fn open(t: &Terms) -> Option<Account> {
        if !t.within_limits() {
            return None;
        }
        let mut starts = [0u16; MONTHS + 1];
        let (mut year, mut month, mut start) = (t.year, t.month, 0u32);
        let mut left = days_in_month(year, month) - t.day + 1;
        for s in starts.iter_mut() {
            *s = start as u16;
            start += left;
            (year, month) = if month == 12 { (year + 1, 1) } else { (year, month + 1) };
            left = days_in_month(year, month);
        }
        Some(Account {
            balance: 0,
            plan: 0,
            estimates: 0,
            settled: 0,
            events: 0,
            last: 0,
            count: 0,
            month: 0,
            weekday: weekday(t.year, t.month, t.day),
            service: false,
            price: t.price,
            connect: t.connect,
            cutoff: t.cutoff,
            share: t.share,
            starts,
            days: [Day { state: State::Blank, wh: 0, cost: 0 }; DAYS],
            marks: [0; DAYS],
            warned: [0; DAYS],
            payments: [Payment { day: 0, amount: 0, part: 0, reversed: false }; MOST_PAYMENTS],
            charges: [[0; 5]; MONTHS],
        })
    }

    pub fn balance(&self) -> i64 {
        self.balance
    }
    pub fn plan(&self) -> u64 {
        self.plan
    }
    pub fn settled(&self) -> i64 {
        self.settled
    }
    pub fn estimates(&self) -> u64 {
        self.estimates
    }
    pub fn service(&self) -> bool {
        self.service
    }

    fn cost(&self, wh: u32) -> u32 {
        ((wh as u64 * self.price as u64 + 50_000) / 100_000) as u32
    }

    fn weekday(&self, day: u32) -> u32 {
        (self.weekday + day) % 7
    }

    fn full(&self) -> bool {
        self.events >= MOST_EVENTS
    }

    fn accept(&mut self, day: u32, value: u64) -> Answer {
        self.events += 1;
        self.last = day;
        Answer { code: 0, value }
    }

    /// Some accepted warning was issued on a day w with 1 <= x - w <= 7.
    fn is_warned(&self, x: u32) -> bool {
        let x = x as usize;
        self.warned[x.saturating_sub(7)..x].iter().any(|&w| w != 0)
    }

    /// Some weather day w <= x has at most one business day among w+1 to x.
    fn is_near_weather(&self, x: u32) -> bool {
        let mut business = 0;
        let mut w = x;
        loop {
            if self.marks[w as usize] & 1 != 0 {
                return true;
            }
            business += (self.weekday(w) < 5) as u32;
            if business > 1 || w == 0 {
                return false;
            }
            w -= 1;
        }
    }

    /// Posts one event in place. A refusal changes nothing.
    #[inline(never)]
    pub fn post(&mut self, e: &Event) -> Answer {
        let x = e.day;
        if x < self.last || x >= DAYS as u32 {
            return refuse(2);
        }
        match e.sort {
            PAY => {
                if bad_amount(e.amount) {
                    return refuse(3);
                }
                if self.full() {
                    return refuse(4);
                }
                let number = self.count as usize;
                if number >= MOST_PAYMENTS {
                    return refuse(5);
                }
                let part = self.plan.min(e.amount as u64 * self.share as u64 / 100) as u32;
                self.payments[number] = Payment { day: x, amount: e.amount, part, reversed: false };
                self.count += 1;
                self.plan -= part as u64;
                self.balance += (e.amount - part) as i64;
                self.settled += e.amount as i64;
                self.accept(x, number as u64)
            }
            REVERSE => {
                if self.full() {
                    return refuse(4);
                }
                if e.number >= self.count {
                    return refuse(6);
                }
                let p = &mut self.payments[e.number as usize];
                if p.reversed {
                    return refuse(6);
                }
                p.reversed = true;
                self.plan += p.part as u64;
                self.balance -= (p.amount - p.part) as i64;
                self.settled -= p.amount as i64;
                self.accept(x, 0)
            }
            CREDIT => {
                if bad_amount(e.amount) {
                    return refuse(3);
                }
                if self.full() {
                    return refuse(4);
                }
                self.balance += e.amount as i64;
                self.settled += e.amount as i64;
                self.accept(x, 0)
            }
            CHARGE => {
                let kind = e.kind.wrapping_sub(1) as usize;
                if kind >= 5 || bad_amount(e.amount) {
                    return refuse(3);
                }
                if self.full() {
                    return refuse(4);
                }
                self.balance -= e.amount as i64;
                self.settled -= e.amount as i64;
                let mut month = self.month as usize;
                while month + 1 < MONTHS && self.starts[month + 1] as u32 <= x {
                    month += 1;
                }
                self.month = month as u32;
                self.charges[month][kind] += e.amount as u64;
                self.accept(x, 0)
            }
            ESTIMATE | READ => {
                if e.wh > MOST_WH {
                    return refuse(3);
                }
                if self.full() {
                    return refuse(4);
                }
                if e.usage >= x {
                    return refuse(7);
                }
                let cost = self.cost(e.wh);
                let day = &mut self.days[e.usage as usize];
                if e.sort == ESTIMATE {
                    if day.state != State::Blank {
                        return refuse(8);
                    }
                    *day = Day { state: State::Estimated, wh: e.wh, cost };
                    self.estimates += cost as u64;
                } else {
                    if day.state == State::Metered {
                        return refuse(8);
                    }
                    // A blank day's cost is 0.
                    self.estimates -= day.cost as u64;
                    self.balance += day.cost as i64;
                    *day = Day { state: State::Metered, wh: e.wh, cost };
                    self.settled -= cost as i64;
                }
                self.balance -= cost as i64;
                self.accept(x, cost as u64)
            }
            WARN => {
                if self.full() {
                    return refuse(4);
                }
                self.warned[x as usize] = 1;
                self.accept(x, 0)
            }
            MARK => {
                if !(1..=3).contains(&e.kind) || e.from < x || e.to < e.from || e.to >= DAYS as u32 {
                    return refuse(3);
                }
                if self.full() {
                    return refuse(4);
                }
                for m in &mut self.marks[e.from as usize..=e.to as usize] {
                    *m |= 1 << (e.kind - 1);
                }
                self.accept(x, 0)
            }
            PLAN => {
                if !(1..=2).contains(&e.kind) {
                    return refuse(3);
                }
                if self.full() {
                    return refuse(4);
                }
                let due = if e.kind == 1 { self.balance <= -5_000 && self.is_near_weather(x) } else { self.balance < 0 };
                if !due {
                    return refuse(9);
                }
                if self.plan > 0 {
                    return refuse(10);
                }
                let deferred = (self.connect as i64 - self.balance) as u64;
                self.balance = self.connect as i64;
                self.plan = deferred;
                self.accept(x, deferred)
            }
            DISCONNECT => {
                if self.full() {
                    return refuse(4);
                }
                if !self.service {
                    return refuse(11);
                }
                if self.balance >= self.cutoff as i64 {
                    return refuse(12);
                }
                if !self.is_warned(x) {
                    return refuse(13);
                }
                if self.marks[x as usize] != 0 || self.weekday(x) >= 5 {
                    return refuse(14);
                }
                self.service = false;
                self.accept(x, 0)
            }
            CONNECT => {
                if self.full() {
                    return refuse(4);
                }
                if self.service {
                    return refuse(11);
                }
                if self.balance < self.connect as i64 {
                    return refuse(12);
                }
                self.service = true;
                self.accept(x, 0)
            }
            _ => refuse(3),
        }
    }

    /// Posts the row in order, a code byte each. 0; or 16, nothing posted and nothing written, where the bytes are fewer than the events.
    pub fn row(&mut self, row: &[Event], codes: &mut [u8]) -> u8 {
        if codes.len() < row.len() {
            return 16;
        }
        for (e, code) in row.iter().zip(codes) {
            *code = self.post(e).code;
        }
        0
    }

    /// The figures of month `month`, 0 being the opening month.
    pub fn summary(&self, month: u32) -> Summary {
        let mut s = Summary::default();
        if month as usize >= MONTHS || self.starts[month as usize] as usize >= DAYS {
            s.code = 3;
            return s;
        }
        let from = self.starts[month as usize] as usize;
        let to = (self.starts[month as usize + 1] as usize).min(DAYS);
        for p in &self.payments[..self.count as usize] {
            if (from..to).contains(&(p.day as usize)) {
                let sum = if p.reversed { &mut s.reversed } else { &mut s.kept };
                sum.0 += 1;
                sum.1 += p.amount as u64;
            }
        }
        for d in &self.days[from..to] {
            let sum = match d.state {
                State::Blank => continue,
                State::Estimated => &mut s.estimated,
                State::Metered => &mut s.metered,
            };
            sum.0 += d.wh as u64;
            sum.1 += d.cost as u64;
        }
        s.charges = self.charges[month as usize];
        let wh = s.metered.0 + s.estimated.0;
        let cost = s.metered.1 + s.estimated.1 + s.charges[0] + s.charges[1];
        if wh == 0 {
            s.missing = true;
        } else {
            s.average = (cost * 100_000 + wh / 2) / wh;
        }
        s
    }
}
