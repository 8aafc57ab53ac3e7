//! The rules of document 01 and of document 02's T-01, over what they ask of an account
//! (`Book`), and its ledger: the terms, the list L of accepted events, B, R and service.
//! Everything else a rule asks of the ledger is read off the terms and L.

use crate::calendar::{Date, SATURDAY, SUNDAY};

pub const LAST_DAY: u32 = 399;
pub const MOST_EVENTS: usize = 4_096;
pub const MOST_PAYMENTS: usize = 128;
pub const MOST_AMOUNT: u32 = 10_000_000;
pub const MOST_WH: u32 = 9_999_999;
pub const MOST_PRICE: u32 = 99_999;
/// Days after day 0 that may have a price.
pub const MOST_PRICE_DAYS: usize = 16;
/// The rows of the table of refusals, in the order in which the lowest is given.
const ROWS: [u8; 15] = [1, 2, 3, 4, 5, 6, 7, 8, 9, 10, 11, 12, 13, 14, 17];

#[derive(Clone, Copy, Debug, PartialEq, Eq)]
pub struct Terms {
    pub open: Date,
    pub price: u32,
    pub connect: u32,
    pub cutoff: u32,
    pub share: u32,
}

impl Terms {
    pub fn within_limits(&self) -> bool {
        self.open.exists()
            && (2000..=2099).contains(&self.open.year)
            && (1..=MOST_PRICE).contains(&self.price)
            && self.connect <= 7_500
            && self.cutoff <= 1_000
            && self.cutoff <= self.connect
            && self.share <= 50
    }

    pub fn weekday(&self, day: u32) -> u32 {
        (self.open.weekday() + day) % 7
    }

    pub fn is_weekend(&self, day: u32) -> bool {
        matches!(self.weekday(day), SATURDAY | SUNDAY)
    }

    /// The month that a day lies in, counted from the opening month.
    pub fn month_of(&self, day: u32) -> u32 {
        self.open.plus(day).months_after(self.open)
    }
}

/// Cents for a usage day's Wh at a price, each day rounded by itself.
pub fn cost_at(price: u32, wh: u32) -> i64 {
    (wh as i64 * price as i64 + 50_000) / 100_000
}

#[derive(Clone, Copy, Debug, PartialEq, Eq)]
pub enum Event {
    Pay { amount: u32 },
    Reverse { number: u32 },
    Credit { amount: u32 },
    Charge { kind: u32, amount: u32 },
    Estimate { usage: u32, wh: u32 },
    Read { usage: u32, wh: u32 },
    Warn,
    Mark { kind: u32, from: u32, to: u32 },
    Plan { kind: u32 },
    Disconnect,
    Connect,
    Price { price: u32 },
}
use Event::*;

/// An accepted event. `to_plan` and `to_balance` are the two parts of a
/// payment, 0 for all other events.
#[derive(Clone, Copy, Debug, PartialEq, Eq)]
pub struct Entry {
    pub day: u32,
    pub event: Event,
    pub to_plan: i64,
    pub to_balance: i64,
}

#[derive(Clone, Copy, Debug, PartialEq, Eq)]
pub enum Usage {
    Blank,
    Estimated { wh: u32, cost: i64 },
    Metered { wh: u32, cost: i64 },
}

#[derive(Clone, Copy, Debug, PartialEq, Eq)]
pub struct Answer {
    pub code: u8,
    pub value: i64,
}

/// A payment as the month summary counts it.
#[derive(Clone, Copy, Debug, PartialEq, Eq)]
pub struct Payment {
    pub day: u32,
    pub amount: i64,
    pub reversed: bool,
}

/// What the rules ask of an account, and where an accepted event goes.
pub trait Book {
    fn terms(&self) -> Terms;
    fn balance(&self) -> i64;
    fn plan(&self) -> i64;
    fn service(&self) -> bool;
    fn last_day(&self) -> u32;
    fn events(&self) -> usize;
    fn payment_count(&self) -> usize;
    /// The two parts of a payment, to the plan and to the balance.
    fn parts(&self, number: u32) -> Option<(i64, i64)>;
    fn is_reversed(&self, number: u32) -> bool;
    fn usage(&self, day: u32) -> Usage;
    /// The price in force on a usage day: that of the newest accepted price event whose day is at most `usage`, else the opening price.
    fn price_on(&self, usage: u32) -> u32;
    /// Sixteen different days after day 0 have a price already, and x is not among them.
    fn has_no_price_place(&self, x: u32) -> bool;
    /// Some accepted warning was issued on a day w with 1 <= x - w <= 7.
    fn is_warned(&self, x: u32) -> bool;
    fn is_covered(&self, day: u32) -> bool;
    fn is_weather(&self, day: u32) -> bool;
    /// For the month summary: all payments; and by kind the charges of a month, which holds the days that `has` names.
    fn list_payments(&self) -> Vec<Payment>;
    fn charges(&self, month: u32, has: &dyn Fn(u32) -> bool) -> [u64; 5];
    /// An accepted event joins, and B, R and service are these.
    fn enter(&mut self, entry: Entry, balance: i64, plan: i64, service: bool);

    /// Row 1, which precedes all others.
    fn is_account(&self) -> bool {
        true
    }

    /// Can the event's sum be kept? Asked of an event that no row refuses.
    fn has_room(&self, _x: u32, _event: Event) -> bool {
        true
    }

    /// Is the price of the event's usage day one that a price can be? Asked of an event that rows 1 to 7 do not refuse.
    fn has_price(&self, _event: Event) -> bool {
        true
    }

    /// The cost of a usage day, at the price in force on it.
    fn cost(&self, usage: u32, wh: u32) -> i64 {
        cost_at(self.price_on(usage), wh)
    }

    fn is_barred(&self, day: u32) -> bool {
        self.terms().is_weekend(day) || self.is_covered(day)
    }

    /// Some weather day w <= x has at most one business day among w+1 to x.
    fn is_near_weather(&self, x: u32) -> bool {
        // Going back from x the count only grows.
        (0..=x).rev().take_while(|&w| self.business_days(w + 1, x) <= 1).any(|w| self.is_weather(w))
    }

    /// Business days among days `from` to `to`, both included.
    fn business_days(&self, from: u32, to: u32) -> usize {
        (from..=to).filter(|&day| !self.terms().is_weekend(day)).count()
    }

    /// The table of refusals, one row at a time.
    fn row_applies(&self, row: u8, x: u32, event: Event) -> bool {
        match (row, event) {
            (1, _) => !self.is_account(),
            (2, _) => x < self.last_day() || x > LAST_DAY,
            (3, _) => outside_limits(x, event),
            (4, _) => self.events() >= MOST_EVENTS,
            (5, Pay { .. }) => self.payment_count() >= MOST_PAYMENTS,
            (6, Reverse { number }) => self.parts(number).is_none() || self.is_reversed(number),
            (7, Estimate { usage, .. } | Read { usage, .. }) => usage >= x,
            (8, Estimate { usage, .. }) => self.usage(usage) != Usage::Blank,
            (8, Read { usage, .. }) => matches!(self.usage(usage), Usage::Metered { .. }),
            (9, Plan { kind: 1 }) => !(self.balance() <= -5_000 && self.is_near_weather(x)),
            (9, Plan { kind: 2 }) => !(self.balance() < 0),
            (10, Plan { .. }) => self.plan() > 0,
            (11, Disconnect) => !self.service(),
            (11, Connect) => self.service(),
            (12, Disconnect) => self.balance() >= self.terms().cutoff as i64,
            (12, Connect) => self.balance() < self.terms().connect as i64,
            (13, Disconnect) => !self.is_warned(x),
            (14, Disconnect) => self.is_barred(x),
            (17, Price { .. }) => self.has_no_price_place(x),
            _ => false,
        }
    }

    /// The lowest row that applies; but 1 where the event's usage day has no good price, after row 7, or its sum cannot be kept, after all.
    fn refusal(&self, x: u32, event: Event) -> u8 {
        match ROWS.into_iter().find(|&row| self.row_applies(row, x, event)) {
            Some(row @ 1..=7) => row,
            _ if !self.has_price(event) => 1,
            Some(row) => row,
            None => !self.has_room(x, event) as u8,
        }
    }

    /// The ledger's step.
    fn step(&mut self, x: u32, event: Event) -> Answer {
        let code = self.refusal(x, event);
        if code != 0 {
            return Answer { code, value: 0 };
        }
        let mut entry = Entry { day: x, event, to_plan: 0, to_balance: 0 };
        let (mut balance, mut plan, mut service) = (self.balance(), self.plan(), self.service());
        let mut value = 0;
        match event {
            Pay { amount } => {
                let amount = amount as i64;
                entry.to_plan = plan.min(amount * self.terms().share as i64 / 100);
                entry.to_balance = amount - entry.to_plan;
                plan -= entry.to_plan;
                balance += entry.to_balance;
                value = self.payment_count() as i64;
            }
            Reverse { number } => {
                let (to_plan, to_balance) = self.parts(number).expect("row 6");
                plan += to_plan;
                balance -= to_balance;
            }
            Credit { amount } => balance += amount as i64,
            Charge { amount, .. } => balance -= amount as i64,
            Estimate { usage, wh } => {
                value = self.cost(usage, wh);
                balance -= value;
            }
            Read { usage, wh } => {
                if let Usage::Estimated { cost, .. } = self.usage(usage) {
                    balance += cost;
                }
                value = self.cost(usage, wh);
                balance -= value;
            }
            Warn => {}
            Mark { .. } => {}
            Plan { .. } => {
                value = self.terms().connect as i64 - balance;
                balance = self.terms().connect as i64;
                plan += value;
            }
            Disconnect => service = false,
            Connect => service = true,
            Price { .. } => {}
        }
        self.enter(entry, balance, plan, service);
        Answer { code: 0, value }
    }
}

#[derive(Clone, Debug, PartialEq, Eq)]
pub struct Ledger {
    pub terms: Terms,
    pub list: Vec<Entry>,
    pub balance: i64,
    pub plan: i64,
    pub service: bool,
}

impl Ledger {
    /// `None` is code 1.
    pub fn open(terms: Terms) -> Option<Ledger> {
        if !terms.within_limits() {
            return None;
        }
        Some(Ledger { terms, list: Vec::new(), balance: 0, plan: 0, service: false })
    }

    pub fn payments(&self) -> impl Iterator<Item = &Entry> {
        self.list.iter().filter(|e| matches!(e.event, Pay { .. }))
    }

    pub fn payment(&self, number: u32) -> Option<&Entry> {
        self.payments().nth(number as usize)
    }

    /// The days after day 0 that have a price, in order.
    pub fn price_days(&self) -> Vec<u32> {
        let mut days: Vec<u32> = self.list.iter().filter(|e| matches!(e.event, Price { .. }) && e.day > 0).map(|e| e.day).collect();
        days.dedup();
        days
    }

    /// Payments without a reversal, plus credits, less charges, less reads.
    pub fn settled(&self) -> i64 {
        let mut sum = 0;
        let mut number = 0;
        for e in &self.list {
            match e.event {
                Pay { amount } => {
                    if !self.is_reversed(number) {
                        sum += amount as i64;
                    }
                    number += 1;
                }
                Credit { amount } => sum += amount as i64,
                Charge { amount, .. } => sum -= amount as i64,
                Read { usage, wh } => sum -= self.cost(usage, wh),
                _ => {}
            }
        }
        sum
    }

    /// Cost of the estimates whose day has no read.
    pub fn standing_estimates(&self) -> i64 {
        let has_read = |day| self.list.iter().any(|e| matches!(e.event, Read { usage, .. } if usage == day));
        self.list
            .iter()
            .map(|e| match e.event {
                Estimate { usage, wh } if !has_read(usage) => self.cost(usage, wh),
                _ => 0,
            })
            .sum()
    }
}

/// What a rule asks, read off the terms and L.
impl Book for Ledger {
    fn terms(&self) -> Terms {
        self.terms
    }

    fn balance(&self) -> i64 {
        self.balance
    }

    fn plan(&self) -> i64 {
        self.plan
    }

    fn service(&self) -> bool {
        self.service
    }

    fn last_day(&self) -> u32 {
        self.list.last().map_or(0, |e| e.day)
    }

    fn events(&self) -> usize {
        self.list.len()
    }

    fn payment_count(&self) -> usize {
        self.payments().count()
    }

    fn parts(&self, number: u32) -> Option<(i64, i64)> {
        self.payment(number).map(|e| (e.to_plan, e.to_balance))
    }

    fn is_reversed(&self, number: u32) -> bool {
        self.list.iter().any(|e| e.event == Reverse { number })
    }

    fn usage(&self, day: u32) -> Usage {
        let mut found = Usage::Blank;
        for e in &self.list {
            match e.event {
                Read { usage, wh } if usage == day => {
                    return Usage::Metered { wh, cost: self.cost(day, wh) }
                }
                Estimate { usage, wh } if usage == day => {
                    found = Usage::Estimated { wh, cost: self.cost(day, wh) }
                }
                _ => {}
            }
        }
        found
    }

    fn price_on(&self, usage: u32) -> u32 {
        let mut price = self.terms.price;
        for e in &self.list {
            if let Price { price: new } = e.event {
                if e.day <= usage {
                    price = new;
                }
            }
        }
        price
    }

    fn has_no_price_place(&self, x: u32) -> bool {
        let days = self.price_days();
        days.len() >= MOST_PRICE_DAYS && !days.contains(&x)
    }

    fn is_warned(&self, x: u32) -> bool {
        self.list.iter().any(|e| e.event == Warn && e.day + 1 <= x && x <= e.day + 7)
    }

    fn is_covered(&self, day: u32) -> bool {
        self.list.iter().any(|e| matches!(e.event, Mark { from, to, .. } if from <= day && day <= to))
    }

    fn is_weather(&self, day: u32) -> bool {
        self.list
            .iter()
            .any(|e| matches!(e.event, Mark { kind: 1, from, to } if from <= day && day <= to))
    }

    fn list_payments(&self) -> Vec<Payment> {
        let payment = |(n, e): (usize, &Entry)| Payment { day: e.day, amount: e.to_plan + e.to_balance, reversed: self.is_reversed(n as u32) };
        self.payments().enumerate().map(payment).collect()
    }

    fn charges(&self, _month: u32, has: &dyn Fn(u32) -> bool) -> [u64; 5] {
        let mut kinds = [0; 5];
        for e in &self.list {
            if let Charge { kind, amount } = e.event {
                if has(e.day) {
                    kinds[kind as usize - 1] += amount as u64;
                }
            }
        }
        kinds
    }

    fn enter(&mut self, entry: Entry, balance: i64, plan: i64, service: bool) {
        self.list.push(entry);
        (self.balance, self.plan, self.service) = (balance, plan, service);
    }
}

fn outside_limits(x: u32, event: Event) -> bool {
    let bad_amount = |amount| amount < 1 || amount > MOST_AMOUNT;
    match event {
        Pay { amount } | Credit { amount } => bad_amount(amount),
        Charge { kind, amount } => !(1..=5).contains(&kind) || bad_amount(amount),
        Estimate { wh, .. } | Read { wh, .. } => wh > MOST_WH,
        Mark { kind, from, to } => {
            !(1..=3).contains(&kind) || !(x <= from && from <= to && to <= LAST_DAY)
        }
        Plan { kind } => !(1..=2).contains(&kind),
        Price { price } => price < 1 || price > MOST_PRICE,
        Reverse { .. } | Warn | Disconnect | Connect => false,
    }
}
