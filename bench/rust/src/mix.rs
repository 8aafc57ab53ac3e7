//! The events that are posted in the measurements: all sorts of document 01, about nine in ten accepted.

use crate::account::*;
use crate::text::{write_event, write_terms};

/// splitmix64.
pub struct Rng(u64);

impl Rng {
    pub fn new(seed: u64) -> Rng {
        Rng(seed)
    }
    pub fn next(&mut self) -> u64 {
        self.0 = self.0.wrapping_add(0x9e3779b97f4a7c15);
        let mut z = self.0;
        z = (z ^ (z >> 30)).wrapping_mul(0xbf58476d1ce4e5b9);
        z = (z ^ (z >> 27)).wrapping_mul(0x94d049bb133111eb);
        z ^ (z >> 31)
    }
    /// 0 to n - 1.
    pub fn below(&mut self, n: u32) -> u32 {
        ((self.next() as u128 * n as u128) >> 64) as u32
    }
    /// Both ends included.
    pub fn range(&mut self, low: u32, high: u32) -> u32 {
        low + self.below(high - low + 1)
    }
}

/// Opened on a Monday.
pub const TERMS: Terms = Terms { year: 2024, month: 1, day: 1, price: 1_250, connect: 5_000, cutoff: 1_000, share: 50 };

/// How often a sort is drawn, in per cent.
pub const WEIGHTS: [(u32, u32); 11] = [
    (PAY, 4),
    (REVERSE, 2),
    (CREDIT, 17),
    (CHARGE, 20),
    (ESTIMATE, 9),
    (READ, 9),
    (WARN, 13),
    (MARK, 12),
    (PLAN, 4),
    (DISCONNECT, 5),
    (CONNECT, 5),
];

/// A source of events that fit each other: it posts them to an account of its own.
pub struct Mix {
    rng: Rng,
    account: Account,
    day: u32,
    payments: u32,
    /// Events for each step of the day.
    pace: u32,
    /// Per cent of events that are to be refused.
    refused: u32,
}

impl Mix {
    /// Events over days 0 to 399 if there are `events` of them.
    pub fn new(seed: u64, terms: &Terms, events: u32, refused: u32) -> Mix {
        let account = Account::open(terms).expect("terms");
        Mix { rng: Rng::new(seed), account, day: 0, payments: 0, pace: events, refused }
    }

    fn sort(&mut self) -> u32 {
        let mut at = self.rng.below(100);
        for (sort, weight) in WEIGHTS {
            if at < weight {
                return sort;
            }
            at -= weight;
        }
        unreachable!()
    }

    /// An event of today with fields within their limits. Balances are held between some -8,000 and 12,000 cents; marks lie in one week of
    /// four.
    fn draw(&mut self) -> Event {
        let sort = self.sort();
        let r = &mut self.rng;
        let day = self.day;
        let b = self.account.balance();
        let mut e = Event { sort, day, ..Event::default() };
        match sort {
            PAY | CREDIT => e.amount = if b < 8_000 { r.range(100, 9_000) } else { r.range(100, 500) },
            CHARGE => {
                e.kind = r.range(1, 5);
                e.amount = if b > -4_000 { r.range(100, 9_000) } else { r.range(100, 500) };
            }
            REVERSE => e.number = r.below(self.payments + 1),
            ESTIMATE | READ => {
                e.usage = day.saturating_sub(r.range(1, 12));
                e.wh = r.range(2_000, 60_000);
            }
            MARK => {
                let week = day + (21 + 27 - day % 28) % 28 % 21;
                e.kind = r.range(1, 3);
                e.from = (week.max(day) + r.below(4)).min(399);
                e.to = (e.from + r.below(3)).min(399);
            }
            PLAN => e.kind = r.range(1, 2),
            _ => {}
        }
        e
    }

    /// A field outside its limits, or a day out of order.
    fn spoil(&mut self, e: &mut Event) {
        match self.rng.below(4) {
            0 => e.day = self.day.wrapping_sub(1),
            1 => e.day = 400,
            _ => match e.sort {
                PAY | CREDIT => e.amount = 0,
                CHARGE => e.kind = 6,
                REVERSE => e.number = self.payments + 5,
                ESTIMATE | READ => e.usage = e.day,
                MARK => e.to = 400,
                PLAN => e.kind = 3,
                _ => {}
            },
        }
    }

    pub fn event(&mut self) -> Event {
        if self.day < 399 && self.rng.below(self.pace) < 400 {
            self.day += 1;
        }
        let refused = self.rng.below(100) < self.refused;
        let mut e = self.draw();
        for _ in 0..100 {
            if refused && self.rng.below(2) == 0 {
                self.spoil(&mut e);
            }
            let mut trial = self.account;
            let answer = trial.post(&e);
            if (answer.code != 0) == refused {
                self.account = trial;
                self.payments += (answer.code == 0 && e.sort == PAY) as u32;
                break;
            }
            e = self.draw();
        }
        e
    }
}

/// A row of `n` events, one in ten refused.
pub fn row(seed: u64, n: usize) -> Vec<Event> {
    let mut mix = Mix::new(seed, &TERMS, n as u32, 10);
    (0..n).map(|_| mix.event()).collect()
}

/// A text of at most `limit` bytes, and its events.
pub fn text(seed: u64, terms: &Terms, limit: usize) -> (Vec<u8>, Vec<Event>) {
    let mut mix = Mix::new(seed, terms, (limit / 28) as u32 + 1, 10);
    let mut out = Vec::new();
    write_terms(&mut out, terms);
    let mut events = Vec::new();
    loop {
        let before = out.len();
        let event = mix.event();
        write_event(&mut out, &event);
        if out.len() > limit {
            out.truncate(before);
            return (out, events);
        }
        events.push(event);
    }
}
