//! An account as the numbers of include/head.h, read by that header's words: "Any numbers are read as an account".
//! The same rules as the ledger's are asked of its cells.
//!
//! What the header does not say, and is taken so here:
//! - which of credit and debit an event raises: the comparison takes their difference alone;
//! - a payment on a day past 399 lies in no month; a payment's `part` above its `amount` leaves nothing for the balance;
//! - a read gives back no more of `standing` than it has.

use crate::calendar::Date;
pub use crate::head::{Account as Numbers, Day as DayCells, Payment as PaymentCells, Price as PriceCells, Reading, Terms as TermCells, Totals};
use crate::head::{DAYS, MAX_PAYMENTS, PRICE_CELLS};
use crate::ledger::{Book, Entry, Event, Ledger, Payment, Terms, Usage, LAST_DAY, MOST_PRICE};
use crate::rows::Head;

/// A total above it is no account's.
const MOST_TOTAL: u64 = 1 << 60;
/// A cell of the prices that is not taken.
const NO_PRICE: PriceCells = PriceCells { day: 400, price: 0 };

impl TermCells {
    pub fn of(terms: &Terms) -> TermCells {
        let &Terms { open: Date { year, month, day }, price, connect, cutoff, share } = terms;
        TermCells { year, month, day, price, connect, cutoff, share }
    }

    pub fn terms(&self) -> Terms {
        let &TermCells { year, month, day, price, connect, cutoff, share } = self;
        Terms { open: Date { year, month, day }, price, connect, cutoff, share }
    }
}

impl Numbers {
    /// A fresh account's.
    pub fn fresh(terms: Terms) -> Numbers {
        let mut prices = [NO_PRICE; PRICE_CELLS];
        prices[0] = PriceCells { day: 0, price: terms.price };
        Numbers {
            totals: Totals::default(),
            charges: [0; 75],
            terms: TermCells::of(&terms),
            prices,
            days: [DayCells::default(); DAYS],
            payments: [PaymentCells::default(); MAX_PAYMENTS],
            spare: 0,
            marks: [0; DAYS],
            warned: [0; DAYS],
        }
    }

    /// Answers 0 and is a fresh account's; or 1, and every number stays, where the terms are outside their limits.
    pub fn open(&mut self, terms: Terms) -> u8 {
        if !terms.within_limits() {
            return 1;
        }
        *self = Numbers::fresh(terms);
        0
    }

    /// The numbers of a ledger.
    pub fn of(ledger: &Ledger) -> Numbers {
        let mut n = Numbers::fresh(ledger.terms);
        n.totals = Totals {
            credit: ledger.balance.max(0) as u64,
            debit: (-ledger.balance).max(0) as u64,
            plan: ledger.plan as u64,
            standing: ledger.standing_estimates() as u64,
            count: ledger.payment_count() as u32,
            events: ledger.list.len() as u32,
            last: ledger.last_day(),
            on: ledger.service as u32,
        };
        for (i, e) in ledger.payments().enumerate() {
            let amount = (e.to_plan + e.to_balance) as u32;
            n.payments[i] = PaymentCells { day: e.day, amount, part: e.to_plan as u32, reversed: ledger.is_reversed(i as u32) as u32 };
        }
        for day in 0..=LAST_DAY {
            n.days[day as usize] = match ledger.usage(day) {
                Usage::Blank => DayCells::default(),
                Usage::Estimated { wh, cost } => DayCells { state: 1, wh, cost: cost as u32 },
                Usage::Metered { wh, cost } => DayCells { state: 2, wh, cost: cost as u32 },
            };
        }
        n.prices[0].price = ledger.price_on(0);
        for (i, day) in ledger.price_days().into_iter().enumerate() {
            n.prices[i + 1] = PriceCells { day, price: ledger.price_on(day) };
        }
        for e in &ledger.list {
            match e.event {
                Event::Charge { kind, amount } => n.charges[cell(&ledger.terms, e.day, kind)] += amount as u64,
                Event::Warn => n.warned[e.day as usize] = 1,
                Event::Mark { kind, from, to } => n.marks[from as usize..=to as usize].iter_mut().for_each(|m| *m |= 1 << (kind - 1)),
                _ => {}
            }
        }
        n
    }

    /// The cell that a price on day x goes to.
    fn price_place(&self, x: u32) -> Option<usize> {
        self.prices.iter().position(|p| p.day >= x)
    }

    fn totals_too_large(&self) -> bool {
        let Totals { credit, debit, plan, standing, .. } = self.totals;
        [credit, debit, plan, standing].iter().any(|&t| t > MOST_TOTAL)
    }

    pub fn readings(&self) -> Reading {
        let Totals { credit, debit, plan, standing, on, .. } = self.totals;
        let balance = if credit > MOST_TOTAL || debit > MOST_TOTAL { 0 } else { self.balance() };
        let settled = if self.totals_too_large() { 0 } else { balance - plan as i64 + standing as i64 };
        Reading { balance, settled, plan, estimates: standing, service: (on == 1) as u64 }
    }
}

fn cell(terms: &Terms, day: u32, kind: u32) -> usize {
    (terms.month_of(day) * 5 + kind - 1) as usize
}

/// Of numbers that are an account.
impl Book for Numbers {
    fn is_account(&self) -> bool {
        self.terms().within_limits() && self.totals.count <= MAX_PAYMENTS as u32 && !self.totals_too_large()
    }

    fn has_room(&self, x: u32, event: Event) -> bool {
        match event {
            Event::Charge { kind, .. } => self.charges[cell(&self.terms(), x, kind)] <= MOST_TOTAL,
            _ => true,
        }
    }

    fn has_price(&self, event: Event) -> bool {
        match event {
            Event::Estimate { usage, .. } | Event::Read { usage, .. } => self.price_on(usage) <= MOST_PRICE,
            _ => true,
        }
    }

    fn terms(&self) -> Terms {
        self.terms.terms()
    }

    fn balance(&self) -> i64 {
        self.totals.credit as i64 - self.totals.debit as i64
    }

    fn plan(&self) -> i64 {
        self.totals.plan as i64
    }

    fn service(&self) -> bool {
        self.totals.on == 1
    }

    fn last_day(&self) -> u32 {
        self.totals.last
    }

    fn events(&self) -> usize {
        self.totals.events as usize
    }

    fn payment_count(&self) -> usize {
        self.totals.count as usize
    }

    fn parts(&self, number: u32) -> Option<(i64, i64)> {
        let paid = &self.payments[..self.payment_count()];
        paid.get(number as usize).map(|p| (p.part as i64, (p.amount as i64 - p.part as i64).max(0)))
    }

    fn is_reversed(&self, number: u32) -> bool {
        self.payments[number as usize].reversed == 1
    }

    fn usage(&self, day: u32) -> Usage {
        let DayCells { state, wh, cost } = self.days[day as usize];
        match state {
            1 => Usage::Estimated { wh, cost: cost as i64 },
            2 => Usage::Metered { wh, cost: cost as i64 },
            _ => Usage::Blank,
        }
    }

    fn price_on(&self, usage: u32) -> u32 {
        match self.prices.iter().position(|p| p.day > usage).unwrap_or(PRICE_CELLS) {
            0 => self.terms.price,
            above => self.prices[above - 1].price,
        }
    }

    fn has_no_price_place(&self, x: u32) -> bool {
        self.price_place(x).is_none()
    }

    fn is_warned(&self, x: u32) -> bool {
        (1..=7).any(|age| age <= x && self.warned[(x - age) as usize] == 1)
    }

    fn is_covered(&self, day: u32) -> bool {
        self.marks[day as usize] & 7 != 0
    }

    fn is_weather(&self, day: u32) -> bool {
        self.marks[day as usize] & 1 != 0
    }

    fn list_payments(&self) -> Vec<Payment> {
        let paid = &self.payments[..self.payment_count()];
        paid.iter().map(|p| Payment { day: p.day, amount: p.amount as i64, reversed: p.reversed == 1 }).collect()
    }

    fn charges(&self, month: u32, _has: &dyn Fn(u32) -> bool) -> [u64; 5] {
        let first = 5 * month as usize;
        self.charges[first..first + 5].try_into().unwrap()
    }

    /// The cells that the event touches; all others stay as they were.
    fn enter(&mut self, entry: Entry, balance: i64, plan: i64, service: bool) {
        use Event::*;
        let x = entry.day;
        let rise = balance - Book::balance(self);
        let terms = Book::terms(self);
        let cost = match entry.event {
            Estimate { usage, wh } | Read { usage, wh } => self.cost(usage, wh) as u32,
            _ => 0,
        };
        let t = &mut self.totals;
        *(if rise > 0 { &mut t.credit } else { &mut t.debit }) += rise.unsigned_abs();
        t.plan = plan as u64;
        t.events += 1;
        t.last = x;
        match entry.event {
            Pay { amount } => {
                self.payments[t.count as usize] = PaymentCells { day: x, amount, part: entry.to_plan as u32, reversed: 0 };
                t.count += 1;
            }
            Reverse { number } => self.payments[number as usize].reversed = 1,
            Credit { .. } | Plan { .. } => {}
            Charge { kind, amount } => self.charges[cell(&terms, x, kind)] += amount as u64,
            Estimate { usage, wh } => {
                t.standing += cost as u64;
                self.days[usage as usize] = DayCells { state: 1, wh, cost };
            }
            Read { usage, wh } => {
                let day = &mut self.days[usage as usize];
                if day.state == 1 {
                    t.standing = t.standing.saturating_sub(day.cost as u64);
                }
                *day = DayCells { state: 2, wh, cost };
            }
            Warn => self.warned[x as usize] = 1,
            Mark { kind, from, to } => {
                for day in from..=to {
                    self.marks[day as usize] |= 1 << (kind - 1);
                }
            }
            Disconnect | Connect => t.on = service as u32,
            Price { price } => {
                let place = self.price_place(x).expect("row 17");
                self.prices[place] = PriceCells { day: x, price };
            }
        }
    }
}

impl Head for Numbers {
    fn book(&mut self) -> Option<&mut impl Book> {
        Some(self)
    }
}
