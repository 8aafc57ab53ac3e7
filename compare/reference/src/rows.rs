//! Event records, posted singly and in rows, as document 01 has them: "Events of
//! one visit come as a row of event records, posted in order, with one code byte
//! each in a lent buffer". The numbers of the sorts are those of include/head.h.

use crate::ledger::{Answer, Book, Event, Ledger, Terms};
use crate::page;
use crate::summary::{summary, Summary};

/// One event record. The fields that its sort does not name are not looked at.
pub use crate::head::Event as Record;

impl Record {
    pub fn of(day: u32, event: Event) -> Record {
        let mut r = Record { day, ..Record::default() };
        match event {
            Event::Pay { amount } => (r.sort, r.amount) = (1, amount),
            Event::Reverse { number } => (r.sort, r.number) = (2, number),
            Event::Credit { amount } => (r.sort, r.amount) = (3, amount),
            Event::Charge { kind, amount } => (r.sort, r.kind, r.amount) = (4, kind, amount),
            Event::Estimate { usage, wh } => (r.sort, r.usage, r.wh) = (5, usage, wh),
            Event::Read { usage, wh } => (r.sort, r.usage, r.wh) = (6, usage, wh),
            Event::Warn => r.sort = 7,
            Event::Mark { kind, from, to } => (r.sort, r.kind, r.from, r.to) = (8, kind, from, to),
            Event::Plan { kind } => (r.sort, r.kind) = (9, kind),
            Event::Disconnect => r.sort = 10,
            Event::Connect => r.sort = 11,
            Event::Price { price } => (r.sort, r.amount) = (12, price),
        }
        r
    }

    /// `None`: the sort is outside its limits.
    pub fn event(&self) -> Option<Event> {
        let &Record { sort, amount, number, kind, usage, wh, from, to, .. } = self;
        Some(match sort {
            1 => Event::Pay { amount },
            2 => Event::Reverse { number },
            3 => Event::Credit { amount },
            4 => Event::Charge { kind, amount },
            5 => Event::Estimate { usage, wh },
            6 => Event::Read { usage, wh },
            7 => Event::Warn,
            8 => Event::Mark { kind, from, to },
            9 => Event::Plan { kind },
            10 => Event::Disconnect,
            11 => Event::Connect,
            12 => Event::Price { price: amount },
            _ => return None,
        })
    }
}

/// A head: one account or none, and the calls that post to it.
pub trait Head: Clone {
    /// The account of which rules are asked.
    fn book(&mut self) -> Option<&mut impl Book>;

    fn post(&mut self, record: &Record) -> Answer {
        let Some(book) = self.book().filter(|b| b.is_account()) else {
            return Answer { code: 1, value: 0 };
        };
        match record.event() {
            Some(event) => book.step(record.day, event),
            // A sort outside its limits is 3, after 2, which goes by the day alone.
            None if book.refusal(record.day, Event::Warn) == 2 => Answer { code: 2, value: 0 },
            None => Answer { code: 3, value: 0 },
        }
    }

    /// A month's figures: where every event gets 1, the code is 1 and every figure 0, whatever the month.
    fn summary(&mut self, month: u32) -> Summary {
        match self.book() {
            Some(book) => summary(book, month),
            None => Summary { code: 1, ..Summary::default() },
        }
    }

    /// A month's page into a lent buffer: refused as its figures are, then by 16 where the buffer is shorter than the page.
    fn page(&mut self, month: u32, out: &mut [u8]) -> Answer {
        match self.book() {
            Some(book) => page::put(book, month, out),
            None => Answer { code: 1, value: 0 },
        }
    }

    /// A refused event does not stop the row. Bytes past the row's length do not
    /// change. The answer is 0, or 16 where the buffer is shorter than the row:
    /// nothing posted, nothing written. An empty row is 0 and changes nothing.
    fn row(&mut self, row: &[Record], codes: &mut [u8]) -> u8 {
        if codes.len() < row.len() {
            return 16;
        }
        for (i, record) in row.iter().enumerate() {
            codes[i] = self.post(record).code;
        }
        0
    }
}

/// The head by its ledger: an account, or none.
#[derive(Clone, Debug, Default)]
pub struct Books {
    pub ledger: Option<Ledger>,
}

impl Books {
    /// Answers 0; or 1 where the terms are outside their limits: no account made, and what stood there stays.
    pub fn open(&mut self, terms: Terms) -> u8 {
        match Ledger::open(terms) {
            None => 1,
            opened => {
                self.ledger = opened;
                0
            }
        }
    }
}

impl Head for Books {
    fn book(&mut self) -> Option<&mut impl Book> {
        self.ledger.as_mut()
    }
}
