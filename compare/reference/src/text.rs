//! The event text and the lines that `prepay` prints for it.

use crate::calendar::Date;
use crate::head::END;
use crate::ledger::{Answer, Book, Event, Ledger, Terms};
use std::fmt::Write;

pub const MOST_BYTES: usize = 65_536;

/// What is left of the text. Every reading function takes what it names off
/// the front, or gives `None`: the form is broken.
pub struct Reader<'a> {
    pub rest: &'a [u8],
}

impl<'a> Reader<'a> {
    /// The value of the next line, which must be `key=value` and a line feed.
    fn value(&mut self, key: &str) -> Option<&'a [u8]> {
        let end = self.rest.iter().position(|&b| b == b'\n')?;
        let line = &self.rest[..end];
        let value = line.strip_prefix(key.as_bytes())?.strip_prefix(b"=")?;
        self.rest = &self.rest[end + 1..];
        Some(value)
    }

    fn number(&mut self, key: &str) -> Option<u32> {
        number(self.value(key)?)
    }

    pub fn terms(&mut self) -> Option<Terms> {
        Some(Terms {
            open: date(self.value("open")?)?,
            price: self.number("price")?,
            connect: self.number("connect")?,
            cutoff: self.number("cutoff")?,
            share: self.number("share")?,
        })
    }

    pub fn event(&mut self) -> Option<(u32, Event)> {
        let day = self.number("day")?;
        let event = match self.value("do")? {
            b"pay" => Event::Pay { amount: self.number("amount")? },
            b"reverse" => Event::Reverse { number: self.number("number")? },
            b"credit" => Event::Credit { amount: self.number("amount")? },
            b"charge" => Event::Charge { kind: self.number("kind")?, amount: self.number("amount")? },
            b"estimate" => Event::Estimate { usage: self.number("usage")?, wh: self.number("wh")? },
            b"read" => Event::Read { usage: self.number("usage")?, wh: self.number("wh")? },
            b"warn" => Event::Warn,
            b"mark" => Event::Mark {
                kind: self.number("kind")?,
                from: self.number("from")?,
                to: self.number("to")?,
            },
            b"plan" => Event::Plan { kind: self.number("kind")? },
            b"disconnect" => Event::Disconnect,
            b"connect" => Event::Connect,
            b"price" => Event::Price { price: self.number("price")? },
            _ => return None,
        };
        Some((day, event))
    }
}

/// Digits without sign or leading zero, zero being `0`, at most 4,294,967,295.
pub fn number(value: &[u8]) -> Option<u32> {
    if value.is_empty() || !value.iter().all(u8::is_ascii_digit) {
        return None;
    }
    if value[0] == b'0' && value.len() > 1 {
        return None;
    }
    if value.len() > 10 {
        return None;
    }
    let n = value.iter().fold(0u64, |n, b| n * 10 + (b - b'0') as u64);
    u32::try_from(n).ok()
}

/// YYYY-MM-DD, any digits.
pub fn date(value: &[u8]) -> Option<Date> {
    if value.len() != 10 || value[4] != b'-' || value[7] != b'-' {
        return None;
    }
    let digits = |from: usize, to: usize| {
        value[from..to].iter().try_fold(0, |n, &b| {
            if b.is_ascii_digit() { Some(n * 10 + (b - b'0') as u32) } else { None }
        })
    };
    Some(Date::new(digits(0, 4)?, digits(5, 7)?, digits(8, 10)?))
}

/// One event of the text with its answer. `posted` is `None` for the event
/// that broke the form.
#[derive(Clone, Copy, Debug)]
pub struct Step {
    pub posted: Option<(u32, Event)>,
    pub answer: Answer,
    pub balance: i64,
    pub plan: i64,
}

pub enum Run {
    /// Terms refused (1) or malformed (15).
    NoAccount(u8),
    Account { ledger: Ledger, steps: Vec<Step> },
}

/// How far a text has been read: the byte at which the next event starts, and 0; or the code that ended the reading.
pub use crate::head::Reader as Progress;

/// The terms, and where the events start; or 15. A text too long has malformed terms.
pub fn read_terms(text: &[u8]) -> (Progress, Option<Terms>) {
    let mut reader = Reader { rest: text };
    match reader.terms() {
        Some(terms) if text.len() <= MOST_BYTES => {
            (Progress { place: (text.len() - reader.rest.len()) as u32, code: 0 }, Some(terms))
        }
        _ => (Progress { place: 0, code: 15 }, None),
    }
}

/// 0 and the next event, `END`, or 15; after one of these two the same again, and 15 after any other code.
///
/// What the header does not say, and is taken so here: the place at 15 stays (`read_terms`: 0); another code stays in the reader; `END` goes
/// before the text's length; a place past the text is 15, the place at its end `END`.
pub fn read_event(text: &[u8], at: &mut Progress) -> (u8, Option<(u32, Event)>) {
    if at.code != 0 {
        return (if at.code == END as u32 { END } else { 15 }, None);
    }
    let place = at.place as usize;
    let (code, read) = if text.len() > MOST_BYTES || place > text.len() {
        (15, None)
    } else if place == text.len() {
        (END, None)
    } else {
        let mut reader = Reader { rest: &text[place..] };
        match reader.event() {
            Some(read) => {
                at.place = (text.len() - reader.rest.len()) as u32;
                (0, Some(read))
            }
            None => (15, None),
        }
    };
    at.code = code as u32;
    (code, read)
}

pub fn run(text: &[u8]) -> Run {
    let (mut at, Some(terms)) = read_terms(text) else {
        return Run::NoAccount(15);
    };
    let Some(mut ledger) = Ledger::open(terms) else {
        return Run::NoAccount(1);
    };
    let mut steps = Vec::new();
    while at.code == 0 {
        let (code, posted) = read_event(text, &mut at);
        let answer = match posted {
            Some((day, event)) => ledger.step(day, event),
            None if code == END => break,
            None => Answer { code, value: 0 },
        };
        steps.push(Step { posted, answer, balance: ledger.balance, plan: ledger.plan });
    }
    Run::Account { ledger, steps }
}

fn print_line(out: &mut String, n: usize, answer: Answer, balance: i64, plan: i64) {
    let Answer { code, value } = answer;
    writeln!(out, "n={n} code={code} value={value} balance={balance} plan={plan}").unwrap();
}

pub fn print_no_account(code: u8) -> String {
    let mut out = String::new();
    print_line(&mut out, 0, Answer { code, value: 0 }, 0, 0);
    out
}

/// All that `prepay` prints for a run.
pub fn print(run: &Run) -> String {
    match run {
        Run::NoAccount(code) => print_no_account(*code),
        Run::Account { ledger, steps } => {
            let mut out = String::new();
            for (i, step) in steps.iter().enumerate() {
                print_line(&mut out, i + 1, step.answer, step.balance, step.plan);
            }
            let settled = ledger.settled();
            let estimates = ledger.standing_estimates();
            writeln!(out, "settled={settled} estimates={estimates}").unwrap();
            out
        }
    }
}

pub fn prepay(text: &[u8]) -> String {
    print(&run(text))
}

/// The lines of one event.
pub fn write_event(out: &mut Vec<u8>, day: u32, event: Event) {
    let mut s = format!("day={day}\n");
    match event {
        Event::Pay { amount } => write!(s, "do=pay\namount={amount}\n"),
        Event::Reverse { number } => write!(s, "do=reverse\nnumber={number}\n"),
        Event::Credit { amount } => write!(s, "do=credit\namount={amount}\n"),
        Event::Charge { kind, amount } => write!(s, "do=charge\nkind={kind}\namount={amount}\n"),
        Event::Estimate { usage, wh } => write!(s, "do=estimate\nusage={usage}\nwh={wh}\n"),
        Event::Read { usage, wh } => write!(s, "do=read\nusage={usage}\nwh={wh}\n"),
        Event::Warn => write!(s, "do=warn\n"),
        Event::Mark { kind, from, to } => write!(s, "do=mark\nkind={kind}\nfrom={from}\nto={to}\n"),
        Event::Plan { kind } => write!(s, "do=plan\nkind={kind}\n"),
        Event::Disconnect => write!(s, "do=disconnect\n"),
        Event::Connect => write!(s, "do=connect\n"),
        Event::Price { price } => write!(s, "do=price\nprice={price}\n"),
    }
    .unwrap();
    out.extend_from_slice(s.as_bytes());
}

/// The five lines of the terms, with the date as written.
pub fn write_terms(out: &mut Vec<u8>, terms: &Terms) {
    let Date { year, month, day } = terms.open;
    let Terms { price, connect, cutoff, share, .. } = terms;
    let s = format!(
        "open={year:04}-{month:02}-{day:02}\nprice={price}\nconnect={connect}\ncutoff={cutoff}\nshare={share}\n"
    );
    out.extend_from_slice(s.as_bytes());
}
