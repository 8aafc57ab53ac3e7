//! The event text and what `prepay` prints for it.

use crate::account::*;
use std::io::{self, Write};

pub use crate::head::MAX_TEXT;
/// No line is longer.
const LINE: usize = 128;

/// Where the lines go: a window of at least LINE bytes, of which `done` says how many were used.
pub trait Sink {
    fn window(&mut self) -> &mut [u8];
    fn done(&mut self, used: usize);
}

/// Into one lent buffer, which must be long enough (655,360 bytes are).
pub struct Whole<'a> {
    pub out: &'a mut [u8],
    pub len: usize,
}

impl Sink for Whole<'_> {
    fn window(&mut self) -> &mut [u8] {
        &mut self.out[self.len..]
    }
    fn done(&mut self, used: usize) {
        self.len += used;
    }
}

/// Through a buffer of 16,384 bytes.
pub struct Pieces<W: Write> {
    to: W,
    buffer: Vec<u8>,
    len: usize,
    result: io::Result<()>,
}

impl<W: Write> Pieces<W> {
    pub fn new(to: W) -> Pieces<W> {
        Pieces { to, buffer: vec![0; 16_384], len: 0, result: Ok(()) }
    }
    #[cold]
    fn flush(&mut self) {
        if self.result.is_ok() {
            self.result = self.to.write_all(&self.buffer[..self.len]);
        }
        self.len = 0;
    }
    pub fn end(mut self) -> io::Result<()> {
        self.flush();
        self.result
    }
    pub fn into_inner(mut self) -> W {
        self.flush();
        self.to
    }
}

impl<W: Write> Sink for Pieces<W> {
    fn window(&mut self) -> &mut [u8] {
        if self.buffer.len() - self.len < LINE {
            self.flush();
        }
        &mut self.buffer[self.len..]
    }
    fn done(&mut self, used: usize) {
        self.len += used;
    }
}

/// What is left of the text; each function takes what it names off the front, or gives `None`: the form is broken.
struct Reader<'a> {
    rest: &'a [u8],
}

impl Reader<'_> {
    #[inline(always)]
    fn word<const N: usize>(&mut self, word: &[u8; N]) -> Option<()> {
        let (head, rest) = self.rest.split_first_chunk::<N>()?;
        if head != word {
            return None;
        }
        self.rest = rest;
        Some(())
    }

    /// Digits and a line feed.
    #[inline(always)]
    fn number<const N: usize>(&mut self, key: &[u8; N]) -> Option<u32> {
        self.word(key)?;
        let (&first, mut rest) = self.rest.split_first()?;
        let mut n = first.wrapping_sub(b'0') as u64;
        if n > 9 {
            return None;
        }
        loop {
            let (&b, after) = rest.split_first()?;
            rest = after;
            let digit = b.wrapping_sub(b'0') as u64;
            if digit > 9 {
                if b != b'\n' {
                    return None;
                }
                self.rest = rest;
                return Some(n as u32);
            }
            // No leading zero.
            if n == 0 {
                return None;
            }
            n = n * 10 + digit;
            if n > u32::MAX as u64 {
                return None;
            }
        }
    }

    fn terms(&mut self) -> Option<Terms> {
        self.word(b"open=")?;
        let (date, rest) = self.rest.split_first_chunk::<11>()?;
        let mut n = [0u32; 3];
        for (i, &b) in date.iter().enumerate() {
            match i {
                4 | 7 if b == b'-' => {}
                10 if b == b'\n' => {}
                4 | 7 | 10 => return None,
                _ if b.is_ascii_digit() => {
                    let part = &mut n[(i > 4) as usize + (i > 7) as usize];
                    *part = *part * 10 + (b - b'0') as u32;
                }
                _ => return None,
            }
        }
        self.rest = rest;
        Some(Terms {
            year: n[0],
            month: n[1],
            day: n[2],
            price: self.number(b"price=")?,
            connect: self.number(b"connect=")?,
            cutoff: self.number(b"cutoff=")?,
            share: self.number(b"share=")?,
        })
    }

    #[inline(always)]
    fn event(&mut self, e: &mut Event) -> Option<()> {
        e.day = self.number(b"day=")?;
        self.word(b"do=")?;
        match self.rest.first()? {
            b'p' => {
                if self.word(b"pay\n").is_some() {
                    e.sort = PAY;
                    e.amount = self.number(b"amount=")?;
                } else {
                    self.word(b"plan\n")?;
                    e.sort = PLAN;
                    e.kind = self.number(b"kind=")?;
                }
            }
            b'r' => {
                if self.word(b"read\n").is_some() {
                    e.sort = READ;
                    e.usage = self.number(b"usage=")?;
                    e.wh = self.number(b"wh=")?;
                } else {
                    self.word(b"reverse\n")?;
                    e.sort = REVERSE;
                    e.number = self.number(b"number=")?;
                }
            }
            b'c' => {
                if self.word(b"charge\n").is_some() {
                    e.sort = CHARGE;
                    e.kind = self.number(b"kind=")?;
                    e.amount = self.number(b"amount=")?;
                } else if self.word(b"credit\n").is_some() {
                    e.sort = CREDIT;
                    e.amount = self.number(b"amount=")?;
                } else {
                    self.word(b"connect\n")?;
                    e.sort = CONNECT;
                }
            }
            b'e' => {
                self.word(b"estimate\n")?;
                e.sort = ESTIMATE;
                e.usage = self.number(b"usage=")?;
                e.wh = self.number(b"wh=")?;
            }
            b'w' => {
                self.word(b"warn\n")?;
                e.sort = WARN;
            }
            b'm' => {
                self.word(b"mark\n")?;
                e.sort = MARK;
                e.kind = self.number(b"kind=")?;
                e.from = self.number(b"from=")?;
                e.to = self.number(b"to=")?;
            }
            b'd' => {
                self.word(b"disconnect\n")?;
                e.sort = DISCONNECT;
            }
            _ => return None,
        }
        Some(())
    }
}

/// A place in a window.
struct Pen<'a> {
    out: &'a mut [u8; LINE],
    at: usize,
}

const PAIRS: &[u8; 200] = b"0001020304050607080910111213141516171819202122232425262728293031323334353637383940414243444546474849\
5051525354555657585960616263646566676869707172737475767778798081828384858687888990919293949596979899";

impl<'a> Pen<'a> {
    fn new(window: &'a mut [u8]) -> Pen<'a> {
        Pen { out: window.first_chunk_mut().expect("room for a line"), at: 0 }
    }

    #[inline(always)]
    fn word<const N: usize>(&mut self, word: &[u8; N]) {
        self.out[self.at..self.at + N].copy_from_slice(word);
        self.at += N;
    }

    #[inline(always)]
    fn number(&mut self, mut n: u64) {
        if n < 10 {
            self.out[self.at] = b'0' + n as u8;
            self.at += 1;
            return;
        }
        let len = n.ilog10() as usize + 1;
        let place = &mut self.out[self.at..self.at + len];
        let mut end = len;
        while n >= 100 {
            let pair = (n % 100) as usize * 2;
            n /= 100;
            end -= 2;
            place[end..end + 2].copy_from_slice(&PAIRS[pair..pair + 2]);
        }
        if n >= 10 {
            let pair = n as usize * 2;
            place[..2].copy_from_slice(&PAIRS[pair..pair + 2]);
        } else {
            place[0] = b'0' + n as u8;
        }
        self.at += len;
    }

    #[inline(always)]
    fn sum(&mut self, n: i64) {
        if n < 0 {
            self.word(b"-");
        }
        self.number(n.unsigned_abs());
    }
}

#[inline(always)]
fn line(sink: &mut impl Sink, n: u64, answer: Answer, balance: i64, plan: u64) {
    let mut pen = Pen::new(sink.window());
    pen.word(b"n=");
    pen.number(n);
    pen.word(b" code=");
    pen.number(answer.code as u64);
    pen.word(b" value=");
    pen.number(answer.value);
    pen.word(b" balance=");
    pen.sum(balance);
    pen.word(b" plan=");
    pen.number(plan);
    pen.word(b"\n");
    let used = pen.at;
    sink.done(used);
}

/// Reads and posts the whole text; `each` gets the ordinal, the answer and the account after each event. The account, or the code that
/// terms were answered.
#[inline(always)]
fn run(text: &[u8], mut each: impl FnMut(u64, Answer, &Account)) -> Result<Account, u8> {
    let mut reader = Reader { rest: text };
    if text.len() > MAX_TEXT {
        return Err(15);
    }
    let terms = reader.terms().ok_or(15)?;
    let mut account = Account::open(&terms).ok_or(1)?;
    let mut n = 0;
    let mut event = Event::default();
    while !reader.rest.is_empty() {
        n += 1;
        if reader.event(&mut event).is_none() {
            each(n, Answer { code: 15, value: 0 }, &account);
            break;
        }
        let answer = account.post(&event);
        each(n, answer, &account);
    }
    Ok(account)
}

/// What `prepay` prints.
pub fn prepay(text: &[u8], sink: &mut impl Sink) {
    let done = run(text, |n, answer, account| line(sink, n, answer, account.balance(), account.plan()));
    match done {
        Err(code) => line(sink, 0, Answer { code, value: 0 }, 0, 0),
        Ok(account) => {
            let mut pen = Pen::new(sink.window());
            pen.word(b"settled=");
            pen.sum(account.settled());
            pen.word(b" estimates=");
            pen.number(account.estimates());
            pen.word(b"\n");
            let used = pen.at;
            sink.done(used);
        }
    }
}

/// The counterpart of prepay_transcript: into `out`, how many bytes.
#[inline(never)]
pub fn transcript(text: &[u8], out: &mut [u8]) -> usize {
    let mut sink = Whole { out, len: 0 };
    prepay(text, &mut sink);
    sink.len
}

/// A line a month, in the form of `summary`.
pub fn summary(text: &[u8], out: &mut Vec<u8>) {
    let account = match run(text, |_, _, _| {}) {
        Ok(account) => account,
        Err(code) => {
            let _ = writeln!(out, "n=0 code={code} value=0 balance=0 plan=0");
            return;
        }
    };
    for m in 0..MONTHS as u32 {
        let s = account.summary(m);
        let _ = writeln!(
            out,
            "m={m} code={} kept_count={} kept_sum={} reversed_count={} reversed_sum={} metered_wh={} metered_cost={} estimated_wh={} \
             estimated_cost={} kind1={} kind2={} kind3={} kind4={} kind5={} average={} missing={}",
            s.code, s.kept.0, s.kept.1, s.reversed.0, s.reversed.1, s.metered.0, s.metered.1, s.estimated.0, s.estimated.1,
            s.charges[0], s.charges[1], s.charges[2], s.charges[3], s.charges[4], s.average, s.missing as u8
        );
    }
}

/// All of a program's standard input, or its first 65,537 bytes.
pub fn standard_input() -> io::Result<Vec<u8>> {
    use std::io::Read;
    use std::os::fd::FromRawFd;
    // Not closed: the process ends soon.
    let mut input = std::mem::ManuallyDrop::new(unsafe { std::fs::File::from_raw_fd(0) });
    let mut text = vec![0; MAX_TEXT + 1];
    let mut len = 0;
    while len < text.len() {
        match input.read(&mut text[len..]) {
            Ok(0) => break,
            Ok(n) => len += n,
            Err(e) if e.kind() == io::ErrorKind::Interrupted => {}
            Err(e) => return Err(e),
        }
    }
    text.truncate(len);
    Ok(text)
}

/// Standard output without a buffer of the library's own.
pub fn standard_output() -> std::mem::ManuallyDrop<std::fs::File> {
    use std::os::fd::FromRawFd;
    std::mem::ManuallyDrop::new(unsafe { std::fs::File::from_raw_fd(1) })
}

/// An event's lines. The sort must be one of document 01's eleven.
pub fn write_event(out: &mut Vec<u8>, e: &Event) {
    let names = ["pay", "reverse", "credit", "charge", "estimate", "read", "warn", "mark", "plan", "disconnect", "connect"];
    let _ = writeln!(out, "day={}\ndo={}", e.day, names[e.sort as usize - 1]);
    let _ = match e.sort {
        PAY | CREDIT => writeln!(out, "amount={}", e.amount),
        REVERSE => writeln!(out, "number={}", e.number),
        CHARGE => writeln!(out, "kind={}\namount={}", e.kind, e.amount),
        ESTIMATE | READ => writeln!(out, "usage={}\nwh={}", e.usage, e.wh),
        MARK => writeln!(out, "kind={}\nfrom={}\nto={}", e.kind, e.from, e.to),
        PLAN => writeln!(out, "kind={}", e.kind),
        _ => Ok(()),
    };
}

pub fn write_terms(out: &mut Vec<u8>, t: &Terms) {
    let _ = write!(
        out,
        "open={:04}-{:02}-{:02}\nprice={}\nconnect={}\ncutoff={}\nshare={}\n",
        t.year, t.month, t.day, t.price, t.connect, t.cutoff, t.share
    );
}
