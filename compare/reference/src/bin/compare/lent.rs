//! The library under test, with guard bytes around everything lent to it.

use reference::head::*;
use reference::text;
use std::fmt::Write;

/// The reference's limit, from document 01, is the header's.
const _: () = assert!(MAX_TEXT == text::MOST_BYTES);

const GUARD: usize = 64;
const AROUND: u8 = 0xA5;

/// Something between guard bytes.
#[repr(C)]
pub struct Guarded<T> {
    before: [u8; GUARD],
    pub held: T,
    after: [u8; GUARD],
}

impl<T> Guarded<T> {
    pub fn new(held: T) -> Box<Guarded<T>> {
        Box::new(Guarded { before: [AROUND; GUARD], held, after: [AROUND; GUARD] })
    }

    pub fn guards_stand(&self) -> bool {
        self.before == [AROUND; GUARD] && self.after == [AROUND; GUARD]
    }
}

/// Bytes of a page without a payment.
pub const LEAST_PAGE: usize = 6 * 73;

/// The row's answer and the lent buffer afterwards, or what else was written.
pub fn guarded_row(account: &mut Account, events: &[Event], buffer: usize, fill: u8) -> Result<(u8, Vec<u8>), String> {
    // The row between events that must not be posted, the buffer between guard bytes.
    let trap = [Event { sort: 3, day: 0, amount: 1, ..Event::default() }];
    let lent = [&trap, events, &trap].concat();
    let as_lent = lent.clone();
    let mut codes = vec![fill; GUARD + buffer + GUARD];
    let answer = row(account, &lent[1..=events.len()], &mut codes[GUARD..GUARD + buffer]);
    if lent != as_lent {
        return Err("the row itself was written".into());
    }
    if codes[..GUARD].iter().chain(&codes[GUARD + buffer..]).any(|&b| b != fill) {
        return Err("bytes outside the lent buffer were written".into());
    }
    Ok((answer, codes[GUARD..GUARD + buffer].to_vec()))
}

/// The answer for a month's page and the lent buffer afterwards, or what else was written.
pub fn guarded_page(account: &mut Guarded<Account>, month: u32, buffer: usize, fill: u8) -> Result<(Answer, Vec<u8>), String> {
    let before = account.held;
    let mut lent = vec![fill; GUARD + buffer + GUARD];
    let out = &mut lent[GUARD..GUARD + buffer];
    // By a pointer that may write: the compiler must not take the account for unchanged.
    // SAFETY: as of the calls in head.rs.
    let answer = unsafe { prepay_page(&raw mut account.held, month, out.as_mut_ptr(), out.len()) };
    if lent[..GUARD].iter().chain(&lent[GUARD + buffer..]).any(|&b| b != fill) {
        return Err("bytes outside the lent buffer were written".into());
    }
    if account.held != before || !account.guards_stand() {
        return Err("the account was written".into());
    }
    Ok((answer, lent[GUARD..GUARD + buffer].to_vec()))
}

/// What stands behind a text in memory: read by mistake, it would be an event.
const BEHIND: &[u8] = b"0\nday=0\ndo=warn\nday=0\ndo=warn\n";

// A text, event by event.

/// What stands in the memory of terms and of an event before they are read.
const NO_TERMS: Terms = Terms { year: 2001, month: 2, day: 3, price: 4, connect: 5, cutoff: 6, share: 7 };
const NO_EVENT: Event = Event { sort: 13, day: 401, amount: 2, number: 3, kind: 4, usage: 5, wh: 6, from: 7, to: 8 };

fn alike<T: PartialEq + std::fmt::Debug>(call: &str, good: T, got: T, guards_stand: bool) -> Result<(), String> {
    if good != got {
        return Err(format!("{call}: reference {good:?}, tested {got:?}"));
    }
    if !guards_stand {
        return Err(format!("{call}: bytes around what was lent were written"));
    }
    Ok(())
}

/// One call of prepay_read_event, held to the reference: its answer and the event.
fn next_event(text: &[u8], reader: &mut Guarded<Reader>) -> Result<(u8, Event), String> {
    let mut event = Guarded::new(NO_EVENT);
    let mut at = reader.held;
    let (code, read) = text::read_event(text, &mut at);
    let good = read.map_or(NO_EVENT, |(day, e)| Event::of(day, e));
    let got = read_event(text, &mut reader.held, &mut event.held);
    let guards = reader.guards_stand() && event.guards_stand();
    alike("prepay_read_event", (code, at, good), (got, reader.held, event.held), guards)?;
    Ok((code, good))
}

/// What `prepay` prints for a text, by reading and posting it event by event; or where a reading call differs.
pub fn by_events(text: &[u8]) -> Result<Vec<u8>, String> {
    let lent = [text, BEHIND].concat();
    let text = &lent[..text.len()];
    // Readers that no call left: any place, any code.
    let n = text.len();
    let places = [0, n / 3, n * 2 / 3, n, n + 1, 1 << 31, u32::MAX as usize].map(|place| (place, 0));
    let codes = [1, 14, 15, 16, 254, 255, 256, 511, 1 << 31, u32::MAX].map(|code| (n / 2, code));
    for (place, code) in places.into_iter().chain(codes) {
        next_event(text, &mut Guarded::new(Reader { place: place as u32, code }))?;
    }

    let mut reader = Guarded::new(Reader { place: 7, code: 8 });
    let mut terms = Guarded::new(NO_TERMS);
    let (at, read) = text::read_terms(text);
    let good = (at.code as u8, at, read.map_or(NO_TERMS, |t| Terms::of(&t)));
    let got = read_terms(text, &mut reader.held, &mut terms.held);
    alike("prepay_read_terms", good, (got, reader.held, terms.held), reader.guards_stand() && terms.guards_stand())?;

    let mut out = String::new();
    let mut account = Guarded::new(Account::filled(0xEE));
    let code = if got == 0 { open(&mut account.held, &terms.held) } else { got };
    if code != 0 {
        next_event(text, &mut reader)?;
        writeln!(out, "n=0 code={code} value=0 balance=0 plan=0").unwrap();
        return Ok(out.into_bytes());
    }
    for n in 1.. {
        let (read, event) = next_event(text, &mut reader)?;
        if read == END {
            break;
        }
        let answer = if read == 0 { post(&mut account.held, &event) } else { Answer { code: read as u64, value: 0 } };
        let r = readings(&account.held);
        writeln!(out, "n={n} code={} value={} balance={} plan={}", answer.code, answer.value, r.balance, r.plan).unwrap();
        if read != 0 {
            break;
        }
    }
    // After 15 or the end, the same again.
    next_event(text, &mut reader)?;
    next_event(text, &mut reader)?;
    let r = readings(&account.held);
    writeln!(out, "settled={} estimates={}", r.settled, r.estimates).unwrap();
    if !account.guards_stand() {
        return Err("bytes around the account were written".into());
    }
    Ok(out.into_bytes())
}

/// What `page` prints for a text, by reading and posting it event by event and asking for the page in buffers of several lengths, which hold
/// `fill`; or where these answers do not agree.
pub fn page_after(text: &[u8], month: u32, fill: u8) -> Result<Vec<u8>, String> {
    let (mut reader, mut terms) = (Reader::default(), NO_TERMS);
    let mut account = Guarded::new(Account::filled(fill));
    let code = match read_terms(text, &mut reader, &mut terms) {
        0 => open(&mut account.held, &terms),
        code => code,
    };
    if code != 0 {
        return Ok(format!("n=0 code={code} value=0 balance=0 plan=0\n").into_bytes());
    }
    let mut event = NO_EVENT;
    while read_event(text, &mut reader, &mut event) == 0 {
        post(&mut account.held, &event);
    }
    let (whole, bytes) = guarded_page(&mut account, month, PAGE_ROOM, fill)?;
    let length = if whole.code == 0 { whole.value as usize } else { 0 };
    if length > PAGE_ROOM || bytes[length..].iter().any(|&b| b != fill) {
        return Err(format!("{whole:?} into {PAGE_ROOM} bytes: one past the page was written"));
    }
    let least = length.max(LEAST_PAGE);
    for buffer in [least, least - 1, least - 1 - fill as usize, least + 1, least + fill as usize, 1, 0] {
        let good = match whole.code {
            0 if buffer < length => Answer { code: 16, value: 0 },
            _ => whole,
        };
        let put = if good.code == 0 { length } else { 0 };
        let (got, got_bytes) = guarded_page(&mut account, month, buffer, fill)?;
        if got != good {
            return Err(format!("{whole:?} into {PAGE_ROOM} bytes, but {got:?} into {buffer}"));
        }
        if got_bytes[..put] != bytes[..put] {
            return Err(format!("{got:?} into {buffer} bytes: another page than into {PAGE_ROOM}"));
        }
        if got_bytes[put..].iter().any(|&b| b != fill) {
            return Err(format!("{got:?} into {buffer} bytes: one that must stay was written"));
        }
    }
    if whole.code != 0 {
        return Ok(format!("code={} value={}\n", whole.code, whole.value).into_bytes());
    }
    Ok(bytes[..length].to_vec())
}

// A text, printed whole.

/// Which of the two text calls.
#[derive(Clone, Copy, Debug, PartialEq, Eq)]
pub enum Printer {
    Transcript,
    Statement,
}

impl Printer {
    /// What its output buffer must hold.
    pub fn room(self) -> usize {
        match self {
            Printer::Transcript => TRANSCRIPT_ROOM,
            Printer::Statement => STATEMENT_ROOM,
        }
    }
}

/// Room for the answers, filled anew after each call.
pub struct Room {
    bytes: Vec<u8>,
}

const FILL: u8 = 0xEE;

impl Room {
    pub fn new() -> Room {
        Room { bytes: vec![FILL; GUARD + TRANSCRIPT_ROOM + 4 * GUARD] }
    }

    /// What the call prints for the text with an output buffer `more` bytes longer than
    /// it must be; or what was wrong with its memory.
    pub fn print(&mut self, printer: Printer, text: &[u8], more: usize) -> Result<Vec<u8>, String> {
        let out_len = printer.room() + more.min(2 * GUARD);
        let n = self.call(printer, text, out_len);
        if n > out_len {
            self.bytes.fill(FILL);
            return Err(format!("answered {n} bytes into a buffer of {out_len}"));
        }
        let answer = self.bytes[GUARD..GUARD + n].to_vec();
        self.bytes[GUARD..GUARD + n].fill(FILL);
        if self.untouched() {
            return Ok(answer);
        }
        let at = self.bytes.iter().position(|&b| b != FILL).unwrap();
        self.bytes.fill(FILL);
        Err(format!("wrote at {} of its buffer, though it answered {n} bytes", at as i64 - GUARD as i64))
    }

    /// A buffer that is too short: the answer is 0, and it is left alone.
    pub fn short(&mut self, printer: Printer, text: &[u8], out_len: usize) -> Result<(), String> {
        let n = self.call(printer, text, out_len);
        let whole = self.untouched();
        self.bytes.fill(FILL);
        match (n, whole) {
            (0, true) => Ok(()),
            (n, true) => Err(format!("answered {n} for a buffer of {out_len}")),
            (n, false) => Err(format!("wrote into a buffer of {out_len}, answered {n}")),
        }
    }

    fn untouched(&self) -> bool {
        // By words: these are many bytes for every text.
        // SAFETY: numbers alone.
        let (head, words, tail) = unsafe { self.bytes.align_to::<u64>() };
        head.iter().chain(tail).all(|&b| b == FILL) && words.iter().fold(true, |s, &w| s & (w == u64::from_ne_bytes([FILL; 8])))
    }

    fn call(&mut self, printer: Printer, text: &[u8], out_len: usize) -> usize {
        let lent = [text, BEHIND].concat();
        let call = match printer {
            Printer::Transcript => transcript,
            Printer::Statement => statement,
        };
        call(&lent[..text.len()], &mut self.bytes[GUARD..GUARD + out_len])
    }
}
