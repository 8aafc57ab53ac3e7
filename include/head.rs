//! head.h in Rust, for compare/ and bench/: its numbers, structs and calls.

#![allow(dead_code)]

use std::mem::{align_of, size_of};

/// The number that head.h defines under a name.
const fn defined(name: &str) -> usize {
    let (header, name) = (include_bytes!("head.h"), name.as_bytes());
    let (mut at, mut same) = (0, 0);
    while same < name.len() {
        same = if header[at] == name[same] { same + 1 } else { 0 };
        at += 1;
    }
    let mut number = 0;
    while header[at] != b'\n' {
        number = number * 10 + (header[at] - b'0') as usize;
        at += 1;
    }
    number
}

pub const VERSION: usize = defined("#define PREPAY_VERSION ");
pub const DAYS: usize = defined("#define PREPAY_DAYS ");
pub const MONTHS: usize = defined("#define PREPAY_MONTHS ");
pub const CHARGE_KINDS: usize = defined("#define PREPAY_CHARGE_KINDS ");
pub const MAX_PAYMENTS: usize = defined("#define PREPAY_MAX_PAYMENTS ");
pub const PRICE_CELLS: usize = defined("#define PREPAY_PRICE_CELLS ");
pub const MAX_TEXT: usize = defined("#define PREPAY_MAX_TEXT ");
pub const TRANSCRIPT_ROOM: usize = defined("#define PREPAY_TRANSCRIPT_ROOM ");
pub const STATEMENT_ROOM: usize = defined("#define PREPAY_STATEMENT_ROOM ");
pub const PAGE_ROOM: usize = defined("#define PREPAY_PAGE_ROOM ");
pub const ACCOUNT_SIZE: usize = defined("#define PREPAY_ACCOUNT_SIZE ");
/// PREPAY_END.
pub const END: u8 = 255;

#[repr(C)]
#[derive(Clone, Copy, Debug, Default, PartialEq, Eq)]
pub struct Terms {
    pub year: u32,
    pub month: u32,
    pub day: u32,
    pub price: u32,
    pub connect: u32,
    pub cutoff: u32,
    pub share: u32,
}

#[repr(C)]
#[derive(Clone, Copy, Debug, Default, PartialEq, Eq)]
pub struct Event {
    pub sort: u32,
    pub day: u32,
    pub amount: u32,
    pub number: u32,
    pub kind: u32,
    pub usage: u32,
    pub wh: u32,
    pub from: u32,
    pub to: u32,
}

#[repr(C)]
#[derive(Clone, Copy, Debug, Default, PartialEq, Eq)]
pub struct Totals {
    pub credit: u64,
    pub debit: u64,
    pub plan: u64,
    pub standing: u64,
    pub count: u32,
    pub events: u32,
    pub last: u32,
    pub on: u32,
}

#[repr(C)]
#[derive(Clone, Copy, Debug, Default, PartialEq, Eq)]
pub struct Day {
    pub state: u32,
    pub wh: u32,
    pub cost: u32,
}

#[repr(C)]
#[derive(Clone, Copy, Debug, Default, PartialEq, Eq)]
pub struct Payment {
    pub day: u32,
    pub amount: u32,
    pub part: u32,
    pub reversed: u32,
}

#[repr(C)]
#[derive(Clone, Copy, Debug, Default, PartialEq, Eq)]
pub struct Price {
    pub day: u32,
    pub price: u32,
}

#[repr(C)]
#[derive(Clone, Copy, Debug, PartialEq, Eq)]
pub struct Account {
    pub totals: Totals,
    pub charges: [u64; MONTHS * CHARGE_KINDS],
    pub terms: Terms,
    pub prices: [Price; PRICE_CELLS],
    pub days: [Day; DAYS],
    pub payments: [Payment; MAX_PAYMENTS],
    pub spare: u32,
    pub marks: [u8; DAYS],
    pub warned: [u8; DAYS],
}

impl Account {
    /// Memory for an account, of these bytes: any are numbers of one.
    pub const fn of_bytes(bytes: [u8; ACCOUNT_SIZE]) -> Account {
        // SAFETY: both have ACCOUNT_SIZE bytes, every one of a number.
        unsafe { std::mem::transmute(bytes) }
    }

    /// The same, of one byte alone.
    pub const fn filled(byte: u8) -> Account {
        Account::of_bytes([byte; ACCOUNT_SIZE])
    }

    pub const fn bytes(&self) -> &[u8; ACCOUNT_SIZE] {
        // SAFETY: as above; a byte has no alignment.
        unsafe { &*(self as *const Account).cast() }
    }

    pub const fn bytes_mut(&mut self) -> &mut [u8; ACCOUNT_SIZE] {
        // SAFETY: as above.
        unsafe { &mut *(self as *mut Account).cast() }
    }
}

#[repr(C)]
#[derive(Clone, Copy, Debug, PartialEq, Eq)]
pub struct Answer {
    pub code: u64,
    pub value: u64,
}

#[repr(C)]
#[derive(Clone, Copy, Debug, PartialEq, Eq)]
pub struct Reading {
    pub balance: i64,
    pub settled: i64,
    pub plan: u64,
    pub estimates: u64,
    pub service: u64,
}

#[repr(C)]
#[derive(Clone, Copy, Debug, Default, PartialEq, Eq)]
pub struct Figures {
    pub code: u64,
    pub kept_count: u64,
    pub kept_sum: u64,
    pub reversed_count: u64,
    pub reversed_sum: u64,
    pub metered_wh: u64,
    pub metered_cost: u64,
    pub estimated_wh: u64,
    pub estimated_cost: u64,
    pub charges: [u64; CHARGE_KINDS],
    pub average: u64,
    pub missing: u64,
}

#[repr(C)]
#[derive(Clone, Copy, Debug, Default, PartialEq, Eq)]
pub struct Reader {
    pub place: u32,
    pub code: u32,
}

const _: () = assert!(
    size_of::<Terms>() == 28
        && size_of::<Event>() == 36
        && size_of::<Account>() == ACCOUNT_SIZE
        && align_of::<Account>() == 8
        && size_of::<Answer>() == 16
        && size_of::<Reading>() == 40
        && size_of::<Figures>() == 128
        && size_of::<Reader>() == 8
);

extern "C" {
    pub fn prepay_version() -> u32;
    pub fn prepay_open(account: *mut Account, terms: *const Terms) -> u8;
    pub fn prepay_post(account: *mut Account, event: *const Event) -> Answer;
    pub fn prepay_row(account: *mut Account, row: *const Event, count: usize, codes: *mut u8, codes_len: usize) -> u8;
    pub fn prepay_readings(account: *const Account) -> Reading;
    pub fn prepay_summary(account: *const Account, month: u32) -> Figures;
    pub fn prepay_page(account: *const Account, month: u32, out: *mut u8, out_len: usize) -> Answer;
    pub fn prepay_read_terms(text: *const u8, text_len: usize, reader: *mut Reader, terms: *mut Terms) -> u8;
    pub fn prepay_read_event(text: *const u8, text_len: usize, reader: *mut Reader, event: *mut Event) -> u8;
    pub fn prepay_transcript(text: *const u8, text_len: usize, out: *mut u8, out_len: usize) -> usize;
    pub fn prepay_statement(text: *const u8, text_len: usize, out: *mut u8, out_len: usize) -> usize;
}

// SAFETY of all: what is lent is as long as the header asks, and a `&mut` is the only reference to it.

pub fn version() -> u32 {
    unsafe { prepay_version() }
}

pub fn open(account: &mut Account, terms: &Terms) -> u8 {
    unsafe { prepay_open(account, terms) }
}

pub fn post(account: &mut Account, event: &Event) -> Answer {
    unsafe { prepay_post(account, event) }
}

pub fn row(account: &mut Account, row: &[Event], codes: &mut [u8]) -> u8 {
    unsafe { prepay_row(account, row.as_ptr(), row.len(), codes.as_mut_ptr(), codes.len()) }
}

pub fn readings(account: &Account) -> Reading {
    unsafe { prepay_readings(account) }
}

pub fn summary(account: &Account, month: u32) -> Figures {
    unsafe { prepay_summary(account, month) }
}

pub fn page(account: &Account, month: u32, out: &mut [u8]) -> Answer {
    unsafe { prepay_page(account, month, out.as_mut_ptr(), out.len()) }
}

pub fn read_terms(text: &[u8], reader: &mut Reader, terms: &mut Terms) -> u8 {
    unsafe { prepay_read_terms(text.as_ptr(), text.len(), reader, terms) }
}

pub fn read_event(text: &[u8], reader: &mut Reader, event: &mut Event) -> u8 {
    unsafe { prepay_read_event(text.as_ptr(), text.len(), reader, event) }
}

pub fn transcript(text: &[u8], out: &mut [u8]) -> usize {
    unsafe { prepay_transcript(text.as_ptr(), text.len(), out.as_mut_ptr(), out.len()) }
}

pub fn statement(text: &[u8], out: &mut [u8]) -> usize {
    unsafe { prepay_statement(text.as_ptr(), text.len(), out.as_mut_ptr(), out.len()) }
}
