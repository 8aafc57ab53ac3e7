//! The reference behind the C interface of include/head.h, as a shared library:
//! in its place selftest.sh gives the comparison a reference with a mistake.
//! The account calls work on the numbers in the caller's memory (src/numbers.rs), the text calls on a ledger.

use reference::head as c;
use reference::numbers::{Numbers, TermCells};
use reference::page;
use reference::rows::{Head, Record};
use reference::summary;
use reference::text;
use std::panic::{catch_unwind, AssertUnwindSafe};


/// Runs `f`; a panic of a mutant gives what no call gives.
fn safely<T>(otherwise: T, f: impl FnOnce() -> T) -> T {
    std::panic::set_hook(Box::new(|_| {}));
    catch_unwind(AssertUnwindSafe(f)).unwrap_or(otherwise)
}

#[no_mangle]
pub extern "C" fn prepay_version() -> u32 {
    c::VERSION as u32
}

#[no_mangle]
pub unsafe extern "C" fn prepay_open(account: &mut Numbers, terms: &c::Terms) -> u8 {
    safely(255, || account.open(terms.terms()))
}

#[no_mangle]
pub unsafe extern "C" fn prepay_post(account: &mut Numbers, event: &c::Event) -> c::Answer {
    safely(c::Answer { code: 255, value: 0 }, || {
        let answer = account.post(event);
        c::Answer { code: answer.code as u64, value: answer.value as u64 }
    })
}

#[no_mangle]
pub unsafe extern "C" fn prepay_row(account: &mut Numbers, row: *const c::Event, count: usize, codes: *mut u8, codes_len: usize) -> u8 {
    let row = std::slice::from_raw_parts(row, count);
    let codes = std::slice::from_raw_parts_mut(codes, codes_len);
    safely(255, || account.row(row, codes))
}

#[no_mangle]
pub unsafe extern "C" fn prepay_readings(account: &Numbers) -> c::Reading {
    let none = c::Reading { balance: 0, settled: 0, plan: 0, estimates: 0, service: 255 };
    safely(none, || account.readings())
}

#[no_mangle]
pub unsafe extern "C" fn prepay_summary(account: &Numbers, month: u32) -> c::Figures {
    let none = c::Figures { code: 255, ..c::Figures::default() };
    safely(none, || {
        let s = summary::summary(account, month);
        c::Figures {
            code: s.code as u64,
            kept_count: s.kept_count as u64,
            kept_sum: s.kept_sum as u64,
            reversed_count: s.reversed_count as u64,
            reversed_sum: s.reversed_sum as u64,
            metered_wh: s.metered_wh as u64,
            metered_cost: s.metered_cost as u64,
            estimated_wh: s.estimated_wh as u64,
            estimated_cost: s.estimated_cost as u64,
            charges: s.kinds,
            average: s.average as u64,
            missing: s.missing as u64,
        }
    })
}

#[no_mangle]
pub unsafe extern "C" fn prepay_page(account: *const Numbers, month: u32, out: *mut u8, out_len: usize) -> c::Answer {
    let out = std::slice::from_raw_parts_mut(out, out_len);
    safely(c::Answer { code: 255, value: 0 }, || {
        let answer = page::put(&*account, month, out);
        c::Answer { code: answer.code as u64, value: answer.value as u64 }
    })
}

#[no_mangle]
pub unsafe extern "C" fn prepay_read_terms(text: *const u8, text_len: usize, reader: &mut c::Reader, terms: &mut c::Terms) -> u8 {
    let text = std::slice::from_raw_parts(text, text_len);
    safely(254, || {
        let (at, read) = text::read_terms(text);
        *reader = at;
        if let Some(read) = read {
            *terms = TermCells::of(&read);
        }
        at.code as u8
    })
}

#[no_mangle]
pub unsafe extern "C" fn prepay_read_event(text: *const u8, text_len: usize, reader: &mut c::Reader, event: &mut c::Event) -> u8 {
    let text = std::slice::from_raw_parts(text, text_len);
    safely(254, || {
        let (code, read) = text::read_event(text, reader);
        if let Some((day, e)) = read {
            *event = Record::of(day, e);
        }
        code
    })
}

unsafe fn put(text: *const u8, text_len: usize, out: *mut u8, out_len: usize, room: usize, print: fn(&text::Run) -> String) -> usize {
    let text = std::slice::from_raw_parts(text, text_len);
    let out = std::slice::from_raw_parts_mut(out, out_len);
    if out_len < room {
        return 0;
    }
    safely(usize::MAX, || {
        let answer = print(&text::run(text)).into_bytes();
        out[..answer.len()].copy_from_slice(&answer);
        answer.len()
    })
}

#[no_mangle]
pub unsafe extern "C" fn prepay_transcript(text: *const u8, text_len: usize, out: *mut u8, out_len: usize) -> usize {
    put(text, text_len, out, out_len, c::TRANSCRIPT_ROOM, text::print)
}

#[no_mangle]
pub unsafe extern "C" fn prepay_statement(text: *const u8, text_len: usize, out: *mut u8, out_len: usize) -> usize {
    put(text, text_len, out, out_len, c::STATEMENT_ROOM, summary::print)
}
