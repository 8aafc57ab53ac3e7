//! The month summary.

use crate::ledger::{Book, Usage, LAST_DAY};
use crate::text::{print_no_account, Run};
use std::fmt::Write;

pub const LAST_MONTH: u32 = 14;
/// No account's charges of a month come to as much.
const MOST_CHARGES: u64 = 1 << 40;

#[derive(Clone, Debug, Default, PartialEq, Eq)]
pub struct Summary {
    pub code: u8,
    pub kept_count: i64,
    pub kept_sum: i64,
    pub reversed_count: i64,
    pub reversed_sum: i64,
    pub metered_wh: i64,
    pub metered_cost: i64,
    pub estimated_wh: i64,
    pub estimated_cost: i64,
    pub kinds: [u64; 5],
    pub average: i64,
    pub missing: bool,
}

/// Month `m` counted from the opening month.
pub fn summary(book: &impl Book, m: u32) -> Summary {
    if !book.is_account() {
        return Summary { code: 1, ..Summary::default() };
    }
    let open = book.terms().open;
    let mut dates = vec![open];
    while dates.len() <= LAST_DAY as usize {
        dates.push(dates[dates.len() - 1].next());
    }
    let in_month = |day: u32| day <= LAST_DAY && dates[day as usize].months_after(open) == m;

    let mut s = Summary::default();
    if !(0..=LAST_DAY).any(in_month) {
        s.code = 3;
        return s;
    }
    for payment in book.list_payments() {
        if in_month(payment.day) {
            if payment.reversed {
                s.reversed_count += 1;
                s.reversed_sum += payment.amount;
            } else {
                s.kept_count += 1;
                s.kept_sum += payment.amount;
            }
        }
    }
    for day in (0..=LAST_DAY).filter(|&day| in_month(day)) {
        match book.usage(day) {
            Usage::Blank => {}
            Usage::Estimated { wh, cost } => {
                s.estimated_wh += wh as i64;
                s.estimated_cost += cost;
            }
            Usage::Metered { wh, cost } => {
                s.metered_wh += wh as i64;
                s.metered_cost += cost;
            }
        }
    }
    s.kinds = book.charges(m, &in_month);
    if s.kinds.iter().any(|&sum| sum > MOST_CHARGES) {
        return Summary { code: 1, ..Summary::default() };
    }
    let wh = s.metered_wh + s.estimated_wh;
    let cost = s.metered_cost + s.estimated_cost + s.kinds[0] as i64 + s.kinds[1] as i64;
    if wh == 0 {
        s.missing = true;
    } else {
        s.average = (cost * 100_000 + wh / 2) / wh;
    }
    s
}

/// All that `summary_ref` prints for a run.
pub fn print(run: &Run) -> String {
    let ledger = match run {
        Run::NoAccount(code) => return print_no_account(*code),
        Run::Account { ledger, .. } => ledger,
    };
    let mut out = String::new();
    for m in 0..=LAST_MONTH {
        let s = summary(ledger, m);
        write!(out, "m={m} code={}", s.code).unwrap();
        write!(out, " kept_count={} kept_sum={}", s.kept_count, s.kept_sum).unwrap();
        write!(out, " reversed_count={} reversed_sum={}", s.reversed_count, s.reversed_sum).unwrap();
        write!(out, " metered_wh={} metered_cost={}", s.metered_wh, s.metered_cost).unwrap();
        write!(out, " estimated_wh={} estimated_cost={}", s.estimated_wh, s.estimated_cost).unwrap();
        for (i, sum) in s.kinds.iter().enumerate() {
            write!(out, " kind{}={sum}", i + 1).unwrap();
        }
        writeln!(out, " average={} missing={}", s.average, s.missing as u8).unwrap();
    }
    out
}
