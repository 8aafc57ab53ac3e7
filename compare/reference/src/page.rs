//! The page of a month, as document 02's T-02 has it.

use crate::ledger::{Answer, Book, LAST_DAY};
use crate::summary::summary;
use crate::text::{self, print_no_account, Run};

const COLUMNS: usize = 72;
/// The last columns of a line, in which its figure ends.
const FIGURE: usize = 14;

/// Hundredths of a unit as units with two decimals.
fn two_decimals(hundredths: u64) -> String {
    format!("{}.{:02}", hundredths / 100, hundredths % 100)
}

/// A label from column 1, a figure to the last column, and a line feed.
fn line(label: &str, figure: &str) -> String {
    format!("{label:<label_columns$}{figure:>FIGURE$}\n", label_columns = COLUMNS - FIGURE)
}

/// The page of month `m`, counted from the opening month; or the code of its summary, where that is not 0.
pub fn page(book: &impl Book, m: u32) -> Result<String, u8> {
    let s = summary(book, m);
    if s.code != 0 {
        return Err(s.code);
    }
    let terms = book.terms();
    let months = terms.open.month - 1 + m;
    let mut out = line(&format!("Month {:04}-{:02}", terms.open.year + months / 12, months % 12 + 1), "");
    for payment in book.list_payments() {
        if payment.day <= LAST_DAY && terms.month_of(payment.day) == m && !payment.reversed {
            let date = terms.open.plus(payment.day);
            let label = format!("Paid {:04}-{:02}-{:02}", date.year, date.month, date.day);
            out += &line(&label, &two_decimals(payment.amount as u64));
        }
    }
    let wh = s.metered_wh + s.estimated_wh;
    let cost = s.metered_cost + s.estimated_cost;
    out += &line(&format!("Usage {wh} Wh"), &two_decimals(cost as u64));
    for kind in 3..=5 {
        out += &line(&format!("Kind {kind}"), &two_decimals(s.kinds[kind - 1]));
    }
    let mut average = two_decimals(s.average as u64);
    if s.missing || average.len() > FIGURE {
        average.clear();
    }
    out += &line("Average", &average);
    Ok(out)
}

/// The page into a lent buffer, from its start, and its length; bytes past it stay. A refusal has value 0 and writes nothing.
pub fn put(book: &impl Book, m: u32, out: &mut [u8]) -> Answer {
    match page(book, m) {
        Err(code) => Answer { code, value: 0 },
        Ok(page) if out.len() < page.len() => Answer { code: 16, value: 0 },
        Ok(page) => {
            out[..page.len()].copy_from_slice(page.as_bytes());
            Answer { code: 0, value: page.len() as i64 }
        }
    }
}

/// The month that a program's arguments name: one number, as in the event text.
pub fn argument(args: &[impl AsRef<[u8]>]) -> Option<u32> {
    match args {
        [month] => text::number(month.as_ref()),
        _ => None,
    }
}

/// All that `page_ref` prints for a run.
pub fn print(run: &Run, m: u32) -> String {
    match run {
        Run::NoAccount(code) => print_no_account(*code),
        Run::Account { ledger, .. } => page(ledger, m).unwrap_or_else(|code| format!("code={code} value=0\n")),
    }
}
