//! The prepaid account of document 01, written a second time from the papers
//! alone (01-scope.md, 00-minutes.md, T-01 and T-02 of 02-change-requests.md, OPEN-POINTS.md
//! points 1 to 19; the account in C's memory from include/head.h), to be compared
//! with the Rattle programs.

pub mod calendar;
#[path = "../../../include/head.rs"]
pub mod head;
pub mod ledger;
pub mod numbers;
pub mod page;
pub mod rows;
pub mod summary;
pub mod text;

#[cfg(test)]
mod tests;
