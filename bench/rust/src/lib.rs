//! The prepaid account of document 01, written for speed: the thing to measure the Rattle head against. A record of fixed size, changed in
//! place, with what document 01 says and no more.

pub mod account;
#[path = "../../../include/head.rs"]
pub mod head;
pub mod mix;
pub mod text;
