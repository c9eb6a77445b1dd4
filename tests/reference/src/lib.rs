//! A reference implementation of document 01, with T-01, T-02, T-03 and T-09 of document 02: a job text is read and
//! checked, run under a budget and a room, and its report written.
//!
//! `read`, `run` and `write` are the three phases; `call` composes them and gives the numbers in their order.
//! Read the modules as `text`, `job`, `items` with `rules`, `machine` with `trial`, `circle` and `guards`, `report`,
//! `call`.

#![forbid(unsafe_code)]

mod call;
mod circle;
mod guards;
mod items;
mod job;
mod machine;
mod report;
mod rules;
mod text;
mod trial;
mod words;

pub use call::{call, Answer, Figures};
pub use items::{read, Refusal};
pub use job::Job;
pub use machine::{run, Finished, Room, Verdict};
pub use report::{write, Written, LONGEST_REPORT};
pub use text::{token, Sort, Token};
