//! The call: reading, running and writing composed, and the numbers 0 to 11 in their order.
//!
//! 'Order: 1, 2, 3; then the text item by item, where the first refused item decides; then no query; then 7; then 8.'
//! '9 and 10 take 5's place in the order' (document 02, T-01), and 11 is judged right before it (T-02).
//! The scratch need is a figure here: the call uses no scratch of its caller's.

use crate::{items, machine, report};

/// What the caller lends and allows. Any u64 is taken; out-of-range figures are answered, not trusted.
#[derive(Clone, Copy, Debug)]
pub struct Figures {
    pub budget: u64,
    pub pairs: u64,
    pub compounds: u64,
    pub goals: u64,
    /// Bytes.
    pub buffer: u64,
    /// Words, as is the need.
    pub scratch: u64,
    pub need: u64,
}

impl Default for Figures {
    /// 'Program: budget 10,000, room 1,024 pairs, 1,024 compounds, 128 goals, report buffer 65,536 bytes.'
    fn default() -> Self {
        Figures { budget: 10_000, pairs: 1_024, compounds: 1_024, goals: 128, buffer: 65_536, scratch: 0, need: 0 }
    }
}

impl Figures {
    /// 'A budget (0 to 1,000,000), three room figures (pairs, compounds, goals, each 1 to 65,535).'
    fn in_range(&self) -> bool {
        let room = 1..=65_535;
        self.budget <= 1_000_000
            && room.contains(&self.pairs)
            && room.contains(&self.compounds)
            && room.contains(&self.goals)
    }
}

/// The answer of the call: number, line, length and offset; the report exactly when the number is 0.
#[derive(Clone, Debug, PartialEq, Eq)]
pub struct Answer {
    pub number: u8,
    pub line: u32,
    pub length: u32,
    pub offset: u32,
    pub report: Option<Vec<u8>>,
}

/// A refusal that says nothing of the text.
const fn outside_the_text(number: u8) -> items::Refusal {
    items::Refusal { number, line: 0, offset: 0 }
}

/// 'The length is 0 for 1 to 7', and for 9, 10 and 11.
fn refused(refusal: items::Refusal) -> Answer {
    let items::Refusal { number, line, offset } = refusal;
    Answer { number, line, length: 0, offset, report: None }
}

/// Read a job text, run it and write its report.
pub fn call(text: &[u8], figures: &Figures) -> Answer {
    if !figures.in_range() {
        return refused(outside_the_text(1));
    }
    if figures.scratch < figures.need {
        return refused(outside_the_text(2));
    }
    let job = match items::read(text) {
        Ok(job) => job,
        Err(refusal) => return refused(refusal),
    };
    let room = machine::Room { pairs: figures.pairs, compounds: figures.compounds, goals: figures.goals };
    let Some(finished) = machine::run(&job, figures.budget, room) else {
        return refused(outside_the_text(7));
    };
    let written = report::write(&finished, figures.buffer);
    let number = if written.report.is_some() { 0 } else { 8 };
    Answer { number, line: 0, length: written.length, offset: 0, report: written.report }
}
