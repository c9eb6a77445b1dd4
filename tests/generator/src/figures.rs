//! The figures of a call: budget, room, buffer and scratch.
//!
//! A job is computed by a proof checker too, so its figures are chosen to keep it small: the budget is cut until the
//! report is short. Edges of the room and of the buffer are found with the reference: the smallest figure with which
//! the answer is still the same, or the queries still fit.

use reference::{call, Answer, Figures};

use crate::random::Random;

pub const NEED: u64 = 4;
const LONGEST_REPORT: u32 = 1_500;

/// Room for nearly every job here.
fn roomy() -> Figures {
    Figures { budget: 60, pairs: 100, compounds: 220, goals: 40, buffer: 2_000, scratch: 6, need: NEED }
}

/// Figures for a text that runs, of each kind in turn, with a word for the label.
pub fn chosen(random: &mut Random, text: &[u8], turn: usize) -> (&'static str, Figures) {
    let mut figures = short(text, roomy());
    figures.scratch = random.pick(&[6, 6, 6, 6, 5, 4]);
    match turn % 10 {
        0 | 3 | 6 => ("roomy", figures),
        1 => ("budget", edge_of_budget(random, text, figures)),
        2 | 7 => ("room", edge_of_room(random, text, figures)),
        4 => ("queries", edge_of_queries(random, text, figures)),
        5 => ("tight", tight(random, text, figures)),
        _ => ("buffer", edge_of_buffer(random, text, figures)),
    }
}

/// Figures of which one is out of range, or just not, or scratch that is short, or just not.
pub fn spoilt(random: &mut Random, text: &[u8], mut figures: Figures, turn: usize) -> Figures {
    match turn % 6 {
        0 => figures.budget = random.pick(&[1_000_000, 1_000_001, 1_000_001, 1_000_001, 4_294_967_296]),
        4 => figures.scratch = random.pick(&[0, 1, 2, 3, 3, 3]),
        5 => figures.scratch = random.pick(&[3, 4, 5, 7]),
        room => {
            figures = with(figures, ROOM[room - 1], random.pick(&[0, 0, 65_536, 65_536, 65_535]));
            figures.budget = figures.budget.min(20);
        }
    }
    short(text, figures)
}

/// The usual figures for a text that is to be refused.
pub fn usual(random: &mut Random, text: &[u8]) -> Figures {
    let mut figures = short(text, roomy());
    figures.scratch = random.pick(&[6, 6, 6, 6, 6, 6, 5, 4]);
    figures
}

/// The budget cut until the report is short.
fn short(text: &[u8], mut figures: Figures) -> Figures {
    while figures.budget > 0 && call(text, &figures).length > LONGEST_REPORT {
        figures.budget /= 2;
    }
    figures
}

#[derive(Clone, Copy)]
enum Figure {
    Pairs,
    Compounds,
    Goals,
}

const ROOM: [Figure; 3] = [Figure::Pairs, Figure::Compounds, Figure::Goals];

fn with(mut figures: Figures, figure: Figure, number: u64) -> Figures {
    match figure {
        Figure::Pairs => figures.pairs = number,
        Figure::Compounds => figures.compounds = number,
        Figure::Goals => figures.goals = number,
    }
    figures
}

fn number_of(figures: &Figures, figure: Figure) -> u64 {
    match figure {
        Figure::Pairs => figures.pairs,
        Figure::Compounds => figures.compounds,
        Figure::Goals => figures.goals,
    }
}

/// The smallest number from 1 to `high` for which a test holds that holds of `high` and of all above the smallest.
fn smallest(high: u64, holds: impl Fn(u64) -> bool) -> u64 {
    let (mut low, mut high) = (1, high);
    while low < high {
        let middle = (low + high) / 2;
        if holds(middle) {
            high = middle;
        } else {
            low = middle + 1;
        }
    }
    high
}

fn same(left: &Answer, right: &Answer) -> bool {
    left.number == right.number && left.length == right.length && left.report == right.report
}

/// The steps that a run takes, one less, one more, or a few.
fn edge_of_budget(random: &mut Random, text: &[u8], mut figures: Figures) -> Figures {
    let taken = steps(&call(text, &figures));
    let few = random.between(0, 12) as u64;
    let budget = random.pick(&[taken, taken, taken.saturating_sub(1), taken.saturating_sub(1), taken + 1, few, few]);
    figures.budget = budget.min(figures.budget);
    short(text, figures)
}

/// The number in the report's first line.
fn steps(answer: &Answer) -> u64 {
    let report = answer.report.as_deref().unwrap_or_default();
    let line = report.split(|byte| *byte == b'\n').next().unwrap_or_default();
    let last = line.split(|byte| *byte == b' ').next_back().unwrap_or_default();
    std::str::from_utf8(last).ok().and_then(|digits| digits.parse().ok()).unwrap_or(0)
}

/// A room figure with which the run is just the same, or one less, or somewhere below that.
fn edge_of_room(random: &mut Random, text: &[u8], figures: Figures) -> Figures {
    let figure = random.pick(&ROOM);
    let answer = call(text, &figures);
    let edge =
        smallest(number_of(&figures, figure), |number| same(&call(text, &with(figures, figure, number)), &answer));
    let lowest = lowest_for_queries(text, figures, figure);
    let number = match random.below(4) {
        0 => edge,
        1 | 2 => edge.saturating_sub(1).max(lowest),
        _ => random.between(lowest as usize, edge.max(lowest) as usize) as u64,
    };
    short(text, with(figures, figure, number))
}

fn lowest_for_queries(text: &[u8], figures: Figures, figure: Figure) -> u64 {
    smallest(number_of(&figures, figure), |number| call(text, &with(figures, figure, number)).number != 7)
}

/// A room figure that the queries alone just fill, or just pass.
fn edge_of_queries(random: &mut Random, text: &[u8], figures: Figures) -> Figures {
    let mut room = ROOM;
    random.shuffle(&mut room);
    let edges = room.map(|figure| (figure, lowest_for_queries(text, figures, figure)));
    let (figure, lowest) = edges.into_iter().find(|(_, lowest)| *lowest > 1).unwrap_or(edges[0]);
    let number = random.pick(&[lowest, lowest - 1, lowest - 1]);
    short(text, with(figures, figure, number.max(1)))
}

/// All three figures near the queries' own.
fn tight(random: &mut Random, text: &[u8], figures: Figures) -> Figures {
    let tightened = ROOM.iter().fold(figures, |tight, &figure| {
        let more = random.pick(&[0, 1, 2, 4, 8, 16]);
        with(tight, figure, lowest_for_queries(text, figures, figure) + more)
    });
    short(text, tightened)
}

/// A buffer of exactly the report's length, one less, one more, half of it, or none.
fn edge_of_buffer(random: &mut Random, text: &[u8], mut figures: Figures) -> Figures {
    let length = u64::from(call(text, &figures).length);
    let less = length.saturating_sub(1);
    figures.buffer = random.pick(&[length, length, less, less, length + 1, length / 2, 0]).min(figures.buffer);
    figures
}
