//! Seeded jobs for the runtime of document 01: the same jobs for the same seed on every machine.
//!
//! `jobs` mixes kinds in a fixed round, so that each comes often: random programs, streams and other kits, goals that
//! wait on several readers or fail behind them, most of them with guards, texts near every figure, corners of the token
//! rules, changed, cut and broken texts, texts refused at every kind of byte or for their guards, and figures out of
//! range. The jobs are
//! computed by a proof checker as well as by the reference, so nearly all of them are small by construction.

#![forbid(unsafe_code)]

pub mod antt;
pub mod corners;
mod edges;
mod figures;
pub mod frame;
mod guards;
pub mod heavy;
mod layout;
pub mod lengths;
pub mod options;
mod places;
mod programs;
pub mod random;
mod refused;
mod streams;
pub mod table;
pub mod term;
pub mod texts;
pub mod worst;

pub use reference::{call, Answer, Figures};

use random::Random;
use term::Token;

/// A call to make: its text and figures, with a label that no other job of the seed has.
#[derive(Clone, Debug)]
pub struct Job {
    pub label: String,
    pub text: Vec<u8>,
    pub figures: Figures,
}

#[derive(Clone, Copy)]
enum Kind {
    Program,
    Kit,
    Places,
    Edge,
    Corner,
    Changed,
    Cut,
    Broken,
    Occurrences,
    Guards,
    Misplaced,
    Ended,
    Spoilt,
}

/// The round in which the kinds come.
const ROUND: [Kind; 58] = [
    Kind::Program,
    Kind::Edge,
    Kind::Places,
    Kind::Guards,
    Kind::Spoilt,
    Kind::Occurrences,
    Kind::Corner,
    Kind::Kit,
    Kind::Places,
    Kind::Corner,
    Kind::Misplaced,
    Kind::Edge,
    Kind::Kit,
    Kind::Places,
    Kind::Changed,
    Kind::Occurrences,
    Kind::Corner,
    Kind::Program,
    Kind::Places,
    Kind::Guards,
    Kind::Kit,
    Kind::Ended,
    Kind::Edge,
    Kind::Corner,
    Kind::Places,
    Kind::Broken,
    Kind::Occurrences,
    Kind::Kit,
    Kind::Spoilt,
    Kind::Guards,
    Kind::Places,
    Kind::Program,
    Kind::Misplaced,
    Kind::Edge,
    Kind::Corner,
    Kind::Places,
    Kind::Kit,
    Kind::Occurrences,
    Kind::Changed,
    Kind::Corner,
    Kind::Places,
    Kind::Edge,
    Kind::Ended,
    Kind::Program,
    Kind::Cut,
    Kind::Guards,
    Kind::Kit,
    Kind::Places,
    Kind::Kit,
    Kind::Occurrences,
    Kind::Corner,
    Kind::Program,
    Kind::Places,
    Kind::Edge,
    Kind::Misplaced,
    Kind::Kit,
    Kind::Corner,
    Kind::Places,
];

/// Whose turn it is among the edges, the corners, the ways to break a rule and the figures: each goes round from a random beginning.
struct Turns {
    edge: usize,
    corner: usize,
    occurrences: usize,
    guards: usize,
    chosen: usize,
    spoilt: usize,
}

impl Turns {
    fn new(random: &mut Random) -> Self {
        Turns {
            edge: random.below(1_000),
            corner: random.below(1_000),
            occurrences: random.below(1_000),
            guards: random.below(1_000),
            chosen: random.below(10),
            spoilt: random.below(7),
        }
    }
}

/// The turn, which passes on.
fn take(turn: &mut usize) -> usize {
    *turn += 1;
    *turn
}

/// So many jobs of a seed; fewer of the same seed are the first ones of them.
pub fn jobs(seed: u64, count: usize) -> Vec<Job> {
    let mut random = Random::new(seed);
    let mut turns = Turns::new(&mut random);
    (0..count)
        .map(|place| {
            let (word, text, figures) = job(&mut random, &mut turns, ROUND[place % ROUND.len()]);
            Job { label: format!("{place}-{word}"), text, figures }
        })
        .collect()
}

fn job(random: &mut Random, turns: &mut Turns, kind: Kind) -> (String, Vec<u8>, Figures) {
    let (word, text) = match kind {
        Kind::Program => return running(random, turns, "program", programs::program),
        Kind::Kit => return running(random, turns, "kit", streams::program),
        Kind::Places => return running(random, turns, "places", places::program),
        Kind::Spoilt => return spoilt(random, turns),
        Kind::Edge => edges::text(random, take(&mut turns.edge)),
        Kind::Corner => ("corner".to_string(), corners::corner(random, take(&mut turns.corner))),
        Kind::Changed => {
            let items = some_items(random);
            ("changed".to_string(), corners::changed(random, &items))
        }
        Kind::Cut => {
            let items = some_items(random);
            ("cut".to_string(), corners::cut(random, &items))
        }
        Kind::Broken => ("broken".to_string(), corners::broken(random)),
        Kind::Occurrences => ("occurrences".to_string(), refused::occurrences(random, take(&mut turns.occurrences))),
        Kind::Guards => ("guards".to_string(), refused::guards(random, take(&mut turns.guards))),
        Kind::Misplaced => {
            let items = some_items(random);
            ("misplaced".to_string(), refused::misplaced(random, &items))
        }
        Kind::Ended => {
            let items = some_items(random);
            ("ended".to_string(), refused::ended(random, &items))
        }
    };
    let figures = figures::usual(random, &text);
    (word, text, figures)
}

fn some_items(random: &mut Random) -> Vec<Vec<Token>> {
    let program = random.pick(&[programs::program, streams::program, places::program]);
    program(random)
}

/// A program that runs, with figures chosen for it.
fn running(
    random: &mut Random,
    turns: &mut Turns,
    word: &str,
    program: fn(&mut Random) -> Vec<Vec<Token>>,
) -> (String, Vec<u8>, Figures) {
    let mut items = program(random);
    if random.chance(20) {
        among_the_clauses(random, &mut items);
    }
    if random.chance(8) {
        behind_others(random, &mut items);
    }
    let text = layout::text_of(random, &items);
    let (how, figures) = figures::chosen(random, &text, take(&mut turns.chosen));
    (format!("{word}-{how}"), text, figures)
}

/// Each query moved to a place before its own: which clause made a goal is counted without the queries.
fn among_the_clauses(random: &mut Random, items: &mut [Vec<Token>]) {
    for place in 0..items.len() {
        if items[place][0] == "?-" {
            items[random.below(place + 1)..=place].rotate_right(1);
        }
    }
}

/// Clauses that no goal asks for put before the others, whose numbers then have two digits, or three.
fn behind_others(random: &mut Random, items: &mut Vec<Vec<Token>>) {
    let count = random.pick(&[8, 9, 10, 11, 12, 99]).min(120_usize.saturating_sub(items.len()));
    items.splice(0..0, vec![term::split("n(0)."); count]);
}

/// Figures out of range, scratch short or a text too long, on any text and now and then two of them at once.
fn spoilt(random: &mut Random, turns: &mut Turns) -> (String, Vec<u8>, Figures) {
    let turn = take(&mut turns.spoilt) % 7;
    let long = turn == 6;
    let text = match random.below(3) {
        _ if long || random.chance(10) => edges::too_long(random),
        0 => edges::text(random, turn).1,
        1 => corners::corner(random, turn),
        _ => {
            let items = some_items(random);
            layout::text_of(random, &items)
        }
    };
    let mut figures = figures::usual(random, &text);
    if !long {
        figures = figures::spoilt(random, &text, figures, turn);
    }
    if !matches!(turn, 4 | 6) && random.chance(20) {
        let scratch = random.between(4, 5);
        figures = figures::spoilt(random, &text, figures, scratch);
    }
    ("spoilt".to_string(), text, figures)
}
