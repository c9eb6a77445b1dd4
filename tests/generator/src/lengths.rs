//! Texts whose report has a given length.
//!
//! A value that doubles is written with a power of 2 of leaves, all of one name. A byte more of that name is so many
//! bytes more of the report, so the names' lengths are digits: every fourth power down from the largest, and up to
//! three names, parted by commas, that stand once.

use reference::{call, Figures};

const LONGEST_NAME: usize = 31;
const THREE_NAMES: usize = 3 * LONGEST_NAME + 2;
const LARGEST_POWER: usize = 20;

/// The figures to run these texts with: the largest rooms, and no buffer.
pub fn figures() -> Figures {
    let most = 65_535;
    Figures { budget: 1_000_000, pairs: most, compounds: most, goals: most, buffer: 0, ..Figures::default() }
}

/// A text whose report has this length, from 100 bytes up to the ceiling.
pub fn of_length(length: u32) -> Option<String> {
    (0..=LARGEST_POWER).rev().find_map(|largest| {
        let mut values: Vec<(usize, usize)> = (1..=largest).rev().step_by(4).map(|power| (power, 1)).collect();
        values.push((0, 1));
        let least = call(text(&values).as_bytes(), &figures()).length;
        let mut rest = length.checked_sub(least)? as usize;
        for (power, name) in &mut values {
            let longest = if *power == 0 { THREE_NAMES } else { LONGEST_NAME };
            let more = (rest / leaves(*power)).min(longest - *name);
            *name += more;
            rest -= more * leaves(*power);
        }
        (rest == 0).then(|| text(&values))
    })
}

/// How often a query's report has the name: in its value, and once more in a goal that failed.
fn leaves(power: usize) -> usize {
    if power == 0 {
        1
    } else {
        (1 << power) + 1
    }
}

/// As many names as so many bytes need, commas counted.
fn names(length: usize) -> String {
    if length <= LONGEST_NAME {
        return "z".repeat(length);
    }
    let first = LONGEST_NAME.min(length - 2);
    format!("{},{}", "z".repeat(first), names(length - first - 1))
}

/// A query for each power of 2 of leaves and the length of their name.
fn text(values: &[(usize, usize)]) -> String {
    let rules = "mk(f(C,C?)).\np([1|Xs],f(R?,S)) :- mk(R), p(Xs?,S?).\np(E,f(E?,S)) :- no(S?).\n".to_string();
    values.iter().fold(rules, |text, &(power, length)| {
        let name = "z".repeat(length);
        text + &match power {
            0 => format!("?- no({}).\n", names(length)),
            1 => format!("?- mk(A), p({name},A?).\n"),
            _ => format!("?- mk(A), p([{}|{name}],A?).\n", vec!["1"; power - 1].join(",")),
        }
    })
}
