//! Guards for clauses (T-02): all seven, on readers of the head's writers, alone and inside terms, one to eight of them
//! and `otherwise` anywhere among them; readers that a guard lets stand several times do so in the body.
//!
//! A clause that keeps the rules keeps them with its guards. Which of them succeed, wait or fail is left to the goals:
//! what `==` is given to compare with comes from terms that goals are likely to hold.

use crate::random::Random;
use crate::term::{Item, Term};

/// The guards of one argument that say of it what it is, the licensing ones first.
const TESTS: [&str; 5] = ["ground", "integer", "constant", "compound", "known"];
const LICENSING: usize = 3;
/// Further body goals hold the readers that may come again.
const MORE: [&str; 3] = ["one", "k", "q"];

/// The clause with guards. `likely` are terms that its writers may well be given.
pub fn guarded(random: &mut Random, mut item: Item, likely: &[Term]) -> Item {
    let mut writers = Vec::new();
    if let Some(head) = &item.head {
        collect(head, &mut writers);
    }
    let count = random.pick(&[1, 1, 1, 1, 2, 2, 2, 3, 3, 4, 8]);
    let mut again = Vec::new();
    for _ in 0..count {
        let guard = guard(random, &writers, likely, &mut again);
        item.guards.push(guard);
    }
    if !again.is_empty() && random.chance(65) {
        for _ in 0..random.pick(&[1, 1, 2, 3]) {
            let arguments = (0..random.between(1, 2)).map(|_| Term::Reader(random.pick(&again))).collect();
            item.goals.push(Term::Compound(random.pick(&MORE), arguments));
        }
    }
    item.goals.truncate(8);
    item
}

/// The pairs whose writers stand in a term.
fn collect(term: &Term, writers: &mut Vec<usize>) {
    match term {
        Term::Writer(pair) => writers.push(*pair),
        Term::Compound(_, arguments) => arguments.iter().for_each(|argument| collect(argument, writers)),
        Term::List(elements, tail) => elements.iter().chain(tail.as_deref()).for_each(|part| collect(part, writers)),
        Term::Reader(_) | Term::Constant(_) => {}
    }
}

fn guard(random: &mut Random, writers: &[usize], likely: &[Term], again: &mut Vec<usize>) -> Term {
    match random.below(20) {
        0..=3 => Term::Constant("otherwise"),
        4..=8 => {
            let sides = vec![side(random, writers, likely), side(random, writers, likely)];
            Term::Compound("==", sides)
        }
        9 => {
            let inside = side(random, writers, likely);
            Term::Compound(random.pick(&TESTS), vec![around(random, inside)])
        }
        _ => {
            let test = random.below(TESTS.len());
            let argument = reader(random, writers);
            if let (true, Term::Reader(pair)) = (test < LICENSING, &argument) {
                again.push(*pair);
            }
            Term::Compound(TESTS[test], vec![argument])
        }
    }
}

fn reader(random: &mut Random, writers: &[usize]) -> Term {
    match writers {
        [] => Term::Constant(random.pick(&["a", "1", "[]"])),
        some => Term::Reader(random.pick(some)),
    }
}

/// A side of `==`: a reader, alone or in a term, or a term that a goal may hold.
fn side(random: &mut Random, writers: &[usize], likely: &[Term]) -> Term {
    match random.below(10) {
        0..=5 => reader(random, writers),
        6 => {
            let inside = reader(random, writers);
            around(random, inside)
        }
        _ if likely.is_empty() => Term::Constant(random.pick(&["a", "b", "1", "[]", "-1"])),
        _ => likely[random.below(likely.len())].clone(),
    }
}

fn around(random: &mut Random, inside: Term) -> Term {
    match random.below(4) {
        0 => Term::Compound("f", vec![inside]),
        1 => Term::Compound("f", vec![inside.clone(), inside]),
        2 => Term::List(vec![Term::Constant("a")], Some(Box::new(inside))),
        _ => Term::List(vec![inside], None),
    }
}

#[cfg(test)]
mod tests {
    use super::*;
    use crate::layout::text_of;
    use crate::{places, programs};
    use reference::read;

    /// A clause with guards is accepted wherever it was without: the figures alone can refuse it, and seldom do.
    #[test]
    fn guarded_clauses_are_accepted() {
        let (mut with, mut refused) = (0, 0);
        for seed in 0..2_000 {
            let random = &mut Random::new(seed);
            let items = if seed % 2 == 0 { programs::program(random) } else { places::program(random) };
            let guards = items.concat().iter().any(|token| token == "==" || token == "otherwise" || token == "ground");
            with += usize::from(guards);
            match read(&text_of(random, &items)) {
                Ok(_) => {}
                Err(refusal) if refusal.number == 6 => refused += 1,
                Err(refusal) => panic!("{refusal:?}: {}", String::from_utf8_lossy(&text_of(random, &items))),
            }
        }
        assert!(with > 1_200 && refused < 40, "{with} with guards, {refused} refused");
    }
}
