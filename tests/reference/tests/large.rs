//! Large runs: deep values, long chains, lengths at the ceiling, and runs that fill the room. Each answers at once.

mod common;

use common::*;
use reference::{call, Answer, Figures};

fn nested(levels: usize, open: &str, inside: &str, close: &str) -> String {
    format!("{}{inside}{}", open.repeat(levels), close.repeat(levels))
}

/// The value grows by one level with each step, which charges a pair and three compounds; the query charges one.
#[test]
fn a_deep_value_in_a_goal() {
    let report = timed(|| report_with("grow(X) :- grow(f(X?)). ?- grow(a).", &large()));
    let levels = 65_534 / 3;
    let line = format!("active grow({}) from 1 at {levels}\n", nested(levels, "f(", "a", ")"));
    assert!(report.starts_with(&format!("run room steps {levels}\n")) && report.ends_with(&line));
}

#[test]
fn a_deep_value_with_a_pair_at_each_level() {
    let report = timed(|| report_with("down(f(X?)) :- down(X). ?- down(A).", &large()));
    assert!(report.contains(&format!("A = {}\n", nested(65_534 / 3, "f(", "_1?", ")"))));
}

/// Fourteen levels to a step, along first arguments and along elements; thirty along tails.
#[test]
fn values_of_60000_levels() {
    let text = format!("down({}) :- down(X). ?- down(A).", nested(14, "f(", "X?", ")"));
    let report = timed(|| report_with(&text, &large()));
    assert!(report.contains(&format!("A = {}\n", nested(14 * (65_534 / 16), "f(", "_1?", ")"))));

    let text = format!("more([{}|X?]) :- more(X). ?- more(A).", vec!["1"; 30].join(","));
    let report = timed(|| report_with(&text, &large()));
    let elements = 30 * (65_534 / 32);
    assert!(elements > 60_000);
    assert!(report.contains(&format!("A = [{}|_1?]\n", vec!["1"; elements].join(","))));

    let text = format!("in({}) :- in(X). copy(X,g(X?)). ?- in(A), copy(A?,B).", nested(14, "[", "X?", "]"));
    let report = timed(|| report_with(&text, &large()));
    let value = nested(14 * (65_531 / 16), "[", "_1?", "]");
    check(&report, &[&format!("A = {value}"), &format!("B = g({value})")]);
}

/// 2 to the 10 times 14 levels around an unassigned pair; each wrapping's circle test goes down all of them.
#[test]
fn a_circle_test_down_a_deep_value() {
    let rules = format!(
        "dup([1|X],[1|A?],[1|B?]) :- dup(X?,A,B). dup([],[],[]).
         g([1|K],V,W?) :- dup(K?,K1,K2), g(K1?,V?,U), g(K2?,U?,W). g([],V,{}).",
        nested(14, "f(", "V?", ")")
    );
    let list = ["1"; 10].join(",");
    let report = timed(|| report_with(&format!("{rules}?- g([{list}],A?,B)."), &large()));
    check(&report, &[&format!("B = {}", nested(14 << 10, "f(", "_1?", ")"))]);
}

/// A chain of assigned readers behind 2 to the 21 leaves: walked once, not once for each leaf.
#[test]
fn a_long_chain_behind_many_leaves() {
    let rules = "mk(f(C,C?)). link(X?) :- link(X).
p([1|Xs],f(R?,S)) :- mk(R), p(Xs?,S?).
p([],f(R?,S)) :- link(R), no(S?).\n";
    let text = format!("{rules}?- mk(A), p([{}],A?).", vec!["1"; 20].join(","));
    let answer = timed(|| call(text.as_bytes(), &Figures { budget: 30_000, ..large() }));
    let report = String::from_utf8(answer.report.expect("a report")).unwrap();
    check(&report, &["run budget steps 30000", "failed no(_1?) from 4 at 42", "active link(_1) from 2 at 30000"]);
    let leaves = 1 << 21;
    let line = report.lines().find(|line| line.starts_with("A = ")).unwrap();
    assert_eq!(line.len(), "A = ".len() + leaves * "_1?".len() + (leaves - 1) * "f(,)".len());
}

/// The waiting goal is woken with every second link and waits again; the chain behind it is not walked anew each time.
#[test]
fn a_goal_that_waits_at_the_end_of_a_growing_chain() {
    let report = timed(|| report_with("link(X?) :- link(X). see(1). ?- see(A?), link(A).", &large()));
    let links = 65_533 / 2;
    let steps = links + 1 + links / 2;
    check(
        &report,
        &[
            &format!("run room steps {steps}"),
            "A = _1?",
            "waiting see(_1?) from 0 at 0",
            "active link(_1) from 1 at 49149",
        ],
    );
}

/// Each second step wraps the whole value built so far, so each circle test meets it.
#[test]
fn wrapping_a_growing_value() {
    let text = "wrap(X,g(X?)). loop(V) :- wrap(V?,U), loop(U?). ?- loop(a).";
    let report = timed(|| report_with(text, &large()));
    assert!(report.starts_with("run room steps "));
}

/// Four queries whose values have 2 to the 20, 16, 12 and 8 leaves, and one with 36 names to fill up the last bytes.
fn sized(leaves: [usize; 4], filling: usize) -> String {
    let mut text = "mk(f(C,C?)). p([1|Xs],f(R?,S)) :- mk(R), p(Xs?,S?). p(E,f(E?,S)) :- no(S?).\n".to_string();
    for (query, length) in leaves.into_iter().enumerate() {
        let list = vec!["1"; 19 - 4 * query].join(",");
        text += &format!("?- mk(A), p([{list}|{}],A?).\n", "z".repeat(length));
    }
    let names: Vec<String> = (0..36).map(|n| "y".repeat(1 + (filling + 35 - n) / 36)).collect();
    let goals: Vec<String> = names.chunks(6).map(|some| format!("no({})", some.join(","))).collect();
    text + &format!("?- {}.\n", goals.join(","))
}

fn answer_sized(leaves: [usize; 4], filling: usize, buffer: u64) -> Answer {
    call(sized(leaves, filling).as_bytes(), &Figures { buffer, ..large() })
}

#[test]
fn reports_at_the_ceiling_to_the_byte() {
    let longest = 16_777_216;
    let mut leaves = [1; 4];
    for query in 0..4 {
        while leaves[query] < 31 {
            leaves[query] += 1;
            if answer_sized(leaves, 0, 0).length > longest {
                leaves[query] -= 1;
                break;
            }
        }
    }
    let filling = (longest - answer_sized(leaves, 0, 0).length) as usize;
    assert!(filling <= 36 * 30, "{filling}");
    let most = answer_sized(leaves, filling, longest as u64);
    assert_eq!((most.number, most.length), (0, longest));
    assert_eq!(most.report.map(|report| report.len()), Some(longest as usize));
    for (filling, buffer, length) in [
        (filling, longest as u64 - 1, longest),
        (filling, 0, longest),
        (filling - 1, 0, longest - 1),
        (filling + 1, longest as u64, longest + 1),
        (filling + 1, u64::MAX, longest + 1),
        (filling + 2, u64::MAX, longest + 1),
    ] {
        let answer = answer_sized(leaves, filling, buffer);
        assert_eq!((answer.number, answer.line, answer.length, answer.report), (8, 0, length, None));
    }
}

#[test]
fn a_report_of_exactly_the_buffers_length() {
    let text = format!("{RULES}?- tag([1,2,3|A?],Z), end(A). ?- no([a|B?],B).");
    let report = report(&text);
    for (buffer, number) in [(report.len() as u64, 0), (report.len() as u64 - 1, 8), (report.len() as u64 + 1, 0)] {
        let answer = call(text.as_bytes(), &Figures { buffer, ..Figures::default() });
        assert_eq!((answer.number, answer.length as usize), (number, report.len()));
        assert_eq!(answer.report.is_some(), number == 0);
    }
}

#[test]
fn runs_that_fill_the_room() {
    let report = timed(|| report_with("p(1) :- p(1). ?- p(1).", &large()));
    check(&report, &["run room steps 32767", "active p(1) from 1 at 32767"]);
    // Nothing but goals of one argument: 7 of 8 compounds charged are goals that stay.
    let text = "p(1) :- p(1),p(1),p(1),p(1),p(1),p(1),p(1). ?- p(1).";
    let report = timed(|| report_with(text, &large()));
    let steps = 65_534 / 8;
    check(
        &report,
        &[
            &format!("run room steps {steps}"),
            &format!("query 1 tries {steps} active {} waiting 0 failed 0", 1 + 6 * steps),
        ],
    );
}
