//! T-09 of document 02, 'How long has it waited?', by the readings of its sentences.

mod common;

use common::*;
use reference::{call, Figures};

fn after(text: &str, budget: u64) -> String {
    report_with(text, &Figures { budget, ..Figures::default() })
}

fn in_room(text: &str, pairs: u64, compounds: u64, goals: u64) -> String {
    report_with(text, &Figures { pairs, compounds, goals, ..Figures::default() })
}

/// '0 for the query': its goals were made before any try.
#[test]
fn goals_of_a_query() {
    let text = format!("{RULES}?- tag([3|A?],Z), end(A).");
    assert!(after(&text, 0).ends_with("active tag([3|_1?],_2) from 0 at 0\nactive end(_1) from 0 at 0\n"));
    check(&after("p(1). ?- p(2). ?- p(A?), p(3).", 9), &["failed p(2) from 0 at 0", "failed p(3) from 0 at 0"]);
}

/// 'Its own query's number of tries': the line was made in the machine's third step.
#[test]
fn another_querys_steps_do_not_count() {
    let report = session("?- tag(A?,Z), end(A).\n?- tag([1|B?],Y).");
    assert!(report.ends_with("waiting tag(_1?,_2) from 1 at 1\n"), "{report}");
    assert_eq!(
        report_with("a(X,Y) :- b(X?), c(Y?). b(1). set(X,X?). ?- a(P?,2), set(1,P). ?- a(3,Q?).", &Figures::default()),
        "run rest steps 7\nquery 1 tries 4 active 0 waiting 0 failed 1\nP = 1\nfailed c(2) from 1 at 1\n\
         query 2 tries 3 active 0 waiting 0 failed 2\nQ = _1\nfailed b(3) from 1 at 1\nfailed c(_1?) from 1 at 1\n"
    );
}

/// 'When it was made': nothing renews it, neither waiting nor waking nor failing.
#[test]
fn a_goal_keeps_what_it_was_made_with() {
    check(&after(&format!("{RULES}?- tag(A?,Z), end(A)."), 2), &["active tag([],_1) from 0 at 0"]);
    let text = "a(X) :- b(X?). b(1). l(X?) :- m(X). m(1). ?- a(P?), l(P).";
    let lines =
        ["query 1 tries 3 active 1 waiting 1 failed 0", "active m(_1) from 3 at 2", "waiting b(_1?) from 1 at 1"];
    check(&after(text, 3), &lines);
    check(&after(text, 4), &["query 1 tries 4 active 1 waiting 0 failed 0", "P = 1", "active b(1) from 1 at 1"]);
    // Woken, and then waiting on or failed.
    for (given, kind) in [("1", "waiting"), ("2", "failed")] {
        let rules = "a(X,Y) :- two(X?,Y?). two(1,1). l(X?) :- m(X).";
        let text = format!("{rules} m({given}). ?- a(P?,Q?), l(Q).");
        check(&after(&text, 4), &[&format!("active two(_1?,{given}) from 1 at 1")]);
        check(&after(&text, 9), &["run rest steps 5", &format!("{kind} two(_1?,{given}) from 1 at 1")]);
    }
}

/// 'The clause that made it': its place among all clauses of the text, from 1, queries not counted.
#[test]
fn the_clauses_place_in_the_text() {
    let text = "q(0). ?- p(1). p(2) :- q(3). ?- q(0). q(5). p(1) :- q(4). ?- p(2).";
    check(&report(text), &["failed q(4) from 4 at 1", "failed q(3) from 2 at 1"]);
    let last = format!("{}p(1) :- no(1). ?- p(1).", "p(0). ".repeat(127));
    check(&report(&last), &["failed no(1) from 128 at 1"]);
}

/// 'The step that made it counted', and the clause is the one that was taken, not the one before it.
#[test]
fn each_goal_has_its_own() {
    let text = "loop(X) :- loop(X?). ?- loop(a).";
    check(&after(text, 7), &["active loop(a) from 1 at 7"]);
    let text = "f(X,Y) :- g(X?), h(Y?). g(X) :- h(X?). h(0). ?- f(1,2).";
    let report = report(text);
    assert!(report.ends_with("failed h(2) from 1 at 1\nfailed h(1) from 2 at 2\n"), "{report}");
}

/// The goal in front has its own at verdict `room` too.
#[test]
fn the_goal_in_front() {
    let text = "loop(X) :- loop(X?). ?- loop(a).";
    check(&in_room(text, 1, 9, 9), &["run room steps 1", "active loop(a) from 1 at 1"]);
    let report = in_room("b(a) :- b(a), b(a). ?- b(a).", 99, 99, 2);
    assert!(report.ends_with("active b(a) from 1 at 1\nactive b(a) from 1 at 1\n"), "{report}");
}

/// 'Each active, waiting or failed line', and no other.
#[test]
fn value_lines_have_none() {
    let report = session("?- same(1,A), same(B?,C), no(D).");
    check(&report, &["A = 1", "B = _1", "C = _1?", "D = _2", "failed no(_2) from 0 at 0"]);
    assert_eq!(report.matches(" from ").count(), 1);
}

/// Tries of five digits; the report's length counts them.
#[test]
fn many_tries() {
    let text = "loop(1) :- loop(1). ?- loop(1).";
    let figures = Figures { budget: 32_767, ..large() };
    let report = report_with(text, &figures);
    check(&report, &["active loop(1) from 1 at 32767"]);
    for (buffer, number) in [(report.len() as u64, 0), (report.len() as u64 - 1, 8)] {
        let answer = call(text.as_bytes(), &Figures { buffer, ..figures });
        assert_eq!((answer.number, answer.length as usize), (number, report.len()));
    }
}
