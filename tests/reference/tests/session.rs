//! 'A session, and its corners': K1 to K12 of document 01 (K12 as T-03 of document 02 has it), then each line of 'Errors that look right'.

mod common;

use common::*;
use reference::{call, read, run, write, Figures, Refusal, Room, Verdict};

const K2: &str = "?- tag([3|A?],Z), end(A).";

fn k2_with(figures: Figures) -> String {
    report_with(&format!("{RULES}{K2}"), &figures)
}

#[test]
fn k1_empty_text() {
    assert_eq!(refused(""), (6, 0));
}

#[test]
fn k2_rests_after_three_steps() {
    assert_eq!(session(K2), "run rest steps 3\nquery 1 tries 3 active 0 waiting 0 failed 0\nA = []\nZ = [hit(3)]\n");
}

#[test]
fn k3_whole_report() {
    let expected = "run rest steps 5
query 1 tries 3 active 0 waiting 0 failed 0
A = []
Z = []
query 2 tries 2 active 0 waiting 1 failed 0
B = _1
Y = [hit(1)|_2?]
waiting tag(_1?,_2) from 1 at 1
";
    assert_eq!(session("?- tag(A?,Z), end(A).\n?- tag([1|B?],Y).\n"), expected);
}

#[test]
fn k4_circle() {
    assert_eq!(
        session("?- same(A?,A)."),
        "run rest steps 1\nquery 1 tries 1 active 0 waiting 0 failed 1\nA = _1\nfailed same(_1?,_1) from 0 at 0\n"
    );
}

#[test]
fn k5_k6_k7_same() {
    check(&session("?- same(A,B)."), &["run rest steps 1", "failed same(_1,_2) from 0 at 0"]);
    check(&session("?- same(7,B)."), &["query 1 tries 1 active 0 waiting 0 failed 0", "B = 7"]);
    check(&session("?- same(1,1)."), &["failed same(1,1) from 0 at 0"]);
}

#[test]
fn k8_value_given_in_a_trial_is_not_seen_by_it() {
    check(&session("?- two(A,A?)."), &["run rest steps 1", "A = _1", "waiting two(_1,_1?) from 0 at 0"]);
}

#[test]
fn k9_budget_of_zero() {
    let report = k2_with(Figures { budget: 0, ..Figures::default() });
    let counts = "run budget steps 0\nquery 1 tries 0 active 2 waiting 0 failed 0\n";
    assert_eq!(
        report,
        format!("{counts}A = _1\nZ = _2\nactive tag([3|_1?],_2) from 0 at 0\nactive end(_1) from 0 at 0\n")
    );
}

#[test]
fn k10_room() {
    let room = |pairs, compounds| k2_with(Figures { pairs, compounds, ..Figures::default() });
    check(&room(5, 10), &["run rest steps 3", "Z = [hit(3)]"]);
    check(&room(4, 10), &["run room steps 0", "query 1 tries 0 active 2 waiting 0 failed 0"]);
    check(
        &room(5, 9),
        &["run room steps 2", "query 1 tries 2 active 1 waiting 0 failed 0", "active tag([],_1) from 1 at 1"],
    );
}

#[test]
fn k11_occurrence_rules() {
    assert_eq!(refused("p(X). ?- p(1)."), (9, 1));
    assert_eq!(refused("?- p(X,X)."), (5, 1));
    check(&report("?- p(X?)."), &["run rest steps 1", "X = _1", "failed p(_1?) from 0 at 0"]);
}

#[test]
fn k12_a_failing_place_decides() {
    assert_eq!(
        session("?- w(A?,1)."),
        "run rest steps 1\nquery 1 tries 1 active 0 waiting 0 failed 1\nA = _1\nfailed w(_1?,1) from 0 at 0\n"
    );
    check(&session("?- w(2,A?)."), &["failed w(2,_1?) from 0 at 0"]);
}

#[test]
fn a_query_wakes_only_its_own_goals() {
    let report = session("?- end(B?). ?- same(7,A).");
    let first = "query 1 tries 1 active 0 waiting 1 failed 0\nB = _1\nwaiting end(_1?) from 0 at 0\n";
    let second = "query 2 tries 1 active 0 waiting 0 failed 0\nA = 7\n";
    assert_eq!(report, format!("run rest steps 2\n{first}{second}"));
}

/// The three phases one by one give what the call gives.
#[test]
fn phases_compose() {
    let text = format!("{RULES}{K2}");
    let job = read(text.as_bytes()).unwrap();
    let room = Room { pairs: 1_024, compounds: 1_024, goals: 128 };
    let finished = run(&job, 2, room).unwrap();
    assert_eq!((finished.verdict(), finished.steps()), (Verdict::Budget, 2));
    let written = write(&finished, 65_536);
    let answer = call(text.as_bytes(), &Figures { budget: 2, ..Figures::default() });
    assert_eq!((written.length, written.report), (answer.length, answer.report));
    assert!(run(&job, 2, Room { goals: 1, ..room }).is_none());
    assert_eq!(read(b"p(X).").unwrap_err(), Refusal { number: 9, line: 1, offset: 2 });
    assert!(write(&finished, 10).report.is_none() && write(&finished, 10).length == written.length);
}

// Errors that look right.

const MERGE: &str = "merge([X|Xs],Ys,[X?|Zs?]) :- merge(Ys?,Xs?,Zs).
merge(Xs,[Y|Ys],[Y?|Zs?]) :- merge(Xs?,Ys?,Zs).
";

#[test]
fn stopping_at_the_first_clause_that_does_not_fail() {
    let report = report(&format!("{MERGE}?- merge(A?,[1,2|B?],C)."));
    check(&report, &["run rest steps 3", "C = [1,2|_3?]", "waiting merge(_1?,_2?,_3) from 2 at 2"]);
}

/// `go` assigns A2, then A1; `see(A1?)` began to wait first. The body goal `b` comes before both.
#[test]
fn waking_order() {
    let rules = "see(1). go(1,1) :- b(1). b(1).";
    let text = format!("{rules}?- see(A?), see(B?), go(B,A).");
    let after = |budget| report_with(&text, &Figures { budget, ..Figures::default() });
    let lines = "active b(1) from 2 at 3\nactive see(1) from 0 at 0\nactive see(1) from 0 at 0\n";
    assert!(after(3).ends_with(lines), "{}", after(3));
    // Told apart by arguments: the goal that waits on A is woken first.
    let rules = "see(1,X,X?). go(1,1) :- b(1). b(1).";
    let text = format!("{rules}?- see(A?,first,C), see(B?,second,D), go(B,A).");
    let report = report_with(&text, &Figures { budget: 3, ..Figures::default() });
    let lines = "active b(1) from 2 at 3\nactive see(1,first,_1) from 0 at 0\nactive see(1,second,_2) from 0 at 0\n";
    assert!(report.ends_with(lines), "{report}");
}

#[test]
fn numbering_starts_anew_in_each_section() {
    let report = report("?- p(A,B,C). ?- p(D).");
    check(&report, &["C = _3", "failed p(_1,_2,_3) from 0 at 0", "D = _1", "failed p(_1) from 0 at 0"]);
}

#[test]
fn reader_against_head_reader_fails() {
    check(&report("p(X?,X). ?- p(A?,1)."), &["failed p(_1?,1) from 0 at 0"]);
    check(&session("?- same(1,A?)."), &["failed same(1,_1?) from 0 at 0"]);
}

/// Circles through compounds on the goal's and the head's side, over two pairs, and behind an assignment without one.
#[test]
fn circles() {
    check(&report("p(1,X,X?). ?- p(B,A?,A)."), &["B = _1", "failed p(_1,_2?,_2) from 0 at 0"]);
    check(&report("p(X,f(X?)). ?- p(A?,A)."), &["failed p(_1?,_1) from 0 at 0"]);
    check(&report("p(X,[1|f(X?)]). ?- p(g(A?),A)."), &["failed p(g(_1?),_1) from 0 at 0"]);
    check(&session("?- same(f(A?),A)."), &["failed same(f(_1?),_1) from 0 at 0"]);
    check(&session("?- same([1,g(A?)|B],A)."), &["failed same([1,g(_1?)|_2],_1) from 0 at 0"]);
    let two = "x(X,X?,Y,Y?).";
    check(&report(&format!("{two}?- x(f(A?),B,g(B?),A).")), &["failed x(f(_1?),_2,g(_2?),_1) from 0 at 0"]);
    check(&report(&format!("{two}?- x(f(A?),B,g(C?),A).")), &["B = f(g(_1?))", "A = g(_1?)"]);
}

const DOUBLING: &str = "mk(f(C,C?)). p(f(R?,S)) :- mk(R), p(S?). ?- mk(A), p(A?).";

#[test]
fn doubling_has_a_ceiling() {
    let answer = answer(DOUBLING);
    assert_eq!((answer.number, answer.line, answer.length, answer.report), (8, 0, 16_777_217, None));
    for buffer in [0, u64::MAX] {
        let answer = call(DOUBLING.as_bytes(), &Figures { buffer, ..large() });
        assert_eq!((answer.number, answer.length), (8, 16_777_217));
    }
}

#[test]
fn doubling_a_few_rounds() {
    let after = |budget| report_with(DOUBLING, &Figures { budget, ..Figures::default() });
    check(&after(1), &["A = f(_1,_1?)", "active p(f(_1,_1?)) from 0 at 0"]);
    check(&after(2), &["A = f(_1?,_1?)", "active mk(_1) from 2 at 2", "active p(_1?) from 2 at 2"]);
    check(&after(4), &["A = f(f(_1?,_1?),f(_1?,_1?))"]);
}
