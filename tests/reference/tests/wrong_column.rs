//! T-03 of document 02, 'The wrong column', by the readings of its sentences.

mod common;

use common::*;
use reference::Figures;

fn after(text: &str, budget: u64) -> String {
    report_with(text, &Figures { budget, ..Figures::default() })
}

/// 'The comparison shall go through all places: any failing place fails the trial.'
#[test]
fn a_failing_place_anywhere_fails_the_trial() {
    for goal in
        ["n(f(_1?,9),_2?)", "n(_1?,4)", "n(f(_1?,_2?),4)", "n(f(9,_1?),_2?)", "n(g(_1?,2),_2?)", "n(f(_1?),_2?)"]
    {
        let query = goal.replace("_1", "A").replace("_2", "B");
        check(
            &report(&format!("n(f(1,2),3). ?- {query}.")),
            &["run rest steps 1", &format!("failed {goal} from 0 at 0")],
        );
    }
    // Deeper than the waiting place, and behind it in a list.
    check(&report("d(1,f(g([1,2]))). ?- d(A?,f(g([B?,3])))."), &["failed d(_1?,f(g([_2?,3]))) from 0 at 0"]);
}

/// 'And otherwise the trial waits on every reader needed': each of them wakes the goal.
#[test]
fn a_trial_waits_on_every_reader_needed() {
    let rules = "two(1,1). set(X,X?).";
    let one = |given: &str| report(&format!("{rules}?- two(A?,B?), {given}."));
    check(&one("set(1,B)"), &["run rest steps 3", "A = _1", "B = 1", "waiting two(_1?,1) from 0 at 0"]);
    check(&one("set(1,A)"), &["run rest steps 3", "A = 1", "B = _1", "waiting two(1,_1?) from 0 at 0"]);
    check(&one("set(2,B)"), &["run rest steps 3", "failed two(_1?,2) from 0 at 0"]);
    check(&one("set(1,B), set(1,A)"), &["run rest steps 4", "query 1 tries 4 active 0 waiting 0 failed 0"]);
    let text = "n(f(1,2),3). ?- n(f(A?,9),B?), n(f(C?,D?),E), n(F?,4).";
    assert_eq!(
        report(text),
        "run rest steps 3\nquery 1 tries 3 active 0 waiting 1 failed 2\nA = _1\nB = _2\nC = _3\nD = _4\nE = _5\nF = _6\n\
         waiting n(f(_3?,_4?),_5) from 0 at 0\nfailed n(f(_1?,9),_2?) from 0 at 0\nfailed n(_6?,4) from 0 at 0\n"
    );
}

/// A head compound under a reader is one place; the places inside come to be compared when it is assigned.
#[test]
fn under_a_reader_there_is_nothing_to_compare() {
    let text = "n(f(1,2),3). set(X,X?). ?- n(A?,3), set(f(9,B?),A).";
    check(&after(text, 1), &["waiting n(_1?,3) from 0 at 0"]);
    check(&report(text), &["run rest steps 3", "failed n(f(9,_1?),3) from 0 at 0"]);
}

/// Readers needed stand against constants and compounds. A head writer needs nothing, a head reader fails.
#[test]
fn a_head_writer_needs_no_reader() {
    let rules = "r(X,1) :- q(X?). q(2). set(X,X?).";
    check(&report(&format!("{rules}?- r(A?,B?), set(2,A).")), &["run rest steps 2", "waiting r(2,_1?) from 0 at 0"]);
    check(&report("r(X?,1,X). ?- r(A?,B?,C?)."), &["failed r(_1?,_2?,_3?) from 0 at 0"]);
    check(&report("r(1,X?,X). ?- r(B?,A?,C?)."), &["failed r(_1?,_2?,_3?) from 0 at 0"]);
}

/// 'K8 stays': a value that the trial gives is not seen in it.
#[test]
fn a_value_given_is_not_seen() {
    check(&session("?- two(A,A?)."), &["run rest steps 1", "A = _1", "waiting two(_1,_1?) from 0 at 0"]);
    check(&session("?- w(A,A?)."), &["run rest steps 1", "A = _1", "waiting w(_1,_1?) from 0 at 0"]);
    check(&session("?- w(A?,A)."), &["run rest steps 1", "A = _1", "waiting w(_1?,_1) from 0 at 0"]);
}

/// 'The circle test follows': a trial with a waiting place waits, whatever its other places would give.
#[test]
fn a_waiting_trial_has_no_circle_test() {
    check(&report("h(X,X?,1). ?- h(A?,A,B?)."), &["run rest steps 1", "waiting h(_1?,_1,_2?) from 0 at 0"]);
    let text = "h(X,X?,1). set(X,X?). ?- h(A?,A,B?), set(1,B).";
    check(&report(text), &["run rest steps 3", "failed h(_1?,_1,1) from 0 at 0"]);
}

/// The set is over all clauses; a reader may be needed by several, and a clause that fails needs none.
#[test]
fn the_set_is_over_all_clauses() {
    let rules = "m(1,1,1). m(2,2,X) :- q(X?). q(5). set(X,X?).";
    for (pair, goal) in [("A", "m(7,_1?,_2?)"), ("B", "m(_1?,7,_2?)")] {
        check(
            &report(&format!("{rules}?- m(A?,B?,C?), set(7,{pair}).")),
            &["run rest steps 3", &format!("failed {goal} from 0 at 0")],
        );
    }
    check(
        &report(&format!("{rules}?- m(A?,B?,C?), set(7,C).")),
        &["run rest steps 3", "waiting m(_1?,_2?,7) from 0 at 0"],
    );
    // The first clause fails by its second place, so A does not wake the goal.
    let text = "m(1,9,1). m(X,8,2) :- q(X?). set(X,X?). ?- m(A?,8,C?), set(3,A).";
    check(&report(text), &["run rest steps 2", "waiting m(3,8,_1?) from 0 at 0"]);
}

/// Woken by one reader, a goal waits anew on those still needed, behind the goals that began to wait before.
#[test]
fn a_goal_waits_anew_on_what_is_left() {
    let text = "two(1,1). end([]). set(X,X?). ?- two(A?,B?), end(C?), set(1,A), set(1,B).";
    check(&after(text, 4), &["active two(1,1) from 0 at 0", "waiting end(_1?) from 0 at 0"]);
    let text = "two(1,1). end([]). set(X,X?). ?- two(A?,B?), end(C?), set(1,B).";
    assert!(
        report(text).ends_with("waiting end(_2?) from 0 at 0\nwaiting two(_1?,1) from 0 at 0\n"),
        "{}",
        report(text)
    );
    let one = "two(1,1). fan(1,1). ?- two(A?,B?), fan(B,A).";
    check(&report(one), &["run rest steps 3", "query 1 tries 3 active 0 waiting 0 failed 0"]);
}
