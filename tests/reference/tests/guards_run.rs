//! Document 02, T-02: what guards do in a run. The cases of the readings by their letters, then each kind of guard,
//! then values whose written-out form doubles with each step.

mod common;

use common::*;
use reference::{call, read, run, Figures, Room};

const SET: &str = "set(X,X?).";

#[test]
fn a_the_four_kinds() {
    let rules =
        "kind(X,int,X?) :- integer(X?) | . kind(X,con,X?) :- constant(X?) | . kind(X,cmp,X?) :- compound(X?) | .";
    let run = |query: &str| report(&format!("{rules}?- {query}."));
    for (term, kind) in [("3", "int"), ("-7", "int"), ("[]", "con"), ("a", "con"), ("[a]", "cmp"), ("f(1)", "cmp")] {
        check(&run(&format!("kind({term},K,V)")), &[&format!("K = {kind}"), &format!("V = {term}")]);
    }
    check(&run("kind(f(B?),K,V)"), &["B = _1", "K = cmp", "V = f(_1?)"]);
    check(&run("kind(A?,K,V)"), &["run rest steps 1", "waiting kind(_1?,_2,_3) from 0 at 0"]);
    check(&run("kind(A,K,V)"), &["run rest steps 1", "failed kind(_1,_2,_3) from 0 at 0"]);
}

#[test]
fn b_ground_waits_on_every_reader() {
    let rules = format!("g(X,X?) :- ground(X?) | . {SET}");
    let run = |query: &str| report(&format!("{rules}?- {query}."));
    assert_eq!(
        run("g(f(A?,B?),Z), set(2,B)"),
        "run rest steps 3\nquery 1 tries 3 active 0 waiting 1 failed 0\nA = _1\nB = 2\nZ = _2\n\
         waiting g(f(_1?,2),_2) from 0 at 0\n"
    );
    check(&run("g(f(A?,B?),Z), set(2,A)"), &["run rest steps 3", "waiting g(f(2,_1?),_2) from 0 at 0"]);
    check(&run("g(f(A?,B),Z)"), &["run rest steps 1", "failed g(f(_1?,_2),_3) from 0 at 0"]);
    check(&run("g(f(B,A?),Z)"), &["run rest steps 1", "failed g(f(_1,_2?),_3) from 0 at 0"]);
    check(&run("g(A?,Z), set(B?,A), set(7,B)"), &["run rest steps 4", "A = 7", "B = 7", "Z = 7"]);
}

#[test]
fn c_where_the_head_gave_nothing() {
    for guard in ["known(X?)", "ground(X?)", "X? == a", "a == X?", "integer(X?)", "constant(X?)", "compound(X?)"] {
        let report = report(&format!("mk(f(X),X?) :- {guard} | . ?- mk(A,B)."));
        check(&report, &["run rest steps 1", "A = _1", "B = _2", "failed mk(_1,_2) from 0 at 0"]);
    }
    // Inside a compound it is one to ground and `==`; to the others the compound is known.
    for guard in ["ground(g(X?))", "g(X?) == g(X?)"] {
        check(&report(&format!("mk(f(X),X?) :- {guard} | . ?- mk(A,B).")), &["failed mk(_1,_2) from 0 at 0"]);
    }
    check(&report("mk(f(X),X?) :- known(g(X?)) | . ?- mk(A,B)."), &["A = f(_1)", "B = _1?"]);
}

#[test]
fn d_what_the_trial_gives_a_goals_writer_is_not_seen() {
    check(
        &report("h(1,Y,Y?) :- ground(Y?) | . ?- h(A,A?,Z)."),
        &["run rest steps 1", "waiting h(_1,_1?,_2) from 0 at 0"],
    );
    check(&report("h(1,Y,Y?) :- Y? == 1 | . ?- h(A,A?,Z)."), &["run rest steps 1", "waiting h(_1,_1?,_2) from 0 at 0"]);
    check(&report("h(1,Y,Y?) :- ground(Y?) | . ?- h(A,f(A?),Z)."), &["waiting h(_1,f(_1?),_2) from 0 at 0"]);
}

#[test]
fn e_an_argument_that_is_written_as_a_compound() {
    check(&report("k(X,X?) :- known(f(X?)) | . ?- k(A?,Z)."), &["run rest steps 1", "A = _1", "Z = _1?"]);
    check(&report("k(X,X?) :- compound([X?]) | . ?- k(A?,Z)."), &["run rest steps 1", "A = _1", "Z = _1?"]);
    check(&report("k(X,X?) :- constant(f(X?)) | . ?- k(A?,Z)."), &["failed k(_1?,_2) from 0 at 0"]);
    check(&report("k(X,X?) :- integer(f(X?)) | . ?- k(A?,Z)."), &["failed k(_1?,_2) from 0 at 0"]);
    check(&report("k(X,X?) :- integer(-3), constant([]), known(a) | . ?- k(A?,Z)."), &["Z = _1?"]);
}

#[test]
fn f_equal() {
    let rules = "e(X,Y,X?,Y?) :- X? == Y? | . e(X,Y,X?,no(Y?)) :- otherwise | .";
    let run = |terms: &str| report(&format!("{rules}?- e({terms},U,V)."));
    for (terms, lines) in [
        ("f(a,A?),f(b,B?)", ["run rest steps 1", "waiting e(f(a,_1?),f(b,_2?),_3,_4) from 0 at 0"]),
        ("a,a", ["U = a", "V = a"]),
        ("a,b", ["U = a", "V = no(b)"]),
        ("[1,2],[1|T?]", ["run rest steps 1", "waiting e([1,2],[1|_1?],_2,_3) from 0 at 0"]),
        ("f(A),g(B?)", ["U = f(_1)", "V = no(g(_2?))"]),
        ("f(A?),g(B)", ["run rest steps 1", "waiting e(f(_1?),g(_2),_3,_4) from 0 at 0"]),
        ("a,f(B)", ["U = a", "V = no(f(_1))"]),
        ("f(1),f(1)", ["U = f(1)", "V = f(1)"]),
        ("f(1),f(1,1)", ["U = f(1)", "V = no(f(1,1))"]),
        ("f(1),g(1)", ["U = f(1)", "V = no(g(1))"]),
        ("[],[]", ["U = []", "V = []"]),
        ("[],a", ["U = []", "V = no(a)"]),
        ("[1,[2,a]],[1|[[2|[a]]]]", ["U = [1,[2,a]]", "V = [1,[2,a]]"]),
        ("[1,2],f(1,2)", ["U = [1,2]", "V = no(f(1,2))"]),
        ("f(a,b),f(b,a)", ["U = f(a,b)", "V = no(f(b,a))"]),
        ("1,one(1)", ["U = 1", "V = no(one(1))"]),
        // The first from the left: a reader to the left of a writer, a writer to the left of a reader.
        ("g(A?,B),a", ["run rest steps 1", "waiting e(g(_1?,_2),a,_3,_4) from 0 at 0"]),
        ("g(B,A?),a", ["U = g(_1,_2?)", "V = no(a)"]),
        ("g([a,[b|C?]],B),a", ["run rest steps 1", "waiting e(g([a,[b|_1?]],_2),a,_3,_4) from 0 at 0"]),
    ] {
        check(&run(terms), &lines);
    }
    // It waits on that one alone.
    let text = format!("{rules}{SET}?- e(f(A?,B?),a,U,V), set(1,B).");
    check(&report(&text), &["run rest steps 2", "waiting e(f(_1?,1),a,_2,_3) from 0 at 0"]);
    let text = format!("{rules}{SET}?- e(f(A?,B?),a,U,V), set(1,A).");
    check(&report(&text), &["run rest steps 3", "waiting e(f(1,_1?),a,_2,_3) from 0 at 0"]);
    let text = format!("{rules}{SET}?- e(f(A?),f(B?),U,V), set(1,A), set(1,B).");
    check(&report(&text), &["run rest steps 4", "U = f(1)", "V = f(1)"]);
}

/// Compounds written in the guard against given ones, on either side.
#[test]
fn f_equal_with_written_compounds() {
    for (guard, answer) in [
        ("X? == f(a,[1|T?])", "yes"),
        ("f(a,[1|T?]) == X?", "yes"),
        ("f(a,[1|T?]) == f(a,[1,2])", "yes"),
        ("[X?,T?] == [f(a,[1,2]),[2]]", "yes"),
        ("X? == f(a,[1|f(T?)])", "no"),
        ("X? == f(a,[2|T?])", "no"),
        ("X? == g(a,[1|T?])", "no"),
        ("f(X?) == f(a)", "no"),
        ("f(a) == a", "no"),
        ("X? == [X?]", "no"),
        ("g(X?,T?) == g(X?,T?)", "yes"),
        ("g(X?,T?) == g(T?,X?)", "no"),
    ] {
        let text = format!(
            "t(X,T,yes) :- {guard} | u(X?,T?). t(X,T,no) :- otherwise | u(X?,T?). u(X,Y) :- known(X?),
            known(Y?), otherwise | v(X?,Y?). ?- t(f(a,[1,2]),[2],Z)."
        );
        check(&report(&text), &[&format!("Z = {answer}")]);
    }
}

#[test]
fn g_otherwise() {
    let rules = format!("c(a,yes). c(X,other(X?)) :- otherwise | . {SET}");
    check(&report(&format!("{rules}?- c(A?,R).")), &["run rest steps 1", "waiting c(_1?,_2) from 0 at 0"]);
    check(&report(&format!("{rules}?- c(b,R).")), &["run rest steps 1", "R = other(b)"]);
    check(&report(&format!("{rules}?- c(A?,R), set(b,A).")), &["run rest steps 3", "R = other(b)"]);
    check(&report("f(X,X?) :- otherwise | . ?- f(1,R)."), &["R = 1"]);
    // Earlier clauses of the same name and count, wherever they stand; a later one plays no part.
    let text = "c(a,1). d(X,X?) :- otherwise | . c(X,X?) :- otherwise | . c(b,3). ?- c(b,A), d(b,B), c(a,C).";
    check(&report(text), &["A = b", "B = b", "C = 1"]);
    let text = "c(a,1). c(a,b,c). c(X,Y,Z,Z?) :- otherwise | d(X?,Y?). ?- c(A?,B?,c,Z).";
    check(&report(text), &["run rest steps 2", "failed d(_1?,_2?) from 3 at 1"]);
    // With the earlier ones: woken by their readers and by no other.
    let text = format!("c(a,B,1) :- x(B?). c(X,B,2) :- otherwise | y(X?,B?). {SET}?- c(P?,Q?,Z), set(1,Q).");
    check(&report(&text), &["run rest steps 2", "waiting c(_1?,1,_2) from 0 at 0"]);
    let text = format!("c(a,B,1) :- x(B?). c(X,B,2) :- otherwise | y(X?,B?). {SET}?- c(P?,Q?,Z), set(1,P).");
    check(&report(&text), &["run rest steps 4", "Z = 2", "failed y(1,_1?) from 2 at 3"]);
    // Two of them: the first takes what the earlier clause leaves, the second is never asked.
    let text = "c(a,1). c(X,2) :- otherwise, known(X?) | . c(X,3) :- otherwise | . ?- c(b,R).";
    assert_eq!(refused(text), (9, 1));
    let text = "c(a,1). c(X,f(X?)) :- integer(X?), otherwise | . c(X,g(X?)) :- otherwise | . ?- c(b,R), c(7,S).";
    check(&report(text), &["R = g(b)", "S = f(7)"]);
}

#[test]
fn h_a_circle_has_failed() {
    assert_eq!(
        report("s(X,X?). s(X,Y?) :- otherwise | t(X?,Y). ?- s(A?,A)."),
        "run rest steps 2\nquery 1 tries 2 active 0 waiting 0 failed 1\nA = _1?\nfailed t(_1?,_1) from 2 at 1\n"
    );
}

#[test]
fn i_the_first_that_does_not_succeed() {
    let run = |guards: &str| report(&format!("p(X,Y) :- {guards} | q(X?,Y?). ?- p(A?,b)."));
    check(&run("integer(X?), integer(Y?)"), &["run rest steps 1", "waiting p(_1?,b) from 0 at 0"]);
    check(&run("integer(Y?), integer(X?)"), &["run rest steps 1", "failed p(_1?,b) from 0 at 0"]);
    check(&run("known(Y?), ground(X?), integer(Y?)"), &["run rest steps 1", "waiting p(_1?,b) from 0 at 0"]);
    // The first that waits alone gives the readers.
    let text = format!("p(X,Y) :- known(X?), known(Y?) | q(X?,Y?). {SET}?- p(A?,B?), set(1,B).");
    check(&report(&text), &["run rest steps 2", "waiting p(_1?,1) from 0 at 0"]);
}

#[test]
fn j_otherwise_has_its_place() {
    let run = |guards: &str| {
        let rules = format!("c(a,B) :- x(B?). c(X,B) :- {guards} | y(X?,B?). {SET}");
        report(&format!("{rules}?- c(P?,Q?), set(1,Q)."))
    };
    check(&run("integer(B?), otherwise"), &["run rest steps 3", "waiting c(_1?,1) from 0 at 0"]);
    check(&run("otherwise, integer(B?)"), &["run rest steps 2", "waiting c(_1?,1) from 0 at 0"]);
}

#[test]
fn k_with_the_wrong_column() {
    let text = "w(1,2). w(X,Y) :- otherwise | r(X?,Y?). ?- w(A?,1).";
    check(&report(text), &["run rest steps 2", "failed r(_1?,1) from 2 at 1"]);
}

#[test]
fn l_sharing() {
    let rules = format!("d(X) :- ground(X?) | q(X?), q(X?). {SET}");
    let report_of = |query: &str| report(&format!("{rules}?- {query}."));
    let both = report_of("d(A?), set(f(B?),A), set(1,B)");
    check(&both, &["run rest steps 6", "A = f(1)", "B = 1"]);
    assert!(both.ends_with("failed q(f(1)) from 1 at 4\nfailed q(f(1)) from 1 at 4\n"), "{both}");
    check(
        &report_of("d(A?), set(f(B?),A)"),
        &["run rest steps 3", "A = f(_1?)", "B = _1", "waiting d(f(_1?)) from 0 at 0"],
    );
}

#[test]
fn m_a_fan_out() {
    let rules = "dist([X|Xs],Ys?,Zs?) :- ground(X?) | put(X?,Y1?,Ys), put(X?,Z1?,Zs), dist(Xs?,Y1,Z1).
        dist([],[],[]). put(X,Xs,[X?|Xs?]).";
    assert_eq!(
        report(&format!("{rules}?- dist([1,f(a)|T?],A,B).")),
        "run rest steps 7\nquery 1 tries 7 active 0 waiting 1 failed 0\nT = _1\nA = [1,f(a)|_2?]\nB = [1,f(a)|_3?]\n\
         waiting dist(_1?,_2,_3) from 1 at 4\n"
    );
}

#[test]
fn n_doubling() {
    let rules = "d(0,X,X?) :- ground(X?) | . d(s(N),X,Z?) :- ground(X?) | d(N?,f(X?,X?),Z).";
    check(
        &report(&format!("{rules}?- d(s(s(s(0))),a,Z).")),
        &["run rest steps 4", "Z = f(f(f(a,a),f(a,a)),f(f(a,a),f(a,a)))"],
    );
}

#[test]
fn o_the_charge() {
    for (clause, need) in [
        ("k(X,X?) :- known(f(X?)) | .", 4),
        ("k(X,X?) :- X? == 1 | .", 3),
        ("k(X,X?) :- otherwise | .", 2),
        ("k(X,X?) :- X? == [1], otherwise | .", 4),
        ("k(X,X?) :- ground(X?), integer(X?), known([a,X?]) | .", 7),
    ] {
        let run = |compounds: u64| {
            let goal = if clause.contains("[1]") { "[1]" } else { "1" };
            let need = compounds + (goal == "[1]") as u64;
            report_with(&format!("{clause} ?- k({goal},Z)."), &Figures { compounds: need, ..Figures::default() })
        };
        check(&run(need), &["run rest steps 1"]);
        check(&run(need - 1), &["run room steps 0"]);
    }
    // A waiting or failing guard needs no room; pairs are the head's.
    let tight = Figures { compounds: 1, pairs: 2, goals: 1, ..Figures::default() };
    check(
        &report_with("k(X,X?) :- ground(X?) | . ?- k(A?,Z).", &tight),
        &["run rest steps 1", "waiting k(_1?,_2) from 0 at 0"],
    );
    check(
        &report_with("k(X,X?) :- integer(X?) | . ?- k(a,Z).", &tight),
        &["run rest steps 1", "failed k(a,_1) from 0 at 0"],
    );
    let pairs = |pairs: u64| {
        let text = "k(X,X?) :- X? == X?, ground(X?) | . ?- k(1,Z).";
        report_with(text, &Figures { pairs, ..Figures::default() })
    };
    check(&pairs(2), &["run rest steps 1"]);
    check(&pairs(1), &["run room steps 0"]);
}

#[test]
fn p_compounds_called_ground() {
    let report = report("p(X) :- ground(X?) == ground(a) | q(X?). ?- p(a), p(b), p(A?).");
    check(
        &report,
        &["run rest steps 4", "waiting p(_1?) from 0 at 0", "failed p(b) from 0 at 0", "failed q(a) from 1 at 1"],
    );
}

#[test]
fn q_a_later_clause_though_an_earlier_waits() {
    let rules = "m(X,Y,R?) :- known(X?) | one(X?,Y?,R). m(X,Y,R?) :- known(Y?) | two(X?,Y?,R).";
    check(
        &report(&format!("{rules}?- m(A?,b,R).")),
        &["run rest steps 2", "R = _2?", "failed two(_1?,b,_2) from 2 at 1"],
    );
}

#[test]
fn r_the_circle_test_comes_before_the_guards() {
    check(&report("s(X,X?) :- known(X?) | . ?- s(A?,A)."), &["run rest steps 1", "failed s(_1?,_1) from 0 at 0"]);
}

/// 'All else as before the step': chains are followed to their end, and the reader found there is waited on.
#[test]
fn chains_are_followed() {
    let rules = format!("i(X,X?) :- integer(X?) | . {SET}");
    check(
        &report(&format!("{rules}?- set(B?,A), i(A?,Z), set(C?,B), set(4,C).")),
        &["run rest steps 5", "A = 4", "Z = 4"],
    );
    check(
        &report(&format!("{rules}?- set(B?,A), i(A?,Z), set(a,B).")),
        &["run rest steps 4", "failed i(a,_1) from 0 at 0"],
    );
}

/// A waiting goal's readers are those of all its clauses, comparisons and guards; waking keeps the order of waiting.
#[test]
fn waiting_over_clauses() {
    let rules = format!("v(1,Y,a) :- q(Y?). v(X,Y,b) :- ground(f(X?,Y?)) | r(X?,Y?). {SET}");
    check(
        &report(&format!("{rules}?- v(A?,B?,Z), set(2,B).")),
        &["run rest steps 3", "waiting v(_1?,2,_2) from 0 at 0"],
    );
    check(
        &report(&format!("{rules}?- v(A?,B?,Z), set(2,B), set(3,A).")),
        &["run rest steps 5", "Z = b", "failed r(3,2) from 2 at 4"],
    );
    let text = format!("g(X) :- ground(X?) | q(X?). k(X) :- known(X?) | q(X?). {SET}?- k(A?), g([B?,C?]), set(1,B).");
    let report = report(&text);
    assert!(report.ends_with("waiting k(_1?) from 0 at 0\nwaiting g([1,_2?]) from 0 at 0\n"), "{report}");
}

/// Guards do not change what is given: a writer of the goal gets the head's term, the body the head's value.
#[test]
fn what_is_given_stays() {
    let text = "p(f(X,Y?),Y,Z?) :- integer(X?), known(Y?) | q(X?,X?,Z). ?- p(f(3,A),[b|C?],D).";
    check(&report(text), &["A = [b|_1?]", "C = _1", "D = _2?", "failed q(3,3,_2) from 1 at 1"]);
    // A reader that may stand several times, once in the head.
    let text = "p(X,X?) :- constant(X?) | q(X?,[X?|X?]). ?- p(c,A).";
    check(&report(text), &["A = c", "failed q(c,[c|c]) from 1 at 1"]);
}

// Values are no longer trees: written out, what ground and `==` look at has more places than can be walked.

/// Two values of `2 * rounds` doublings, built apart, each from its own leaf; then `e` is asked of both.
fn doubled(rounds: usize, rules: &str, leaves: [&str; 2], ask: &str) -> String {
    let numeral = vec!["1"; rounds].join(",");
    format!(
        "n([{numeral}]). d([],X,X?) :- ground(X?) | .
         d([1|N],X,Z?) :- ground(X?) | d(N?,f(f(X?,X?),f(X?,X?)),Z).
         {rules}
         ?- n(N), n(M), d(N?,{},A), d(M?,{},B), {ask}.",
        leaves[0], leaves[1]
    )
}

const EQUAL: &str = "e(X,Y,yes) :- X? == Y? | u(X?,Y?). e(X,Y,no) :- otherwise | u(X?,Y?).";

#[test]
fn doubled_values_that_can_be_written() {
    for (leaves, ask, answer) in [
        (["a", "a"], "e(A?,B?,Z)", "yes"),
        (["a", "b"], "e(A?,B?,Z)", "no"),
        (["[1,g(2)]", "[1,g(2)]"], "e(A?,B?,Z)", "yes"),
        (["f(a,a)", "a"], "e(A?,B?,Z)", "no"),
        (["a", "a"], "e(g(A?,1),g(B?,1),Z)", "yes"),
        (["a", "a"], "e(g(A?,1),g(B?,2),Z)", "no"),
        (["a", "a"], "e(g(1,A?),g(2,B?),Z)", "no"),
    ] {
        let report = timed(|| report_with(&doubled(7, EQUAL, leaves, ask), &large()));
        check(&report, &[&format!("Z = {answer}")]);
        assert!(report.len() > 4 * 5 << 14);
    }
}

/// The report is then too long for any buffer, so the answer is seen by the steps: `yes` fails at once in `u`, `no` in
/// the one behind it.
#[test]
fn sixty_doublings_on_both_sides() {
    let rules = "e(X,Y) :- X? == Y? | u(X?,Y?). e(X,Y) :- otherwise | v(X?,Y?). v(X,Y) :- u(X?,Y?).";
    let steps_of = |rules: &str, leaves: [&str; 2], ask: &str| {
        let text = doubled(30, rules, leaves, ask);
        timed(|| {
            assert_eq!(call(text.as_bytes(), &large()).length, 16_777_217);
            let job = read(text.as_bytes()).expect("accepted");
            run(&job, 10_000, Room { pairs: 65_535, compounds: 65_535, goals: 65_535 }).expect("fits").steps()
        })
    };
    let equal = steps_of(rules, ["a", "a"], "e(A?,B?)");
    // d waits twice on its numeral, e on both values.
    assert_eq!(steps_of(rules, ["a", "b"], "e(A?,B?)"), equal + 1);
    assert_eq!(steps_of(rules, ["g(1)", "g(1)"], "e(g(A?,[1]),g(B?,[1]))"), equal);
    assert_eq!(steps_of(rules, ["g(1)", "g(1)"], "e(g(A?,[1]),g(B?,[2]))"), equal + 1);
    // Written in the guard around them.
    let around = "e(X,Y) :- f(X?,Y?) == f(Y?,X?) | u(X?,Y?). e(X,Y) :- otherwise | v(X?,Y?). v(X,Y) :- u(X?,Y?).";
    assert_eq!(steps_of(around, ["a", "a"], "e(A?,B?)"), equal);
    assert_eq!(steps_of(around, ["a", "b"], "e(A?,B?)"), equal + 1);
    let ground = "e(X,Y) :- ground([X?,Y?,X?]) | u(X?,Y?). e(X,Y) :- otherwise | v(X?,Y?). v(X,Y) :- u(X?,Y?).";
    // It waits on both, so it is woken a little more often.
    assert_eq!(steps_of(ground, ["a", "b"], "e(A?,B?)"), equal + 4);
}

/// Fourteen levels around the term, along first arguments, last arguments, elements and tails.
fn around(term: &str) -> [String; 4] {
    let nested = |open: &str, close: &str| format!("{}{term}{}", open.repeat(14), close.repeat(14));
    [nested("f(", ")"), nested("g(a,", ")"), nested("[", "]"), nested("[a|", "]")]
}

/// 17,000 levels whose end is open: ground waits on it, is woken by each second step and waits on the next end.
#[test]
fn ground_of_a_deep_value_that_grows() {
    let room = Figures { compounds: 20_018, ..large() };
    for value in around("X?") {
        let text = format!("down({value}) :- down(X). g(X) :- ground(X?) | q(X?). ?- down(A), g(A?).");
        let report = timed(|| report_with(&text, &room));
        let links = (room.compounds - 2) / 16;
        assert!(report.starts_with(&format!("run room steps {}\n", links + 1 + links / 2)));
        assert!(report.lines().any(|line| line.starts_with("waiting g(")));
    }
}

/// Twelve times twelve times so many parts of fourteen levels, made by `a`.
fn deep(value: &str) -> String {
    let twelve = ["1"; 12].join(",");
    format!(
        "a([],X,X?). a([1|L],X,Z?) :- b([{twelve}],X?,Y), a(L?,Y?,Z).
         b([],X,X?). b([1|L],X,Z?) :- c([{twelve}],X?,Y), b(L?,Y?,Z).
         c([],X,X?). c([1|L],X,Z?) :- c(L?,{value},Z)."
    )
}

/// 48,384 levels around a reader: ground waits on it, and succeeds when it is given.
#[test]
fn ground_of_a_deep_value() {
    let times = ["1"; 24].join(",");
    for value in around("X?") {
        let rules = deep(&value);
        let text = format!("{rules} g(X,X?) :- ground(X?) | . ?- a([{times}],A?,B), g(B?,Z).");
        let report = timed(|| report_with(&text, &large()));
        assert!(report.starts_with("run rest steps ") && report.lines().any(|line| line.starts_with("waiting g(")));
        let text =
            format!("{rules} g(X,X?) :- ground(X?) | . s(X,f(X?)). ?- a([{times}],A?,B), g(B?,Z), s(Y?,A), s(1,Y).");
        let report = timed(|| report_with(&text, &large()));
        check(&report, &["A = f(f(1))"]);
        assert!(report.starts_with("run rest steps ") && !report.contains("waiting g("));
    }
}

/// 53,000 levels that are ground at each step, and two values that stay equal.
#[test]
fn deep_values_that_stay_ground() {
    for value in around("X?") {
        let text = format!("grow(X) :- ground(X?) | grow({value}). ?- grow(a).");
        let report = timed(|| report_with(&text, &large()));
        assert!(report.starts_with(&format!("run room steps {}\n", 65_534 / 17)), "{}", &report[..30]);
    }
    let seven = |term: &str| format!("{}{term}{}", "f(".repeat(7), ")".repeat(7));
    let text = format!("grow(X,Y) :- X? == Y? | grow({},{}). ?- grow(a,a).", seven("X?"), seven("Y?"));
    let report = timed(|| report_with(&text, &large()));
    assert!(report.starts_with(&format!("run room steps {}\n", 65_534 / 17)), "{}", &report[..30]);
}

/// Two values of 24,000 levels, built apart and then compared for the first time.
#[test]
fn deep_values_compared_at_the_end() {
    let twelve = ["1"; 12].join(",");
    for value in around("X?") {
        for (leaf, answer) in [("a", "yes"), ("b", "no")] {
            let rules = deep(&value);
            let text = format!("{rules} {EQUAL} ?- a([{twelve}],a,A), a([{twelve}],{leaf},B), e(A?,B?,Z).");
            check(&timed(|| report_with(&text, &large())), &[&format!("Z = {answer}")]);
        }
    }
}

/// An open list of 2,464 readers, which are assigned one by one: each wakes the goal, which waits on the rest.
#[test]
fn ground_of_an_open_list_assigned_one_by_one() {
    let of = |half: &str| (0..11).map(|n| format!("V{n}{half}")).collect::<Vec<_>>().join(",");
    let ones = |count: usize| vec!["1"; count].join(",");
    let text = format!(
        "a([1|N],L?,M?) :- b([{}],L,L1?,M,M1?), a(N?,L1,M1). a([],[],[]).
         b([1|N],[{}|L?],R,[{}|M?],S) :- b(N?,L,R?,M,S?). b([],L?,L,M?,M).
         set([1|T]) :- set(T?). set([]). g(X) :- ground(X?) | q(X?).
         ?- a([{}],L,M), g(L?), set(M?).",
        ones(28),
        of("?"),
        of(""),
        ones(8)
    );
    let report = timed(|| report_with(&text, &large()));
    assert!(report.starts_with("run rest steps "));
    assert!(report.contains(&format!("\nfailed q([{}]) from 7 at ", ones(8 * 28 * 11))));
}
