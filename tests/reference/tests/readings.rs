//! The readings of document 01's open points that an answer shows, by their numbers. An answer is (number, line).

mod common;

use common::*;
use reference::{call, Figures};

fn nested(levels: usize, inside: &str) -> String {
    format!("{}{inside}{}", "f(".repeat(levels), ")".repeat(levels))
}

// Text and tokens.

#[test]
fn r01_a_line_feed_belongs_to_the_line_that_it_ends() {
    assert_eq!(refused("?- p(a\n"), (4, 1));
    assert_eq!(refused("?- p(a\n\n"), (4, 2));
    assert_eq!(refused("?- p(a\n\n "), (4, 3));
}

#[test]
fn r02_the_last_byte_is_the_texts() {
    assert_eq!(refused("?- p(a)\n% x\n"), (4, 2));
    assert_eq!(refused("?- p(a)\n% x"), (4, 2));
    assert_eq!(refused("?- p(a)\n\n% x\n% y\n\n"), (4, 5));
}

#[test]
fn r03_a_malformed_integer_is_one_bad_token() {
    for bad in ["12abc", "007", "-5a", "-0", "1_000", "00", "-00", "-01", "0a", "2147483648", "-2147483649"] {
        assert_eq!(refused(format!("?- p(1,2,3,4,5,6,{bad}).")), (4, 1), "{bad}");
        assert_eq!(refused(format!("?- p({bad}).")), (4, 1), "{bad}");
    }
    assert_eq!(refused("?- p(99999999999999999999999999)."), (4, 1));
}

#[test]
fn r04_the_question_mark_ends_a_reader() {
    let pairs: String = (0..16).map(|n| format!("V{n},")).collect();
    let arguments = |last: &str| {
        let all: Vec<&str> = pairs.trim_end_matches(',').split(',').chain([last]).collect();
        all.chunks(6).map(|some| format!("p({})", some.join(","))).collect::<Vec<_>>().join(",")
    };
    assert_eq!(refused(format!("?- {}.", arguments("Z?abc"))), (6, 1));
    assert_eq!(refused(format!("?- {}.", arguments("V0?abc"))), (4, 1));
    assert_eq!(refused("?- p(X?abc)."), (4, 1));
}

#[test]
fn r05_tokens_from_left_to_right() {
    assert_eq!(refused("?- p(X?\n-3)."), (4, 2));
    assert_eq!(refused("?- p(X?-3)."), (4, 1));
    assert_eq!(refused("?- p(5-3)."), (4, 1));
    assert_eq!(refused("?-3"), (4, 1));
    assert_eq!(refused("?-p(a)."), (0, 0));
    assert_eq!(refused("p(X,X?):-p(X?,X).?-p(-3)."), (5, 1));
    for bad in ["?", ":", "-", "- 3", "X ?", "_", "_a", "!", "\"", "\u{e9}", "\0", "?:-", "a:b", "'a'"] {
        assert_eq!(refused(format!("?- p(\n{bad}).")), (4, 2), "{bad}");
    }
    assert_eq!(refused("? - p(a)."), (4, 1));
    assert_eq!(refused("p(a) : - p(a)."), (4, 1));
}

#[test]
fn r06_separators_between_any_two_tokens() {
    check(&report("?-p (a , [ ] ,[ 1%x\n|\tX? ]\r)\n."), &["failed p(a,[],[1|_1?]) from 0 at 0"]);
}

#[test]
fn r07_carriage_return_and_remarks() {
    assert_eq!(refused("\r\r\r!"), (4, 1));
    assert_eq!(refused("\r\n\r\n!"), (4, 3));
    assert_eq!(refused(" \t\r\n% \0\u{ff} ?- p(. \n %"), (6, 0));
    assert_eq!(refused(b"%\xff\xfe\x80\n?- p(a)."), (0, 0));
    assert_eq!(refused("p(a).%"), (6, 0));
}

#[test]
fn r08_a_full_stop_wherever_it_stands() {
    assert_eq!(refused("?- p(3.5)."), (4, 1));
    check(&report("p(a).q(b).?-p(a),q(b)."), &["run rest steps 2"]);
    assert_eq!(refused("p(a).\n."), (4, 2));
    assert_eq!(refused("p(a).."), (4, 1));
}

/// Document 02, T-04. Of all bytes between two letters, besides those of a name, only a comma makes arguments of it.
#[test]
fn t04_the_bytes_of_a_name() {
    assert!(shows(&report("?- p(aZ09_z)."), "failed p(aZ09_z) from 0 at 0"));
    let of_a_name = b"0123456789ABCDEFGHIJKLMNOPQRSTUVWXYZ_abcdefghijklmnopqrstuvwxyz";
    for byte in 0..=255u8 {
        let text = [b"?- p(a", &[byte][..], b"b)."].concat();
        let answer = if of_a_name.contains(&byte) || byte == b',' { (0, 0) } else { (4, 1 + (byte == b'\n') as u32) };
        assert_eq!(refused(text), answer, "byte {byte}");
    }
}

// 4, 5 and 6.

#[test]
fn r09_heads_and_goals_are_compounds() {
    assert_eq!(refused("?- p\n."), (4, 2));
    assert_eq!(refused("p\n\n:- p(a)."), (4, 3));
    assert_eq!(refused("?- p\n"), (4, 1));
    for bad in ["[a]", "[]", "1", "X", "X?", ".", ",", "(", ")"] {
        assert_eq!(refused(format!("?-\n{bad}\n.")), (4, 2), "{bad}");
        // Since T-02 a guard `T == T` may begin so, and what cannot continue is behind it.
        let line = if bad.len() == 1 && !"1X".contains(bad) { 2 } else { 3 };
        assert_eq!(refused(format!("p(a) :- p(a),\n{bad}\n.")), (4, line), "{bad}");
        assert_eq!(refused(format!("\n{bad}\n.")), (4, 2), "{bad}");
    }
    assert_eq!(refused(":- p(a)."), (4, 1));
}

#[test]
fn r11_an_elements_cell_is_counted_at_its_first_token() {
    // 31 compounds: p, one cell, f 29 times over; then a cell and, inside it, a compound.
    let fs = ["f(a)"; 5].join(",");
    let g = format!("g({fs})");
    let text = |last: &str| format!("?- p({g},{g},{g},{g},[b,\n{last}])."); // 1 + 24 + 1 = 26
    assert_eq!(refused(text("f(f(f(f(f(a)))))")), (0, 0)); // 26 + 1 + 5 = 32
    assert_eq!(refused(text("f(f(f(f(f(f(a))))))")), (6, 1));
    assert_eq!(refused(text("f(f(f(f(f(f,")), (4, 2));
    assert_eq!(refused(text("f(f(f(f(f(f(")), (6, 1));
    // The 33rd compound is a cell: its first token decides before anything behind it.
    assert_eq!(refused(text("f(f(f(f([c,d")), (6, 1));
    assert_eq!(refused(text("f(f(f(f([c,)")), (4, 2));
    assert_eq!(refused(text("f(f(f(f([c|)")), (4, 2));
}

#[test]
fn r12_the_comma_before_the_passing_token_can_stand() {
    assert_eq!(refused("\n?- p(1,2,3,4,5,6,\n7)."), (6, 2));
    assert_eq!(refused("\n?- p(1,2,3,4,5,6,\n)."), (4, 3));
    assert_eq!(refused("\n?- p(1,2,3,4,5,6,"), (4, 2));
    let eight = ["p(a)"; 8].join(",");
    assert_eq!(refused(format!("\n?- {eight},\np")), (6, 2));
    assert_eq!(refused(format!("\n?- {eight},\nX")), (4, 3));
    assert_eq!(refused(format!("\n?- {eight},\n")), (4, 2));
    assert_eq!(refused(format!("\n?- {eight},\n.")), (4, 3));
}

#[test]
fn r13_the_passing_item_is_refused_at_its_first_token() {
    let clauses = "p(a).\n".repeat(128);
    assert_eq!(refused(format!("{clauses}p")), (6, 129));
    assert_eq!(refused(format!("{clauses}X")), (4, 129));
    assert_eq!(refused(format!("{clauses}{}", "p".repeat(32))), (4, 129));
    let queries = "?- p(a).\n".repeat(8);
    assert_eq!(refused(format!("{queries}?-")), (6, 9));
    assert_eq!(refused(format!("{queries}?")), (4, 9));
}

#[test]
fn r14_brackets_and_bars() {
    for (text, line) in [
        ("p(\n)", 2),
        ("p([a|b\n|c])", 2),
        ("p([\n|a])", 2),
        ("p([a,\n])", 2),
        ("p([a|b\n,c])", 2),
        ("p([a|\n])", 2),
        ("p([a\n)", 2),
        ("p(a\n]", 2),
        ("p(a\n|b)", 2),
        ("p(a,\n)", 2),
    ] {
        assert_eq!(refused(format!("?- {text}.")), (4, line), "{text}");
    }
}

#[test]
fn r15_occurrence_after_the_full_stop() {
    assert_eq!(refused("p(X)\n"), (4, 1));
    assert_eq!(refused("\np(X).\n!"), (9, 2));
    assert_eq!(refused("p(X\n,!)."), (4, 2));
    assert_eq!(refused("p(X,1,2,3,4,5,6)."), (6, 1));
    assert_eq!(refused("p(X,X?).\np(X,X).\np(\n"), (9, 2));
    assert_eq!(refused("p(X,X?,X?). ?- p(a)."), (5, 1));
    assert_eq!(refused("p(X,X,X?). ?- p(a)."), (5, 1));
    assert_eq!(refused("p(X?). ?- p(a)."), (10, 1));
    assert_eq!(refused("p(X) :- p(X). ?- p(a)."), (9, 1));
    assert_eq!(refused("p(a) :- p(X), p(X?). ?- p(a)."), (0, 0));
    assert_eq!(refused("?- p(X?), p(X?)."), (5, 1));
    assert_eq!(refused("?- p(X), p(X?), p(Y), p(Z?)."), (0, 0));
    assert_eq!(refused("p(X,X?). p(X?,X). ?- p(X,X?). ?- p(X,X?)."), (0, 0));
}

#[test]
fn r16_the_empty_list_opens_a_bracket() {
    assert_eq!(refused(format!("?- p({}).", nested(14, "[]"))), (0, 0));
    assert_eq!(refused(format!("\n?- p({}).", nested(15, "\n[]"))), (6, 2));
    assert_eq!(refused(format!("\n?- p({}).", nested(15, "\n["))), (6, 2));
}

#[test]
fn r17_seven_is_strictly_above() {
    let text = "?- p(A,f(B)), q([C,D]). ?- p(A,f(g(a))). q(X,X?)."; // pairs 5, compounds 5 + 3, goals 3
    let with = |pairs, compounds, goals| {
        let answer = call(text.as_bytes(), &Figures { pairs, compounds, goals, ..Figures::default() });
        (answer.number, answer.line, answer.length == 0)
    };
    assert_eq!(with(5, 8, 3), (0, 0, false));
    for (pairs, compounds, goals) in [(4, 8, 3), (5, 7, 3), (5, 8, 2)] {
        assert_eq!(with(pairs, compounds, goals), (7, 0, true));
    }
}

// The machine.

#[test]
fn r18_a_trial_waits_on_the_reader_that_following_reached() {
    let rules = "see(1). one(1). link(X,X?).";
    // B is given A's reader; the goal then waits on A, and A's value wakes it.
    let report = report(&format!("{rules}?- link(A?,B), see(B?), one(A)."));
    check(&report, &["run rest steps 4", "A = 1", "B = 1", "query 1 tries 4 active 0 waiting 0 failed 0"]);
}

#[test]
fn r19_a_reader_wakes_too_and_waiting_again_joins_the_end() {
    let rules = "see(1,X,X?). link(X,X?).";
    let report = report(&format!("{rules}?- see(A?,one,C), see(B?,two,D), link(E?,A)."));
    // Steps: wait, wait, link (wakes the first), wait again.
    assert_eq!(
        report,
        "run rest steps 4\nquery 1 tries 4 active 0 waiting 2 failed 0\nA = _1?\nC = _2\nB = _3\nD = _4\nE = _1\n\
         waiting see(_3?,two,_4) from 0 at 0\nwaiting see(_1?,one,_2) from 0 at 0\n"
    );
}

#[test]
fn r20_waiting_and_failing_need_no_room_but_failed_goals_count() {
    let tight = |text: &str, goals| report_with(text, &Figures { pairs: 1, compounds: 2, goals, ..Figures::default() });
    check(
        &tight("see(1). ?- see(A?), no(1).", 2),
        &["run rest steps 2", "waiting see(_1?) from 0 at 0", "failed no(1) from 0 at 0"],
    );
    let text = "p(1) :- p(2),p(3). ?- no(1), p(1).";
    let room = |goals| report_with(text, &Figures { goals, ..Figures::default() });
    check(&room(3), &["run rest steps 4", "query 1 tries 4 active 0 waiting 0 failed 3"]);
    check(&room(2), &["run room steps 1", "active p(1) from 0 at 0", "failed no(1) from 0 at 0"]);
    let text = "p(1) :- p(2),p(3). see(1). ?- see(A?), p(1).";
    let room = |goals| report_with(text, &Figures { goals, ..Figures::default() });
    check(&room(3), &["run rest steps 4"]);
    check(&room(2), &["run room steps 1", "active p(1) from 0 at 0", "waiting see(_1?) from 0 at 0"]);
}

#[test]
fn r21_room_is_judged_on_the_first_clause_that_succeeds() {
    let text = "p(1) :- p(f(f(f(1)))). p(1). ?- p(1).";
    let room = |compounds| report_with(text, &Figures { compounds, ..Figures::default() });
    check(&room(5), &["run room steps 0", "query 1 tries 0 active 1 waiting 0 failed 0", "active p(1) from 0 at 0"]);
    check(&room(6), &["run rest steps 2"]);
}

#[test]
fn r22_later_clauses_are_tried_after_a_circle() {
    let report = report("p(X,X?). p(X,1) :- q(X?). q(a). ?- p(A?,A).");
    check(&report, &["run rest steps 2", "A = 1", "failed q(1) from 2 at 1"]);
}

#[test]
fn r23_the_readers_of_every_clause_that_waits() {
    let rules = "p(1,X,X?). p(X,2,X?). give(2). ";
    for given in ["give(B)", "give(A)"] {
        let report = report(&format!("{rules}?- p(A?,B?,C), {given}."));
        check(&report, &["run rest steps 3"]);
    }
    check(&report(&format!("{rules}?- p(A?,B?,C), give(B).")), &["C = _1?", "A = _1"]);
}

// The report and the program.

#[test]
fn r25_only_the_pairs_own_line_writes_the_writer() {
    assert_eq!(
        session("?- same(B?,A)."),
        "run rest steps 1\nquery 1 tries 1 active 0 waiting 0 failed 0\nB = _1\nA = _1?\n"
    );
    check(&session("?- no(B?)."), &["B = _1", "failed no(_1?) from 0 at 0"]);
}

#[test]
fn r26_first_appearance_in_the_order_of_writing() {
    check(&session("?- same([Y,X],Z)."), &["Y = _1", "X = _2", "Z = [_1,_2]"]);
    check(
        &session("?- same(f(Y?,X),Z), no(X?)."),
        &["Y = _1", "X = _2", "Z = f(_1?,_2)", "failed no(_2?) from 0 at 0"],
    );
}

#[test]
fn r27_goals_are_written_with_every_assignment_of_the_run() {
    check(&session("?- no(A?), w(B?,2), same(5,A)."), &["failed no(5) from 0 at 0", "waiting w(_1?,2) from 0 at 0"]);
    check(
        &session("k(1,X,X?). ?- w([1|A?],B), k(C?,[2|B?],D), same([5],A)."),
        &["failed w([1,5],_1) from 0 at 0", "waiting k(_2?,[2|_1?],_3) from 0 at 0"],
    );
}

#[test]
fn r28_eight_counts_on() {
    let text = "?- p(a).";
    let length = report(text).len() as u32;
    let with = |buffer| call(text.as_bytes(), &Figures { buffer, ..Figures::default() });
    assert_eq!((with(length as u64).number, with(length as u64).length), (0, length));
    for buffer in [0, 1, length as u64 - 1] {
        let answer = with(buffer);
        assert_eq!((answer.number, answer.line, answer.length, answer.report), (8, 0, length, None));
    }
}

// 'Useful for tests': what the K cases alone let through.

#[test]
fn rest_comes_before_budget() {
    let after = |budget| report_with("p(1). ?- p(1).", &Figures { budget, ..Figures::default() });
    check(&after(1), &["run rest steps 1"]);
    check(&after(0), &["run budget steps 0"]);
    check(
        &report_with("p(1) :- p(1). ?- p(1).", &Figures { budget: 7, ..Figures::default() }),
        &["run budget steps 7"],
    );
}

#[test]
fn budget_comes_before_room() {
    let figures = Figures { budget: 0, pairs: 1, compounds: 1, goals: 1, ..Figures::default() };
    check(&report_with("p(1) :- p(1). ?- p(1).", &figures), &["run budget steps 0"]);
    check(&report_with("p(1) :- p(1). ?- p(1).", &Figures { budget: 1, ..figures }), &["run room steps 0"]);
}

#[test]
fn lists_are_written_with_commas_and_one_bar() {
    check(
        &report("?- p([a,b,c],[a,b|c],[[]|[]],[a|[b|[c]]],[[a|b]|f(X)])."),
        &["failed p([a,b,c],[a,b|c],[[]],[a,b,c],[[a|b]|f(_1)]) from 0 at 0"],
    );
    // A tail that is a pair is followed, also where its value has been written before.
    check(&session("?- same([2,3],T), same([1|T?],L)."), &["T = [2,3]", "L = [1,2,3]"]);
    check(&session("?- same([1|T?],L), same([2,3],T)."), &["T = [2,3]", "L = [1,2,3]"]);
    let tail_first = "to(X?,X). ?- to(L,[1|T?]), to(T,[f([4]),3]), no(L?).";
    check(&report(tail_first), &["L = [1,f([4]),3]", "T = [f([4]),3]", "failed no([1,f([4]),3]) from 0 at 0"]);
}
