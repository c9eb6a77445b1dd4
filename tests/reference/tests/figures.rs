//! Each figure of document 01 on its edge and one past it, and the order of the numbers.

mod common;

use common::*;
use reference::{call, Figures};

fn number_with(text: &str, figures: Figures) -> u8 {
    call(text.as_bytes(), &figures).number
}

#[test]
fn range_of_the_callers_figures() {
    let text = "?- p(a).";
    let ok = Figures::default();
    for (budget, number) in [(0, 0), (1_000_000, 0), (1_000_001, 1), (u64::MAX, 1)] {
        assert_eq!(number_with(text, Figures { budget, ..ok }), number);
    }
    for (figure, number) in [(0, 1), (1, 0), (65_535, 0), (65_536, 1), (u64::MAX, 1)] {
        assert_eq!(number_with(text, Figures { pairs: figure, ..ok }), number);
        assert_eq!(number_with(text, Figures { compounds: figure, ..ok }), number);
        assert_eq!(number_with(text, Figures { goals: figure, ..ok }), number);
    }
}

#[test]
fn scratch_and_its_need() {
    let ok = Figures::default();
    for (scratch, need, number) in [(0, 0, 0), (5, 5, 0), (4, 5, 2), (6, 5, 0), (u64::MAX - 1, u64::MAX, 2)] {
        assert_eq!(number_with("?- p(a).", Figures { scratch, need, ..ok }), number);
    }
}

#[test]
fn order_of_the_numbers() {
    let long = "!".repeat(16_385);
    let all = Figures { budget: 1_000_001, scratch: 0, need: 1, buffer: 0, ..Figures::default() };
    assert_eq!(number_with(&long, all), 1);
    assert_eq!(number_with(&long, Figures { budget: 0, ..all }), 2);
    assert_eq!(number_with(&long, Figures { budget: 0, need: 0, ..all }), 3);
    let small = Figures { compounds: 1, buffer: 0, ..Figures::default() };
    assert_eq!(number_with("!", small), 4);
    assert_eq!(number_with("?- p(X,X).", small), 5);
    assert_eq!(number_with("p(X).", small), 9);
    assert_eq!(number_with("p(X?).", small), 10);
    assert_eq!(number_with("p(a).", small), 6);
    assert_eq!(number_with("?- p(f(a)).", small), 7);
    assert_eq!(number_with("?- p(a).", small), 8);
    // The first refused item decides.
    assert_eq!(refused("p(X).\n!"), (9, 1));
    assert_eq!(refused("p(1,2,3,4,5,6,7).\n!"), (6, 1));
    assert_eq!(refused("p(a).\n!\np(X)."), (4, 2));
}

#[test]
fn text_of_16384_bytes() {
    let query = "?- p(a).";
    let text = |length: usize| format!("{query}{}", " ".repeat(length - query.len()));
    assert_eq!(refused(text(16_384)), (0, 0));
    assert_eq!(refused(text(16_385)), (3, 0));
    assert_eq!(refused(vec![0xff; 100_000]), (3, 0));
}

#[test]
fn clauses_128() {
    let text = |clauses: usize| format!("?- p(a).\n{}", "p(a).\n".repeat(clauses));
    assert_eq!(refused(text(128)), (0, 0));
    assert_eq!(refused(text(129)), (6, 130));
}

#[test]
fn queries_1_to_8() {
    let text = |queries: usize| format!("p(a).\n{}", "?- p(a).\n".repeat(queries));
    assert_eq!(refused(text(0)), (6, 0));
    assert_eq!(refused(text(1)), (0, 0));
    assert_eq!(refused(text(8)), (0, 0));
    assert_eq!(refused(text(9)), (6, 10));
}

/// Names are told apart by spelling alone, over the whole text; integers and lists are none.
#[test]
fn names_256() {
    let text = |names: usize, last: &str| {
        let spelled: Vec<String> = (0..names - 1).map(|n| format!("n{n}")).collect();
        let lines: Vec<String> = spelled.chunks(6).map(|some| format!("p({}).\n", some.join(","))).collect();
        format!("{}?- p(1,2,[3]), p(p).\n?-\n{last}.", lines.concat())
    };
    // 255 further names fill 43 lines; the queries begin in lines 44 and 45.
    assert_eq!(refused(text(256, "p(n0(n1),n2)")), (0, 0));
    assert_eq!(refused(text(256, "p(4,[5|[]])")), (0, 0));
    assert_eq!(refused(text(256, "n5(a)")), (6, 45));
    assert_eq!(refused(text(256, "a(n5)")), (6, 45));
    assert_eq!(refused(text(256, "a")), (6, 45));
    assert_eq!(refused(text(256, "n5(a(b,!")), (6, 45));
    assert_eq!(refused(text(256, "n5(n6 a")), (4, 46));
    assert_eq!(refused(text(255, "n5(a)")), (0, 0));
    assert_eq!(refused(text(255, "n5(a,b)")), (6, 45));
}

fn in_compounds(parts: &[String]) -> String {
    parts.chunks(6).map(|some| format!("p({})", some.join(","))).collect::<Vec<_>>().join(",")
}

#[test]
fn pairs_16_per_item() {
    let variables = |count: usize| (0..count).map(|n| format!("V{n}")).collect::<Vec<_>>();
    assert_eq!(refused(format!("?- {}.", in_compounds(&variables(16)))), (0, 0));
    assert_eq!(refused(format!("\n?- {}.", in_compounds(&variables(17)))), (6, 2));
    // Both halves of sixteen pairs, in a clause and a query.
    let both: Vec<String> = variables(16).into_iter().flat_map(|name| [name.clone(), name + "?"]).collect();
    assert_eq!(refused(format!("h(a) :- {0}. ?- {0}. ?- {0}.", in_compounds(&both))), (0, 0));
}

#[test]
fn compounds_32_per_item() {
    // The goal, its lists' cells and the compounds in them.
    let text = |cells: usize| format!("?- p([{}],f(a)).", vec!["1"; cells].join(","));
    assert_eq!(refused(text(30)), (0, 0));
    assert_eq!(refused(text(31)), (6, 1));
    let text = |cells: usize| format!("\nh(f(a)) :- p([{}]), q(a). ?- p(a).", vec!["1"; cells].join(","));
    assert_eq!(refused(text(28)), (0, 0));
    assert_eq!(refused(text(29)), (6, 2));
}

#[test]
fn goals_8_per_item() {
    let goals = |count: usize| vec!["p(a)"; count].join(",");
    assert_eq!(refused(format!("?- {}.", goals(8))), (0, 0));
    assert_eq!(refused(format!("?- {}.", goals(9))), (6, 1));
    assert_eq!(refused(format!("p(a) :- {}. ?- p(b).", goals(8))), (0, 0));
    assert_eq!(refused(format!("?- p(b).\np(a) :- {}.", goals(9))), (6, 2));
}

#[test]
fn arguments_1_to_6() {
    assert_eq!(refused("?- p(1,2,3,4,5,6)."), (0, 0));
    assert_eq!(refused("?- p(1,2,3,4,5,6,7)."), (6, 1));
    assert_eq!(refused("?- p(a,f(1,2,3,4,5,6))."), (0, 0));
    assert_eq!(refused("?- p(a,f(1,2,3,4,5,6,[]))."), (6, 1));
    assert_eq!(refused("?- p(a,f(1,2,3,4,5,6,_))."), (4, 1));
}

#[test]
fn brackets_16_open() {
    let round = |levels: usize| format!("?- {}a{}.", "f(".repeat(levels), ")".repeat(levels));
    assert_eq!(refused(round(16)), (0, 0));
    assert_eq!(refused(format!("\n{}", round(17))), (6, 2));
    let square = |levels: usize| format!("?- p({}a{}).", "[".repeat(levels), "]".repeat(levels));
    assert_eq!(refused(square(15)), (0, 0));
    assert_eq!(refused(square(16)), (6, 1));
    // Closed brackets no longer count, nor does one item's count go on in the next.
    assert_eq!(refused(format!("{0}{0}", round(16))), (0, 0));
    assert_eq!(refused(format!("?- p({0}).", ["[[[[[[]]]]]]"; 3].join(","))), (0, 0));
}

#[test]
fn names_and_variables_of_31_bytes() {
    let long = |first: &str, length: usize| format!("{first}{}", "x".repeat(length - 1));
    for (length, number) in [(31, 0), (32, 4)] {
        assert_eq!(refused(format!("?- {}(a).", long("n", length))).0, number);
        assert_eq!(refused(format!("?- p({}).", long("n", length))).0, number);
        assert_eq!(refused(format!("?- p({}).", long("V", length))).0, number);
        assert_eq!(refused(format!("?- p({}?).", long("V", length))).0, number);
    }
    let (name, variable) = (long("n", 31), long("V", 31));
    check(
        &report(&format!("?- {name}({variable}?).")),
        &[&format!("{variable} = _1"), &format!("failed {name}(_1?) from 0 at 0")],
    );
}

#[test]
fn integers_in_range() {
    let report = report("?- p(2147483647,-2147483648,0,-1,10,-7).");
    check(&report, &["failed p(2147483647,-2147483648,0,-1,10,-7) from 0 at 0"]);
    for bad in ["2147483648", "-2147483649", "12345678901"] {
        assert_eq!(refused(format!("?- p(\n{bad}).")), (4, 2));
    }
    check(&common::report("p(-1). ?- p(-1), p(1)."), &["failed p(1) from 0 at 0"]);
}

#[test]
fn names_by_spelling_and_arity() {
    let report =
        report("p(p). p(p,p). q(Q,Q?). ?- p(p), p(p,p), p(p,p,p), q(p(1),A), q(p(1,2),B), q([1],C), q(a1_B,D).");
    check(
        &report,
        &["run rest steps 7", "failed p(p,p,p) from 0 at 0", "A = p(1)", "B = p(1,2)", "C = [1]", "D = a1_B"],
    );
}

#[test]
fn clauses_keep_text_order_and_need_not_be_adjacent() {
    let report = report("p(1,b). ?- p(A?,B). q(1). p(X,c) :- q(X?). ?- q(1). p(X,d) :- q(X?).");
    check(
        &report,
        &["run rest steps 3", "B = c", "waiting q(_1?) from 3 at 1", "query 2 tries 1 active 0 waiting 0 failed 0"],
    );
}

/// No byte sequence makes the reading stumble: prefixes and changed bytes of a job are answered.
#[test]
fn damaged_texts_are_answered() {
    let text = format!("{RULES}?- tag([1|B?],Y), p([-3,f(g(X))|[]]).\n% the end\n").into_bytes();
    for end in 0..=text.len() {
        call(&text[..end], &Figures::default());
        for byte in [b'(', b']', b'|', b',', b'.', b'?', b'-', b'_', b'X', b'0', b'\n', b'%', 0, 255] {
            let mut damaged = text.clone();
            damaged.insert(end, byte);
            call(&damaged, &Figures::default());
            if end < text.len() {
                damaged.remove(end + 1);
                call(&damaged, &Figures::default());
            }
        }
    }
}
