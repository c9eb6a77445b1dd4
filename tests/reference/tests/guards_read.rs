//! Document 02, T-02: which clauses with guards are accepted, and how the others are refused. An answer is (number,
//! line, offset); the cases of the readings, and the errors that look right.

mod common;

use common::*;

const ACCEPTED: (u8, u32, u32) = (0, 0, 0);

/// A query that is always accepted stands behind the text.
fn with_query(text: &str) -> (u8, u32, u32) {
    refused_at(format!("{text} ?- q(a)."))
}

fn list(elements: usize) -> String {
    format!("[{}]", vec!["a"; elements].join(","))
}

#[test]
fn clauses_with_guards() {
    for text in [
        "p(X) :- ground(X?) | q(X?).",
        "p(X,X?) :- ground(X?) |.",
        "p(a) :- otherwise | .",
        "p(X) :- ground(X?).",
        "p(X) :- X?==[a|b]|q(X?).",
        "p(X) :- ground(X?) | q(X?), r(X?), s(X?,X?).",
        "p(X,X?) :- ground(X?) | q(X?), r(X?).",
        "p(X) :- known(X?), integer(X?) | q(X?), r(X?).",
        "p(X) :- X? == X? | q(X?).",
        "p(X) :- integer(X?), constant(X?), compound(X?), ground(X?), known(X?), X? == a, otherwise | q(X?).",
        // A guard without variables, and each side of `==` any term.
        "p(a) :- ground(a), known([]), a == 3, f(a) == [b|c], [] == [] | .",
        // Guard names are not reserved: position tells.
        "integer(X) :- integer(X?) | integer(X?).",
        "otherwise(ground,X) :- ground(otherwise(X?)) | known(X?), otherwise(a,b).",
    ] {
        assert_eq!(with_query(text), ACCEPTED, "{text}");
    }
}

/// What cannot continue: behind `:-`, behind each conjunct, behind the bar, and where no guard can stand.
#[test]
fn what_cannot_continue() {
    for (text, offset) in [
        ("p(X) :- | q(X?).", 8),
        ("p(a) :- otherwise.", 17),
        ("p(X) :- foo, q(X?).", 18),
        ("p(X) :- X?.", 10),
        ("p(X) :- X?, q(X?).", 10),
        ("p(X) :- 3 | q(X?).", 10),
        ("p(X) :- [] | q(X?).", 11),
        ("p(X) :- [a] | q(X?).", 12),
        ("p(X) :- X? == a.", 15),
        ("p(X) :- X? == a, q(X?).", 22),
        ("p(X) :- X? == a == b | q(X?).", 16),
        ("p(X) :- X? == | q(X?).", 14),
        ("p(X) :- X? == , q(X?).", 14),
        ("p(X) :- X? (a) | q(X?).", 11),
        ("p(X) :- ==(X?,a) | q(X?).", 8),
        ("p(X) :- X? = a | q(X?).", 11),
        ("p(X) :- X? =  = a | q(X?).", 11),
        ("p(X) :- X? === a | q(X?).", 13),
        ("p(X) :- ground(X?) | q(X?) | r(X?).", 27),
        ("p(X) :- ground(X?) | q(X?), X? == a.", 28),
        ("p(X) :- ground(X?) | q(X?) == a.", 27),
        ("p(X) :- ground(X?) | true.", 25),
        ("p(X) :- ground(X?) | , q(X?).", 21),
        ("p(X) :- ground(X?) | | q(X?).", 21),
        ("p(X) :- ground(X?) | X?.", 21),
        ("p(X) :- ground(X?) |", 21),
        ("p(X) :- ground(X?), | q(X?).", 20),
        ("p(X) :- ground(X?),, X? == a | q(X?).", 19),
        ("p(X) :- ground(X?) X? == a | q(X?).", 19),
        ("p(X) :- foo otherwise | q(X?).", 12),
        ("p(X) :- ground(X?) ; q(X?).", 19),
        ("p(X) | q(X?).", 5),
        ("p(X) == a.", 5),
        ("p(X == a).", 4),
        ("p(X) :- ground(X? == a) | q(X?).", 18),
        ("p(X) :- q([X? == a]).", 14),
        ("p(X) :- otherwise() | q(X?).", 18),
    ] {
        assert_eq!(with_query(text), (4, 1, offset), "{text}");
    }
    assert_eq!(refused_at("?- ground(a) | q(a)."), (4, 1, 13));
    assert_eq!(refused_at("?- q(a) == b."), (4, 1, 8));
    assert_eq!(refused_at("?- otherwise | q(a)."), (4, 1, 13));
    assert_eq!(refused_at("?- X? == a."), (4, 1, 3));
    assert_eq!(refused_at("?- | q(a)."), (4, 1, 3));
    assert_eq!(refused_at("p(a) :- otherwise |\n?- q(a)."), (4, 2, 20));
    assert_eq!(refused_at("p(a) :- otherwise |"), (4, 1, 19));
    for text in ["p(X) :- X?", "p(X) :- foo", "p(X) :- X? ==", "p(X) :- X? == a", "p(X) :- X? =="] {
        assert_eq!(refused_at(text), (4, 1, text.len() as u32), "{text}");
    }
}

/// '11 for a guard not in the table or with another variable', with the item's first line.
#[test]
fn guards_refused() {
    for guard in ["foo", "foo(X?)", "ground", "ground(X?,a)", "otherwise(X?)", "integer", "known", "constant(X?,X?)"] {
        assert_eq!(with_query(&format!("p(X) :- {guard} | q(X?).")), (11, 1, 0), "{guard}");
        assert_eq!(with_query(&format!("p(X) :- otherwise, ground(X?), {guard} | q(X?).")), (11, 1, 0), "{guard}");
    }
    for text in [
        "p(X) :- foo, q(X?) | r(X?).",
        // A writer, a variable of its own, the body's, and a reader in the head without its writer there.
        "p(X) :- ground(X) | q(X?).",
        "p(X) :- ground(Y?) | q(X?).",
        "p(X) :- ground(Y?) | q(X?,Y).",
        "p(Y?) :- ground(Y?) | q(Y).",
        "p(X) :- X? == f(a,[b|Y?]) | q(X?).",
        "p(X) :- X? == X | q(X?).",
        // Before 5, 9 and 10.
        "p(X) :- foo(X?) | q(a).",
        "p(X,X) :- ground(Y?) | q(X?).",
        "p(X?) :- foo | q(a).",
        "p(X) :- ground(X?), foo | q(X?,X?).",
        "p(X) :- ground(X) | q(X,X).",
    ] {
        assert_eq!(with_query(text), (11, 1, 0), "{text}");
    }
    // The line where the item begins, and behind 4 and 6 anywhere in the item.
    assert_eq!(refused_at("q(a).\n\n p(X) :-\n foo\n | q(X?).\n?- q(a)."), (11, 3, 0));
    assert_eq!(with_query("p(X) :- foo | q(X?) r"), (4, 1, 20));
    assert_eq!(with_query("\np(X) :- foo | q(1,2,3,4,5,6,7)."), (6, 2, 0));
    assert_eq!(refused_at("p(X) :- foo | q(X?).\n!"), (11, 1, 0));
    assert_eq!(refused_at("p(X).\np(X) :- foo | q(X?)."), (9, 1, 2));
    assert_eq!(refused_at("p(a) :- foo | q(a)."), (11, 1, 0));
}

/// 'Occurrences in guards don't count for the pairing': neither as the other half nor as a second occurrence.
#[test]
fn occurrences_in_guards_count_nowhere() {
    assert_eq!(with_query("p(X) :- ground(X?) | ."), (9, 1, 2));
    assert_eq!(with_query("p(X) :- X? == X? | ."), (9, 1, 2));
    assert_eq!(with_query("p(X) :- known(X?) | q(a)."), (9, 1, 2));
    assert_eq!(with_query("p(X) :- known(X?), known(f(X?,X?)) | q(X?)."), ACCEPTED);
    assert_eq!(with_query("p(X,X) :- ground(X?) | ."), (9, 1, 2));
    assert_eq!(with_query("p(X,Y) :- X? == Y? | q(Y?)."), (9, 1, 2));
}

/// 'A reader that is itself the argument of a ground, integer or constant guard may stand several times in that
/// clause's body, and once in its head as well.'
#[test]
fn readers_that_may_stand_several_times() {
    for guard in ["ground", "integer", "constant"] {
        let text = format!("p(X,X?) :- known(X?), {guard}(X?) | q(X?,X?), q(f(X?),[X?|X?]).");
        assert_eq!(with_query(&text), ACCEPTED);
    }
    assert_eq!(with_query("p(X,X?,X?) :- ground(X?) | q(X?)."), (5, 1, 7));
    assert_eq!(with_query("p(X,X?,X?) :- ground(X?) | ."), (5, 1, 7));
    assert_eq!(with_query("p(X,X) :- ground(X?) | q(X?)."), (5, 1, 4));
    assert_eq!(with_query("p(X) :- ground(X?) | q(X?,X)."), (5, 1, 26));
    for (text, offset) in [
        ("p(X) :- known(X?) | q(X?), r(X?).", 29),
        ("p(X) :- compound(X?) | q(X?), r(X?).", 32),
        ("p(X) :- ground(f(X?)) | q(X?), r(X?).", 33),
        ("p(X) :- ground([X?]) | q(X?), r(X?).", 32),
        ("p(X) :- X? == a | q(X?), r(X?).", 27),
        ("p(X) :- ground(X?) == ground(a) | q(X?), r(X?).", 43),
        ("p(X,X?) :- known(X?) | q(X?).", 25),
        // The licence is that reader's alone, and that clause's.
        ("p(X,Y) :- ground(X?) | q(X?,X?,Y?,Y?).", 34),
        ("p(X) :- ground(a) | q(X?,X?).", 25),
    ] {
        assert_eq!(with_query(text), (5, 1, offset), "{text}");
    }
    assert_eq!(with_query("p(X) :- ground(X?) | q(X?,X?). p(X) :- q(X?,X?)."), (5, 1, 44));
    // Without a bar `ground` is a body goal, and licenses nothing.
    assert_eq!(with_query("p(X) :- ground(X?), q(X?)."), (5, 1, 22));
    // The smallest offset decides, whichever rule it breaks.
    assert_eq!(with_query("p(X,Y) :- ground(X?) | q(X?,X?,Z?)."), (9, 1, 4));
    assert_eq!(with_query("p(X) :- ground(X?) | q(X?,Z?,X?,X)."), (10, 1, 26));
}

/// '1 to 8 guards', and 8 goals besides. 'A ninth guard is 6.'
#[test]
fn eight_guards() {
    let guards = |count: usize| vec!["known(X?)"; count].join(",");
    let goals = format!("{},q(X?)", vec!["q(a)"; 7].join(","));
    assert_eq!(with_query(&format!("p(X) :- {} | {goals}.", guards(8))), ACCEPTED);
    assert_eq!(with_query(&format!("p(X) :- {} | {goals},q(b).", guards(8))), (6, 1, 0));
    assert_eq!(with_query(&format!("p(X) :- {} | q(X?).", guards(9))), (6, 1, 0));
    assert_eq!(with_query(&format!("p(X) :- {},X? == a | q(X?).", guards(8))), (6, 1, 0));
    assert_eq!(with_query(&format!("p(X) :- {},otherwise | q(X?).", guards(8))), (6, 1, 0));
    assert_eq!(with_query(&format!("p(X) :- {}, ) | q(X?).", guards(8))), (4, 1, 89));
    assert_eq!(with_query(&format!("p(X) :- {},| q(X?).", guards(8))), (4, 1, 88));
    // A ninth conjunct that begins a guard can stand; in a query it cannot.
    let eight = ["q(a)"; 8].join(",");
    for ninth in ["3", "X?", "[a]", "foo"] {
        assert_eq!(with_query(&format!("p(X) :- {eight}, {ninth} .")), (6, 1, 0), "{ninth}");
    }
    assert_eq!(refused_at(format!("?- {eight}, 3 .")), (4, 1, 44));
}

/// 'Their compounds, `known(X?)` itself too, count in figure': so does `==`, and the token that passes it is its own.
#[test]
fn compounds_in_guards() {
    assert_eq!(with_query(&format!("p(X,X?) :- X? == {} | .", list(30))), ACCEPTED);
    assert_eq!(with_query(&format!("p(X,X?) :- X? == {} | .", list(31))), (6, 1, 0));
    assert_eq!(with_query(&format!("p(X,X?) :- {} == X? | .", list(30))), ACCEPTED);
    assert_eq!(with_query(&format!("p(X,X?) :- {} == X? | .", list(31))), (6, 1, 0));
    assert_eq!(with_query(&format!("p(X,X?) :- {} =! X? | .", list(31))), (4, 1, 75));
    assert_eq!(with_query(&format!("p(X,X?) :- ground({}) | .", list(30))), ACCEPTED);
    assert_eq!(with_query(&format!("p(X,X?) :- ground({}) | .", list(31))), (6, 1, 0));
    // `otherwise` counts none; guards and goals are of one item.
    assert_eq!(with_query(&format!("p(X,X?) :- otherwise | q({}).", list(30))), ACCEPTED);
    assert_eq!(with_query(&format!("p(X,X?) :- known(X?) | q({}).", list(30))), (6, 1, 0));
    assert_eq!(with_query(&format!("p(X,X?) :- known(X?) | q({}).", list(29))), ACCEPTED);
}

/// A guard's parenthesis is the first of its brackets; the sides of `==` begin with none open.
#[test]
fn brackets_in_guards() {
    let nested = |levels: usize| format!("{}a{}", "[".repeat(levels), "]".repeat(levels));
    for (guard, answer) in [
        (format!("X? == {}", nested(16)), ACCEPTED),
        (format!("X? == {}", nested(17)), (6, 1, 0)),
        (format!("{} == X?", nested(16)), ACCEPTED),
        (format!("{} == X?", nested(17)), (6, 1, 0)),
        (format!("ground({})", nested(15)), ACCEPTED),
        (format!("ground({})", nested(16)), (6, 1, 0)),
    ] {
        assert_eq!(with_query(&format!("p(X,X?) :- {guard} | .")), answer, "{guard}");
    }
    // The two sides in one guard: 14 + 14 brackets, whose compounds with head and `==` are 30.
    assert_eq!(with_query(&format!("p(a) :- {0} == {0} | .", nested(14))), ACCEPTED);
}

/// A new variable counts where it is met: nothing tells a guard before its bar.
#[test]
fn pairs_in_guards() {
    let pairs: Vec<String> = (0..16).map(|n| format!("V{n},V{n}?")).collect();
    let arguments: Vec<String> = pairs.chunks(3).map(|some| format!("f({})", some.join(","))).collect();
    let head = format!("p({})", arguments.join(","));
    assert_eq!(with_query(&format!("{head} :- ground(V3?) | q(a).")), ACCEPTED);
    assert_eq!(with_query(&format!("{head} :- ground(C?) | q(a).")), (6, 1, 0));
    assert_eq!(with_query(&format!("{head} :- ground(V3) | q(a).")), (11, 1, 0));
}

/// Guards' names are names: `ground`, `otherwise`, an unknown one, and those inside; `==` has none.
#[test]
fn names_in_guards() {
    let text = |names: usize, last: &str| {
        let spelled: Vec<String> = (0..names - 2).map(|n| format!("n{n}")).collect();
        let lines: Vec<String> = spelled.chunks(6).map(|some| format!("p({}).\n", some.join(","))).collect();
        format!("{}?- q(1).\n{last}", lines.concat())
    };
    let number = |names: usize, last: &str| refused(text(names, last)).0;
    for guards in ["otherwise", "ground(X?)", "X? == z", "foo"] {
        let clause = format!("p(X) :- {guards} | q(X?).");
        assert_eq!(number(256, &clause), 6, "{guards}");
        assert_eq!(number(255, &clause), if guards == "foo" { 11 } else { 0 }, "{guards}");
    }
    assert_eq!(number(256, "p(X) :- X? == n1, X? == [] | q(X?)."), 0);
    assert_eq!(number(254, "p(X) :- otherwise, ground(X?) | q(X?)."), 0);
    assert_eq!(number(255, "p(X) :- otherwise, ground(X?) | q(X?)."), 6);
    assert_eq!(number(254, "otherwise(X) :- otherwise, ground(X?) | ground(otherwise,X?)."), 0);
}

/// No byte sequence makes the reading stumble: prefixes and changed bytes of a job with guards are answered.
#[test]
fn damaged_texts_are_answered() {
    let text = "p(X,Y) :- ground(X?), X? == [Y?|f(a)], otherwise | q(X?,X?), r(Y?). ?- p(1,2).".as_bytes();
    for end in 0..=text.len() {
        refused_at(&text[..end]);
        for byte in [b'(', b']', b'|', b',', b'.', b'?', b'=', b'_', b'X', b'0', b'\n', b'%', 0, 255] {
            let mut damaged = text.to_vec();
            damaged.insert(end, byte);
            refused_at(&damaged);
            if end < text.len() {
                damaged.remove(end + 1);
                refused_at(&damaged);
            }
        }
    }
}
