//! Document 02, T-01: which rule is broken, and at which byte. An answer is (number, line, offset). Each case of the
//! readings, and the errors that look right.

mod common;

use common::*;
use reference::{call, Figures};

/// A query that is always accepted stands behind the text.
fn with_query(text: &str) -> (u8, u32, u32) {
    refused_at(format!("{text} ?- q(a)."))
}

#[test]
fn the_cases_of_the_readings() {
    assert_eq!(with_query("p(X)."), (9, 1, 2));
    assert_eq!(refused_at("?- p(X,X)."), (5, 1, 7));
    assert_eq!(with_query("p(X,Y?)."), (9, 1, 2));
    assert_eq!(with_query("p(Y?,X)."), (10, 1, 2));
    assert_eq!(with_query("p(X,X)."), (9, 1, 2));
    assert_eq!(with_query("p(X,X,X?)."), (5, 1, 4));
    assert_eq!(with_query("p(X,X?,X?,X,X)."), (5, 1, 7));
    assert_eq!(with_query("p(X,X?,Y) :- q(X?)."), (9, 1, 7));
    assert_eq!(with_query("p(X?) :- q(X?)."), (10, 1, 2));
    assert_eq!(refused_at("?- p(X,Y,Y?,Y?,X)."), (5, 1, 12));
    assert_eq!(with_query("\n\np(X?)."), (10, 3, 4));
    assert_eq!(with_query("p(a,\n  X,\n  X, X?)."), (5, 1, 12));
    assert_eq!(refused_at("?- p(a"), (4, 1, 6));
    assert_eq!(refused_at("?- p(a).."), (4, 1, 8));
    assert_eq!(refused_at("p(a) q"), (4, 1, 5));
    assert_eq!(refused_at("p(1,12abc)."), (4, 1, 4));
    assert_eq!(refused_at(""), (6, 0, 0));
    assert_eq!(refused_at("p(a). % r\n"), (6, 0, 0));
}

/// 'The text's length at its end', with blanks and remarks there; the line is that of the last byte.
#[test]
fn at_the_texts_end() {
    for behind in ["", "\n", " ", "\r\n", "\t\t", "% r", "% r\n", "\n\n% p(\n \n"] {
        let text = format!("p(X,X?).\n?- p(a{behind}");
        let line = 1 + text[..text.len() - 1].matches('\n').count() as u32;
        assert_eq!(refused_at(&text), (4, line, text.len() as u32), "{behind:?}");
    }
    for text in ["p", "p(", "p(a", "p(a)", "p(a) :-", "?-", "?- p(a),", "p(X,X", "?- p([a|"] {
        assert_eq!(refused_at(text), (4, 1, text.len() as u32), "{text}");
    }
    let long = format!("?- p(a){}", " ".repeat(16_384 - 7));
    assert_eq!(refused_at(&long), (4, 1, 16_384));
    assert_eq!(refused_at(format!("{long} ")), (3, 0, 0));
}

/// A bad token is refused at its first byte, wherever in it the badness shows.
#[test]
fn at_the_tokens_start() {
    let (long, variable) = ("n".repeat(32), format!("{}?", "V".repeat(32)));
    for bad in ["12abc", "-0", "007", "_", "_a", "2147483648", "-2147483649", "!", ":", "?", "-", "=", &long, &variable]
    {
        for before in ["", "\r\n", "\t", "% X\n", "b,", "X,X,"] {
            let text = format!("p(a).\r\n?- p({before}{bad}).");
            let line = 2 + before.matches('\n').count() as u32;
            assert_eq!(refused_at(&text), (4, line, 12 + before.len() as u32), "{text}");
        }
        assert_eq!(refused_at(bad), (4, 1, 0));
    }
    for (byte, offset) in [(b"\x00".as_slice(), 5), (b"\xff", 5), (b"a\x80", 6), (b"a,\xc3\xa9", 7), (b"\x7f", 5)] {
        assert_eq!(refused_at([b"?- p(".as_slice(), byte, b")."].concat()), (4, 1, offset), "{byte:?}");
    }
}

/// A reader's offset is that of its run; the name of another variable in front of it is no occurrence.
#[test]
fn at_the_halves_start() {
    assert_eq!(with_query("p(Xs,Xs?,X?)."), (10, 1, 9));
    assert_eq!(with_query("p(Xs,Xs?,X)."), (9, 1, 9));
    assert_eq!(with_query("p([Abc_9|T],T?)."), (9, 1, 3));
    assert_eq!(refused_at("?- p(X?,X?)."), (5, 1, 8));
    assert_eq!(refused_at("?- p(X,X?,Xs,Xs?,\tX)."), (5, 1, 18));
}

/// The third occurrence plays no part, nor the lone half's second one.
#[test]
fn second_and_first_occurrences() {
    assert_eq!(refused_at("?- p(X,X,X)."), (5, 1, 7));
    assert_eq!(with_query("p(X,X?) :- q(X,X)."), (5, 1, 13));
    assert_eq!(with_query("p(a) :- q(X?,X?,X?)."), (10, 1, 10));
    // The pairs' order of first occurrence is another one than that of the offsets.
    assert_eq!(refused_at("?- p(X,Y,Y,X)."), (5, 1, 9));
    assert_eq!(with_query("p(X,X?,Y,Y?) :- q(Y), q(X?)."), (5, 1, 18));
    assert_eq!(with_query("p(X,X?,Y,X,Z?)."), (9, 1, 7));
    assert_eq!(with_query("p(X,X?,X,Y,Z?)."), (5, 1, 7));
    assert_eq!(with_query("p(X,X?,Z?,Y,X)."), (10, 1, 7));
}

/// Offsets go over the whole text, remarks and other items counted; the line is the item's, the offset may be on another.
#[test]
fn over_the_whole_text() {
    assert_eq!(refused_at("p(X,X?). % X\r\n\n ?- q(Y,\n\tY?,\r\n Y)."), (5, 3, 31));
    assert_eq!(with_query("p(a).\np(\nb,\nX)."), (9, 2, 12));
    // The first refused item decides, also over a smaller number; 4 and 6 in an item come before its full stop.
    assert_eq!(refused_at("p(X?).\np(Y).\n!"), (10, 1, 2));
    assert_eq!(refused_at("p(X) _"), (4, 1, 5));
    assert_eq!(refused_at("\np(X,1,2,3,4,5,6)."), (6, 2, 0));
    assert_eq!(refused_at("p(X,X?).\np(1,2,3,4,5,6,7)."), (6, 2, 0));
}

/// Each item has its own variables, and either half may be missing in a query.
#[test]
fn accepted_ones_have_no_offset() {
    assert_eq!(refused_at("p(X,X?). p(X?,X). ?- p(X,Y?). ?- p(X?,Y)."), (0, 0, 0));
}

/// '0 with every other number.'
#[test]
fn other_numbers_have_no_offset() {
    let usual = Figures::default();
    let text = b"p(a).\n\n?- p(X), p(Y).";
    for (figures, number) in [
        (Figures { budget: 1_000_001, ..usual }, 1),
        (Figures { need: 1, ..usual }, 2),
        (Figures { pairs: 1, ..usual }, 7),
        (Figures { buffer: 0, ..usual }, 8),
        (usual, 0),
    ] {
        let answer = call(text, &figures);
        assert_eq!((answer.number, answer.line, answer.offset), (number, 0, 0));
    }
}
