//! Texts near every figure of document 01: each exactly on its edge, and one past it.
//!
//! An edge builds its text for a number, the figure or one more, with a mark before the token that reaches that
//! number. Past the edge the mark shows where 4 and 6 meet: a bad token before it or behind it, a token that cannot
//! stand in its place, the text cut off there. The mark is a byte that no text here has otherwise, and is taken out.

use crate::random::Random;
use crate::term::token_end;

const MARK: char = '\u{1}';

type Build = fn(&mut Random, usize) -> String;

/// A figure, its name for labels and its texts.
struct Edge {
    name: &'static str,
    figure: usize,
    build: Build,
}

const EDGES: &[Edge] = &[
    Edge { name: "arguments", figure: 6, build: arguments },
    Edge { name: "pairs-query", figure: 16, build: pairs_query },
    Edge { name: "pairs-clause", figure: 16, build: pairs_clause },
    Edge { name: "compounds-round", figure: 32, build: compounds_round },
    Edge { name: "compounds-list", figure: 32, build: compounds_list },
    Edge { name: "compounds-nested", figure: 32, build: compounds_nested },
    Edge { name: "brackets-round", figure: 16, build: brackets_round },
    Edge { name: "brackets-square", figure: 16, build: brackets_square },
    Edge { name: "brackets-mixed", figure: 16, build: brackets_mixed },
    Edge { name: "brackets-empty", figure: 16, build: brackets_empty },
    Edge { name: "goals-body", figure: 8, build: goals_body },
    Edge { name: "goals-query", figure: 8, build: goals_query },
    Edge { name: "goals-behind-bar", figure: 8, build: goals_behind_bar },
    Edge { name: "guards", figure: 8, build: guards },
    Edge { name: "guards-pairs", figure: 16, build: guards_pairs },
    Edge { name: "guards-compounds", figure: 32, build: guards_compounds },
    Edge { name: "guards-brackets", figure: 16, build: guards_brackets },
    Edge { name: "queries", figure: 8, build: queries },
    Edge { name: "clauses", figure: 128, build: clauses },
    Edge { name: "names", figure: 256, build: names },
    Edge { name: "name-bytes", figure: 31, build: name_bytes },
    Edge { name: "variable-bytes", figure: 31, build: variable_bytes },
    Edge { name: "text-bytes", figure: 16_384, build: text_bytes },
];

/// How many kinds of text there are before they come again.
const KINDS: usize = EDGES.len() * 3;

/// The text of a kind, with its label: of three, one on the edge and two past it.
pub fn text(random: &mut Random, kind: usize) -> (String, Vec<u8>) {
    let edge = &EDGES[kind % KINDS / 3];
    let past = kind % KINDS % 3;
    let number = if past == 0 { edge.figure } else { edge.figure + 1 };
    let built = (edge.build)(random, number);
    let long = edge.figure > 1_000;
    let (how, text) = match past {
        0 => ("on", built),
        _ if long => ("past", built),
        1 => ("past", lined(random, built)),
        _ => disputed(random, &built),
    };
    let before = if long { "" } else { introduction(random, edge.figure < 100) };
    (format!("{}-{how}", edge.name), format!("{before}{text}").replace(MARK, "").into_bytes())
}

/// A text of 16,385 bytes, or of a few more.
pub fn too_long(random: &mut Random) -> Vec<u8> {
    let more = random.pick(&[1, 1, 2, 300]);
    text_bytes(random, 16_384 + more).into_bytes()
}

/// Lines before the text, so that its lines do not begin at 1; items only where they are not what is counted.
fn introduction(random: &mut Random, items: bool) -> &'static str {
    let before = ["", "", "\n", "% r\n\n", "\r\n \t", "k(a).\n", "k(a). k(\nb).\n"];
    random.pick(if items { &before } else { &before[..5] })
}

/// The marked token on a line of its own: 4 has its line, 6 the item's.
fn lined(random: &mut Random, text: String) -> String {
    match random.below(3) {
        0 => text.replace(MARK, "\n"),
        1 => text.replace(MARK, " %\n\n"),
        _ => text,
    }
}

/// A text past its edge in which a 4 stands before the marked token, behind it or in its place.
fn disputed(random: &mut Random, text: &str) -> (&'static str, String) {
    let Some(at) = text.find(MARK) else { return ("past", text.to_string()) };
    let (before, from) = text.split_at(at);
    let from = &from[MARK.len_utf8()..];
    let (token, behind) = from.split_at(token_end(from.as_bytes(), 0));
    let bad = random.pick(&["_", "_x", "!", "007", "-0", "2147483648", "?", ":", "-", "\"", "@b"]);
    let sign = random.pick(&[")", ",", ".", "]", "|", ":-", "?-", ")."]);
    match random.below(8) {
        0 => ("bad-before", format!("{before}\n{bad} {from}")),
        1 => ("bad-behind", format!("{before}\n{token}\n{bad}{behind}")),
        2 => ("bad-instead", format!("{before}\n{bad}{behind}")),
        3 => ("sign-instead", format!("{before}\n{sign}{behind}")),
        4 => ("cut-before", before.to_string() + random.pick(&["", "\n", "\n% x\n"])),
        5 => ("cut-behind", format!("{before}\n{token}")),
        6 => ("misplaced", format!("{before}1\n{from}")),
        _ => ("sign-behind", format!("{before}\n{token}\n{sign}{behind}")),
    }
}

/// Terms separated by commas, the last one marked.
fn marked(terms: impl IntoIterator<Item = String>) -> String {
    let mut terms: Vec<String> = terms.into_iter().collect();
    if let Some(last) = terms.last_mut() {
        last.insert(0, MARK);
    }
    terms.join(",")
}

fn arguments(random: &mut Random, n: usize) -> String {
    let constants = ["a", "-3", "[]", "X", "Y?", "f(1)", "[b]"];
    let first = random.below(4);
    let terms = marked((0..n).map(|place| match constants[(place + first) % constants.len()] {
        "X" => format!("X{place}"),
        "Y?" => format!("Y{place}?"),
        other => other.to_string(),
    }));
    let same = marked((0..n).map(|place| place.to_string()));
    match random.below(4) {
        0 => format!("?- p({terms})."),
        1 => format!("?- p(f({terms}))."),
        2 => format!("p({same}).\n?- p({}).", same.replace(MARK, "")),
        _ => format!("q(a) :- p([1,2|f({same})]).\n?- q(a)."),
    }
}

/// Goals over some variables, six to a goal.
fn over(variables: &[String]) -> String {
    let goals: Vec<String> = variables.chunks(6).map(|chunk| format!("p({})", chunk.join(","))).collect();
    goals.join(", ")
}

/// One half of each pair, and now and then the other half of the first one behind them all.
fn pairs_query(random: &mut Random, n: usize) -> String {
    let mut variables: Vec<String> = (0..n).map(|pair| format!("V{pair}{}", random.pick(&["", "?"]))).collect();
    variables[n - 1].insert(0, MARK);
    let behind = match (random.chance(50), variables[0].ends_with('?')) {
        (false, _) => "",
        (true, true) => ", q(V0)",
        (true, false) => ", q(V0?)",
    };
    format!("?- {}{behind}.", over(&variables))
}

/// All writers and then all readers, or some of both in the head.
fn pairs_clause(random: &mut Random, n: usize) -> String {
    let mut writers: Vec<String> = (0..n).map(|pair| format!("V{pair}")).collect();
    let readers: Vec<String> = (0..n).map(|pair| format!("V{pair}?")).collect();
    writers[n - 1].insert(0, MARK);
    if random.chance(50) {
        return format!("h(a) :- {}, {}.\n?- h(a).", over(&writers), over(&readers));
    }
    let head = writers[..8].join(",");
    let body = [&readers[..8], &writers[8..], &readers[8..]].concat();
    format!("h([{head}]) :- {}.\n?- h(a).", over(&body))
}

fn compounds_round(_: &mut Random, n: usize) -> String {
    let mut goals: Vec<String> = Vec::new();
    let mut left = n;
    while left > 0 {
        let inner = (left - 1).min(if goals.len() == 7 { 6 } else { 3 });
        left -= inner + 1;
        let last = left == 0;
        let terms: Vec<String> = (0..inner)
            .map(|place| if last && place + 1 == inner { format!("f{MARK}(a)") } else { "f(a)".to_string() })
            .collect();
        let goal = if terms.is_empty() { format!("g{MARK}(b)") } else { format!("g({})", terms.join(",")) };
        goals.push(goal);
    }
    format!("?- {}.", goals.join(", "))
}

fn compounds_list(random: &mut Random, n: usize) -> String {
    if random.chance(50) {
        let elements = marked((1..n).map(|place| place.to_string()));
        format!("?- p([{elements}]).")
    } else {
        let (first, second) = (random.between(1, 20), n - 2);
        let left: Vec<String> = (0..first).map(|place| place.to_string()).collect();
        let right = marked((first..second).map(|_| random.pick(&["a", "[]", "-5"]).to_string()));
        format!("p([{}|a]) :- q([{right}]).\n?- p(b).", left.join(","))
    }
}

/// Elements with compounds inside: the cell comes first, then the compound in the element.
fn compounds_nested(random: &mut Random, n: usize) -> String {
    let mut elements = String::new();
    let mut count = 1;
    while count < n {
        if !elements.is_empty() {
            elements.push(',');
        }
        count += 1;
        if count == n {
            elements.push(MARK);
            elements.push_str(random.pick(&["a", "[]", "f"]));
        } else if random.chance(60) {
            count += 1;
            elements.push('f');
            if count == n {
                elements.push(MARK);
            }
            elements.push_str("(1)");
        } else {
            elements.push('7');
        }
    }
    format!("?- p([{elements}]).")
}

fn brackets_round(random: &mut Random, n: usize) -> String {
    let inner = random.pick(&["a", "X", "-1"]);
    format!("?- {}f{MARK}({inner}{}.", "f(".repeat(n - 1), ")".repeat(n))
}

fn brackets_square(random: &mut Random, n: usize) -> String {
    let inner = random.pick(&["a", "X", "a|b"]);
    format!("?- p({}{MARK}[{inner}{}).", "[".repeat(n - 2), "]".repeat(n - 1))
}

fn brackets_mixed(random: &mut Random, n: usize) -> String {
    let mut open = String::from("?- f(");
    let mut close = String::from(").");
    for place in 2..=n {
        let mark = if place == n { MARK.to_string() } else { String::new() };
        let round = random.chance(50);
        open.push_str(&if round { format!("f{mark}(") } else { format!("{mark}[") });
        close.insert(0, if round { ')' } else { ']' });
    }
    format!("{open}z{close}")
}

fn brackets_empty(_: &mut Random, n: usize) -> String {
    format!("?- {}{MARK}[]{}.", "f(".repeat(n - 1), ")".repeat(n - 1))
}

fn goals_body(random: &mut Random, n: usize) -> String {
    let goals = marked((0..n).map(|_| random.pick(&["q(a)", "q(b)"]).to_string()));
    format!("p(a) :- {goals}.\nq(a).\n?- p(a).")
}

fn goals_query(random: &mut Random, n: usize) -> String {
    let goals = marked((0..n).map(|place| random.pick(&["q(a)", "q(X?)", "q(X)"]).replace('X', &format!("X{place}"))));
    format!("q(a).\n?- {goals}.")
}

fn goals_behind_bar(random: &mut Random, n: usize) -> String {
    let goals = marked((0..n).map(|_| random.pick(&["q(a)", "q(X?)"]).to_string()));
    let guards = random.pick(&["ground(X?)", "integer(X?)", "otherwise, constant(X?)", "X? == a, ground(X?)"]);
    format!("p(X,X?) :- {guards} | {goals}.\nq(a).\n?- p(1,A).")
}

fn guards(random: &mut Random, n: usize) -> String {
    let some = ["known(X?)", "otherwise", "X? == a", "[] == X?", "ground([a|X?])", "3 == 3", "compound(f(X?))"];
    let guards = marked((0..n).map(|_| random.pick(&some).to_string()));
    let body = random.pick(&["", " q(a)", " q(a), q(b), q(c), q(d), q(a), q(b), q(c), q(d)"]);
    format!("p(X,X?) :- {guards} |{body}.\nq(a).\n?- p(a,A).")
}

/// Sixteen pairs in the head. A seventeenth is one too many before it is a variable that no guard may have.
fn guards_pairs(random: &mut Random, n: usize) -> String {
    let pairs: Vec<String> = (0..16).map(|pair| format!("V{pair},V{pair}?")).collect();
    let head: Vec<String> = pairs.chunks(3).map(|some| format!("f({})", some.join(","))).collect();
    let reader = format!("{MARK}V{}?", n - 1);
    let guard = random.pick(&["known(R)", "R == a", "[a|R] == b", "otherwise, ground(f(V3?,R))"]);
    format!("h({}) :- {} | q(a).\n?- h(a).", head.join(","), guard.replace('R', &reader))
}

/// The head, and compounds in guards up to the mark: a parenthesis, an element or the `==` itself.
fn guards_compounds(random: &mut Random, n: usize) -> String {
    let list = |elements: usize| vec!["a"; elements].join(",");
    let guards = match random.below(4) {
        0 => format!("known([{},{MARK}a])", list(n - 3)),
        1 => format!("X? == [{},{MARK}b]", list(n - 3)),
        2 => format!("[{}] {MARK}== X?", list(n - 2)),
        _ => format!("otherwise, ground([{}]), known{MARK}(X?)", list(n - 3)),
    };
    format!("p(X,X?) :- {guards} | .\n?- p(a,A).")
}

/// In a guard's parenthesis, and on either side of `==`, where none is open.
fn guards_brackets(random: &mut Random, n: usize) -> String {
    let deep = |open: usize| format!("{}{MARK}[a{}", "[".repeat(open - 1), "]".repeat(open));
    let guards = match random.below(3) {
        0 => format!("ground({})", deep(n - 1)),
        1 => format!("X? == {}", deep(n)),
        _ => format!("{} == X?", deep(n)),
    };
    format!("p(X,X?) :- {guards} | .\n?- p(a,A).")
}

fn queries(random: &mut Random, n: usize) -> String {
    let clause = if random.chance(50) { "q(a).\n" } else { "" };
    let last = random.pick(&["?- q(a).", "?- q(A?).", "?- q(b"]);
    let last = if n == 8 { "?- q(A?)." } else { last };
    format!("{clause}{}{MARK}{last}\n", "?- q(a).\n".repeat(n - 1))
}

fn clauses(random: &mut Random, n: usize) -> String {
    let query_first = random.chance(50);
    let clauses = "a(b).".repeat(n - 1);
    let last = if n == 128 { "a(c)." } else { random.pick(&["a(c).", "a(X).", "a"]) };
    if query_first {
        format!("?- a(c).{clauses}{MARK}{last}")
    } else {
        format!("{clauses}{MARK}{last}?- a(c).")
    }
}

/// Names in lists, so many of them distinct, with integers and `[]` that count for nothing.
fn names(random: &mut Random, n: usize) -> String {
    let letters = b"abcdefghijklmnopqrstuvwxyz";
    let spelled = |place: usize| format!("{}{}", letters[place % 26] as char, letters[place / 26] as char);
    let mut spelled: Vec<String> = (0..n - 1).map(spelled).collect();
    spelled[n - 2].insert(0, MARK);
    let last = spelled.pop().unwrap();
    let items: Vec<String> = spelled.chunks(30).map(|chunk| format!("l([0,{}]).\n", chunk.join(","))).collect();
    let shape = random.pick(&[
        "?- l(3,NEW).",
        "?- NEW(1).",
        "?- l([1,[],l,NEW]).",
        "l(X,X?) :- l(NEW(aa),-7).?- l([aa]).",
        "l(X,X?) :- X? == NEW, [] == aa(3) | .?- l([aa]).",
    ]);
    format!("{}{}", items.join(""), shape.replace("NEW", &last))
}

fn name_bytes(random: &mut Random, n: usize) -> String {
    let name = format!("{MARK}a{}", "bC_9".chars().cycle().take(n - 1).collect::<String>());
    random
        .pick(&["?- p(NAME).", "?- NAME(a).", "?- p(NAME(a)).", "NAME(a).\n?- p(a).", "?- p([a|NAME])."])
        .replace("NAME", &name)
}

fn variable_bytes(random: &mut Random, n: usize) -> String {
    let name = format!("{MARK}A{}", "bC_9".chars().cycle().take(n - 1).collect::<String>());
    random
        .pick(&["?- p(NAME).", "?- p(NAME?).", "?- p(NAME,NAME?).", "p([NAME]) :- q(NAME?).\n?- p(a)."])
        .replace("NAME", &name)
}

/// A text padded to its length by one byte over and over.
fn text_bytes(random: &mut Random, n: usize) -> String {
    let (front, byte, back) = random.pick(&[
        ("p(a).\n?- p(a).", " ", ""),
        ("", "\n", "?- p(a)."),
        ("?- p(a).%", "x", ""),
        ("?- p(", " ", "a)."),
        ("?- p(b", "\n", ""),
        ("p(a).", "\t", "?- p(X)."),
    ]);
    format!("{front}{}{back}", byte.repeat(n - front.len() - back.len()))
}

#[cfg(test)]
mod tests {
    use super::*;
    use reference::{call, Figures};

    fn numbers(kind: usize) -> Vec<u8> {
        let figures = Figures { scratch: 4, need: 4, ..Figures::default() };
        (0..40).map(|seed| call(&text(&mut Random::new(seed), kind).1, &figures).number).collect()
    }

    #[test]
    fn each_edge_is_where_it_is_said_to_be() {
        for (place, edge) in EDGES.iter().enumerate() {
            let past = match edge.name {
                "text-bytes" => 3,
                "name-bytes" | "variable-bytes" => 4,
                _ => 6,
            };
            let may_break = edge.name == "text-bytes";
            assert!(numbers(place * 3).iter().all(|n| *n == 0 || may_break && *n == 4), "{} on", edge.name);
            assert!(numbers(place * 3 + 1).iter().all(|n| *n == past), "{} past", edge.name);
        }
    }

    #[test]
    fn disputes_end_in_either_number() {
        for (place, edge) in EDGES.iter().enumerate().filter(|(_, edge)| edge.figure < 100 && edge.figure != 31) {
            let numbers = numbers(place * 3 + 2);
            assert!(numbers.contains(&4) && numbers.contains(&6), "{}: {numbers:?}", edge.name);
        }
    }
}
