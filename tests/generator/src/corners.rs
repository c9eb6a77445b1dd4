//! Corners of the token rules, of the items and of the occurrence rules, and texts changed at random.
//!
//! The corners are short texts, set behind random lines and in front of others. A changed text is a good one with
//! bytes or tokens inserted, removed, replaced or swapped, or cut off at any byte. A broken item is one in which a
//! half occurs twice or a clause misses one.

use crate::layout::text_of;
use crate::programs;
use crate::random::Random;
use crate::term::{split, Item, Token};

const CORNERS: &[&str] = &[
    "",
    " \t\r\n",
    "% x",
    "\n% only a remark\n",
    "p(a).",
    "p(a).\nq(b).\n",
    "?- p(a\n",
    "?- p(a\n\n",
    "?- p(a)\n% x\n",
    "?- p(a)",
    "?-",
    "?- p(",
    "?- p(\na,\n",
    "p",
    "p(a)",
    "p(a) :-",
    "p(a) :- q(b)",
    "p(a) :- q(b),",
    "?- p(a), % x",
    "?- p(12abc).",
    "?- p(007).",
    "?- p(00).",
    "?- p(-5a).",
    "?- p(-0).",
    "?- p(-01).",
    "?- p(1_000).",
    "?- p(0).\n?- p(-1).",
    "?- p(2147483647,-2147483648).",
    "?- p(2147483648).",
    "?- p(-2147483649).",
    "?- p(99999999999999999999999999).",
    "?- p(1,2,3,4,5,6,12abc).",
    "?- p(1,2,3,4,5,6,\n_).",
    "?- p(1,2,3,4,5,6,).",
    "?- p(1,2,3,4,5,6,",
    "?- p(1,2,3,4,5,6,\n7).",
    "?- p(1,2,3,4,5,6,[).",
    "?- p(1,2,3,4,5,6,\n:-).",
    "?- p(1,2,3,4,5,6,\n|).",
    "?- q(a),q(a),q(a),q(a),q(a),q(a),q(a),q(a),\n.",
    "?- q(a),q(a),q(a),q(a),q(a),q(a),q(a),q(a),\nX.",
    "?- q(a),q(a),q(a),q(a),q(a),q(a),q(a),q(a),\n[].",
    "?- q(a),q(a),q(a),q(a),q(a),q(a),q(a),q(a),\nq.",
    "?- q(a),q(a),q(a),q(a),q(a),q(a),q(a),q(a),\n",
    "r(a) :- q(a),q(a),q(a),q(a),q(a),q(a),q(a),q(a),\n3.",
    "?- p([[],[],[],[],[],[],[],[],[],[],[],[],[],[],[],[],[],[],[],[]]).",
    "?- p([f(a),f(a),f(a),f(a),f(a),f(a),f(a),f(a)|f(a)],f(a),[a],[b],[c],[d]).",
    "?- p([0,1,2,3,4,5,6,7,8,9,10,11,12,13,14,15,16,17,18,19,20,21,22,23,24,25,26,27,28,29,30,\n]).",
    "?- p([0,1,2,3,4,5,6,7,8,9,10,11,12,13,14,15,16,17,18,19,20,21,22,23,24,25,26,27,28,29,f(\n_)]).",
    "?- p([0,1,2,3,4,5,6,7,8,9,10,11,12,13,14,15,16,17,18,19,20,21,22,23,24,25,26,27,28,29,30|\nf(a)]).",
    "?- p([0,1,2,3,4,5,6,7,8,9,10,11,12,13,14,15,16,17,18,19,20,21,22,23,24,25,26,27,28,29,30|\nX]).",
    "?- p(X?abc).",
    "?- p(X?Y).",
    "?- p(X??).",
    "?- p(X ?).",
    "?- p(X%\n?).",
    "?- p(a?).",
    "?- p(3?).",
    "?- p(X?-3).",
    "?- p(X?-).",
    "?- p(5-3).",
    "?- p(-3).",
    "?- p(- 3).",
    "?- p(--3).",
    "?-3",
    "?-p(a).",
    "? - p(a).",
    "?\n- p(a).",
    "p(a) :-q(a).\n?- p(a).",
    "p(a) : - q(a).",
    "p(a) :\n- q(a).",
    "p(a) ?- q(a).",
    ":- p(a).",
    "p (a).\n?- p\t( a ) .",
    "?- p([ ]).",
    "?- p([\n%]\n]).",
    "p([]).\n?- p([ ]).",
    "p(a).\r?- p(a).\r\n",
    "?- p(3.5).",
    "?- p(3.",
    "p(a).q(b).?- p(a).",
    "?- p(a)..",
    "?- p(a).\n.",
    ".",
    "?- .",
    "?- p\n.",
    "?- p\n, q(a).",
    "p\n:- q(a).",
    "p(a) :- q\n.",
    "?- [].",
    "?- [a].",
    "?- 3.",
    "?- X.",
    "?- X(a).",
    "?- 3(a).",
    "[].",
    "X(a).",
    "3.",
    "(a).",
    "?- (p(a)).",
    "?- p().",
    "?- p(\n).",
    "?- p(a,).",
    "?- p(,a).",
    "?- p(a b).",
    "?- p(a)q(b).",
    "?- p(a),.",
    "?- p(a),,q(a).",
    "?- p(a]).",
    "?- p([a)).",
    "?- p([a|b|c]).",
    "?- p([|a]).",
    "?- p([a,]).",
    "?- p([a|b,c]).",
    "?- p([a|]).",
    "?- p([a|b]).",
    "?- p([a|[b|[c|[]]]]).",
    "?- p([a|[b,c|D]]).",
    "?- p([,a]).",
    "?- p([a b]).",
    "?- p([a.\n]).",
    "?- p([]a).",
    "?- p([](a)).",
    "?- p(f(a)(b)).",
    "?- p(X(a)).",
    "_a(b).",
    "?- p(_).",
    "?- p(_X).",
    "?- p(_X?).",
    "?- p(a_,b_1,cD).",
    "?- p(a-b).",
    "?- p(\"a\").",
    "?- p('a').",
    "?- p(a;b).",
    "?- p(a=b).",
    "?- p(a+1).",
    "?- p({a}).",
    "?- p(a):-q(b).",
    "p(a):-q(b):-r(c).",
    "p(a),q(b).",
    "p(X).",
    "p(X?).",
    "?- p(X,X).",
    "?- p(X?,X?).",
    "?- p(X?).",
    "?- p(X).",
    "p(X,X?,X?).\n?- p(1,2,3).",
    "p(X) :- q(X?), r(X?).",
    "\n\np(X,\nX) :- q(a).\n?- q(a",
    "p(X) :- q(X?).\n?- p(a), q(Y,Y).",
    "?- p(X,X). _",
    "?- p(X,X) _",
    "?- p(X,X,\n_).",
    "p(X,X,\n",
    "p(X) :- q(X?), q(X?,\n-0).",
    "?- p(X,X,3,4,5,6,7).",
    "p(X).\n_",
    "p(X) _",
    "?- p(X,X)",
    "p(a).\n\np(b) :-\nq(X).\n?- p(a).",
    "p(X) :- ground(X?) | q(X?).\n?- p(a).",
    "p(X,X?) :- ground(X?) |.\n?- p(a,B).",
    "p(a) :- otherwise | .\n?- p(a).",
    "p(X) :- ground(X?) | .",
    "p(X) :- ground(X?).\n?- p(a).",
    "p(X) :- | q(X?).",
    "p(a) :- otherwise.",
    "p(a) :- otherwise |\n?- q(a).",
    "p(a) :- otherwise |",
    "p(X) :- foo | q(X?).",
    "p(X) :- foo(X?) | q(X?).",
    "p(X) :- ground | q(X?).",
    "p(X) :- ground(X?,a) | q(X?).",
    "p(X) :- otherwise(X?) | q(X?).",
    "p(X) :- foo,\nq(X?)\n.",
    "p(X) :- foo, q(X?) | r(X?).",
    "p(X) :- X?\n.",
    "p(X) :- X?\n, q(X?).",
    "p(X) :- 3\n| q(X?).",
    "p(X) :- []\n| q(X?).",
    "p(X) :- [a]\n| q(X?).",
    "p(X) :- X? == a\n.",
    "p(X) :- X? == a, q(X?)\n.",
    "p(X) :- X? == a\n== b | q(X?).",
    "p(X) :-\n==(X?,a) | q(X?).",
    "p(X) :- X?\n= a | q(X?).",
    "p(X) :- X? =\n= a | q(X?).",
    "p(X) :- X? ==\n= a | q(X?).",
    "p(X) :- X? ==\n| q(X?).",
    "p(X) :- X?==[a|b]|q(X?).\n?- p([a|b]).",
    "p(X) :- X?==X?,a==[]|q(X?).\n?- p(a).",
    "p(X) :- ground(X?) | q(X?)\n| r(X?).",
    "p(X) :- ground(X?) | q(X?),\nX? == a.",
    "p(X) :- ground(X?) | q(X?)\n== a.",
    "p(X) :- ground(X?) | true\n.",
    "p(X) :- ground(X?) |\n, q(X?).",
    "p(X) :- ground(X?) |\n| q(X?).",
    "p(X) :- ground(X?),\n| q(X?).",
    "p(X) :- ground(X?\n| q(X?)).",
    "?- ground(a)\n| q(a).",
    "?- q(a)\n== b.",
    "?- otherwise\n| q(a).",
    "p(X)\n| q(X?).",
    "p(X)\n== a.",
    "p(X\n== a).",
    "p(X) :- ground(X?\n== a) | q(X?).",
    "p(X) :- ground(X) | q(X?).",
    "p(X) :- ground(Y?) | q(X?,Y).",
    "p(Y?) :- ground(Y?) | q(Y).",
    "p(X) :- foo(X?) | q(a).",
    "p(X) :- ground(X?) | q(X?), r(X?), s(X?,X?).\n?- p(f(1)).",
    "p(X,X?) :- ground(X?) | q(X?), r(X?).\n?- p(1,A).",
    "p(X,X?,X?) :- ground(X?) | q(X?).",
    "p(X) :- known(X?) | q(X?), r(X?).",
    "p(X) :- ground(X?) == ground(a) | q(X?), r(X?).",
    "p(X) :- known(X?), integer(X?) | q(X?), r(X?).\n?- p(1).",
    "p(X) :- known(X?),known(X?),known(X?),known(X?),known(X?),known(X?),known(X?),known(X?), X? == a | q(X?).",
    "p(X) :- known(X?),known(X?),known(X?),known(X?),known(X?),known(X?),known(X?),known(X?),\n) | q(X?).",
    "p(a) :- q(a),q(a),q(a),q(a),q(a),q(a),q(a),q(a),\n[a] == b.",
    "p(X,Y) :- X? ==\nY? | q(X?,Y?).\n?- p(a,b), p(a,a), p(A?,a).",
    "ground(X) :- ground(X?) | ground(X?,X?).\n?- ground(1).",
    "otherwise(X) :- otherwise | integer(X?).\n?- otherwise(A?).",
    "=",
    "==",
    "p(a) == b.",
    "?- p(==).",
    "?- p(a==b).",
];

const BYTES: &[u8] = b" \n\t\r%%()[],,||..??--::==_aZ09XpA!\"'\\{}~\x00\x07\x7f\x80\xa0\xc3\xff";
/// Tokens that stand in many places, good and bad ones.
pub const TOKENS: &[&str] = &[
    "(",
    ")",
    "[",
    "]",
    ",",
    "|",
    ".",
    ":-",
    "?-",
    "a",
    "p",
    "X",
    "X?",
    "Y",
    "Z?",
    "0",
    "-1",
    "7",
    "_",
    "?",
    "-",
    ":",
    "007",
    "-0",
    "[]",
    "p(a)",
    "?- p(a).",
    "q(X).",
    "==",
    "=",
    "otherwise",
    "ground(X?)",
    "otherwise|",
    "% x\n",
    "\n",
    "2147483648",
];

/// A corner with lines before it, and sometimes others behind it.
pub fn corner(random: &mut Random, kind: usize) -> Vec<u8> {
    let corner = CORNERS[kind % CORNERS.len()];
    let before = random.pick(&["", "", "", "\n", "% r\n", "p(a).\n", "\r\n", "?- p(b).\n"]);
    let behind = random.pick(&["", "", "", "\n", "\n?- p(a).", " % r\n", "\n\n_"]);
    let mut text = format!("{before}{corner}").into_bytes();
    if random.chance(5) {
        text.extend_from_slice(b" % \xff\x00\xe9\n");
    }
    text.extend_from_slice(behind.as_bytes());
    text
}

/// A text with one to three changes.
pub fn changed(random: &mut Random, items: &[Vec<Token>]) -> Vec<u8> {
    let mut items = items.to_vec();
    let tokens = random.chance(60);
    if tokens {
        for _ in 0..random.between(1, 2) {
            change_token(random, &mut items);
        }
    }
    let mut text = text_of(random, &items);
    if !tokens || random.chance(15) {
        for _ in 0..random.between(1, 2) {
            change_byte(random, &mut text);
        }
    }
    text
}

/// A text cut off at any byte, now and then with blanks or a remark behind the cut.
pub fn cut(random: &mut Random, items: &[Vec<Token>]) -> Vec<u8> {
    let mut text = text_of(random, items);
    text.truncate(random.below(text.len() + 1));
    let behind = random.pick(&["", "", "", "\n", "\n\n", " \n% x\n", "\n\t\r\n "]);
    text.extend_from_slice(behind.as_bytes());
    text
}

fn change_token(random: &mut Random, items: &mut [Vec<Token>]) {
    let place = random.below(items.len());
    let item = &mut items[place];
    if item.is_empty() {
        return;
    }
    let at = random.below(item.len());
    match random.below(6) {
        0 | 1 => item.insert(at, random.pick(TOKENS).to_string()),
        2 => {
            item.remove(at);
        }
        3 => item[at] = random.pick(TOKENS).to_string(),
        4 => {
            let other = random.below(item.len());
            item.swap(at, other);
        }
        _ => {
            let token = item[at].clone();
            item.insert(random.below(item.len()), token);
        }
    }
}

/// A byte inserted, removed, replaced or swapped with the next.
pub fn change_byte(random: &mut Random, text: &mut Vec<u8>) {
    let at = random.below(text.len().max(1)).min(text.len());
    match random.below(4) {
        0 => text.insert(at, random.pick(BYTES)),
        1 if at < text.len() => {
            text.remove(at);
        }
        2 if at + 1 < text.len() => text.swap(at, at + 1),
        _ if at < text.len() => text[at] = random.pick(BYTES),
        _ => text.push(random.pick(BYTES)),
    }
}

/// Good items, and among them one in which an occurrence rule is broken; lines before and behind it.
pub fn broken(random: &mut Random) -> Vec<u8> {
    let mut items: Vec<Vec<Token>> = vec![split("p(a).")];
    for _ in 0..random.below(3) {
        items.push(programs::some_clause(random).tokens(random));
    }
    items.push(programs::some_query(random).tokens(random));
    let at = random.below(items.len());
    let broken = broken_item(random);
    items.insert(at, broken);
    text_of(random, &items)
}

fn broken_item(random: &mut Random) -> Vec<Token> {
    let item: Item = if random.chance(60) { programs::some_clause(random) } else { programs::some_query(random) };
    let mut tokens = item.tokens(random);
    let variables: Vec<usize> =
        (0..tokens.len()).filter(|&place| tokens[place].as_bytes()[0].is_ascii_uppercase()).collect();
    if variables.is_empty() {
        return split(random.pick(&["p(X).", "?- p(X,X).", "p(X,X).", "p(Y?) :- q(a).", "?- q(A?),\n r(A?)."]));
    }
    let from = random.pick(&variables);
    let to = random.pick(&variables);
    tokens[to] = match random.below(3) {
        0 => tokens[from].clone(),
        1 => tokens[to].strip_suffix('?').map(str::to_string).unwrap_or(format!("{}?", tokens[to])),
        _ => "New".to_string(),
    };
    if random.chance(15) {
        let end = tokens.len() - 1;
        tokens[end] = random.pick(&["_", "", ")", "!."]).to_string();
    }
    tokens
}
