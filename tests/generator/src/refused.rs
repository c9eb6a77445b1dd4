//! Texts that are refused at a byte (document 02, T-01): items that break occurrence rules of every kind, several at
//! once; tokens that cannot stand, at every place; texts that end anywhere; and clauses refused for their guards (T-02).
//! They are laid out with CR, tabs, remarks and line ends between the tokens, so that offset, column and line
//! have little to do with each other.

use crate::layout::odd_text_of;
use crate::random::Random;
use crate::term::{split, Token};

/// How often the writer and the reader of a pair stand in its item: as they should, then each way to break a rule.
const HALVES: [(usize, usize); 12] =
    [(1, 1), (2, 1), (1, 2), (1, 0), (0, 1), (2, 0), (0, 2), (2, 2), (3, 1), (1, 3), (3, 0), (0, 3)];
const NAMES: [&str; 7] = ["X", "Xs", "Y", "Z9", "In", "A_b", "Q"];

/// Among good items one that breaks an occurrence rule, and mostly several. The turn goes round the ways to break one.
pub fn occurrences(random: &mut Random, turn: usize) -> Vec<u8> {
    let mut items = vec![clause(random, &[(1, 1)]), query(random, &[(1, 0), (0, 1)])];
    let mut pairs = vec![HALVES[1 + turn % (HALVES.len() - 1)]];
    for _ in 0..random.below(5) {
        pairs.push(random.pick(&HALVES));
    }
    random.shuffle(&mut pairs);
    let broken = if random.chance(75) { clause(random, &pairs) } else { query(random, &pairs) };
    items.insert(random.below(items.len() + 1), broken);
    odd_text_of(random, &items)
}

/// Clauses whose guards are refused with 11, with what else is wrong in the item beside it; and some that look so and
/// are not.
const GUARDS: [&str; 44] = [
    "p(X) :- foo | q(X?).",
    "p(X) :- foo(X?) | q(X?).",
    "p(X) :- ground | q(X?).",
    "p(X) :- ground(X?,a) | q(X?).",
    "p(X) :- otherwise(X?) | q(X?).",
    "p(X) :- integer(X?), constant, known(X?) | q(X?).",
    "p(X) :- known(X?,X?) | q(X?).",
    "p(X) :- foo, q(X?) | r(X?).",
    "p(X) :- q(X?) | q(X?).",
    "p(X) :- ground(X) | q(X?).",
    "p(X) :- X == a | q(X?).",
    "p(X) :- X? == f(a,[X]) | q(X?).",
    "p(X) :- ground(Y?) | q(X?).",
    "p(X) :- ground(Y?) | q(X?,Y).",
    "p(X) :- known(X?), a == [Y?|b] | q(X?,Y,Y?).",
    "p(Y?) :- ground(Y?) | q(Y).",
    "p(X,Y?) :- X? == Y? | q(X?,Y).",
    "p(X) :- foo(X?) | q(a).",
    "p(X,X) :- ground(Y?) | q(X?).",
    "p(X?) :- foo | q(a).",
    "p(X) :- ground(X?), foo | q(X?,X?).",
    "p(X) :- ground(X) | q(X,X).",
    "p(X) :- otherwise, otherwise, otherwise, otherwise, otherwise, otherwise, otherwise, ground(Z?) | q(X?).",
    // Not 11: 4 or 6 in the same item, occurrences, and guards that are fine.
    "p(X) :- foo | q(X?) r(a).",
    "p(X) :- foo, X? | q(X?).",
    "p(X) :- ground(Y?) | q(1,2,3,4,5,6,7).",
    "p(X) :- ground(X?) | .",
    "p(X) :- known(X?) | q(X?), r(X?).",
    "p(X) :- compound(X?) | q(X?,X?).",
    "p(X) :- ground(f(X?)) | q(X?), r(X?).",
    "p(X) :- X? == a | q(X?), r(X?).",
    "p(X) :- ground(X?) == ground(a) | q(X?), r(X?).",
    "p(X,X?,X?) :- ground(X?) | q(X?).",
    "p(X,X?,X?) :- integer(X?) | .",
    "p(X,X) :- ground(X?) | q(X?).",
    "p(X) :- ground(X?) | q(X?,X).",
    "p(X,Y) :- ground(X?) | q(X?,X?), q(Y?,Y?).",
    "p(X) :- constant(X?) | q(X?,X?,Z?).",
    "p(X) :- ground(X?), q(X?).",
    "p(X,X?) :- ground(X?) | q(X?), r(X?).",
    "p(X) :- integer(X?) | q(X?), r(X?), s(X?,X?).",
    "p(X) :- known(X?), constant(X?) | q(X?), r(f(X?)).",
    "p(X,X?) :- ground(X?), X? == X?, known(f(X?)) | .",
    "p(a) :- ground([]), 3 == 3, otherwise | .",
];

/// Among good items one whose guards are refused, or nearly.
pub fn guards(random: &mut Random, turn: usize) -> Vec<u8> {
    let mut items = vec![clause(random, &[(1, 1)]), query(random, &[(1, 0), (0, 1)])];
    let mut names = NAMES;
    random.shuffle(&mut names);
    let guarded = split(GUARDS[turn * 5 % GUARDS.len()]).into_iter().map(|token| match token.trim_end_matches('?') {
        "X" => token.replace('X', names[0]),
        "Y" => token.replace('Y', names[1]),
        "Z" => token.replace('Z', names[2]),
        _ => token,
    });
    items.insert(random.below(items.len() + 1), guarded.collect());
    odd_text_of(random, &items)
}

/// A text with a token that cannot stand where it does, or that cannot stand anywhere.
pub fn misplaced(random: &mut Random, items: &[Vec<Token>]) -> Vec<u8> {
    const TOKENS: [&str; 31] = [
        "(",
        ")",
        "[",
        "]",
        ",",
        "|",
        ".",
        ":-",
        "?-",
        "?",
        "-",
        ":",
        "=",
        "==",
        "===",
        "otherwise",
        "_",
        "_x",
        "12abc",
        "-0",
        "007",
        "-2147483649",
        "X??",
        "3?",
        "a",
        "X",
        "\u{0}",
        "\u{1b}",
        "\u{7f}",
        "\u{e9}",
        "nnnnnnnnnnnnnnnnnnnnnnnnnnnnnnnn",
    ];
    let mut items = items.to_vec();
    let item = random.below(items.len());
    let item = &mut items[item];
    let at = random.below(item.len() + 1);
    let token = random.pick(&TOKENS).to_string();
    match item.get_mut(at) {
        Some(stood) if random.chance(40) => *stood = token,
        _ => item.insert(at, token),
    }
    odd_text_of(random, &items)
}

/// A text that ends behind any of its bytes, with blanks or a remark there.
pub fn ended(random: &mut Random, items: &[Vec<Token>]) -> Vec<u8> {
    const BEHIND: [&[u8]; 10] =
        [b"", b"", b"\n", b"\r\n", b"\t", b" \t \r", b"% X", b"\n%\xff\x00\n", b"\r\n\r\n\t", b"\n\n% \xc3\xa9\r\n "];
    let mut text = odd_text_of(random, items);
    text.truncate(random.below(text.len() + 1));
    text.extend_from_slice(random.pick(&BEHIND));
    text
}

/// The halves of these pairs in any order, some of them inside terms.
fn terms(random: &mut Random, pairs: &[(usize, usize)]) -> Vec<Vec<Token>> {
    let mut names = NAMES;
    random.shuffle(&mut names);
    let mut halves: Vec<Token> = Vec::new();
    for (&(writers, readers), name) in pairs.iter().zip(names) {
        halves.extend(vec![name.to_string(); writers]);
        halves.extend(vec![format!("{name}?"); readers]);
    }
    random.shuffle(&mut halves);
    halves.into_iter().map(|half| within(random, half)).collect()
}

/// A half alone, in a list, behind its bar or in a compound.
fn within(random: &mut Random, half: Token) -> Vec<Token> {
    let around: (&[&str], &[&str]) = match random.below(8) {
        0 => (&["["], &["]"]),
        1 => (&["[", "a", "|"], &["]"]),
        2 => (&["f", "("], &[",", "-7", ")"]),
        _ => (&[], &[]),
    };
    let owned = |tokens: &[&str]| tokens.iter().map(|token| token.to_string()).collect::<Vec<_>>();
    [owned(around.0), vec![half], owned(around.1)].concat()
}

fn clause(random: &mut Random, pairs: &[(usize, usize)]) -> Vec<Token> {
    let terms = terms(random, pairs);
    let (head, body) = terms.split_at(random.below(terms.len().min(6) + 1));
    let mut tokens = goal("p", head);
    let guards = some_guards(random, &tokens);
    if !guards.is_empty() || !body.is_empty() {
        tokens.push(":-".to_string());
    }
    if !guards.is_empty() {
        tokens.extend(guards.join(&",".to_string()));
        tokens.push("|".to_string());
    }
    if !body.is_empty() {
        tokens.extend(goals(body));
    }
    tokens.push(".".to_string());
    tokens
}

/// Often guards on readers of writers in the head, of which some let them stand several times in the body and some do
/// not.
fn some_guards(random: &mut Random, head: &[Token]) -> Vec<Vec<Token>> {
    let upper = |token: &&Token| token.as_bytes()[0].is_ascii_uppercase() && !token.ends_with('?');
    let writers: Vec<&Token> = head.iter().filter(upper).collect();
    if writers.is_empty() || random.chance(45) {
        return Vec::new();
    }
    (0..random.pick(&[1, 1, 2, 3]))
        .map(|_| {
            let reader = format!("{}?", writers[random.below(writers.len())]);
            let form = random.pick(&["ground(R)", "ground(R)", "integer(R)", "constant(R)", "known(R)", "R == [R|a]"]);
            split(&form.replace('R', &reader))
        })
        .collect()
}

fn query(random: &mut Random, pairs: &[(usize, usize)]) -> Vec<Token> {
    let terms = terms(random, pairs);
    [vec!["?-".to_string()], goals(&terms), vec![".".to_string()]].concat()
}

/// Up to three terms to a goal.
fn goals(terms: &[Vec<Token>]) -> Vec<Token> {
    let goals: Vec<Vec<Token>> = terms.chunks(3).map(|some| goal("q", some)).collect();
    goals.join(&",".to_string())
}

fn goal(name: &str, terms: &[Vec<Token>]) -> Vec<Token> {
    let inside = if terms.is_empty() { vec!["a".to_string()] } else { terms.join(&",".to_string()) };
    [vec![name.to_string(), "(".to_string()], inside, vec![")".to_string()]].concat()
}

#[cfg(test)]
mod tests {
    use super::*;
    use reference::{read, Refusal};

    fn refusal(text: &[u8]) -> Option<Refusal> {
        read(text).err().filter(|refusal| refusal.number != 6)
    }

    fn line_of(text: &[u8], offset: usize) -> u32 {
        1 + text[..offset].iter().filter(|byte| **byte == b'\n').count() as u32
    }

    /// In each way a rule is broken, and all three numbers come often; so does an offset on a later line than the item.
    #[test]
    fn every_rule_is_broken() {
        let mut numbers = [0; 12];
        let mut later = 0;
        for seed in 0..600 {
            let text = occurrences(&mut Random::new(seed), seed as usize);
            let Some(refusal) = refusal(&text) else { continue };
            numbers[usize::from(refusal.number)] += 1;
            later += usize::from(line_of(&text, refusal.offset as usize) > refusal.line);
        }
        assert!(numbers[5] > 100 && numbers[9] > 100 && numbers[10] > 100, "{numbers:?}");
        assert!(later > 40, "{later}");
    }

    /// Half of the texts are refused with 11, with no offset; the others with what they say, or not at all.
    #[test]
    fn guards_are_refused() {
        let mut numbers = [0; 12];
        for turn in 0..GUARDS.len() * 5 {
            let text = guards(&mut Random::new(turn as u64), turn);
            let refusal = read(&text).err().unwrap_or(Refusal { number: 0, line: 0, offset: 0 });
            assert!(refusal.number != 11 || refusal.offset == 0 && refusal.line > 0);
            numbers[usize::from(refusal.number)] += 1;
        }
        assert_eq!([numbers[11], numbers[4], numbers[6]], [23 * 5, 2 * 5, 5], "{numbers:?}");
        assert_eq!([numbers[5], numbers[9], numbers[10], numbers[0]], [11 * 5, 5, 5, 5 * 5], "{numbers:?}");
    }

    #[test]
    fn tokens_at_every_place_and_ends_anywhere() {
        let items = [split("p([X|Y],X?) :- q(Y?)."), split("?- p([a],Z).")];
        let (mut offsets, mut ends) = (std::collections::BTreeSet::new(), 0);
        for seed in 0..2_000 {
            let text = misplaced(&mut Random::new(seed), &items);
            offsets.extend(refusal(&text).filter(|refusal| refusal.number == 4).map(|refusal| refusal.offset));
            let text = ended(&mut Random::new(seed), &items);
            ends += usize::from(refusal(&text).is_some_and(|refusal| refusal.offset as usize == text.len()));
        }
        assert!((0..30).all(|offset| offsets.contains(&offset)), "{offsets:?}");
        assert!(ends > 1_200, "{ends}");
    }
}
