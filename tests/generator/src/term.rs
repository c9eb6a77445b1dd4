//! Terms and items as the generator builds them, and the tokens that they are written as.
//!
//! A pair is a number here; its spelling is given when the item is written. A text that is already written is taken
//! apart into tokens by `split`, so that built items and written ones are laid out and changed in the same way.

use crate::random::Random;

/// One token's bytes; all of the tokens here are ASCII.
pub type Token = String;

/// A term of an item.
#[derive(Clone, Debug)]
pub enum Term {
    Writer(usize),
    Reader(usize),
    Constant(&'static str),
    Compound(&'static str, Vec<Term>),
    /// Elements, and the term behind the `|`.
    List(Vec<Term>, Option<Box<Term>>),
}

/// A clause has a head and perhaps guards; a query has neither.
#[derive(Clone, Debug)]
pub struct Item {
    pub head: Option<Term>,
    /// The compound `==` is written between its two arguments, `otherwise` is a constant.
    pub guards: Vec<Term>,
    pub goals: Vec<Term>,
}

const SPELLINGS: [&str; 18] =
    ["X", "Y", "Z", "A", "B", "C", "Xs", "Ys", "H", "T", "In", "Out", "V1", "V_2", "Abc", "N0", "Q", "W"];

impl Term {
    /// Every variable of the term replaced.
    pub fn replaced(&self, by: &impl Fn(&Term) -> Term) -> Term {
        let all = |terms: &[Term]| terms.iter().map(|term| term.replaced(by)).collect();
        match self {
            Term::Writer(_) | Term::Reader(_) => by(self),
            Term::Constant(_) => self.clone(),
            Term::Compound(name, arguments) => Term::Compound(name, all(arguments)),
            Term::List(elements, tail) => {
                Term::List(all(elements), tail.as_ref().map(|tail| Box::new(tail.replaced(by))))
            }
        }
    }

    fn write(&self, spellings: &[&str], tokens: &mut Vec<Token>) {
        match self {
            Term::Writer(pair) => tokens.push(spellings[*pair].to_string()),
            Term::Reader(pair) => tokens.push(format!("{}?", spellings[*pair])),
            Term::Constant("[]") => tokens.extend(["[".to_string(), "]".to_string()]),
            Term::Constant(constant) => tokens.push(constant.to_string()),
            Term::Compound("==", sides) => {
                sides[0].write(spellings, tokens);
                tokens.push("==".to_string());
                sides[1].write(spellings, tokens);
            }
            Term::Compound(name, arguments) => {
                tokens.push(name.to_string());
                tokens.push("(".to_string());
                write_all(arguments, spellings, tokens);
                tokens.push(")".to_string());
            }
            Term::List(elements, tail) => {
                tokens.push("[".to_string());
                write_all(elements, spellings, tokens);
                if let Some(tail) = tail {
                    tokens.push("|".to_string());
                    tail.write(spellings, tokens);
                }
                tokens.push("]".to_string());
            }
        }
    }
}

fn write_all(terms: &[Term], spellings: &[&str], tokens: &mut Vec<Token>) {
    for (place, term) in terms.iter().enumerate() {
        if place > 0 {
            tokens.push(",".to_string());
        }
        term.write(spellings, tokens);
    }
}

impl Item {
    /// The item's tokens, its pairs spelled at random.
    pub fn tokens(&self, random: &mut Random) -> Vec<Token> {
        let mut spellings = SPELLINGS.to_vec();
        if random.chance(60) {
            random.shuffle(&mut spellings);
        }
        let mut tokens = Vec::new();
        if let Some(head) = &self.head {
            head.write(&spellings, &mut tokens);
        }
        if !self.goals.is_empty() || !self.guards.is_empty() {
            tokens.push(if self.head.is_some() { ":-" } else { "?-" }.to_string());
        }
        if !self.guards.is_empty() {
            write_all(&self.guards, &spellings, &mut tokens);
            tokens.push("|".to_string());
        }
        write_all(&self.goals, &spellings, &mut tokens);
        tokens.push(".".to_string());
        tokens
    }
}

/// The tokens of a written text: runs with their `-` and `?`, the three signs of two bytes, and single bytes.
pub fn split(text: &str) -> Vec<Token> {
    let bytes = text.as_bytes();
    let mut tokens = Vec::new();
    let mut at = 0;
    while at < bytes.len() {
        let end = token_end(bytes, at);
        if !bytes[at].is_ascii_whitespace() {
            tokens.push(text[at..end].to_string());
        }
        at = end;
    }
    tokens
}

fn in_run(byte: u8) -> bool {
    byte.is_ascii_alphanumeric() || byte == b'_'
}

/// Where the token that begins at a place ends.
pub fn token_end(bytes: &[u8], at: usize) -> usize {
    let next = bytes.get(at + 1).copied();
    let first = bytes[at];
    let negative = first == b'-' && next.is_some_and(|byte| byte.is_ascii_digit());
    if !negative && !in_run(first) {
        let double = (first == b':' || first == b'?') && next == Some(b'-') || first == b'=' && next == Some(b'=');
        return if double { at + 2 } else { at + 1 };
    }
    let mut end = at + 1;
    while end < bytes.len() && in_run(bytes[end]) {
        end += 1;
    }
    if first.is_ascii_uppercase() && bytes.get(end) == Some(&b'?') {
        end += 1;
    }
    end
}
