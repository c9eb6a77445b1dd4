//! Random and damaged texts, read twice: by the reference and by a plain model, a machine that takes one token after
//! the other, keeps a stack of open brackets and counts every figure where documents 01 and 02 say.

mod common;

use std::collections::{BTreeMap, BTreeSet};

use common::Dice;
use reference::read;

/// Sort (`n` name, `W` writer, `R` reader, `i` integer, `x` bad, `e` end, else its first byte, `=` being `==`),
/// spelling, line, offset.
type Token = (char, String, u32, usize);

fn tokens(text: &[u8]) -> Vec<Token> {
    let byte = |at: usize| text.get(at).map_or('\0', |b| *b as char);
    let in_run = |at: usize| byte(at).is_ascii_alphanumeric() || byte(at) == '_';
    let (mut out, mut at, mut line) = (Vec::new(), 0, 1);
    while at < text.len() {
        let (c, begin) = (byte(at), at);
        at += 1;
        if c == '%' {
            while at < text.len() && byte(at) != '\n' {
                at += 1;
            }
            continue;
        }
        if " \t\r\n".contains(c) {
            line += (c == '\n') as u32;
            continue;
        }
        if in_run(begin) || (c == '-' && byte(at).is_ascii_digit()) {
            while in_run(at) {
                at += 1;
            }
            let spelling = String::from_utf8(text[begin..at].to_vec()).unwrap();
            let short = spelling.len() <= 31;
            let sort = match c {
                'a'..='z' if short => 'n',
                'A'..='Z' if byte(at) == '?' => {
                    at += 1;
                    if short {
                        'R'
                    } else {
                        'x'
                    }
                }
                'A'..='Z' if short => 'W',
                '-' | '0'..='9' if spelling.parse::<i32>().is_ok_and(|n| n.to_string() == spelling) => 'i',
                _ => 'x',
            };
            out.push((sort, spelling, line, begin));
        } else if (":?".contains(c) && byte(at) == '-') || (c == '=' && byte(at) == '=') {
            at += 1;
            out.push((c, String::new(), line, begin));
        } else {
            out.push((if "()[],|.".contains(c) { c } else { 'x' }, String::new(), line, begin));
        }
    }
    let line_of_last = 1 + text.iter().rev().skip(1).filter(|b| **b == b'\n').count() as u32;
    out.push(('e', String::new(), line_of_last, text.len()));
    out
}

#[derive(Clone, Copy, PartialEq)]
enum Expect {
    Item,
    Goal,
    /// The parenthesis of a head or goal.
    Parenthesis,
    Term,
    /// A term, or `]` of the empty list.
    FirstElement,
    AfterName,
    AfterTerm,
    AfterHead,
    AfterGoal,
    /// Behind `:-` or a comma before the bar, where guards and goals are not yet told apart.
    Conjunct,
    /// Behind `==`.
    RightSide,
    AfterBar,
}

#[derive(Clone, Copy, Default, PartialEq)]
enum Part {
    #[default]
    Head,
    /// From `:-` to the bar, if there is one.
    Conjuncts,
    /// A query's goals, or those behind the bar.
    Goals,
}

#[derive(Default)]
struct Counts {
    line: u32,
    query: bool,
    part: Part,
    pairs: BTreeSet<String>,
    /// Where each half of each name stands, in text order.
    occurrences: BTreeMap<(String, char), Vec<(usize, Part)>>,
    compounds: usize,
    goals: usize,
    /// `(` with its arguments so far, `[`, or `|` for a list behind its bar.
    open: Vec<(char, usize)>,
    /// The tokens of each conjunct, and whether a bar made them guards.
    conjuncts: Vec<Vec<(char, String)>>,
    bar: bool,
}

enum Refused {
    Four,
    Six,
}

fn above(count: usize, figure: usize) -> Result<(), Refused> {
    if count > figure {
        Err(Refused::Six)
    } else {
        Ok(())
    }
}

/// Number, line and offset.
fn plain_read(text: &[u8]) -> (u8, u32, usize) {
    if text.len() > 16_384 {
        return (3, 0, 0);
    }
    let (mut names, mut clauses, mut queries) = (BTreeSet::new(), 0, 0);
    let (mut expect, mut item) = (Expect::Item, Counts::default());
    for token in tokens(text) {
        if expect == Expect::Item {
            if token.0 == 'e' {
                break;
            }
            item = Counts { line: token.2, query: token.0 == '?', ..Counts::default() };
        }
        match take(&token, expect, &mut item, &mut names, &mut clauses, &mut queries) {
            Err(Refused::Four) => return (4, token.2, token.3),
            Err(Refused::Six) => return (6, item.line, 0),
            Ok(next) => expect = next,
        }
        if let (Expect::Item, Some((offset, number))) = (expect, broken(&item)) {
            return (number, item.line, offset);
        }
    }
    if queries == 0 {
        (6, 0, 0)
    } else {
        (0, 0, 0)
    }
}

/// A bad guard, or every broken rule of the item with its offset and number and the least of them.
fn broken(item: &Counts) -> Option<(usize, u8)> {
    let counted = |name: &str, half: char| -> Vec<(usize, Part)> {
        let own = item.occurrences.get(&(name.to_string(), half)).cloned().unwrap_or_default();
        own.into_iter().filter(|(_, part)| !item.bar || *part != Part::Conjuncts).collect()
    };
    let in_head = |name: &str, half: char| counted(name, half).into_iter().filter(|(_, part)| *part == Part::Head);
    let guards = if item.bar { item.conjuncts.as_slice() } else { &[] };
    for guard in guards {
        let other = |(sort, name): &(char, String)| *sort == 'W' || *sort == 'R' && in_head(name, 'W').count() == 0;
        if !in_table(guard) || guard.iter().any(other) {
            return Some((0, 11));
        }
    }
    let licensed = |name: &str| {
        guards.iter().any(|guard| match guard.as_slice() {
            [(_, test), ('(', _), ('R', reader), (')', _)] => {
                reader == name && ["ground", "integer", "constant"].contains(&test.as_str())
            }
            _ => false,
        })
    };
    let mut rules = Vec::new();
    for (name, half) in item.occurrences.keys() {
        let (other, lone) = if *half == 'W' { ('R', 9) } else { ('W', 10) };
        let second = match *half == 'R' && licensed(name) {
            true => in_head(name, *half).nth(1),
            false => counted(name, *half).get(1).copied(),
        };
        rules.extend(second.map(|(offset, _)| (offset, 5)));
        if let (false, Some((offset, _)), true) =
            (item.query, counted(name, *half).first(), counted(name, other).is_empty())
        {
            rules.push((*offset, lone));
        }
    }
    rules.into_iter().min()
}

/// By the tokens: `==` outside brackets, or a name and its commas inside one bracket.
fn in_table(guard: &[(char, String)]) -> bool {
    let (mut depth, mut commas, mut equal) = (0, 0, false);
    for (sort, _) in guard {
        match sort {
            '(' | '[' => depth += 1,
            ')' | ']' => depth -= 1,
            ',' if depth == 1 => commas += 1,
            '=' => equal = true,
            _ => {}
        }
    }
    let count = if guard.len() == 1 { 0 } else { commas + 1 };
    equal
        || match guard[0].1.as_str() {
            "integer" | "constant" | "compound" | "ground" | "known" => count == 1,
            "otherwise" => count == 0,
            _ => false,
        }
}

fn take(
    token: &Token,
    expect: Expect,
    item: &mut Counts,
    names: &mut BTreeSet<String>,
    clauses: &mut usize,
    queries: &mut usize,
) -> Result<Expect, Refused> {
    let (sort, spelling, _, offset) = token;
    let mut new_name = || {
        names.insert(spelling.clone());
        above(names.len(), 256)
    };
    if expect == Expect::Conjunct {
        item.conjuncts.push(Vec::new());
    }
    let outside = item.open.is_empty();
    // Behind a whole term of a conjunct: what it can still be tells what can follow.
    if item.part == Part::Conjuncts && outside && matches!(expect, Expect::AfterName | Expect::AfterTerm) {
        let right = item.conjuncts.last().unwrap().iter().any(|(sort, _)| *sort == '=');
        let named = |conjunct: &Vec<(char, String)>| conjunct[0].0 == 'n';
        let goal = |conjunct: &Vec<(char, String)>| {
            named(conjunct) && conjunct.len() > 1 && conjunct.iter().all(|(sort, _)| *sort != '=')
        };
        let whole = right || named(item.conjuncts.last().unwrap());
        match sort {
            '(' if expect == Expect::AfterName => {}
            '=' if !right => {
                item.conjuncts.last_mut().unwrap().push(('=', String::new()));
                item.compounds += 1;
                return above(item.compounds, 32).map(|_| Expect::RightSide);
            }
            ',' if whole => return Ok(Expect::Conjunct),
            '|' if whole => {
                item.bar = true;
                item.part = Part::Goals;
                return Ok(Expect::AfterBar);
            }
            '.' if item.conjuncts.iter().all(goal) => return Ok(Expect::Item),
            _ => return Err(Refused::Four),
        }
    }
    if let (Part::Conjuncts, Some(last)) = (item.part, item.conjuncts.last_mut()) {
        last.push((*sort, spelling.clone()));
    }
    match (expect, sort) {
        (Expect::Item, '?') => {
            *queries += 1;
            item.part = Part::Goals;
            above(*queries, 8).map(|_| Expect::Goal)
        }
        (Expect::Item, 'n') => {
            *clauses += 1;
            above(*clauses, 128)?;
            new_name().map(|_| Expect::Parenthesis)
        }
        (Expect::Goal | Expect::AfterBar, 'n') => {
            item.goals += 1;
            above(item.goals, 8)?;
            new_name().map(|_| Expect::Parenthesis)
        }
        (Expect::Parenthesis | Expect::AfterName, '(') => {
            item.compounds += 1;
            item.open.push(('(', 0));
            above(item.compounds, 32)?;
            above(item.open.len(), 16).map(|_| Expect::Term)
        }
        (Expect::FirstElement, ']') => {
            item.open.pop();
            Ok(Expect::AfterTerm)
        }
        (Expect::Term | Expect::FirstElement | Expect::Conjunct | Expect::RightSide, 'n' | 'W' | 'R' | 'i' | '[') => {
            if expect == Expect::Conjunct {
                above(item.conjuncts.len(), 8)?;
            }
            match item.open.last_mut() {
                Some(('(', arguments)) => {
                    *arguments += 1;
                    above(*arguments, 6)?;
                }
                Some(('[', _)) => {
                    item.compounds += 1;
                    above(item.compounds, 32)?;
                }
                _ => {}
            }
            match sort {
                'n' => return new_name().map(|_| Expect::AfterName),
                'i' => {}
                '[' => {
                    item.open.push(('[', 0));
                    return above(item.open.len(), 16).map(|_| Expect::FirstElement);
                }
                _ => {
                    item.pairs.insert(spelling.clone());
                    item.occurrences.entry((spelling.clone(), *sort)).or_default().push((*offset, item.part));
                    above(item.pairs.len(), 16)?;
                }
            }
            Ok(Expect::AfterTerm)
        }
        (Expect::AfterName | Expect::AfterTerm, _) => {
            let top = item.open.last_mut().unwrap();
            match (top.0, sort) {
                ('(' | '[', ',') => return Ok(Expect::Term),
                ('[', '|') => {
                    top.0 = '|';
                    return Ok(Expect::Term);
                }
                ('(', ')') | ('[' | '|', ']') => {
                    item.open.pop();
                }
                _ => return Err(Refused::Four),
            }
            match (item.open.is_empty(), item.part) {
                (false, _) | (true, Part::Conjuncts) => Ok(Expect::AfterTerm),
                (true, Part::Head) => Ok(Expect::AfterHead),
                (true, Part::Goals) => Ok(Expect::AfterGoal),
            }
        }
        (Expect::AfterHead, ':') => {
            item.part = Part::Conjuncts;
            Ok(Expect::Conjunct)
        }
        (Expect::AfterGoal, ',') => Ok(Expect::Goal),
        (Expect::AfterHead | Expect::AfterGoal | Expect::AfterBar, '.') => Ok(Expect::Item),
        _ => Err(Refused::Four),
    }
}

/// Texts that come near the figures and pass them.
struct Texts {
    dice: Dice,
    names: u64,
    variables: u64,
    arguments: u64,
    depth: u64,
}

impl Texts {
    fn term(&mut self, depth: u64, out: &mut Vec<String>) {
        match self.dice.roll(if depth == 0 { 6 } else { 12 }) {
            0 | 1 => out.push(format!("n{}", self.dice.roll(self.names))),
            2..=4 => {
                let half = ["", "?"][self.dice.roll(2) as usize];
                out.push(format!("V{}{half}", self.dice.roll(self.variables)));
            }
            5 => out.push(["0", "-7", "2147483647", "-2147483648", "[]"][self.dice.roll(5) as usize].into()),
            6..=8 => self.compound(depth - 1, out),
            _ => {
                out.push("[".into());
                self.terms(depth - 1, out);
                if self.dice.roll(3) == 0 {
                    out.push("|".into());
                    self.term(depth - 1, out);
                }
                out.push("]".into());
            }
        }
    }

    fn terms(&mut self, depth: u64, out: &mut Vec<String>) {
        for number in 0..1 + self.dice.roll(self.arguments) {
            if number > 0 {
                out.push(",".into());
            }
            let depth = if number == 0 { depth } else { self.dice.roll(depth + 1) };
            self.term(depth, out);
        }
    }

    fn compound(&mut self, depth: u64, out: &mut Vec<String>) {
        out.push(format!("n{}", self.dice.roll(self.names)));
        out.push("(".into());
        self.terms(depth, out);
        out.push(")".into());
    }

    /// A guard of the table, one nearly so, or a body goal in its place.
    fn guard(&mut self, variables: u64, out: &mut Vec<String>) {
        let mut say = |words: &[&str]| out.extend(words.iter().map(|word| word.to_string()));
        let reader = format!("V{}?", self.dice.roll(variables));
        match self.dice.roll(24) {
            0 | 1 => say(&["otherwise"]),
            2..=4 => say(&[&reader, "=="]),
            5 => say(&["n0", "(", &reader, ")", "=="]),
            6 => say(&["n1", "=="]),
            7 => say(&["[", "n2", ",", "7", "|", &reader, "]", "=="]),
            8 => say(&["0", "==", "[", "]"]),
            9 => return say(&[["ground", "foo", "otherwise"][self.dice.roll(3) as usize]]),
            10 => return say(&["otherwise", "(", &reader, ")"]),
            11 => return say(&["known", "(", &reader, ",", "n0", ")"]),
            12 => return self.compound(1, out),
            kind => {
                let name = ["ground", "integer", "constant", "compound", "known"][kind as usize % 5];
                say(&[name, "("]);
                match self.dice.roll(4) {
                    0 => self.term(1, out),
                    1 => say(&["n0", "(", &reader, ")"]),
                    _ => say(&[&reader]),
                }
                return out.push(")".into());
            }
        }
        if out.last().is_some_and(|last| last == "==") {
            match self.dice.roll(3) {
                0 => self.term(2, out),
                _ => out.push(format!("V{}?", self.dice.roll(variables))),
            }
        }
    }

    /// A clause that often keeps every rule: its head holds writers alone, its body and now and then its head their
    /// readers, the licensed ones and by mistake others several times.
    fn guarded(&mut self, out: &mut Vec<String>) {
        let variables = 1 + self.dice.roll(4);
        let mut head: Vec<String> = (0..variables).map(|v| format!("V{v}")).collect();
        let mut guards = Vec::new();
        for number in 0..[1, 1, 2, 2, 3, 8, 9][self.dice.roll(7) as usize] {
            if number > 0 {
                guards.push(",".into());
            }
            let one_more = (self.dice.roll(20) == 0) as u64;
            self.guard(variables + one_more, &mut guards);
        }
        let mut body: Vec<String> = Vec::new();
        for variable in 0..variables {
            let reader = format!("V{variable}?");
            let licensed = guards.windows(4).any(|four| {
                ["ground", "integer", "constant"].contains(&four[0].as_str()) && four[2] == reader && four[3] == ")"
            });
            let several = if licensed { self.dice.roll(4) } else { (self.dice.roll(20) == 0) as u64 };
            body.extend(vec![reader.clone(); several as usize]);
            match self.dice.roll(3) {
                0 => head.push(reader),
                _ => body.push(reader),
            }
        }
        head.truncate(6 + self.dice.roll(2) as usize);
        out.extend(["n0".into(), "(".into(), head.join(","), ")".into(), ":-".into()]);
        out.append(&mut guards);
        out.push("|".into());
        for (number, reader) in body.into_iter().enumerate() {
            out.extend([if number > 0 { "," } else { "" }, "n1", "(", &reader, ")"].map(String::from));
        }
        out.push(".".into());
    }

    fn item(&mut self, out: &mut Vec<String>) {
        let clause = self.dice.roll(3) > 0;
        if clause && self.dice.roll(2) == 0 {
            return self.guarded(out);
        }
        if clause {
            self.compound(self.depth, out);
        }
        let goals = self.dice.roll(10);
        if goals > 0 || !clause {
            out.push(if clause { ":-" } else { "?-" }.into());
            for goal in 0..goals.max(1) {
                if goal > 0 {
                    out.push(",".into());
                }
                let depth = self.dice.roll(self.depth + 1);
                self.compound(depth, out);
            }
        }
        out.push(".".into());
    }

    /// Damage: a token too many, one too few, or one changed.
    fn damage(&mut self, out: &mut Vec<String>) {
        let odd = [
            "(",
            ")",
            "[",
            "]",
            ",",
            "|",
            "==",
            "=",
            "otherwise",
            ".",
            ":-",
            "?-",
            "?",
            "-",
            ":",
            "_",
            "_a",
            "007",
            "-0",
            "12ab",
            "X",
            "X?",
            "a",
            "2147483648",
            "nnnnnnnnnnnnnnnnnnnnnnnnnnnnnnnn",
            "VVVVVVVVVVVVVVVVVVVVVVVVVVVVVVVV?",
            "é",
            "% r",
            "p(a).",
        ];
        let (at, token) = (self.dice.roll(out.len() as u64) as usize, odd[self.dice.roll(odd.len() as u64) as usize]);
        match self.dice.roll(4) {
            0 => drop(out.remove(at)),
            1 => out[at] = token.into(),
            2 => out.insert(at, token.into()),
            _ => out.truncate(at),
        }
        if out.is_empty() {
            out.push("%".into());
        }
    }

    fn text(&mut self) -> Vec<u8> {
        let style = self.dice.roll(5);
        self.names = [3, 20, 90, 400, 400][self.dice.roll(5) as usize];
        self.variables = [4, 16, 24, 2000, 2000][self.dice.roll(5) as usize];
        self.arguments = if style == 0 { 1 } else { [1, 2, 4, 7][self.dice.roll(4) as usize] };
        self.depth = if style == 0 { 1 } else { [1, 2, 3, 17][self.dice.roll(4) as usize] };
        let mut out = Vec::new();
        for _ in 0..if style == 0 { 120 + self.dice.roll(80) } else { 1 + self.dice.roll(6) } {
            match style {
                0 if self.dice.roll(20) > 0 => out.extend(["n0", "(", "a", ")", "."].map(String::from)),
                _ => self.item(&mut out),
            }
        }
        for _ in 0..self.dice.roll(3) {
            self.damage(&mut out);
        }
        let mut text = String::new();
        for token in out {
            text += &token;
            text += ["", "", " ", "\n", "\r\n", "\t", "% x\n"][self.dice.roll(7) as usize];
        }
        text.into_bytes()
    }
}

#[test]
fn random_texts_are_answered_as_the_plain_model_says() {
    let mut texts = Texts { dice: Dice(88172645463325252), names: 0, variables: 0, arguments: 0, depth: 0 };
    let mut seen = [0; 12];
    for _ in 0..common::random_jobs(30_000) {
        let text = texts.text();
        let own = read(&text).map_or_else(|r| (r.number, r.line, r.offset as usize), |_| (0, 0, 0));
        assert_eq!(own, plain_read(&text), "{}", String::from_utf8_lossy(&text));
        seen[own.0 as usize] += 1;
    }
    println!("answers by number: {seen:?}");
    assert!([0, 4, 5, 6, 9, 10, 11].iter().all(|number| seen[*number] > 0));
}
