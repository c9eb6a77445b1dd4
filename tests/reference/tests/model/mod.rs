//! A plain model of a run, which follows document 01, with T-02, T-03 and T-09 of document 02, word for word: it gives
//! every clause variable a pair, goes through every place, copies every term, tests all pairs for circles, writes
//! guards' terms out in full and writes values by recursion.

use std::collections::BTreeSet;

use reference::Figures;

#[derive(Clone, Debug, PartialEq)]
enum Term {
    Writer(usize),
    Reader(usize),
    Constant(String),
    /// The list cell's name is `.`, which no text can spell.
    Compound(String, Vec<Term>),
}
use Term::*;

#[derive(Clone, Debug, Default)]
struct Item {
    head: Option<Term>,
    /// `X? == Y?` is a compound called `==`, `otherwise` a constant.
    guards: Vec<Term>,
    goals: Vec<Term>,
    variables: Vec<String>,
}

// A reader of accepted texts.

fn tokens(text: &str) -> Vec<String> {
    let bytes: Vec<char> = text.chars().collect();
    let mut out: Vec<String> = Vec::new();
    let mut at = 0;
    while at < bytes.len() {
        let c = bytes[at];
        let mut end = at + 1;
        if c.is_alphanumeric() || c == '-' {
            while end < bytes.len() && (bytes[end].is_alphanumeric() || bytes[end] == '_') {
                end += 1;
            }
            if c.is_uppercase() && bytes.get(end) == Some(&'?') {
                end += 1;
            }
        } else if c == ':' || c == '?' || c == '=' {
            end += 1;
        }
        if !c.is_whitespace() {
            out.push(bytes[at..end].iter().collect());
        }
        at = end;
    }
    out
}

struct Plain {
    tokens: Vec<String>,
    at: usize,
}

impl Plain {
    fn next(&mut self) -> String {
        self.at += 1;
        self.tokens[self.at - 1].clone()
    }
    fn peek(&self) -> &str {
        &self.tokens[self.at]
    }
    fn items(text: &str) -> Vec<Item> {
        let mut plain = Plain { tokens: tokens(text), at: 0 };
        let mut items = Vec::new();
        while plain.at < plain.tokens.len() {
            let mut item = Item::default();
            if plain.peek() != "?-" {
                item.head = Some(plain.term(&mut item.variables));
            }
            loop {
                match plain.next().as_str() {
                    "." => break,
                    "|" => item.guards = std::mem::take(&mut item.goals),
                    _ => {}
                }
                if plain.peek() == "." {
                    continue;
                }
                let goal = plain.conjunct(&mut item.variables);
                item.goals.push(goal);
            }
            items.push(item);
        }
        items
    }
    fn conjunct(&mut self, variables: &mut Vec<String>) -> Term {
        let left = self.term(variables);
        if self.peek() != "==" {
            return left;
        }
        self.next();
        Compound("==".into(), vec![left, self.term(variables)])
    }
    fn term(&mut self, variables: &mut Vec<String>) -> Term {
        let token = self.next();
        if token == "[" {
            return self.list(variables, true);
        }
        if token.chars().next().unwrap().is_uppercase() {
            let name = token.trim_end_matches('?').to_string();
            let known = variables.iter().position(|v| *v == name).unwrap_or_else(|| {
                variables.push(name);
                variables.len() - 1
            });
            return if token.ends_with('?') { Reader(known) } else { Writer(known) };
        }
        if self.peek() != "(" {
            return Constant(token);
        }
        let mut arguments = Vec::new();
        while self.next() != ")" {
            arguments.push(self.term(variables));
            if self.peek() == ")" {
                self.next();
                break;
            }
        }
        Compound(token, arguments)
    }
    fn list(&mut self, variables: &mut Vec<String>, first: bool) -> Term {
        match self.peek() {
            "]" => {
                self.next();
                return Constant("[]".into());
            }
            "|" => {
                self.next();
                let tail = self.term(variables);
                self.next();
                return tail;
            }
            "," if !first => {
                self.next();
            }
            _ => {}
        }
        let element = self.term(variables);
        Compound(".".into(), vec![element, self.list(variables, false)])
    }
}

fn compounds(term: &Term) -> u64 {
    match term {
        Compound(_, arguments) => 1 + arguments.iter().map(compounds).sum::<u64>(),
        _ => 0,
    }
}

fn renamed(term: &Term, first: usize) -> Term {
    match term {
        Writer(v) => Writer(v + first),
        Reader(v) => Reader(v + first),
        Constant(_) => term.clone(),
        Compound(name, arguments) => Compound(name.clone(), arguments.iter().map(|a| renamed(a, first)).collect()),
    }
}

// The machine.

enum Place {
    Gives(usize, Term),
    Waits(usize),
    Fails,
}

enum Trial {
    Succeeds(Vec<(usize, Term)>),
    Waits(BTreeSet<usize>),
    Fails,
}

/// What a guard gives.
enum Answer {
    Succeeds,
    Waits(BTreeSet<usize>),
    Fails,
}

/// A goal with the number of its query, and how its line ends.
#[derive(Clone)]
struct Goal {
    term: Term,
    query: usize,
    ending: String,
}

#[derive(Default)]
struct Machine {
    values: Vec<Option<Term>>,
    charged_compounds: u64,
    queue: Vec<Goal>,
    waiting: Vec<(Goal, BTreeSet<usize>)>,
    failed: Vec<Goal>,
}

impl Machine {
    fn follow(&self, term: &Term) -> Term {
        match term {
            Writer(p) | Reader(p) => match &self.values[*p] {
                Some(value) => self.follow(value),
                None => term.clone(),
            },
            _ => term.clone(),
        }
    }

    /// What each place of the comparison gives, all of them.
    fn compare(&self, head: &Term, goal: &Term, places: &mut Vec<Place>) {
        places.push(match (head, self.follow(goal)) {
            (Writer(_), Writer(_)) => Place::Fails,
            (Writer(x), goal) => Place::Gives(*x, goal),
            (head, Writer(z)) => Place::Gives(z, head.clone()),
            (Reader(_), _) => Place::Fails,
            (_, Reader(p)) => Place::Waits(p),
            (Constant(a), Constant(b)) if *a == b => return,
            (Compound(f, xs), Compound(g, ys)) if *f == g && xs.len() == ys.len() => {
                return xs.iter().zip(&ys).for_each(|(x, y)| self.compare(x, y, places));
            }
            _ => Place::Fails,
        });
    }

    fn pairs_of(term: &Term, out: &mut Vec<usize>) {
        match term {
            Writer(p) | Reader(p) => out.push(*p),
            Constant(_) => {}
            Compound(_, arguments) => arguments.iter().for_each(|a| Self::pairs_of(a, out)),
        }
    }

    /// Remove pairs that lean on none that is left; a circle is what remains.
    fn circle(values: &[Option<Term>]) -> bool {
        let mut leans: Vec<Vec<usize>> = vec![Vec::new(); values.len()];
        for (pair, value) in values.iter().enumerate() {
            if let Some(value) = value {
                Self::pairs_of(value, &mut leans[pair]);
            }
        }
        let mut left: BTreeSet<usize> = (0..values.len()).collect();
        loop {
            let free: Vec<usize> =
                left.iter().copied().filter(|p| !leans[*p].iter().any(|q| left.contains(q))).collect();
            if free.is_empty() {
                return !left.is_empty();
            }
            free.iter().for_each(|p| {
                left.remove(p);
            });
        }
    }

    /// A guard's term, written out: what the head gave its readers, and all else as before the step.
    fn read(&self, term: &Term, given: &[(usize, Term)]) -> Term {
        match term {
            Reader(x) if *x >= self.values.len() => match given.iter().find(|(pair, _)| pair == x) {
                Some((_, value)) => self.read(value, given),
                None => Writer(*x),
            },
            Writer(_) | Reader(_) => match self.follow(term) {
                variable @ (Writer(_) | Reader(_)) => variable,
                value => self.read(&value, given),
            },
            Constant(_) => term.clone(),
            Compound(name, arguments) => {
                Compound(name.clone(), arguments.iter().map(|argument| self.read(argument, given)).collect())
            }
        }
    }

    /// The unassigned variables of a written-out term, from the left.
    fn variables_of(term: &Term, out: &mut Vec<Term>) {
        match term {
            Writer(_) | Reader(_) => out.push(term.clone()),
            Constant(_) => {}
            Compound(_, arguments) => arguments.iter().for_each(|argument| Self::variables_of(argument, out)),
        }
    }

    fn ask(&self, guard: &Term, given: &[(usize, Term)], earlier: &BTreeSet<usize>) -> Answer {
        let (name, arguments) = match guard {
            Compound(name, arguments) => {
                (name.as_str(), arguments.iter().map(|a| self.read(a, given)).collect::<Vec<_>>())
            }
            Constant(name) => (name.as_str(), Vec::new()),
            _ => unreachable!("no guard"),
        };
        let holds = |holds: bool| if holds { Answer::Succeeds } else { Answer::Fails };
        let mut open = Vec::new();
        arguments.iter().for_each(|argument| Self::variables_of(argument, &mut open));
        match (name, arguments.as_slice()) {
            ("otherwise", []) if earlier.is_empty() => Answer::Succeeds,
            ("otherwise", []) => Answer::Waits(earlier.clone()),
            ("ground", [_]) if open.iter().any(|half| matches!(half, Writer(_))) => Answer::Fails,
            ("ground", [_]) if open.is_empty() => Answer::Succeeds,
            ("ground", [_]) => Answer::Waits(open.iter().filter_map(Self::reader).collect()),
            ("==", [left, right]) => match open.first() {
                Some(Reader(pair)) => Answer::Waits(BTreeSet::from([*pair])),
                Some(_) => Answer::Fails,
                None => holds(left == right),
            },
            (_, [Reader(pair)]) => Answer::Waits(BTreeSet::from([*pair])),
            (_, [Writer(_)]) => Answer::Fails,
            ("integer", [term]) => holds(matches!(term, Constant(c) if c.parse::<i32>().is_ok())),
            ("constant", [term]) => holds(matches!(term, Constant(_))),
            ("compound", [term]) => holds(matches!(term, Compound(..))),
            ("known", [_]) => Answer::Succeeds,
            _ => unreachable!("no guard"),
        }
    }

    fn reader(term: &Term) -> Option<usize> {
        match term {
            Reader(pair) => Some(*pair),
            _ => None,
        }
    }

    fn trial(&self, clause: &Item, goal: &Term, earlier: &BTreeSet<usize>) -> Trial {
        let first = self.values.len();
        let head = renamed(clause.head.as_ref().unwrap(), first);
        let (mut places, mut new, mut readers) = (Vec::new(), Vec::new(), BTreeSet::new());
        self.compare(&head, goal, &mut places);
        for place in places {
            match place {
                Place::Gives(pair, value) => new.push((pair, value)),
                Place::Waits(pair) => drop(readers.insert(pair)),
                Place::Fails => return Trial::Fails,
            }
        }
        if !readers.is_empty() {
            return Trial::Waits(readers);
        }
        let mut values = self.values.clone();
        values.resize(first + clause.variables.len(), None);
        for (pair, value) in &new {
            assert!(values[*pair].is_none(), "a pair is assigned once");
            values[*pair] = Some(value.clone());
        }
        if Self::circle(&values) {
            return Trial::Fails;
        }
        for guard in &clause.guards {
            match self.ask(&renamed(guard, first), &new, earlier) {
                Answer::Succeeds => {}
                Answer::Waits(readers) => return Trial::Waits(readers),
                Answer::Fails => return Trial::Fails,
            }
        }
        Trial::Succeeds(new)
    }
}

fn charge(item: &Item) -> (u64, u64) {
    let terms = item.head.iter().chain(&item.guards).chain(&item.goals);
    (item.variables.len() as u64, terms.map(compounds).sum())
}

/// The report of an accepted job that the queries' charge lets begin, and how many of its steps were reductions.
pub fn plain_report(text: &str, figures: &Figures) -> (String, usize) {
    let items = Plain::items(text);
    let (clauses, queries): (Vec<Item>, Vec<Item>) = items.into_iter().partition(|item| item.head.is_some());
    let mut m = Machine::default();
    let mut firsts = Vec::new();
    for (number, query) in queries.iter().enumerate() {
        let first = m.values.len();
        firsts.push(first);
        m.values.resize(first + query.variables.len(), None);
        m.charged_compounds += charge(query).1;
        let made = |goal| Goal { term: renamed(goal, first), query: number, ending: " from 0 at 0".into() };
        m.queue.extend(query.goals.iter().map(made));
    }
    let (mut steps, mut reductions, mut tries) = (0, 0, vec![0; queries.len()]);
    let verdict = loop {
        if m.queue.is_empty() {
            break "rest";
        }
        if steps == figures.budget {
            break "budget";
        }
        let front = m.queue[0].clone();
        let query = front.query;
        let mut readers = BTreeSet::new();
        let mut taken = None;
        for (place, clause) in clauses.iter().enumerate() {
            let same = match (clause.head.as_ref().unwrap(), &front.term) {
                (Compound(f, xs), Compound(g, ys)) => f == g && xs.len() == ys.len(),
                _ => unreachable!(),
            };
            if !same {
                continue;
            }
            match m.trial(clause, &front.term, &readers) {
                Trial::Succeeds(new) => {
                    taken = Some((place, clause, new));
                    break;
                }
                Trial::Waits(needed) => readers.extend(needed),
                Trial::Fails => {}
            }
        }
        if let Some((place, clause, new)) = taken {
            let (pairs, compounds) = charge(clause);
            let goals = m.queue.len() + m.waiting.len() + m.failed.len() - 1 + clause.goals.len();
            if m.values.len() as u64 + pairs > figures.pairs
                || m.charged_compounds + compounds > figures.compounds
                || goals as u64 > figures.goals
            {
                break "room";
            }
            let first = m.values.len();
            m.charged_compounds += compounds;
            m.values.resize(first + clause.variables.len(), None);
            m.queue.remove(0);
            let ending = format!(" from {} at {}", place + 1, tries[query] + 1);
            let made = |goal| Goal { term: renamed(goal, first), query, ending: ending.clone() };
            m.queue.extend(clause.goals.iter().map(made));
            let assigned: BTreeSet<usize> = new.iter().map(|(pair, _)| *pair).collect();
            for (pair, value) in new {
                m.values[pair] = Some(value);
            }
            let (woken, still): (Vec<_>, Vec<_>) =
                m.waiting.drain(..).partition(|(_, readers)| !readers.is_disjoint(&assigned));
            m.waiting = still;
            m.queue.extend(woken.into_iter().map(|(goal, _)| goal));
            reductions += 1;
        } else {
            m.queue.remove(0);
            match readers.is_empty() {
                true => m.failed.push(front),
                false => m.waiting.push((front, readers)),
            }
        }
        steps += 1;
        tries[query] += 1;
    };
    let waiting: Vec<_> = m.waiting.iter().map(|(goal, _)| goal.clone()).collect();
    let mut out = format!("run {verdict} steps {steps}\n");
    for (k, query) in queries.iter().enumerate() {
        let own = |goals: &[Goal]| -> Vec<Goal> { goals.iter().filter(|goal| goal.query == k).cloned().collect() };
        let (active, waiting, failed) = (own(&m.queue), own(&waiting), own(&m.failed));
        out += &format!("query {} tries {} ", k + 1, tries[k]);
        out += &format!("active {} waiting {} failed {}\n", active.len(), waiting.len(), failed.len());
        let mut numbers = Vec::new();
        for (place, name) in query.variables.iter().enumerate() {
            out += &format!("{name} = {}\n", m.written(&Writer(firsts[k] + place), &mut numbers));
        }
        for (label, goals) in [("active", active), ("waiting", waiting), ("failed", failed)] {
            for goal in goals {
                out += &format!("{label} {}{}\n", m.written(&goal.term, &mut numbers), goal.ending);
            }
        }
    }
    (out, reductions)
}

impl Machine {
    fn written(&self, term: &Term, numbers: &mut Vec<usize>) -> String {
        let mut number = |pair: usize| {
            numbers.iter().position(|p| *p == pair).unwrap_or_else(|| {
                numbers.push(pair);
                numbers.len() - 1
            }) + 1
        };
        match self.follow(term) {
            Writer(p) => format!("_{}", number(p)),
            Reader(p) => format!("_{}?", number(p)),
            Constant(c) => c,
            Compound(f, arguments) if f == "." => {
                let mut out = format!("[{}", self.written(&arguments[0], numbers));
                let mut tail = self.follow(&arguments[1]);
                loop {
                    match tail {
                        Compound(f, cell) if f == "." => {
                            out += &format!(",{}", self.written(&cell[0], numbers));
                            tail = self.follow(&cell[1]);
                        }
                        Constant(c) if c == "[]" => return out + "]",
                        other => return out + "|" + &self.written(&other, numbers) + "]",
                    }
                }
            }
            Compound(f, arguments) => {
                let arguments: Vec<String> = arguments.iter().map(|a| self.written(a, numbers)).collect();
                format!("{f}({})", arguments.join(","))
            }
        }
    }
}
