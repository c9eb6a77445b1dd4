//! Programs whose heads have several constants and compounds, and goals with several unassigned readers (T-03); in half
//! of the clauses guards look at what writers were given there (T-02).
//!
//! The clauses of a procedure and the goals for it are changed copies of one row of ground terms: of most places a
//! goal agrees with several clauses, and where it has a reader, at any depth, all of them need it. Changed constants
//! make places fail, before waiting ones and behind them, above and below. Further goals give the pairs values, one by
//! one or two in a step, at once or by way of another pair, often what stood in the row and often not.

use crate::guards::guarded;
use crate::random::Random;
use crate::term::{split, Item, Term, Token};

const LEAVES: [&str; 5] = ["1", "2", "a", "[]", "b"];
const PROCEDURES: [(&str, usize); 5] = [("m", 2), ("m", 3), ("n", 2), ("w", 4), ("w", 3)];
const GIVERS: [&str; 6] = [
    "set(X,X?).",
    "fan(1,2).",
    "late(X?) :- set(1,X).",
    "one(1).",
    "one(a) :- k(1).",
    "one(f(X,Y)) :- set(X?,Z), n(Y?,Z?).",
];
/// Pairs and compounds of a query stay well below the figures.
const MOST_PAIRS: usize = 12;

/// A procedure: its name and the row that its clauses and goals are made of; often two places of which clauses give one
/// what stands at the other.
struct Row {
    name: &'static str,
    places: Vec<Term>,
    link: Option<(usize, usize)>,
}

/// The items of a job.
pub fn program(random: &mut Random) -> Vec<Vec<Token>> {
    let mut known = PROCEDURES;
    random.shuffle(&mut known);
    let count = random.between(1, 2);
    let rows: Vec<Row> = known[..count].iter().map(|&(name, arity)| row(random, name, arity)).collect();
    let mut items: Vec<Vec<Token>> = Vec::new();
    for row in &rows {
        for _ in 0..random.pick(&[1, 2, 2, 3, 3, 4]) {
            items.push(clause(random, row).tokens(random));
        }
    }
    for _ in 0..random.pick(&[1, 1, 1, 2, 2, 3]) {
        items.push(Query::default().item(random, &rows).tokens(random));
    }
    // Those that nobody names stay away.
    let named: Vec<Token> = items.concat();
    for giver in GIVERS.iter().map(|giver| split(giver)).filter(|giver| named.contains(&giver[0])) {
        items.insert(0, giver);
    }
    if random.chance(15) {
        random.shuffle(&mut items);
    }
    items
}

fn row(random: &mut Random, name: &'static str, arity: usize) -> Row {
    let mut place = || {
        let depth = random.pick(&[0, 1, 1, 1, 2]);
        ground(random, depth)
    };
    let places = (0..arity).map(|_| place()).collect();
    let mut order: Vec<usize> = (0..arity).collect();
    random.shuffle(&mut order);
    let link = if arity > 2 && random.chance(50) { Some((order[0], order[1])) } else { None };
    Row { name, places, link }
}

fn ground(random: &mut Random, depth: usize) -> Term {
    if depth == 0 {
        return Term::Constant(random.pick(&LEAVES));
    }
    let less = depth - 1;
    match random.below(6) {
        0 => Term::Constant(random.pick(&LEAVES)),
        1 | 2 => Term::Compound("f", vec![ground(random, less), ground(random, less)]),
        3 => Term::Compound("g", vec![ground(random, less)]),
        4 => Term::List(vec![ground(random, less)], Some(Box::new(ground(random, less)))),
        _ => Term::List(vec![ground(random, less), ground(random, 0)], None),
    }
}

/// A copy of the row: places as they are, with a part changed, or variables. What a writer is given is used by another
/// place or by the body. A guarded clause has more of them, and compares what they were given with what stood there.
fn clause(random: &mut Random, row: &Row) -> Item {
    let mut places = row.places.clone();
    let mut goals = Vec::new();
    let mut pairs = 0;
    let guards = random.chance(50);
    let (as_it_is, changed) = if guards { (35, 40) } else { (70, 80) };
    if let Some((from, to)) = row.link.filter(|_| random.chance(70)) {
        (places[from], places[to], pairs) = (Term::Writer(0), Term::Reader(0), 1);
    }
    for place in &mut places {
        match random.below(100) {
            _ if matches!(place, Term::Writer(_) | Term::Reader(_)) => {}
            chance if chance < as_it_is => {}
            chance if chance < changed => *place = with_part(random, place, other),
            80..=82 => *place = ground(random, 1),
            _ => {
                *place = Term::Writer(pairs);
                goals.push(Term::Compound(random.pick(&["one", "one", "k"]), vec![Term::Reader(pairs)]));
                pairs += 1;
            }
        }
    }
    if random.chance(15) {
        goals.push(Term::Compound("one", vec![Term::Constant("1")]));
    }
    let clause = Item { head: Some(Term::Compound(row.name, places)), guards: Vec::new(), goals };
    if guards {
        guarded(random, clause, &row.places)
    } else {
        clause
    }
}

fn other(random: &mut Random, _: &Term) -> Term {
    Term::Constant(random.pick(&LEAVES))
}

/// A term with one of its parts, perhaps the whole, replaced.
fn with_part(random: &mut Random, term: &Term, by: impl FnOnce(&mut Random, &Term) -> Term) -> Term {
    let at = random.below(size(term));
    let new = by(random, &part(term, &mut at.clone()).expect("it has so many parts"));
    replaced(term, &mut at.clone(), &new)
}

fn inside(term: &Term) -> Vec<&Term> {
    match term {
        Term::Compound(_, arguments) => arguments.iter().collect(),
        Term::List(elements, tail) => elements.iter().chain(tail.as_deref()).collect(),
        _ => Vec::new(),
    }
}

fn size(term: &Term) -> usize {
    1 + inside(term).into_iter().map(size).sum::<usize>()
}

/// The part before which so many others are written.
fn part(term: &Term, left: &mut usize) -> Option<Term> {
    if *left == 0 {
        return Some(term.clone());
    }
    *left -= 1;
    inside(term).into_iter().find_map(|inner| part(inner, left))
}

fn replaced(term: &Term, left: &mut usize, by: &Term) -> Term {
    if *left == 0 {
        *left = usize::MAX;
        return by.clone();
    }
    *left -= 1;
    let mut all = |terms: &[Term]| -> Vec<Term> { terms.iter().map(|inner| replaced(inner, left, by)).collect() };
    match term {
        Term::Compound(name, arguments) => Term::Compound(name, all(arguments)),
        Term::List(elements, tail) => {
            let elements = all(elements);
            Term::List(elements, tail.as_ref().map(|tail| Box::new(replaced(tail, left, by))))
        }
        _ => term.clone(),
    }
}

/// A query: its pairs so far, and of those that nobody gives a value yet what stood where the reader is.
#[derive(Default)]
struct Query {
    pairs: usize,
    open: Vec<(usize, Term)>,
}

impl Query {
    fn item(mut self, random: &mut Random, rows: &[Row]) -> Item {
        let mut goals = Vec::new();
        for _ in 0..random.pick(&[1, 1, 2, 2, 3]) {
            let row = &rows[random.below(rows.len())];
            goals.push(self.goal(random, row));
        }
        let main = goals.len();
        while goals.len() < 8 && !self.open.is_empty() {
            self.give(random, &mut goals);
        }
        match random.below(10) {
            0..=5 => {}
            6 | 7 => random.shuffle(&mut goals[main..]),
            _ => random.shuffle(&mut goals),
        }
        goals.truncate(8);
        Item { head: None, guards: Vec::new(), goals }
    }

    /// A copy of the row with readers in it, now and then with a wrong constant or a writer. Where clauses give a place
    /// what stands at another, a writer stands there, often that of the other place's own reader.
    fn goal(&mut self, random: &mut Random, row: &Row) -> Term {
        let mut places: Vec<Term> = row
            .places
            .iter()
            .map(|term| match random.below(100) {
                0..=39 => self.reader(term),
                40..=59 => with_part(random, term, |_, part| self.reader(part)),
                60..=66 => with_part(random, term, other),
                67..=71 => self.writer(random),
                _ => term.clone(),
            })
            .collect();
        if let Some((from, to)) = row.link.filter(|_| self.pairs + 2 <= MOST_PAIRS && random.chance(80)) {
            places[to] = Term::Writer(self.pairs);
            if random.chance(50) {
                places[from] = Term::Reader(self.pairs);
            }
            self.pairs += 1;
        }
        Term::Compound(row.name, places)
    }

    fn reader(&mut self, term: &Term) -> Term {
        if self.pairs == MOST_PAIRS {
            return term.clone();
        }
        self.open.push((self.pairs, term.clone()));
        self.pairs += 1;
        Term::Reader(self.pairs - 1)
    }

    /// A new pair's writer, or that of a pair whose reader stands already.
    fn writer(&mut self, random: &mut Random) -> Term {
        if !self.open.is_empty() && random.chance(50) {
            let (pair, _) = self.open.remove(random.below(self.open.len()));
            return Term::Writer(pair);
        }
        if self.pairs == MOST_PAIRS {
            return Term::Constant("a");
        }
        self.pairs += 1;
        Term::Writer(self.pairs - 1)
    }

    /// One of the open pairs is given a value, or is left as it is.
    fn give(&mut self, random: &mut Random, goals: &mut Vec<Term>) {
        let (pair, stood) = self.open.remove(random.below(self.open.len()));
        let writer = Term::Writer(pair);
        match random.below(20) {
            0..=7 => {}
            8 | 9 if !self.open.is_empty() => {
                let (second, _) = self.open.remove(random.below(self.open.len()));
                goals.push(Term::Compound("fan", vec![writer, Term::Writer(second)]));
            }
            10 if self.pairs + 2 < MOST_PAIRS => {
                let between = self.reader(&stood);
                goals.push(Term::Compound("set", vec![between, writer]));
            }
            11 => goals.push(Term::Compound("late", vec![writer])),
            12 => goals.push(Term::Compound("set", vec![ground(random, 1), writer])),
            13 | 14 => {
                let value = with_part(random, &stood, |_, part| self.reader(part));
                goals.push(Term::Compound("set", vec![value, writer]));
            }
            _ => goals.push(Term::Compound("set", vec![stood, writer])),
        }
    }
}
