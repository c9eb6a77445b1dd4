//! Random programs that run: a few procedures with overlapping clauses, many of them guarded, and queries over them.
//!
//! Each argument of a procedure mostly takes a value or mostly gives one; halves are placed to match, and sometimes
//! against it, so that goals succeed, wait and fail. A clause is closed in the end: a pair with its writer alone and
//! a pair with its reader alone become one pair, and what is left becomes a constant. Queries may stay open.

use crate::guards::guarded;
use crate::random::Random;
use crate::term::{Item, Term, Token};

#[derive(Clone, Copy, PartialEq)]
enum Mode {
    Takes,
    Gives,
}

#[derive(Clone)]
struct Procedure {
    name: &'static str,
    modes: Vec<Mode>,
}

#[derive(Clone, Copy, Default)]
struct Halves {
    writer: bool,
    reader: bool,
}

const PROCEDURES: [(&str, usize); 10] =
    [("p", 1), ("p", 2), ("q", 1), ("q", 2), ("r", 2), ("r", 3), ("go", 1), ("s", 2), ("f", 2), ("t4", 4)];
const CONSTANTS: [&str; 9] = ["a", "a", "b", "0", "1", "-1", "[]", "[]", "p"];
const MOST_PAIRS: usize = 14;

/// The items of a random program, in a random order now and then.
pub fn program(random: &mut Random) -> Vec<Vec<Token>> {
    let procedures = procedures(random);
    let mut items = Vec::new();
    for procedure in &procedures {
        for _ in 0..random.between(1, 3) {
            items.push(clause(random, procedure, &procedures));
        }
    }
    let queries = if random.chance(10) { random.between(4, 8) } else { random.between(1, 3) };
    for _ in 0..queries {
        items.push(query(random, &procedures));
    }
    if random.chance(25) {
        random.shuffle(&mut items);
    }
    items.iter().map(|item| item.tokens(random)).collect()
}

/// One random clause, for texts that are to be broken.
pub fn some_clause(random: &mut Random) -> Item {
    let procedures = procedures(random);
    let procedure = procedures[random.below(procedures.len())].clone();
    clause(random, &procedure, &procedures)
}

/// One random query, for texts that are to be broken.
pub fn some_query(random: &mut Random) -> Item {
    let procedures = procedures(random);
    query(random, &procedures)
}

fn procedures(random: &mut Random) -> Vec<Procedure> {
    let mut known = PROCEDURES;
    random.shuffle(&mut known);
    let count = random.between(2, 4);
    known[..count].iter().map(|&(name, arity)| Procedure { name, modes: modes(random, arity) }).collect()
}

/// The last argument mostly gives, the others mostly take.
fn modes(random: &mut Random, arity: usize) -> Vec<Mode> {
    let mode = |random: &mut Random, last: bool| {
        let gives = if last { 65 } else { 20 };
        if random.chance(gives) {
            Mode::Gives
        } else {
            Mode::Takes
        }
    };
    (0..arity).map(|place| mode(random, place + 1 == arity)).collect()
}

fn clause(random: &mut Random, procedure: &Procedure, procedures: &[Procedure]) -> Item {
    let mut weaver = Weaver { random, pairs: Vec::new() };
    let head = weaver.head(procedure);
    let count = weaver.random.pick(&[0, 0, 0, 0, 1, 1, 1, 2, 2, 3]);
    let goals = weaver.goals(procedures, count);
    let closed = weaver.closed(Item { head: Some(head), guards: Vec::new(), goals });
    if random.chance(45) {
        guarded(random, closed, &[])
    } else {
        closed
    }
}

fn query(random: &mut Random, procedures: &[Procedure]) -> Item {
    let mut weaver = Weaver { random, pairs: Vec::new() };
    let count = if weaver.random.chance(5) { weaver.random.between(5, 8) } else { weaver.random.between(1, 4) };
    let mut goals = weaver.goals(procedures, count);
    weaver.random.shuffle(&mut goals);
    let item = Item { head: None, guards: Vec::new(), goals };
    if weaver.random.chance(50) {
        weaver.joined(item)
    } else {
        item
    }
}

/// Places the halves of an item's pairs, each at most once.
struct Weaver<'a> {
    random: &'a mut Random,
    pairs: Vec<Halves>,
}

impl Weaver<'_> {
    fn head(&mut self, procedure: &Procedure) -> Term {
        let arguments = procedure.modes.iter().map(|mode| self.head_argument(*mode)).collect();
        Term::Compound(procedure.name, arguments)
    }

    fn head_argument(&mut self, mode: Mode) -> Term {
        match mode {
            Mode::Takes => self.term(true, 2),
            Mode::Gives => self.term(false, 2),
        }
    }

    fn goals(&mut self, procedures: &[Procedure], count: usize) -> Vec<Term> {
        (0..count).map(|_| self.goal(procedures)).collect()
    }

    fn goal(&mut self, procedures: &[Procedure]) -> Term {
        if self.random.chance(3) {
            return Term::Compound("undefined", vec![self.term(false, 1)]);
        }
        let procedure = procedures[self.random.below(procedures.len())].clone();
        let arguments = procedure.modes.iter().map(|mode| self.goal_argument(*mode)).collect();
        Term::Compound(procedure.name, arguments)
    }

    fn goal_argument(&mut self, mode: Mode) -> Term {
        match mode {
            Mode::Takes => self.term(false, 2),
            Mode::Gives if self.random.chance(85) => self.half(true),
            Mode::Gives => self.term(true, 1),
        }
    }

    /// A term whose variables are mostly writers, or mostly readers.
    fn term(&mut self, writers: bool, depth: usize) -> Term {
        if depth == 0 || self.random.chance(50) {
            return self.leaf(writers);
        }
        match self.random.below(5) {
            0 => Term::Compound("f", vec![self.term(writers, depth - 1)]),
            1 => Term::Compound("f", vec![self.term(writers, depth - 1), self.leaf(writers)]),
            2 => Term::Compound("g", vec![self.leaf(writers), self.term(writers, depth - 1)]),
            _ => self.list(writers, depth),
        }
    }

    fn list(&mut self, writers: bool, depth: usize) -> Term {
        let count = self.random.pick(&[1, 1, 1, 2, 3]);
        let elements = (0..count).map(|_| self.term(writers, depth - 1)).collect();
        let tail = if self.random.chance(65) { Some(Box::new(self.leaf(writers))) } else { None };
        Term::List(elements, tail)
    }

    fn leaf(&mut self, writers: bool) -> Term {
        match self.random.below(100) {
            0..=64 => self.half(writers),
            65..=92 => Term::Constant(self.random.pick(&CONSTANTS)),
            _ => self.half(!writers),
        }
    }

    /// A writer or a reader, often of a pair whose other half stands already.
    fn half(&mut self, writer: bool) -> Term {
        let waiting: Vec<usize> = (0..self.pairs.len())
            .filter(|&pair| if writer { !self.pairs[pair].writer } else { !self.pairs[pair].reader })
            .collect();
        let known = !waiting.is_empty() && self.random.chance(60);
        let pair = if known {
            self.random.pick(&waiting)
        } else if self.pairs.len() < MOST_PAIRS {
            self.pairs.push(Halves::default());
            self.pairs.len() - 1
        } else {
            return Term::Constant("a");
        };
        if writer {
            self.pairs[pair].writer = true;
            Term::Writer(pair)
        } else {
            self.pairs[pair].reader = true;
            Term::Reader(pair)
        }
    }

    /// Pairs with one half alone, the n-th with its reader alone made one with the n-th with its writer alone.
    fn joined(&self, item: Item) -> Item {
        let (_, readers, writers) = self.alone();
        replaced(&item, &|term| match term {
            Term::Reader(pair) => match readers.iter().position(|other| other == pair) {
                Some(place) if place < writers.len() => Term::Reader(writers[place]),
                _ => term.clone(),
            },
            _ => term.clone(),
        })
    }

    /// A clause: joined, and each half that is still alone a constant.
    fn closed(&self, item: Item) -> Item {
        let (shared, readers, writers) = self.alone();
        replaced(&self.joined(item), &|term| match term {
            Term::Writer(pair) if writers.iter().skip(shared).any(|other| other == pair) => Term::Constant("a"),
            Term::Reader(pair) if readers.iter().skip(shared).any(|other| other == pair) => Term::Constant("a"),
            _ => term.clone(),
        })
    }

    /// How many pairs can be made one; the pairs with their reader alone; those with their writer alone.
    fn alone(&self) -> (usize, Vec<usize>, Vec<usize>) {
        let those = |test: &dyn Fn(&Halves) -> bool| -> Vec<usize> {
            (0..self.pairs.len()).filter(|&pair| test(&self.pairs[pair])).collect()
        };
        let readers = those(&|halves| halves.reader && !halves.writer);
        let writers = those(&|halves| halves.writer && !halves.reader);
        (readers.len().min(writers.len()), readers, writers)
    }
}

fn replaced(item: &Item, by: &impl Fn(&Term) -> Term) -> Item {
    Item {
        head: item.head.as_ref().map(|head| head.replaced(by)),
        guards: item.guards.iter().map(|guard| guard.replaced(by)).collect(),
        goals: item.goals.iter().map(|goal| goal.replaced(by)).collect(),
    }
}
