//! Guards: 'each guard in order succeeds, waits on the readers it needs, or fails, up to the first that doesn't
//! succeed' (document 02, T-02).
//!
//! '`X?` is read as what the head gave X, all else as before the step': a guard's term stands in the code, and where a
//! reader stands there it goes on with the goal's term in `bound`. Recursion is over the term in the code, which has 32
//! compounds at most. The goal's terms may be deep, and their written-out size may double with each step, since a
//! ground value may stand several times: they are walked with a stack, no compound that is ground is entered twice, and
//! two ground compounds are equal exactly if they are of one class.

use std::collections::HashMap;

use crate::circle::Visit;
use crate::job::{Guard, Test};
use crate::machine::Machine;
use crate::trial::Trial;
use crate::words::{Kind, Word, UNASSIGNED};

/// A term as a guard reads it.
#[derive(Clone, Copy)]
enum Term {
    /// A compound written in the guard: the place of its functor word in the code.
    Written(usize),
    /// A constant, or a term of the machine, followed.
    Given(Word),
}

/// 'Where the head gave X nothing, `X?` counts as an unassigned writer': nothing is asked of its pair.
const WRITER: Word = Word::new(Kind::Writer, 0);

/// The classes of equal ground compounds. What is ground keeps its value, so a class found stays.
#[derive(Default)]
pub struct Equality {
    /// For the place of each functor word in the machine: the first compound of its class.
    classes: Vec<Word>,
    /// The first compound with this functor and arguments of these classes.
    firsts: HashMap<[Word; 7], Word>,
}

impl Equality {
    /// A constant is a class of its own.
    fn class_of(&self, term: Word) -> Option<Word> {
        match term.kind() {
            Kind::Compound => Some(self.classes[term.index()]).filter(|class| *class != UNASSIGNED),
            _ => Some(term),
        }
    }
}

impl Machine<'_> {
    pub fn ask(&mut self, guards: &[Guard]) -> Trial {
        for guard in guards {
            match self.guard(guard) {
                Trial::Succeeds => {}
                other => return other,
            }
        }
        Trial::Succeeds
    }

    fn guard(&mut self, guard: &Guard) -> Trial {
        let argument = |number: usize| self.as_given(guard.arguments[number]);
        match guard.test {
            // 'Succeeds exactly if every earlier clause of the procedure failed, and else waits with the earlier ones':
            // each of them that waits has a reader.
            Test::Otherwise if self.awaited.is_empty() => Trial::Succeeds,
            Test::Otherwise => Trial::Waits,
            Test::Ground => self.ground(argument(0)),
            Test::Equal => self.equal(argument(0), argument(1)),
            test => self.is_of_kind(argument(0), test),
        }
    }

    fn as_given(&self, term: Word) -> Term {
        match term.kind() {
            Kind::Compound => Term::Written(term.index()),
            Kind::Constant => Term::Given(term),
            _ if self.bound_bits & 1 << term.index() != 0 => Term::Given(self.bound[term.index()]),
            _ => Term::Given(WRITER),
        }
    }

    /// integer, constant, compound and known, which 'fail on an unassigned writer'.
    fn is_of_kind(&mut self, term: Term, test: Test) -> Trial {
        let holds = match term {
            Term::Written(_) => matches!(test, Test::Compound | Test::Known),
            Term::Given(word) => match word.kind() {
                Kind::Reader => {
                    self.awaited.push(word.index());
                    return Trial::Waits;
                }
                Kind::Writer => false,
                Kind::Compound => matches!(test, Test::Compound | Test::Known),
                Kind::Constant => match test {
                    Test::Integer => self.job.constants.is_integer(word),
                    _ => matches!(test, Test::Constant | Test::Known),
                },
            },
        };
        if holds {
            Trial::Succeeds
        } else {
            Trial::Fails
        }
    }

    /// 'Ground fails on an unassigned writer, else waits on every unassigned reader.'
    fn ground(&mut self, term: Term) -> Trial {
        let earlier = self.awaited.len();
        if self.unassigned(term, |kind| kind == Kind::Writer).is_some() {
            self.awaited.truncate(earlier);
            return Trial::Fails;
        }
        if self.awaited.len() > earlier {
            Trial::Waits
        } else {
            Trial::Succeeds
        }
    }

    /// '`==` compares two written-out ground terms; else the first unassigned variable from the left decides, a reader
    /// waits and a writer fails.'
    fn equal(&mut self, left: Term, right: Term) -> Trial {
        let first = self.unassigned(left, |_| true).or_else(|| self.unassigned(right, |_| true));
        match first {
            Some(reader) if reader.kind() == Kind::Reader => {
                self.awaited.push(reader.index());
                Trial::Waits
            }
            None if self.same(left, right) => Trial::Succeeds,
            _ => Trial::Fails,
        }
    }

    /// The first unassigned variable from the left, depth first, of a kind that stops. Readers passed over are awaited.
    fn unassigned(&mut self, term: Term, stops: fn(Kind) -> bool) -> Option<Word> {
        match term {
            Term::Given(word) => self.unassigned_in(word, stops),
            Term::Written(place) => (1..=self.job.code[place].arity())
                .find_map(|argument| self.unassigned(self.as_given(self.job.code[place + argument]), stops)),
        }
    }

    fn unassigned_in(&mut self, term: Word, stops: fn(Kind) -> bool) -> Option<Word> {
        self.visits.clear();
        self.visits.push(Visit::Term(term));
        while let Some(visit) = self.visits.pop() {
            match visit {
                Visit::Term(term) if !term.is_variable() => {
                    if term.kind() == Kind::Compound {
                        self.enter_compound(term.index());
                    }
                }
                Visit::Term(variable) if stops(variable.kind()) => return Some(variable),
                Visit::Term(reader) => self.awaited.push(reader.index()),
                Visit::LeaveCompound(place) => self.leave_compound(place),
                Visit::Pair(_) | Visit::LeavePair(_) | Visit::Head(_) => {}
            }
        }
        None
    }

    /// Whether two ground terms are equal: 'same constant, or same functor and count and equal arguments'.
    fn same(&mut self, left: Term, right: Term) -> bool {
        match (left, right) {
            (Term::Given(left), Term::Given(right)) => self.class(left) == self.class(right),
            _ => match (self.functor_of(left), self.functor_of(right)) {
                (Some(functor), Some(other)) if functor.same_functor(other) => (1..=functor.arity()).all(|number| {
                    let (left, right) = (self.argument(left, number), self.argument(right, number));
                    self.same(left, right)
                }),
                _ => false,
            },
        }
    }

    fn functor_of(&self, term: Term) -> Option<Word> {
        match term {
            Term::Written(place) => Some(self.job.code[place]),
            Term::Given(word) if word.kind() == Kind::Compound => Some(self.cells[word.index()]),
            Term::Given(_) => None,
        }
    }

    fn argument(&mut self, term: Term, number: usize) -> Term {
        match term {
            Term::Written(place) => self.as_given(self.job.code[place + number]),
            Term::Given(word) => Term::Given(self.followed(word.index() + number)),
        }
    }

    /// The class of a ground term. Each compound below it is given its class once.
    fn class(&mut self, term: Word) -> Word {
        self.equality.classes.resize(self.cells.len(), UNASSIGNED);
        let mut path = vec![term];
        loop {
            let Some(&last) = path.last() else {
                return self.equality.class_of(term).unwrap_or(term);
            };
            if self.equality.class_of(last).is_some() || self.join_class(last, &mut path) {
                path.pop();
            }
        }
    }

    /// Give a compound its class, if its arguments have theirs. Those that have none join the path first.
    fn join_class(&mut self, compound: Word, path: &mut Vec<Word>) -> bool {
        let (place, before) = (compound.index(), path.len());
        let functor = self.cells[place];
        let mut key = [UNASSIGNED; 7];
        key[0] = Word::functor(functor.functor_number() as u32, functor.arity() as u32);
        for argument in 1..=functor.arity() {
            let term = self.followed(place + argument);
            match self.equality.class_of(term) {
                Some(class) => key[argument] = class,
                None => path.push(term),
            }
        }
        if path.len() > before {
            return false;
        }
        self.equality.classes[place] = *self.equality.firsts.entry(key).or_insert(compound);
        true
    }
}
