//! A trial: the clause's head is compared with the goal, then its guards are asked; it succeeds, waits on one or more
//! readers, or fails.
//!
//! Nothing is built and no pair is assigned during a trial, so it reads 'the values as they were before the step'. The
//! clause is renamed apart by its indexes alone: what its variables get stands in `bound`, what the goal's pairs get
//! stands in `assignments`, as terms of the head. Recursion is over the head, which has 32 compounds at most.

use crate::job::Clause;
use crate::machine::{Machine, Pair};
use crate::words::{Kind, Word, UNASSIGNED};

/// 'Each trial of a clause gives one of three results.'
#[derive(Clone, Copy, PartialEq, Eq, Debug)]
pub enum Trial {
    Succeeds,
    /// On the readers of the pairs that the trial has added to the step's `awaited`, or with those of earlier clauses.
    Waits,
    Fails,
}

/// A pair of the goal that the trial assigns a term of the head.
#[derive(Clone, Copy, Debug)]
pub struct Assignment {
    pub pair: usize,
    pub head: Word,
    pub state: crate::circle::State,
}

/// 'A goal term that is an assigned variable is followed to its value, again and again.'
#[inline]
fn follow(pairs: &[Pair], mut term: Word) -> Word {
    while term.is_variable() {
        let value = pairs[term.index()].value;
        if value == UNASSIGNED {
            break;
        }
        term = value;
    }
    term
}

impl Machine<'_> {
    /// 'Any failing place fails the trial, and otherwise the trial waits on every reader needed' (document 02, T-03).
    /// 'The circle test follows', where all places agree, and the guards come 'after the circle test' (T-02).
    pub fn trial(&mut self, clause: &Clause, goal: usize) -> Trial {
        self.bound_bits = 0;
        self.assignments.clear();
        let earlier = self.awaited.len();
        if !self.compare_arguments(clause.head, goal) {
            self.awaited.truncate(earlier);
            return Trial::Fails;
        }
        if self.awaited.len() > earlier {
            return Trial::Waits;
        }
        if self.circle() {
            Trial::Fails
        } else {
            self.ask(&clause.guards)
        }
    }

    /// The term at this place, followed; the place keeps what was found, so no chain is walked from it twice.
    #[inline]
    pub fn followed(&mut self, place: usize) -> Word {
        let term = self.cells[place];
        if !term.is_variable() {
            return term;
        }
        let end = follow(&self.pairs, term);
        self.cells[place] = end;
        end
    }

    /// 'The comparison shall go through all places': the arguments from left to right and depth first, whether or not
    /// places wait. Answers false at a failing place; what is behind it can change nothing.
    fn compare_arguments(&mut self, head: usize, goal: usize) -> bool {
        (1..=self.job.code[head].arity()).all(|argument| {
            let head_term = self.job.code[head + argument];
            let goal_term = self.followed(goal + argument);
            self.compare(head_term, goal_term)
        })
    }

    /// The table of document 01, false where a place fails. A variable on the goal's side is unassigned here.
    #[inline]
    fn compare(&mut self, head: Word, goal: Word) -> bool {
        use Kind::{Compound, Constant, Reader, Writer};
        match (head.kind(), goal.kind()) {
            (Writer, Writer) => return false,
            (Writer, _) => self.bind(head, goal),
            (_, Writer) => self.give(goal, head),
            (Reader, _) => return false,
            (_, Reader) => self.awaited.push(goal.index()),
            (Constant, Constant) => return head == goal,
            (Compound, Compound) if self.same_functor(head, goal) => {
                return self.compare_arguments(head.index(), goal.index())
            }
            _ => return false,
        }
        true
    }

    /// X := the goal's term.
    #[inline]
    fn bind(&mut self, head: Word, goal: Word) {
        self.bound[head.index() & 15] = goal;
        self.bound_bits |= 1 << head.index();
    }

    /// Z := the head's term.
    #[inline]
    fn give(&mut self, goal: Word, head: Word) {
        let state = crate::circle::State::Unseen;
        self.assignments.push(Assignment { pair: goal.index(), head, state });
    }

    #[inline]
    fn same_functor(&self, head: Word, goal: Word) -> bool {
        self.cells[goal.index()].same_functor(self.job.code[head.index()])
    }
}
