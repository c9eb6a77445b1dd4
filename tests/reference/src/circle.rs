//! The circle test: 'with the new assignments added, if any pair would lean on itself through one or more links, the
//! trial fails'.
//!
//! There was no circle before, and the clause's own pairs are leaned on by head terms alone, so a new circle runs
//! through a pair of the goal that the trial assigns: the test starts at these and looks for these. Each is unseen, on
//! the path, or done. A compound from which no unassigned pair can be reached is marked closed and never entered again.

use crate::machine::Machine;
use crate::words::{Kind, Word};

#[derive(Clone, Copy, PartialEq, Eq, Debug)]
pub enum State {
    Unseen,
    OnPath,
    Done,
}

/// What is still to be visited; values may be deep, so the path is a stack of these.
#[derive(Clone, Copy, Debug)]
pub enum Visit {
    /// The assigned pair of this number.
    Pair(usize),
    LeavePair(usize),
    /// A term of the head.
    Head(Word),
    /// A term of the machine, followed.
    Term(Word),
    LeaveCompound(usize),
}

impl Machine<'_> {
    /// Whether the assignments of the trial make a circle.
    pub fn circle(&mut self) -> bool {
        if self.assignments.is_empty() {
            return false;
        }
        // Assignment n of this test is at turn `first + n`; pairs of earlier tests have smaller turns. A step's heads
        // have at most 16,384 places together and a run at most 131,070 steps, so turns stay below 2 to the 32.
        let first = self.turn;
        for assignment in &self.assignments {
            self.pairs[assignment.pair].turn = self.turn;
            self.turn += 1;
        }
        (0..self.assignments.len()).any(|number| self.circle_from(number, first))
    }

    fn circle_from(&mut self, number: usize, first: u32) -> bool {
        self.visits.clear();
        self.visits.push(Visit::Pair(number));
        while let Some(visit) = self.visits.pop() {
            match visit {
                Visit::Pair(number) => match self.assignments[number].state {
                    State::OnPath => return true,
                    State::Done => {}
                    State::Unseen => self.enter_pair(number),
                },
                Visit::LeavePair(number) => self.assignments[number].state = State::Done,
                Visit::Head(term) => self.visit_head(term),
                Visit::Term(term) => self.visit_term(term, first),
                Visit::LeaveCompound(place) => self.leave_compound(place),
            }
        }
        false
    }

    fn enter_pair(&mut self, number: usize) {
        self.assignments[number].state = State::OnPath;
        self.visits.push(Visit::LeavePair(number));
        self.visits.push(Visit::Head(self.assignments[number].head));
    }

    /// A variable of the clause leans on its value's pairs, if the trial gives it one.
    fn visit_head(&mut self, term: Word) {
        match term.kind() {
            Kind::Constant => {}
            Kind::Compound => {
                let (place, code) = (term.index(), &self.job.code);
                let arguments = &code[place + 1..=place + code[place].arity()];
                self.visits.extend(arguments.iter().map(|&argument| Visit::Head(argument)));
            }
            Kind::Writer | Kind::Reader => {
                if self.bound_bits & 1 << term.index() != 0 {
                    self.visits.push(Visit::Term(self.bound[term.index()]));
                }
            }
        }
    }

    /// 'Pair i leans on pair j if i's value holds j's writer or reader.' Assigned pairs are followed through.
    fn visit_term(&mut self, term: Word, first: u32) {
        match term.kind() {
            Kind::Constant => {}
            Kind::Compound => self.enter_compound(term.index()),
            Kind::Writer | Kind::Reader => {
                let turn = self.pairs[term.index()].turn;
                if turn >= first {
                    self.visits.push(Visit::Pair((turn - first) as usize));
                }
            }
        }
    }

    /// Its arguments are visited from the left, and then it is left.
    pub fn enter_compound(&mut self, place: usize) {
        let functor = self.cells[place];
        if functor.is_closed() {
            return;
        }
        self.visits.push(Visit::LeaveCompound(place));
        for argument in (1..=functor.arity()).rev() {
            let term = self.followed(place + argument);
            if !self.is_closed(term) {
                self.visits.push(Visit::Term(term));
            }
        }
    }

    pub fn leave_compound(&mut self, place: usize) {
        let functor = self.cells[place];
        if (1..=functor.arity()).all(|argument| self.is_closed(self.cells[place + argument])) {
            self.cells[place] = functor.closed();
        }
    }

    /// Whether no unassigned pair can be reached from this term, as far as is known.
    fn is_closed(&self, term: Word) -> bool {
        match term.kind() {
            Kind::Constant => true,
            Kind::Compound => self.cells[term.index()].is_closed(),
            Kind::Writer | Kind::Reader => false,
        }
    }
}
