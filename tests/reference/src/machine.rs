//! The machine: 'the goals of all queries, in text order, form the queue', and one step after the other takes the goal
//! at the front, until the queue is empty, the steps equal the budget, or a reduction does not fit.
//!
//! Compounds stand one behind the other in `cells` and are never given back. A variable that the head has bound takes
//! no pair: its reader is replaced by its value wherever the clause uses it, which no report can show; where it does so
//! several times, the value is ground, and shared. What a reduction charges is counted apart, 'the whole item'.

use std::collections::VecDeque;

use crate::job::{Clause, Goals, Job};
use crate::trial::{Assignment, Trial};
use crate::words::{Kind, Word, UNASSIGNED};

/// The three room figures.
#[derive(Clone, Copy, Debug)]
pub struct Room {
    pub pairs: u64,
    pub compounds: u64,
    pub goals: u64,
}

/// Why a run ended.
#[derive(Clone, Copy, Debug, PartialEq, Eq)]
pub enum Verdict {
    Rest,
    Budget,
    Room,
}

/// A run that has ended: all that the report shows.
#[derive(Debug)]
pub struct Finished<'j> {
    pub(crate) job: &'j Job,
    pub(crate) verdict: Verdict,
    pub(crate) steps: u64,
    /// For each query its tries and its first pair.
    pub(crate) tries: Vec<u64>,
    pub(crate) first_pairs: Vec<usize>,
    pub(crate) cells: Vec<Word>,
    pub(crate) pairs: Vec<Pair>,
    /// In the machine's order.
    pub(crate) active: Vec<Goal>,
    pub(crate) waiting: Vec<Goal>,
    pub(crate) failed: Vec<Goal>,
}

impl Finished<'_> {
    pub fn verdict(&self) -> Verdict {
        self.verdict
    }

    pub fn steps(&self) -> u64 {
        self.steps
    }
}

/// A goal: the place of its functor word in `cells`, the query that it comes from, and what made it.
#[derive(Clone, Copy, Debug)]
pub(crate) struct Goal {
    pub place: u32,
    pub query: u32,
    pub origin: Origin,
}

/// 'Each goal shall carry the clause that made it (0 for the query) and its own query's number of tries when it was
/// made, the step that made it counted' (document 02, T-09). Nothing renews it.
#[derive(Clone, Copy, Debug)]
pub(crate) struct Origin {
    pub clause: u32,
    pub tries: u64,
}

/// What made the goals of a query: no clause, and no try before them.
const QUERY: Origin = Origin { clause: 0, tries: 0 };

/// A pair of writer and reader.
#[derive(Clone, Copy, Debug)]
pub(crate) struct Pair {
    pub value: Word,
    /// The number of the wait that ends when the pair is assigned, or 0. One is enough: the reader of an unassigned
    /// pair occurs at most once among the goals.
    wait: u32,
    /// The circle test that assigned it last, see there.
    pub turn: u32,
}

/// One goal's wait. Waits are numbered from 1 in the order in which they began.
struct Wait {
    goal: Goal,
    over: bool,
}

/// The state of a run. Marks are never cleared: a wait is over, a turn is past.
pub(crate) struct Machine<'j> {
    pub job: &'j Job,
    room: Room,
    /// All compounds and goals built so far, see `words`.
    pub cells: Vec<Word>,
    pub pairs: Vec<Pair>,
    charged_pairs: u64,
    charged_compounds: u64,
    queue: VecDeque<Goal>,
    waits: Vec<Wait>,
    /// How many of the waits are not over.
    waiting: usize,
    failed: Vec<Goal>,
    steps: u64,
    tries: Vec<u64>,
    // The trial at hand: what it gives the clause's variables (where the bit is set) and the goal's pairs.
    pub bound: [Word; 16],
    pub bound_bits: u32,
    pub assignments: Vec<Assignment>,
    pub visits: Vec<crate::circle::Visit>,
    pub turn: u32,
    /// The equality of compounds, see `guards`.
    pub equality: crate::guards::Equality,
    // The step at hand: the pairs whose readers its trials wait on, a pair perhaps more than once, and the waits that
    // are over.
    pub awaited: Vec<usize>,
    woken: Vec<u32>,
}

/// Run a job, or answer `None` where 'the queries alone pass a room figure' (number 7).
pub fn run<'j>(job: &'j Job, budget: u64, room: Room) -> Option<Finished<'j>> {
    let total = |count: fn(&Goals) -> usize| job.queries.iter().map(|query| count(&query.body) as u64).sum::<u64>();
    if total(|goals| goals.pairs) > room.pairs
        || total(|goals| goals.compounds) > room.compounds
        || total(|goals| goals.places.len()) > room.goals
    {
        return None;
    }
    let mut machine = Machine::new(job, room);
    let first_pairs = machine.begin();
    let verdict = machine.take_steps(budget);
    Some(machine.finish(verdict, first_pairs))
}

impl<'j> Machine<'j> {
    fn new(job: &'j Job, room: Room) -> Self {
        Machine {
            job,
            room,
            cells: Vec::with_capacity(256),
            pairs: Vec::with_capacity(64),
            charged_pairs: 0,
            charged_compounds: 0,
            queue: VecDeque::with_capacity(16),
            waits: Vec::new(),
            waiting: 0,
            failed: Vec::new(),
            steps: 0,
            tries: vec![0; job.queries.len()],
            bound: [UNASSIGNED; 16],
            bound_bits: 0,
            assignments: Vec::new(),
            visits: Vec::new(),
            turn: 1,
            equality: crate::guards::Equality::default(),
            awaited: Vec::new(),
            woken: Vec::new(),
        }
    }

    /// Charge the queries and form the queue. Answers each query's first pair.
    fn begin(&mut self) -> Vec<usize> {
        let job = self.job;
        let mut first_pairs = Vec::new();
        for (number, query) in job.queries.iter().enumerate() {
            first_pairs.push(self.pairs.len());
            self.bound_bits = 0;
            self.rename(&query.body);
            self.add_goals(&query.body, number as u32, QUERY);
        }
        first_pairs
    }

    /// 'Before each step, in this order: queue empty, the run ends `rest`; steps equal the budget, `budget`; the step
    /// would be a reduction that doesn't fit, `room`.'
    fn take_steps(&mut self, budget: u64) -> Verdict {
        loop {
            let Some(&goal) = self.queue.front() else {
                return Verdict::Rest;
            };
            if self.steps == budget {
                return Verdict::Budget;
            }
            let taken = self.taken_clause(goal);
            // 'With the goal still in front and nothing counted.'
            if taken.is_some_and(|clause| !self.fits(&clause.body)) {
                return Verdict::Room;
            }
            self.steps += 1;
            self.tries[goal.query as usize] += 1;
            match taken {
                Some(clause) => self.reduce(goal, clause),
                None => self.wait_or_fail(goal),
            }
        }
    }

    /// 'The first clause that succeeds is taken, also when an earlier one waits.' The awaited pairs are kept.
    fn taken_clause(&mut self, goal: Goal) -> Option<&'j Clause> {
        let job = self.job;
        let place = goal.place as usize;
        let procedure = job.functors[self.cells[place].functor_number()].clauses.clone();
        self.awaited.clear();
        for clause in &job.clauses[procedure] {
            match self.trial(clause, place) {
                Trial::Succeeds => return Some(clause),
                Trial::Waits | Trial::Fails => {}
            }
        }
        None
    }

    /// 'A reduction doesn't fit exactly if the pairs or compounds charged would pass their figure, or if active,
    /// waiting and failed goals together would number more than the goal figure after it.'
    fn fits(&self, item: &Goals) -> bool {
        let goals = self.queue.len() + self.waiting + self.failed.len() - 1 + item.places.len();
        self.charged_pairs + item.pairs as u64 <= self.room.pairs
            && self.charged_compounds + item.compounds as u64 <= self.room.compounds
            && goals as u64 <= self.room.goals
    }

    /// 'The queue is the rest, then the body goals in order, then every waiting goal that waits on a pair assigned in
    /// this step, in the order in which they began to wait.' The step is counted by now.
    fn reduce(&mut self, goal: Goal, clause: &Clause) {
        self.queue.pop_front();
        self.rename(&clause.body);
        self.assign();
        let origin = Origin { clause: clause.number, tries: self.tries[goal.query as usize] };
        self.add_goals(&clause.body, goal.query, origin);
        self.wake();
    }

    /// 'If none succeeds and at least one waits, the goal joins the end of the waiting goals with the set of all those
    /// readers. If all fail, or no clause exists, it joins the end of the failed goals.'
    fn wait_or_fail(&mut self, goal: Goal) {
        self.queue.pop_front();
        if self.awaited.is_empty() {
            self.failed.push(goal);
            return;
        }
        self.waits.push(Wait { goal, over: false });
        self.waiting += 1;
        for &pair in &self.awaited {
            self.pairs[pair].wait = self.waits.len() as u32;
        }
    }

    /// Charge an item and give each of its variables that is not bound a pair of its own.
    fn rename(&mut self, item: &Goals) {
        self.charged_pairs += item.pairs as u64;
        self.charged_compounds += item.compounds as u64;
        let mut unbound = !self.bound_bits & ((1 << item.pairs) - 1);
        while unbound != 0 {
            let variable = unbound.trailing_zeros() as usize;
            unbound &= unbound - 1;
            self.bound[variable] = Word::new(Kind::Reader, self.pairs.len() as u32);
            self.pairs.push(Pair { value: UNASSIGNED, wait: 0, turn: 0 });
        }
    }

    /// Give each pair of the goal that the trial assigns its value. Of the head only these values are built.
    fn assign(&mut self) {
        for number in 0..self.assignments.len() {
            let Assignment { pair, head, .. } = self.assignments[number];
            self.pairs[pair].value = match head.kind() {
                Kind::Compound => {
                    let begin = self.job.block_begins[head.index()] as usize;
                    let distance = self.copy(begin..head.index() + self.job.code[head.index()].arity() + 1);
                    head.moved(distance)
                }
                Kind::Reader => self.bound[head.index()],
                _ => head,
            };
            self.end_wait(self.pairs[pair].wait);
        }
    }

    fn end_wait(&mut self, number: u32) {
        if number != 0 && !self.waits[number as usize - 1].over {
            self.waits[number as usize - 1].over = true;
            self.woken.push(number);
        }
    }

    fn wake(&mut self) {
        self.woken.sort_unstable();
        self.waiting -= self.woken.len();
        for &number in &self.woken {
            self.queue.push_back(self.waits[number as usize - 1].goal);
        }
        self.woken.clear();
    }

    fn add_goals(&mut self, item: &Goals, query: u32, origin: Origin) {
        let distance = self.copy(item.block.clone());
        for place in &self.job.goals[item.places.clone()] {
            self.queue.push_back(Goal { place: place.wrapping_add(distance), query, origin });
        }
    }

    /// Copy a block of code to the end of the cells, its variables replaced. Answers how far it moved.
    fn copy(&mut self, block: std::ops::Range<usize>) -> u32 {
        let distance = (self.cells.len() as u32).wrapping_sub(block.start as u32);
        let bound = self.bound;
        self.cells.extend(self.job.code[block].iter().map(|&word| match word.kind() {
            Kind::Constant => word,
            Kind::Compound => word.moved(distance),
            Kind::Writer => bound[word.index() & 15].writer_of_reader(),
            Kind::Reader => bound[word.index() & 15],
        }));
        distance
    }

    fn finish(self, verdict: Verdict, first_pairs: Vec<usize>) -> Finished<'j> {
        let waiting = self.waits.iter().filter(|wait| !wait.over).map(|wait| wait.goal);
        Finished {
            job: self.job,
            verdict,
            steps: self.steps,
            tries: self.tries,
            first_pairs,
            waiting: waiting.collect(),
            active: self.queue.into(),
            failed: self.failed,
            cells: self.cells,
            pairs: self.pairs,
        }
    }
}
