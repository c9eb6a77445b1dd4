//! Jobs, and the machine that keeps what their calls are lent.

use crate::answer::{Answer, Refusal};
use crate::call::call_in_thread;
use crate::room::Room;
use crate::LONGEST_REPORT;

/// A job text and its figures.
#[derive(Clone, Copy, Debug)]
pub struct Job<'t> {
    /// Rules and queries. Bytes: a text need not be UTF-8.
    pub text: &'t [u8],
    /// The most steps, 0 to 1,000,000.
    pub budget: usize,
    /// What the run may use.
    pub room: Room,
    /// The longest report that is wanted, in bytes. A longer one is refused by [`Refusal::ReportLong`] with its length.
    pub longest_report: usize,
}

impl<'t> Job<'t> {
    /// A text with the program's figures: a budget of 10,000, room for 1,024 pairs, 1,024 compounds and 128 goals,
    /// reports up to 65,536 bytes.
    pub fn new<T: AsRef<[u8]> + ?Sized>(text: &'t T) -> Self {
        Job { text: text.as_ref(), budget: 10_000, room: Room::default(), longest_report: 65_536 }
    }

    /// The same job with another budget.
    ///
    /// ```
    /// use troscunel::{Job, Machine};
    ///
    /// let job = Job::new("go(X) :- go(X?).\n?- go(a).\n").budget(3);
    /// let report = Machine::new().run(&job).into_result().unwrap();
    /// assert!(report.starts_with(b"run budget steps 3\n"));
    /// ```
    pub fn budget(self, budget: usize) -> Self {
        Job { budget, ..self }
    }

    /// The same job with another room.
    pub fn room(self, room: Room) -> Self {
        Job { room, ..self }
    }

    /// The same job with another longest report.
    pub fn longest_report(self, longest_report: usize) -> Self {
        Job { longest_report, ..self }
    }
}

/// Runs jobs one after the other. It keeps scratch and report buffer between them, as large as the largest job has
/// needed.
///
/// An answer depends on its job alone: nothing of a job is left for the next one.
#[derive(Default)]
pub struct Machine {
    scratch: Vec<u64>,
    buffer: Vec<u8>,
}

impl Machine {
    /// A machine that holds no memory yet.
    pub fn new() -> Self {
        Machine::default()
    }

    /// Runs a job, in a thread of its own that has [`Room::stack`] bytes of stack. Starting it takes some microseconds.
    ///
    /// # Panics
    ///
    /// If the system gives no memory or no thread.
    pub fn run(&mut self, job: &Job<'_>) -> Answer {
        let words = job.room.need().unwrap_or(0);
        let bytes = job.longest_report.min(LONGEST_REPORT);
        let (scratch, buffer) = (at_least(&mut self.scratch, words), at_least(&mut self.buffer, bytes));
        let given = call_in_thread(job.text, job.budget, job.room, scratch, buffer);
        match Refusal::of(given, job.text) {
            Some(refusal) => Answer::Refused(refusal),
            None => Answer::Ran(buffer[..given.length].to_vec()),
        }
    }

    /// Reads and judges a text without running it.
    ///
    /// The call has a budget of 0; room for eight queries of 16 pairs, 32 compounds and 8 goals, which are the most that
    /// a text can have, so that 7 cannot come; and a buffer into which no report fits, so that 8 stands for a text
    /// without a fault, and for nothing else.
    ///
    /// ```
    /// use troscunel::Machine;
    ///
    /// assert!(Machine::new().check("go(X) :- go(X?).\n?- go(a).\n").is_ok());
    /// assert_eq!(Machine::new().check("go(X) :- go(a).\n?- go(a).\n").unwrap_err().number(), 9);
    /// ```
    ///
    /// # Panics
    ///
    /// As [`run`](Machine::run).
    pub fn check<T: AsRef<[u8]> + ?Sized>(&mut self, text: &T) -> Result<(), Refusal> {
        let room = Room { pairs: 8 * 16, compounds: 8 * 32, goals: 8 * 8 };
        match self.run(&Job::new(text).budget(0).room(room).longest_report(0)) {
            Answer::Ran(_) | Answer::Refused(Refusal::ReportLong { .. }) => Ok(()),
            Answer::Refused(refusal) => Err(refusal),
        }
    }
}

/// The first so many items, added where there are fewer.
fn at_least<T: Default + Clone>(kept: &mut Vec<T>, length: usize) -> &mut [T] {
    if kept.len() < length {
        kept.resize(length, T::default());
    }
    &mut kept[..length]
}
