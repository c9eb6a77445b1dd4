//! The report writer: the run's line, then one section for each query.
//!
//! One pass both counts and keeps the bytes: they are kept as long as they fit the buffer, and counted on up to one
//! byte above the longest report. A compound that a section has written once is copied from there when it comes again
//! (its pairs have their numbers by then), and a chain of assigned readers is walked once, so the work is bounded by
//! what the run has built and not by what is written. Values may be deep: frames stand on a stack of their own.

use crate::machine::{Finished, Goal, Verdict};
use crate::words::{Kind, Word, EMPTY_LIST, LIST_CELL, UNASSIGNED};

/// The longest report of any buffer; 'the smaller of its length and 16,777,217 is returned'.
pub const LONGEST_REPORT: u32 = 16_777_216;

/// A report written: its length, up to one above the longest, and its bytes exactly if they fit the buffer.
#[derive(Clone, Debug, PartialEq, Eq)]
pub struct Written {
    pub length: u32,
    pub report: Option<Vec<u8>>,
}

/// Write the report of a run into a buffer of this many bytes.
pub fn write(finished: &Finished, buffer: u64) -> Written {
    let mut report = Report::new(finished, buffer.min(LONGEST_REPORT as u64) as usize);
    let within = report.whole();
    let length = report.length as u32;
    if within.is_err() {
        return Written { length: LONGEST_REPORT + 1, report: None };
    }
    let fits = length as u64 <= buffer;
    Written { length, report: fits.then_some(report.bytes) }
}

/// The report has passed the longest length.
struct TooLong;
type Writing = Result<(), TooLong>;

/// Where a compound's text stands in the report: a list's without its brackets. No text is empty.
#[derive(Clone, Copy, Default)]
struct Span {
    begin: u32,
    length: u32,
}

/// A compound being written: the argument that comes next, and where its text begins.
struct Frame {
    place: usize,
    next: usize,
    arity: usize,
    shape: Shape,
    begin: usize,
}

#[derive(Clone, Copy, PartialEq, Eq)]
enum Shape {
    Compound,
    List,
    /// A list that continues the one it is the tail of.
    Tail,
}

struct Report<'f> {
    finished: &'f Finished<'f>,
    /// Each pair's value, chains shortened as they are walked.
    values: Vec<Word>,
    /// Each pair's number, or 0, and the last number of the section. Queries share no pair and no compound, so what
    /// stands here comes from the section at hand.
    numbers: Vec<u32>,
    numbered: u32,
    /// For the place of each functor word: its text, if it has been written.
    spans: Vec<Span>,
    frames: Vec<Frame>,
    bytes: Vec<u8>,
    room: usize,
    length: usize,
}

impl<'f> Report<'f> {
    fn new(finished: &'f Finished<'f>, room: usize) -> Self {
        Report {
            finished,
            values: finished.pairs.iter().map(|pair| pair.value).collect(),
            numbers: vec![0; finished.pairs.len()],
            numbered: 0,
            spans: vec![Span::default(); finished.cells.len()],
            frames: Vec::new(),
            bytes: Vec::with_capacity(room.min(1_024)),
            room,
            length: 0,
        }
    }

    // Bytes.

    fn put(&mut self, bytes: &[u8]) -> Writing {
        if self.length + bytes.len() <= self.room {
            self.bytes.extend_from_slice(bytes);
        }
        self.count(bytes.len())
    }

    /// The text of a span once more.
    fn put_again(&mut self, span: Span) -> Writing {
        let (begin, length) = (span.begin as usize, span.length as usize);
        if self.length + length <= self.room {
            self.bytes.extend_from_within(begin..begin + length);
        }
        self.count(length)
    }

    fn count(&mut self, length: usize) -> Writing {
        self.length += length;
        if self.length > LONGEST_REPORT as usize {
            return Err(TooLong);
        }
        Ok(())
    }

    fn put_number(&mut self, number: u64) -> Writing {
        let mut digits = [0; 20];
        let mut begin = digits.len();
        let mut rest = number;
        loop {
            begin -= 1;
            digits[begin] = b'0' + (rest % 10) as u8;
            rest /= 10;
            if rest == 0 {
                return self.put(&digits[begin..]);
            }
        }
    }

    fn put_count(&mut self, label: &str, number: u64) -> Writing {
        self.put(label.as_bytes())?;
        self.put_number(number)
    }

    // Lines.

    /// 'First `run VERDICT steps N`', then each query's section.
    fn whole(&mut self) -> Writing {
        let verdict = match self.finished.verdict {
            Verdict::Rest => "run rest",
            Verdict::Budget => "run budget",
            Verdict::Room => "run room",
        };
        self.put(verdict.as_bytes())?;
        self.put_count(" steps ", self.finished.steps)?;
        self.put(b"\n")?;
        (0..self.finished.job.queries.len()).try_for_each(|query| self.section(query))
    }

    /// The counts line, the pairs' lines 'in order of first occurrence of either half', the goals' lines 'each group in
    /// the machine's order'.
    fn section(&mut self, query: usize) -> Writing {
        let finished = self.finished;
        self.numbered = 0;
        let own = |goals: &'f [Goal]| goals.iter().filter(move |goal| goal.query as usize == query);
        self.put_count("query ", query as u64 + 1)?;
        self.put_count(" tries ", finished.tries[query])?;
        self.put_count(" active ", own(&finished.active).count() as u64)?;
        self.put_count(" waiting ", own(&finished.waiting).count() as u64)?;
        self.put_count(" failed ", own(&finished.failed).count() as u64)?;
        self.put(b"\n")?;
        self.pair_lines(query)?;
        own(&finished.active).try_for_each(|goal| self.goal_line(b"active ", goal))?;
        own(&finished.waiting).try_for_each(|goal| self.goal_line(b"waiting ", goal))?;
        own(&finished.failed).try_for_each(|goal| self.goal_line(b"failed ", goal))
    }

    /// '`NAME = value`'; 'a query pair still unassigned is written as its writer'.
    fn pair_lines(&mut self, query: usize) -> Writing {
        let finished = self.finished;
        for (place, name) in finished.job.queries[query].variables.iter().enumerate() {
            self.put(name)?;
            self.put(b" = ")?;
            let pair = finished.first_pairs[query] + place;
            self.value(Word::new(Kind::Writer, pair as u32))?;
            self.put(b"\n")?;
        }
        Ok(())
    }

    /// 'Each active, waiting or failed line ends with ` from C at T`' (document 02, T-09).
    fn goal_line(&mut self, label: &[u8], goal: &Goal) -> Writing {
        self.put(label)?;
        self.value(Word::new(Kind::Compound, goal.place))?;
        self.put_count(" from ", goal.origin.clause as u64)?;
        self.put_count(" at ", goal.origin.tries)?;
        self.put(b"\n")
    }

    // Values.

    /// 'Values are written out with every assignment applied, no spaces, lists as `[a,b]` or `[a|T]`.'
    fn value(&mut self, term: Word) -> Writing {
        self.begin_term(term)?;
        while let Some(frame) = self.frames.last_mut() {
            let argument = frame.next;
            frame.next += 1;
            if argument > frame.arity {
                self.end_compound()?;
                continue;
            }
            let (term, shape) = (self.finished.cells[frame.place + argument], frame.shape);
            match (argument, shape) {
                (1, _) => self.begin_term(term)?,
                (_, Shape::Compound) => {
                    self.put(b",")?;
                    self.begin_term(term)?;
                }
                _ => self.begin_tail(term)?,
            }
        }
        Ok(())
    }

    fn begin_term(&mut self, term: Word) -> Writing {
        let end = self.followed(term);
        match end.kind() {
            Kind::Constant => self.put(self.finished.job.constants.spelling(end)),
            Kind::Writer | Kind::Reader => self.unassigned(end),
            Kind::Compound if self.is_cell(end) => {
                self.put(b"[")?;
                match self.span(end) {
                    Some(span) => {
                        self.put_again(span)?;
                        self.put(b"]")
                    }
                    None => self.begin_compound(end, Shape::List),
                }
            }
            Kind::Compound => match self.span(end) {
                Some(span) => self.put_again(span),
                None => self.begin_compound(end, Shape::Compound),
            },
        }
    }

    /// 'Tails followed': a cell goes on behind a comma, `[]` ends the list, anything else stands behind a bar.
    fn begin_tail(&mut self, term: Word) -> Writing {
        let end = self.followed(term);
        if end == EMPTY_LIST {
            return Ok(());
        }
        if end.kind() == Kind::Compound && self.is_cell(end) {
            self.put(b",")?;
            return match self.span(end) {
                Some(span) => self.put_again(span),
                None => self.begin_compound(end, Shape::Tail),
            };
        }
        self.put(b"|")?;
        self.begin_term(end)
    }

    fn begin_compound(&mut self, compound: Word, shape: Shape) -> Writing {
        let (begin, place) = (self.length, compound.index());
        let functor = self.finished.cells[place];
        self.frames.push(Frame { place, next: 1, arity: functor.arity(), shape, begin });
        if shape == Shape::Compound {
            let job = self.finished.job;
            self.put(job.constants.spelling(job.functors[functor.functor_number()].name))?;
            self.put(b"(")?;
        }
        Ok(())
    }

    fn end_compound(&mut self) -> Writing {
        let Some(Frame { place, shape, begin, .. }) = self.frames.pop() else {
            return Ok(());
        };
        if shape == Shape::Compound {
            self.put(b")")?;
        }
        self.spans[place] = Span { begin: begin as u32, length: (self.length - begin) as u32 };
        if shape == Shape::List {
            self.put(b"]")?;
        }
        Ok(())
    }

    fn is_cell(&self, compound: Word) -> bool {
        self.finished.cells[compound.index()].same_functor(LIST_CELL)
    }

    fn span(&self, compound: Word) -> Option<Span> {
        let span = self.spans[compound.index()];
        (span.length > 0).then_some(span)
    }

    /// 'An unassigned pair is `_1`, `_2`, .. in order of first appearance in the section, with `?` for its reader.'
    fn unassigned(&mut self, variable: Word) -> Writing {
        if self.numbers[variable.index()] == 0 {
            self.numbered += 1;
            self.numbers[variable.index()] = self.numbered;
        }
        self.put_count("_", self.numbers[variable.index()] as u64)?;
        match variable.kind() {
            Kind::Reader => self.put(b"?"),
            _ => Ok(()),
        }
    }

    /// The end of the chain of assigned pairs that begins here; each pair on it then leads there directly.
    fn followed(&mut self, term: Word) -> Word {
        let mut end = term;
        while let Some(value) = self.value_of(end) {
            end = value;
        }
        let mut link = term;
        while let Some(value) = self.value_of(link).filter(|value| *value != end) {
            self.values[link.index()] = end;
            link = value;
        }
        end
    }

    /// The value of an assigned variable.
    fn value_of(&self, term: Word) -> Option<Word> {
        if !term.is_variable() {
            return None;
        }
        Some(self.values[term.index()]).filter(|value| *value != UNASSIGNED)
    }
}
