//! What a call answers, in words.

use std::fmt;

use crate::call::Given;
use crate::shown::Place;

/// The answer to a job: every job has one.
#[derive(Clone, Debug, PartialEq, Eq)]
pub enum Answer {
    /// The job ran, and this is its report. Its first line says why the run ended and after how many steps;
    /// [`Report::of`](crate::Report::of) reads it and its sections.
    Ran(Vec<u8>),
    /// The job was refused; nothing of a report was written.
    Refused(Refusal),
}

impl Answer {
    /// The report, if the job ran.
    pub fn report(&self) -> Option<&[u8]> {
        match self {
            Answer::Ran(report) => Some(report),
            Answer::Refused(_) => None,
        }
    }

    /// Document 01's number: 0 for a job that ran.
    pub fn number(&self) -> u32 {
        match self {
            Answer::Ran(_) => 0,
            Answer::Refused(refusal) => refusal.number(),
        }
    }

    /// The report or the refusal, for `?`.
    ///
    /// ```
    /// use troscunel::{Job, Machine, Refusal};
    ///
    /// fn report_of(text: &str) -> Result<Vec<u8>, Refusal> {
    ///     Machine::new().run(&Job::new(text)).into_result()
    /// }
    /// assert_eq!(report_of("p(a).\n"), Err(Refusal::NoQuery));
    /// ```
    pub fn into_result(self) -> Result<Vec<u8>, Refusal> {
        match self {
            Answer::Ran(report) => Ok(report),
            Answer::Refused(refusal) => Err(refusal),
        }
    }
}

/// Why a job was refused. Its `Display` is for people: what is wrong, and where the text is at fault row and column, the
/// line and a caret. [`in_file`](Refusal::in_file) sets a file's name before it.
///
/// ```
/// use troscunel::{Job, Machine};
///
/// let refusal = Machine::new().run(&Job::new("p(a).\nmerge(X,[],Ys,Ys?).\n")).into_result().unwrap_err();
/// assert_eq!((refusal.number(), refusal.line(), refusal.offset(), refusal.column()), (9, 2, 12, 7));
/// assert_eq!(
///     refusal.in_file("job.glp").to_string(),
///     "job.glp:2:7: the writer X has no reader\n\
///      merge(X,[],Ys,Ys?).\n\
///      \u{20}     ^"
/// );
/// ```
#[derive(Clone, Debug, PartialEq, Eq, Hash)]
pub enum Refusal {
    /// 1: the budget is over 1,000,000, or a room figure is not 1 to 65,535.
    OutOfRange,
    /// 2: the scratch is shorter than the room needs. A [`Machine`](crate::Machine) never gives it.
    ScratchShort,
    /// 3: the text is longer than 16,384 bytes.
    TextLong,
    /// 4: no item can be read: the token that begins here cannot stand here, or the text ends here.
    NoItem(Place),
    /// 5: the writer or reader that is spelled here stands a second time in its item.
    Twice(Place),
    /// 6: an item passes a figure, as 16 variable pairs or 32 compounds an item.
    Figure {
        /// Where the item begins.
        line: usize,
    },
    /// 6 with the line 0: the text has no query.
    NoQuery,
    /// 7: the queries alone pass a room figure.
    QueriesPassRoom,
    /// 8: the report is longer than was asked for, or than [`LONGEST_REPORT`](crate::LONGEST_REPORT).
    ReportLong {
        /// How long it is; 16,777,217 stands for all that is longer than the longest.
        length: usize,
    },
    /// 9: the writer that is spelled here has no reader in its clause.
    WriterAlone(Place),
    /// 10: the reader that is spelled here has no writer in its clause.
    ReaderAlone(Place),
    /// 11: a guard is not in the table, or has a variable that is no reader of a writer in the head of its clause.
    GuardRefused {
        /// Where the clause begins.
        line: usize,
    },
}

impl Refusal {
    /// The documents' number, 1 to 11.
    pub fn number(&self) -> u32 {
        match self {
            Refusal::OutOfRange => 1,
            Refusal::ScratchShort => 2,
            Refusal::TextLong => 3,
            Refusal::NoItem(_) => 4,
            Refusal::Twice(_) => 5,
            Refusal::Figure { .. } | Refusal::NoQuery => 6,
            Refusal::QueriesPassRoom => 7,
            Refusal::ReportLong { .. } => 8,
            Refusal::WriterAlone(_) => 9,
            Refusal::ReaderAlone(_) => 10,
            Refusal::GuardRefused { .. } => 11,
        }
    }

    /// Where the text is at fault; of 4, 5, 9 and 10 alone.
    pub fn place(&self) -> Option<&Place> {
        match self {
            Refusal::NoItem(place)
            | Refusal::Twice(place)
            | Refusal::WriterAlone(place)
            | Refusal::ReaderAlone(place) => Some(place),
            _ => None,
        }
    }

    /// Document 01's line: counted from 1, and 0 where there is none.
    pub fn line(&self) -> usize {
        match self {
            Refusal::Figure { line } | Refusal::GuardRefused { line } => *line,
            _ => self.place().map_or(0, |place| place.line),
        }
    }

    /// Document 02's byte offset: counted from 0 over the whole text, and 0 where there is none.
    pub fn offset(&self) -> usize {
        self.place().map_or(0, |place| place.offset)
    }

    /// The offset's place in its line, counted from 1 in bytes, and 0 where there is none.
    pub fn column(&self) -> usize {
        self.place().map_or(0, |place| place.column)
    }

    /// The refusal as a message on a file, as editors and people know it from compilers: `job.glp:40:7: ..`.
    pub fn in_file<'r>(&'r self, name: &'r str) -> impl fmt::Display + 'r {
        InFile { name, refusal: self }
    }

    /// What was given for a text, unless it is no refusal.
    pub(crate) fn of(given: Given, text: &[u8]) -> Option<Refusal> {
        let Given { number, line, length, offset } = given;
        let place = || Place::of(text, line, offset);
        Some(match (number, line) {
            (1, _) => Refusal::OutOfRange,
            (2, _) => Refusal::ScratchShort,
            (3, _) => Refusal::TextLong,
            (4, _) => Refusal::NoItem(place()),
            (5, _) => Refusal::Twice(place()),
            (6, 0) => Refusal::NoQuery,
            (6, line) => Refusal::Figure { line },
            (7, _) => Refusal::QueriesPassRoom,
            (8, _) => Refusal::ReportLong { length },
            (9, _) => Refusal::WriterAlone(place()),
            (10, _) => Refusal::ReaderAlone(place()),
            (11, line) => Refusal::GuardRefused { line },
            _ => return None,
        })
    }

    /// What is wrong, in one sentence.
    fn sentence(&self) -> String {
        match self {
            Refusal::OutOfRange => "the budget is over 1,000,000, or a room figure is not 1 to 65,535".into(),
            Refusal::ScratchShort => "the scratch is shorter than the room needs".into(),
            Refusal::TextLong => "the text is longer than 16,384 bytes".into(),
            Refusal::NoItem(place) if place.at_end => "the text ends here, inside an item".into(),
            Refusal::NoItem(_) => "this cannot stand here".into(),
            Refusal::Twice(Place { variable, .. }) => {
                let half = if variable.ends_with('?') { "reader" } else { "writer" };
                format!("the {half} {variable} occurs a second time")
            }
            Refusal::Figure { .. } => "the item that begins here passes a figure (docs/LIMITS.md has them)".into(),
            Refusal::NoQuery => "the text has no query".into(),
            Refusal::QueriesPassRoom => "the queries alone pass a room figure".into(),
            Refusal::ReportLong { length } if *length > crate::LONGEST_REPORT => {
                "the report is longer than 16,777,216 bytes".into()
            }
            Refusal::ReportLong { length } => format!("the report has {length} bytes, more than were asked for"),
            Refusal::WriterAlone(Place { variable, .. }) => format!("the writer {variable} has no reader"),
            Refusal::ReaderAlone(Place { variable, .. }) => format!("the reader {variable} has no writer"),
            Refusal::GuardRefused { .. } => "in the clause that begins here a guard is not in the table, or has a \
                                             variable that is no reader of a writer in the head"
                .into(),
        }
    }
}

/// `ROW:COLUMN: sentence`, the line and the caret; `LINE: sentence`; or the sentence alone.
impl fmt::Display for Refusal {
    fn fmt(&self, to: &mut fmt::Formatter<'_>) -> fmt::Result {
        let sentence = self.sentence();
        match (self.place(), self.line()) {
            (Some(Place { row, column, shown, .. }), _) => write!(to, "{row}:{column}: {sentence}\n{shown}"),
            (None, 0) => write!(to, "{sentence}"),
            (None, line) => write!(to, "{line}: {sentence}"),
        }
    }
}

impl std::error::Error for Refusal {}

/// A refusal with the name of its text's file.
struct InFile<'r> {
    name: &'r str,
    refusal: &'r Refusal,
}

impl fmt::Display for InFile<'_> {
    fn fmt(&self, to: &mut fmt::Formatter<'_>) -> fmt::Result {
        let InFile { name, refusal } = self;
        let blank = if refusal.line() == 0 { " " } else { "" };
        write!(to, "{name}:{blank}{refusal}")
    }
}
