//! A report read: its run line, and its sections one by one. All that is given is a part of the report; nothing is
//! copied.

/// A report whose form has been seen to be good.
///
/// ```
/// use troscunel::{Job, Kind, Machine, Report};
///
/// let text = "tag([H|T],[hit(H?)|R?]) :- tag(T?,R).\n\
///             tag([],[]).\n\
///             ?- tag([fetch,decode],Hits).\n\
///             ?- tag([divide|More?],Hits).\n";
/// let bytes = Machine::new().run(&Job::new(text)).into_result().unwrap();
/// let report = Report::of(&bytes).unwrap();
/// assert_eq!((report.verdict(), report.steps()), ("rest", 5));
///
/// let second = report.sections().nth(1).unwrap();
/// assert_eq!((second.number(), second.tries(), second.count(Kind::Waiting)), (2, 2, 1));
/// assert!(second.values().eq([("More", "_1"), ("Hits", "[hit(divide)|_2?]")]));
/// let stuck = second.goals(Kind::Waiting).next().unwrap();
/// assert_eq!((stuck.text(), stuck.clause(), stuck.tries()), ("tag(_1?,_2)", 1, 1));
/// ```
#[derive(Clone, Copy, Debug, PartialEq, Eq)]
pub struct Report<'r> {
    verdict: &'r str,
    steps: usize,
    sections: &'r str,
}

impl<'r> Report<'r> {
    /// Reads a report, as the call has written it. `None`: the bytes have not the form of one, which can be where they
    /// come from elsewhere.
    pub fn of<B: AsRef<[u8]> + ?Sized>(bytes: &'r B) -> Option<Self> {
        let (run, sections) = cut(ascii(bytes.as_ref())?);
        let (verdict, steps) = run.strip_prefix("run ")?.strip_suffix('\n')?.split_once(" steps ")?;
        let report = Report { verdict, steps: number(steps)?, sections };
        let known = matches!(verdict, "rest" | "budget" | "room");
        (known && !sections.is_empty() && report.read()? == sections.len()).then_some(report)
    }

    /// How many bytes of sections can be read, where they are numbered from 1.
    fn read(&self) -> Option<usize> {
        self.sections().zip(1..).try_fold(0, |length, (section, place)| {
            (section.number() == place).then_some(length + section.text().len())
        })
    }

    /// Why the run ended: `rest`, `budget` or `room`.
    pub fn verdict(&self) -> &'r str {
        self.verdict
    }

    /// How many steps were taken.
    pub fn steps(&self) -> usize {
        self.steps
    }

    /// The sections, one for each query, in the text's order.
    pub fn sections(&self) -> Sections<'r> {
        Sections { rest: self.sections }
    }
}

/// The sections of a report.
#[derive(Clone, Debug)]
pub struct Sections<'r> {
    rest: &'r str,
}

impl<'r> Iterator for Sections<'r> {
    type Item = Section<'r>;

    fn next(&mut self) -> Option<Section<'r>> {
        let (own, rest) = cut(self.rest);
        self.rest = rest;
        Section::of(own)
    }
}

impl std::iter::FusedIterator for Sections<'_> {}

/// The kinds of goals, in the order of a section.
#[derive(Clone, Copy, Debug, PartialEq, Eq, Hash)]
pub enum Kind {
    /// In the queue when the run ended.
    Active,
    /// Waiting for a value.
    Waiting,
    /// No clause can ever take it.
    Failed,
}

impl Kind {
    /// All three, in the order of a section.
    pub const ALL: [Kind; 3] = [Kind::Active, Kind::Waiting, Kind::Failed];

    /// The word that begins the line of such a goal.
    pub fn word(self) -> &'static str {
        match self {
            Kind::Active => "active",
            Kind::Waiting => "waiting",
            Kind::Failed => "failed",
        }
    }
}

/// A goal of a section, with the clause that made it and when.
#[derive(Clone, Copy, Debug, PartialEq, Eq)]
pub struct Goal<'r> {
    text: &'r str,
    clause: usize,
    tries: usize,
}

impl<'r> Goal<'r> {
    /// The goal as it is written, without its line's ` from C at T`.
    pub fn text(&self) -> &'r str {
        self.text
    }

    /// The place among all clauses of the text, from 1, of the one that made it; 0 for a goal of the query.
    pub fn clause(&self) -> usize {
        self.clause
    }

    /// The query's number of tries when it was made, the step that made it counted; 0 for a goal of the query.
    pub fn tries(&self) -> usize {
        self.tries
    }
}

/// What a report says of one query.
#[derive(Clone, Copy, Debug, PartialEq, Eq)]
pub struct Section<'r> {
    text: &'r str,
    number: usize,
    tries: usize,
    values: &'r str,
    goals: [Group<'r>; 3],
}

/// The lines of the goals of one kind, and how many they are.
#[derive(Clone, Copy, Debug, PartialEq, Eq)]
struct Group<'r> {
    lines: &'r str,
    count: usize,
}

impl<'r> Section<'r> {
    /// Reads a section alone, as `runjob --section` prints it. `None`: the bytes have not the form of one.
    pub fn of<B: AsRef<[u8]> + ?Sized>(bytes: &'r B) -> Option<Self> {
        let text = ascii(bytes.as_ref())?;
        let (head, rest) = text.split_once('\n')?;
        let [number, tries, counts @ ..] = numbers(head, ["query", "tries", "active", "waiting", "failed"])?;
        let (values, rest) = lines_while(rest, |line| value(line).is_some())?;
        let (active, rest) = group(rest, Kind::Active, counts[0])?;
        let (waiting, rest) = group(rest, Kind::Waiting, counts[1])?;
        let (failed, rest) = group(rest, Kind::Failed, counts[2])?;
        rest.is_empty().then_some(Section { text, number, tries, values, goals: [active, waiting, failed] })
    }

    /// The whole section, from its line `query K ..` to the LF of its last line.
    pub fn text(&self) -> &'r str {
        self.text
    }

    /// The query's place in the text, from 1.
    pub fn number(&self) -> usize {
        self.number
    }

    /// How many steps took a goal of the query.
    pub fn tries(&self) -> usize {
        self.tries
    }

    /// How many goals of a kind there are.
    pub fn count(&self, kind: Kind) -> usize {
        self.goals[kind as usize].count
    }

    /// The query's variables with their values as they are written, in order of first occurrence.
    pub fn values(&self) -> impl Iterator<Item = (&'r str, &'r str)> + Clone {
        self.values.lines().filter_map(value)
    }

    /// The goals of a kind, in the machine's order.
    pub fn goals(&self, kind: Kind) -> impl Iterator<Item = Goal<'r>> + Clone {
        self.goals[kind as usize].lines.lines().filter_map(move |line| goal(line, kind))
    }
}

/// The first part of a report, which is its run line or a section, and what is behind it. A line that begins with `query`
/// begins a section: the others have a variable's name, which begins with an uppercase letter, or another word.
fn cut(report: &str) -> (&str, &str) {
    report.split_at(report.find("\nquery ").map_or(report.len(), |end| end + 1))
}

/// Reports are ASCII.
fn ascii(bytes: &[u8]) -> Option<&str> {
    std::str::from_utf8(bytes).ok().filter(|text| text.is_ascii())
}

/// Digits alone, without a leading zero.
fn number(digits: &str) -> Option<usize> {
    let plain = digits.bytes().all(|byte| byte.is_ascii_digit()) && (digits == "0" || !digits.starts_with('0'));
    digits.parse().ok().filter(|_| plain)
}

/// The numbers of a line in which each of the words stands before one.
fn numbers<const COUNT: usize>(line: &str, words: [&str; COUNT]) -> Option<[usize; COUNT]> {
    let mut parts = line.split(' ');
    let mut numbers = [0; COUNT];
    for (word, place) in words.iter().zip(&mut numbers) {
        parts.next().filter(|part| part == word)?;
        *place = number(parts.next()?)?;
    }
    parts.next().is_none().then_some(numbers)
}

/// `NAME = value`, of a line.
fn value(line: &str) -> Option<(&str, &str)> {
    line.split_once(" = ").filter(|(name, value)| {
        name.starts_with(|sign: char| sign.is_ascii_uppercase()) && is_one_word(name) && is_one_word(value)
    })
}

/// `GOAL from C at T` behind the word of its kind, of a line.
fn goal(line: &str, kind: Kind) -> Option<Goal<'_>> {
    let (text, origin) = line.strip_prefix(kind.word())?.strip_prefix(' ')?.split_once(' ')?;
    let [clause, tries] = numbers(origin, ["from", "at"])?;
    is_one_word(text).then_some(Goal { text, clause, tries })
}

/// Values and goals are written without spaces.
fn is_one_word(word: &str) -> bool {
    !word.is_empty() && word.bytes().all(|byte| byte.is_ascii_graphic())
}

/// The first lines, as long as they are of a form, and what is behind them. `None`: a line has no end.
fn lines_while(text: &str, form: impl Fn(&str) -> bool) -> Option<(&str, &str)> {
    let mut rest = text;
    while !rest.is_empty() {
        let (line, behind) = rest.split_once('\n')?;
        if !form(line) {
            break;
        }
        rest = behind;
    }
    Some(text.split_at(text.len() - rest.len()))
}

/// As many lines of a kind as were counted, and what is behind them.
fn group(text: &str, kind: Kind, count: usize) -> Option<(Group<'_>, &str)> {
    let (lines, rest) = lines_while(text, |line| goal(line, kind).is_some())?;
    (lines.lines().count() == count).then_some((Group { lines, count }, rest))
}
