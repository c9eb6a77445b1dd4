//! What the tests share: the rules of document 01's session, and the call with a few figures changed.

#![allow(dead_code)]

use reference::{call, Answer, Figures};
use std::time::{Duration, Instant};

pub const RULES: &str = "tag([H|T],[hit(H?)|R?]) :- tag(T?,R).
tag([],[]).
end([]).
same(X,X?).
two(1,1).
w(1,2).
";

/// The program's figures, with the largest room and buffer.
pub fn large() -> Figures {
    Figures {
        budget: 1_000_000,
        pairs: 65_535,
        compounds: 65_535,
        goals: 65_535,
        buffer: 1 << 25,
        ..Figures::default()
    }
}

pub fn answer(text: &str) -> Answer {
    call(text.as_bytes(), &Figures::default())
}

/// Number and line.
pub fn refused(text: impl AsRef<[u8]>) -> (u8, u32) {
    let (number, line, _) = refused_at(text);
    (number, line)
}

/// Number, line and offset.
pub fn refused_at(text: impl AsRef<[u8]>) -> (u8, u32, u32) {
    let answer = call(text.as_ref(), &Figures::default());
    assert_eq!(answer.length == 0, answer.number != 0, "the length is 0 for all but 0 and 8");
    assert!(answer.offset == 0 || matches!(answer.number, 4 | 5 | 9 | 10), "the offset is 0 with every other number");
    (answer.number, answer.line, answer.offset)
}

pub fn report_with(text: &str, figures: &Figures) -> String {
    let answer = call(text.as_bytes(), figures);
    assert_eq!((answer.number, answer.line), (0, 0), "accepted: {text}");
    let report = answer.report.expect("a report on 0");
    assert_eq!(report.len(), answer.length as usize);
    String::from_utf8(report).unwrap()
}

pub fn report(text: &str) -> String {
    report_with(text, &Figures::default())
}

/// The report of a query under the session's rules.
pub fn session(query: &str) -> String {
    report(&format!("{RULES}{query}"))
}

/// Whether a line stands in the report, whole.
pub fn shows(report: &str, line: &str) -> bool {
    report.lines().any(|own| own == line)
}

#[track_caller]
pub fn check(report: &str, lines: &[&str]) {
    for line in lines {
        assert!(shows(report, line), "no line `{line}` in\n{report}");
    }
}

/// How many random jobs a test makes: a tenth in an unoptimized build, or what the variable JOBS says.
pub fn random_jobs(usual: u64) -> u64 {
    let usual = if cfg!(debug_assertions) { usual / 10 } else { usual };
    std::env::var("JOBS").map_or(usual, |jobs| jobs.parse().expect("a number of jobs"))
}

/// Numbers that are the same in each run of a test.
pub struct Dice(pub u64);

impl Dice {
    pub fn roll(&mut self, sides: u64) -> u64 {
        self.0 ^= self.0 << 13;
        self.0 ^= self.0 >> 7;
        self.0 ^= self.0 << 17;
        (self.0 >> 11) % sides
    }
}

/// The work's result, if it came at once.
pub fn timed<T>(work: impl FnOnce() -> T) -> T {
    let begin = Instant::now();
    let result = work();
    let limit = Duration::from_secs(if cfg!(debug_assertions) { 30 } else { 2 });
    assert!(begin.elapsed() < limit, "took {:?}", begin.elapsed());
    result
}
