//! Jobs as cases of the definitions: what the proof checker is given to compute.
//!
//! A case is the record `Case` of the definitions, with the reference's answer as the expected one. What it expects of
//! report buffer and scratch follows from that answer by `expected_buffer` and `expected_scratch` there, which use none
//! of the call's own definitions. Its text and its report are definitions of their own. The statement over a list of one case is that none of its cases fails.

use std::fmt::Write;

use reference::{Answer, Figures};

use crate::Job;

/// Runs of one byte at least so long are written by `replicate`.
const LONG_RUN: usize = 40;

/// A module with a statement for each job; `first` is the place of the first one.
pub fn module(jobs: &[(&Job, &Answer)], first: usize) -> String {
    let mut text = String::from(
        "-- Jobs, and the reference's answers to them.\n\
         use Rattle.std.specs.Prelude.{◌≡◌, [], ◌∷◌, ◌++◌, replicate}\n\
         use mathlib.Core.Path.{refl}\n\
         use Rattle.meaning.specs.Bytes.{Bytes, bytes}\n\
         use Rattle.meaning.specs.Case.{Case, prints, refuses, too_long, failing, case_words}\n",
    );
    for (place, (job, answer)) in jobs.iter().enumerate() {
        write_case(&mut text, first + place, job, answer);
        write_statement(&mut text, first + place);
    }
    text
}

/// The name of the statement over the job with this place.
pub fn statement(place: usize) -> String {
    format!("agrees_{place}")
}

fn write_case(text: &mut String, place: usize, job: &Job, answer: &Answer) {
    let Figures { budget, pairs, compounds, goals, buffer, scratch, .. } = job.figures;
    let label = string(job.label.as_bytes());
    let expected = expected(text, place, answer);
    write_bytes(text, &format!("text_{place}"), &job.text);
    let _ = write!(
        text,
        "\nunfoldable job_{place} : Case\n\
         job_{place} = record {{ label = {label}; text = text_{place}; budget = {budget};\n  \
         room = record {{ pairs = {pairs}; compounds = {compounds}; goals = {goals} }};\n  \
         scratch = {scratch}; buffer = {buffer}; expected = {expected} }}\n"
    );
}

/// The expected answer, its report as a definition before it.
fn expected(text: &mut String, place: usize, answer: &Answer) -> String {
    write_bytes(text, &format!("report_{place}"), answer.report.as_deref().unwrap_or(&[]));
    match &answer.report {
        Some(_) => format!("prints report_{place}"),
        None if answer.number == 8 => format!("too_long {}", answer.length),
        None => format!("refuses {} {} {}", answer.number, answer.line, answer.offset),
    }
}

fn write_statement(text: &mut String, place: usize) {
    let name = statement(place);
    let _ = write!(
        text,
        "\n{name} : failing (job_{place} ∷ []) ≡ []\n\
         unfolding case_words text_{place} report_{place} job_{place}\n\
         {name} = refl\n"
    );
}

fn write_bytes(text: &mut String, name: &str, bytes: &[u8]) {
    let _ = write!(text, "\nunfoldable {name} : Bytes\n{name} = {}\n", list(bytes));
}

/// Bytes as a list of antt: strings, and long runs of one byte by `replicate`.
pub fn list(bytes: &[u8]) -> String {
    let mut parts = Vec::new();
    let mut plain = 0;
    let mut at = 0;
    while at < bytes.len() {
        let run = bytes[at..].iter().take_while(|byte| **byte == bytes[at]).count();
        if run >= LONG_RUN {
            if plain < at {
                parts.push(format!("bytes {}", string(&bytes[plain..at])));
            }
            parts.push(format!("replicate {run} {}", bytes[at]));
            plain = at + run;
        }
        at += run;
    }
    if plain < bytes.len() {
        parts.push(format!("bytes {}", string(&bytes[plain..])));
    }
    if parts.is_empty() {
        return "[]".to_string();
    }
    parts.join(" ++ ")
}

/// Bytes as a string of antt, a character for each; `bytes` gives them back.
pub fn string(bytes: &[u8]) -> String {
    let mut text = String::from("\"");
    for &byte in bytes {
        match byte {
            b'"' => text.push_str("\\\""),
            b'\\' => text.push_str("\\\\"),
            b'\n' => text.push_str("\\n"),
            b'\t' => text.push_str("\\t"),
            b'\r' => text.push_str("\\r"),
            b' '..=b'~' => text.push(byte as char),
            _ => {
                let _ = write!(text, "\\u{{{byte:x}}}");
            }
        }
    }
    text.push('"');
    text
}
