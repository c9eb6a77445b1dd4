//! `times [WORDS]`: how long calls take, the proved one against the reference's, in one process; of those jobs alone
//! whose label has the words. `times --worst [WORDS]`: the same for jobs made to hurt, whole calls alone, with the
//! stack that the proved call touches.
//!
//! The proved library has one call only, so its parts are differences of calls, and the reference's are made the same
//! way: clearing is a call with an empty text; reading is a call with the text less its last full stop, which is
//! refused at its end, less clearing (both in the smallest room); running, with the report counted, is the call without
//! a buffer less clearing and reading; writing is the whole call less that. M a second are steps run, bytes of a report
//! written or bytes of a text read. Each answer is held to the reference's first; a difference ends the program with
//! status 2.

use std::process::ExitCode;

use generator::{heavy, texts, worst};
use linked::measure::{least, stack, Call, Lent, Times};
use linked::watched::{given_by, on_large_stack};
use troscunel::Room;

const SMALLEST: Room = Room { pairs: 1, compounds: 1, goals: 1 };
const ROUNDS: usize = 7;

/// The bounds of the table of worst cases: milliseconds and KiB.
const LONGEST_CALL: f64 = 100.0;
const LARGEST_STACK: u64 = 8_192;

fn main() -> ExitCode {
    let mut words: Vec<String> = std::env::args().skip(1).collect();
    let worst = words.first().map(String::as_str) == Some("--worst");
    if worst {
        words.remove(0);
    }
    let only = words.join(" ");
    match on_large_stack(move || if worst { worst_cases(&only) } else { parts(&only) }) {
        Ok(()) => ExitCode::SUCCESS,
        Err(message) => {
            eprintln!("times: {message}");
            ExitCode::from(2)
        }
    }
}

fn parts(only: &str) -> Result<(), String> {
    let mut lent = Lent::default();
    println!("| job | steps | bytes | reading | running | writing | whole call | M a second |");
    println!("|---|---|---|---|---|---|---|---|");
    for job in heavy::jobs().iter().filter(|job| !job.for_stack() && job.label.contains(only)) {
        let counts = if job.kind == heavy::Kind::Report { Counts::Written } else { Counts::Steps };
        row(&mut lent, job.label, &job.text, job.budget, Room::LARGEST, counts)?;
    }
    for (label, text) in texts::texts().iter().filter(|(label, _)| label.contains(only)) {
        row(&mut lent, &format!("text: {label}"), text, 0, Room::default(), Counts::Read)?;
    }
    Ok(())
}

/// What is counted a second: steps run, bytes of a report written, or bytes of a text read.
enum Counts {
    Steps,
    Written,
    Read,
}

fn row(lent: &mut Lent, label: &str, text: &str, budget: u64, room: Room, counts: Counts) -> Result<(), String> {
    let whole = Call { text: text.as_bytes(), budget, room, buffer: true };
    let (steps, bytes) = agreed(lent, label, &whole)?;
    let without = Call { buffer: false, ..whole };
    let cut = refused_at_its_end(text);
    let read = Call { text: cut.as_bytes(), room: SMALLEST, ..without };
    let empty = Call { text: b"", ..without };
    let [whole, without, read, empty, least_empty] =
        least(lent, [whole, without, read, empty, Call { room: SMALLEST, ..empty }], ROUNDS);
    let reading = read - least_empty;
    let running = without - empty - reading;
    let writing = whole - without;
    let (count, during) = match counts {
        Counts::Steps => (steps as f64, running),
        Counts::Written => (bytes as f64, writing),
        Counts::Read => (cut.len() as f64, reading),
    };
    println!(
        "| {label} | {} | {} | {} | {} | {} | {} | {:.1} : {:.1} |",
        grouped(steps),
        grouped(bytes as u64),
        cell(reading),
        part(running, whole),
        part(writing, whole),
        cell(whole),
        count / during.own * 1e3,
        count / during.reference * 1e3
    );
    Ok(())
}

/// A part, unless it is less than three of a hundred of both whole calls: the difference of two measures is then mostly
/// their error.
fn part(part: Times, whole: Times) -> String {
    if part.own < 0.03 * whole.own && part.reference < 0.03 * whole.reference {
        return String::new();
    }
    cell(part)
}

/// Microseconds, the proved call's and the reference's, and their ratio; nothing where both are below one.
fn cell(times: Times) -> String {
    let (own, reference) = (times.own / 1e3, times.reference / 1e3);
    let ratio = own / reference;
    match (own < 1.0, reference < 1.0) {
        (true, true) => String::new(),
        (false, false) => format!("{} : {} = {ratio:.2}", micro(own), micro(reference)),
        _ => format!("{} : {}", micro(own), micro(reference)),
    }
}

fn micro(time: f64) -> String {
    if time < 10.0 {
        format!("{time:.1}")
    } else {
        grouped(time.round() as u64)
    }
}

/// The text less its last full stop; one that is refused at its end already is so.
fn refused_at_its_end(text: &str) -> String {
    match text.trim_end().strip_suffix('.') {
        Some(cut) => cut.to_string(),
        None => text.to_string(),
    }
}

fn worst_cases(only: &str) -> Result<(), String> {
    let mut lent = Lent::default();
    println!("| job | grows with | steps | bytes | ms | reference ms | ratio | stack KiB | within 100 ms and 8 MiB |");
    println!("|---|---|---|---|---|---|---|---|---|");
    for job in worst::jobs().iter().filter(|job| job.label.contains(only)) {
        let call = Call { text: job.text.as_bytes(), budget: job.budget, room: Room::LARGEST, buffer: true };
        let (steps, bytes) = agreed(&mut lent, &job.label, &call)?;
        let [Times { own, reference }] = least(&mut lent, [call], 3);
        let stack = stack(&mut lent, &call).ok_or("Linux does not tell the stack's pages")?;
        let (own, reference) = (own / 1e6, reference / 1e6);
        let within = match (own <= LONGEST_CALL, stack <= LARGEST_STACK) {
            (true, true) => "yes",
            (false, true) => "no, time",
            (true, false) => "no, stack",
            (false, false) => "no, time and stack",
        };
        println!(
            "| {} | {} | {} | {} | {own:.1} | {reference:.2} | {:.2} | {} | {within} |",
            job.label,
            job.product,
            grouped(steps),
            grouped(bytes as u64),
            own / reference,
            grouped(stack)
        );
    }
    Ok(())
}

/// Steps and length of the report, if the call's answer is the reference's.
fn agreed(lent: &mut Lent, label: &str, call: &Call) -> Result<(u64, usize), String> {
    if call.text.len() > texts::LONGEST {
        return Err(format!("'{label}' has {} bytes", call.text.len()));
    }
    let answer = reference::call(call.text, &call.figures());
    let given = lent.call(call);
    let same = given == given_by(&answer);
    let report = answer.report.unwrap_or_default();
    if !same || (given.number == 0 && lent.report(given.length) != report) {
        return Err(format!("'{label}': the answers differ"));
    }
    // A report that is too long says nothing of its steps.
    Ok((steps(&report), given.length))
}

/// The report begins with `run VERDICT steps N`.
fn steps(report: &[u8]) -> u64 {
    let line = report.split(|byte| *byte == b'\n').next().unwrap_or_default();
    String::from_utf8_lossy(line).rsplit(' ').next().and_then(|number| number.parse().ok()).unwrap_or(0)
}

/// 1,234,567.
fn grouped(number: u64) -> String {
    let digits = number.to_string();
    let parts: Vec<&str> = (0..digits.len())
        .filter(|at| at % 3 == 0)
        .map(|at| &digits[digits.len().saturating_sub(at + 3)..digits.len() - at])
        .collect();
    parts.into_iter().rev().collect::<Vec<_>>().join(",")
}
