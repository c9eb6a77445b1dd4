//! `compare --seed S --count N`, from the repository's root: the definitions compute every job, and the reference too.
//!
//! A small repository among the temporary files, outside the checkout, where `rt ci` takes no file of Rattle's but the
//! crates', has a copy of the definitions, and crates whose statements say that the definitions give the reference's answer: number, line, length, offset and report. Of report buffer and scratch they say what
//! document 01 does after that answer; the reference has neither. The proof checker computes them. One more crate has
//! falsified answers, and the checker must refuse every statement of it.
//! Exit status 0 if every job agreed and everything occurred, 1 if not, 2 for bad usage.

use std::path::{Path, PathBuf};
use std::process::{Command, ExitCode};
use std::time::Instant;
use std::{fs, io};

use generator::options::Options;
use generator::table::Table;
use generator::{antt, call, frame, jobs, Answer, Job};

const DEFINITIONS: &str = "crates/meaning";
/// The frames of the jobs that did not agree, to be run again.
const KEPT: &str = "target/compare";
const REFUSED: &str = "target/compare/refused.jobs";
/// The crates that are proved side by side, and the one that must not be proved.
const AGREE: [&str; 2] = ["agree1", "agree2"];
const DENIED: &str = "denied";
/// Jobs to a module. A statement is of one job: the checker's limit of steps is then each job's own.
const MODULE: usize = 40;
/// How many jobs are falsified.
const FALSIFIED: usize = 20;
/// From so many jobs on, everything must occur.
const ENOUGH: usize = 200;

type Case<'a> = (&'a Job, &'a Answer);

fn main() -> ExitCode {
    let options = match Options::read(std::env::args().skip(1)) {
        Ok(options) => options,
        Err(message) => {
            eprintln!("compare: {message}");
            return ExitCode::from(2);
        }
    };
    match compared(&options) {
        Ok(()) => ExitCode::SUCCESS,
        Err(message) => {
            println!("compare: {message}");
            ExitCode::FAILURE
        }
    }
}

fn compared(options: &Options) -> Result<(), String> {
    let begun = Instant::now();
    let jobs = jobs(options.seed, options.count);
    let answers: Vec<Answer> = jobs.iter().map(|job| call(&job.text, &job.figures)).collect();
    let cases: Vec<Case> = jobs.iter().zip(&answers).collect();
    let false_answers: Vec<Answer> = answers.iter().take(FALSIFIED).enumerate().map(falsified).collect();
    let false_cases: Vec<Case> = jobs.iter().zip(&false_answers).collect();
    let folder = Folder(std::env::temp_dir().join(format!("compare-{}", std::process::id())));
    write_repository(&folder.0, &cases, &false_cases).map_err(|error| format!("{}: {error}", folder.0.display()))?;
    let output = check(&folder.0)?;
    let agreed: Vec<Checked> = AGREE.iter().map(|name| Checked::of(&output, name)).collect();
    if !agreed.iter().all(|it| it.proved) {
        return Err(disagreement(&agreed.iter().map(|it| it.output.as_str()).collect::<String>(), &output, &cases));
    }
    denied(&Checked::of(&output, DENIED), &false_cases)?;
    let table = Table::of(&answers);
    print!("{table}");
    println!("seed {}, {:.1} s", options.seed, begun.elapsed().as_secs_f64());
    let missing = table.missing();
    if options.count >= ENOUGH && !missing.is_empty() {
        return Err(format!("among {} jobs there is none with: {}", options.count, missing.join(", ")));
    }
    println!("{} jobs agreed", jobs.len());
    Ok(())
}

/// An answer that is wrong in one place: a byte of the report, the length, or in turn the line and the offset.
fn falsified((place, answer): (usize, &Answer)) -> Answer {
    let mut wrong = answer.clone();
    match &mut wrong.report {
        Some(report) => {
            let last = report.len() - 2;
            report[last] ^= 1;
        }
        None if answer.number == 8 => wrong.length += 1,
        None if place % 2 == 0 => wrong.line += 1,
        None => wrong.offset += 1,
    }
    wrong
}

/// A folder that is removed at the end.
struct Folder(PathBuf);

impl Drop for Folder {
    fn drop(&mut self) {
        let _ = fs::remove_dir_all(&self.0);
    }
}

/// The repository.
fn write_repository(folder: &Path, cases: &[Case], false_cases: &[Case]) -> io::Result<()> {
    let crates = folder.join("crates");
    fs::create_dir_all(&crates)?;
    copy(Path::new(DEFINITIONS), &crates.join("meaning"))?;
    let modules = modules(cases);
    for (place, name) in AGREE.iter().enumerate() {
        let own: Vec<_> = modules.iter().filter(|(number, _)| number % AGREE.len() == place).collect();
        write_crate(&crates.join(name), &own)?;
    }
    write_crate(&crates.join(DENIED), &self::modules(false_cases).iter().collect::<Vec<_>>())?;
    let names = AGREE.iter().chain([&DENIED]);
    let list: String = names.map(|name| format!("{name}: meaning\n")).collect();
    fs::write(folder.join("crates.txt"), format!("meaning:\n{list}"))
}

/// The modules of some cases: the number of each, and its text.
fn modules(cases: &[Case]) -> Vec<(usize, String)> {
    let modules = cases.chunks(MODULE).enumerate();
    modules.map(|(number, some)| (number, antt::module(some, number * MODULE))).collect()
}

fn write_crate(folder: &Path, modules: &[&(usize, String)]) -> io::Result<()> {
    let proofs = folder.join("proofs");
    fs::create_dir_all(folder.join("src"))?;
    fs::create_dir_all(&proofs)?;
    fs::write(folder.join("src/lib.rt"), "// The statements are in proofs/.\n#![tactic(auto)]\n")?;
    let mut list = String::new();
    for (number, text) in modules {
        list.push_str(&format!("pub mod Jobs{number}\n"));
        fs::write(proofs.join(format!("Jobs{number}.antt")), text)?;
    }
    fs::write(proofs.join("Lib.antt"), list)
}

/// The definitions' crate without what is not definitions.
fn copy(from: &Path, to: &Path) -> io::Result<()> {
    fs::create_dir_all(to)?;
    for entry in fs::read_dir(from)? {
        let entry = entry?;
        let name = entry.file_name();
        if entry.file_type()?.is_file() {
            fs::copy(entry.path(), to.join(name))?;
        } else if name != "must-fail" && name != "proofs" && name != "out" {
            copy(&entry.path(), &to.join(name))?;
        }
    }
    Ok(())
}

/// A crate proved or not, and what the checker said of it.
struct Checked {
    proved: bool,
    output: String,
}

impl Checked {
    /// What `rt all check` says of one crate: behind the line `== NAME`, and in the summary.
    fn of(output: &str, name: &str) -> Checked {
        let head = format!("== {name}");
        let lines = output.lines().skip_while(|line| *line != head).skip(1).take_while(|line| !line.starts_with("== "));
        let output_of: String = lines.flat_map(|line| [line, "\n"]).collect();
        let proved = output.lines().any(|line| line == format!("{name}: ok"));
        Checked { proved, output: output_of }
    }
}

/// What the checker says of all crates, the definitions' among them, which are proved two at a time.
fn check(folder: &Path) -> Result<String, String> {
    let run = Command::new("rt").args(["all", "check"]).current_dir(folder).output();
    let run = run.map_err(|error| format!("rt: {error}"))?;
    Ok(format!("{}{}", String::from_utf8_lossy(&run.stdout), String::from_utf8_lossy(&run.stderr)))
}

/// What the checker says of the statement of a job, if it refuses it.
fn complaint(output: &str, place: usize) -> Option<String> {
    let refused = format!("error: `{}`", antt::statement(place));
    let mut lines = output.lines().skip_while(|line| !line.contains(&refused));
    let first = lines.next()?;
    let others = lines.take_while(|line| line.starts_with(' '));
    Some(std::iter::once(first).chain(others).collect::<Vec<_>>().join("\n"))
}

/// Each falsified answer was noticed.
fn denied(checked: &Checked, cases: &[Case]) -> Result<(), String> {
    let unnoticed: Vec<&str> = (0..cases.len())
        .filter(|place| complaint(&checked.output, *place).is_none())
        .map(|place| cases[place].0.label.as_str())
        .collect();
    if checked.proved || !unnoticed.is_empty() {
        return Err(format!("{}\nfalsified answers were not noticed: {}", checked.output, unnoticed.join(" ")));
    }
    Ok(())
}

/// Every job whose statement was refused: another answer, or the checker's limit of steps. Their frames are kept.
fn disagreement(output: &str, whole: &str, cases: &[Case]) -> String {
    let mut message = String::from("not every job agreed\n");
    let mut frames = Vec::new();
    let mut count = 0;
    for (place, case) in cases.iter().enumerate() {
        let Some(complaint) = complaint(output, place) else { continue };
        message.push_str(&told(&complaint, case));
        frames.extend(frame::framed(&case.0.text, &case.0.figures));
        count += 1;
    }
    if count == 0 {
        return format!("the crates were not proved, and of no job:\n{whole}");
    }
    let kept = match fs::create_dir_all(KEPT).and_then(|()| fs::write(REFUSED, frames)) {
        Ok(()) => format!("their frames are in {REFUSED}"),
        Err(error) => format!("{REFUSED}: {error}"),
    };
    format!("{message}{count} of {} jobs did not agree; {kept}", cases.len())
}

/// A job with the reference's answer, and what the checker says of it.
fn told(complaint: &str, (job, answer): &Case) -> String {
    let Answer { number, line, length, offset, report } = answer;
    let report = report.as_deref().map(String::from_utf8_lossy).unwrap_or_default();
    let limit = complaint.contains("step limit") || complaint.contains("ran out of");
    let why = if limit { "the checker reached its limit of steps" } else { "the definitions give another answer" };
    format!(
        "---- {}: {why}\n{:?}\ntext {}\nthe reference: number {number} line {line} length {length} offset {offset}\n{report}{complaint}\n",
        job.label,
        job.figures,
        antt::string(&job.text),
    )
}
