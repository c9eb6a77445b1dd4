//! `heavy_jobs --deepest`: the labels of the jobs made for their stack. `heavy_jobs --frame LABEL`: the frame of a job.

use std::io::Write;
use std::process::ExitCode;

use generator::frame::framed;
use generator::heavy::{jobs, Kind};
use reference::Figures;

const ROOM: u64 = 65_535;

fn main() -> ExitCode {
    let words: Vec<String> = std::env::args().skip(1).collect();
    let result = match words.iter().map(String::as_str).collect::<Vec<_>>()[..] {
        ["--frame", label] => print_frame(label),
        ["--deepest"] => {
            jobs().iter().filter(|job| job.for_stack()).for_each(|job| println!("{}", job.label));
            Ok(())
        }
        _ => Err("--deepest, or --frame and a label".to_string()),
    };
    match result {
        Ok(()) => ExitCode::SUCCESS,
        Err(message) => {
            eprintln!("heavy_jobs: {message}");
            ExitCode::from(2)
        }
    }
}

/// Without a buffer the report is counted and not written.
fn print_frame(label: &str) -> Result<(), String> {
    let job = jobs().into_iter().find(|job| job.label == label).ok_or(format!("no such job: {label}"))?;
    let buffer = if job.kind == Kind::DeepestRun { 0 } else { 16_777_216 };
    let figures =
        Figures { budget: job.budget, pairs: ROOM, compounds: ROOM, goals: ROOM, buffer, scratch: 0, need: 0 };
    std::io::stdout().write_all(&framed(job.text.as_bytes(), &figures)).map_err(|error| error.to_string())
}
