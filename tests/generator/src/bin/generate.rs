//! `generate --seed S --count N`: the framed jobs of a seed on standard output.
//!
//! The table of how often each number, verdict and kind of line occurs in the reference's answers goes to standard
//! error. A bad command line is told on standard error, with exit status 2.

use std::io::Write;
use std::process::ExitCode;

use generator::options::Options;
use generator::{call, frame, jobs, table::Table};

fn main() -> ExitCode {
    let options = match Options::read(std::env::args().skip(1)) {
        Ok(options) => options,
        Err(message) => {
            eprintln!("generate: {message}");
            return ExitCode::from(2);
        }
    };
    let jobs = jobs(options.seed, options.count);
    let mut output = std::io::stdout().lock();
    for job in &jobs {
        if let Err(error) = output.write_all(&frame::framed(&job.text, &job.figures)) {
            eprintln!("generate: {error}");
            return ExitCode::from(2);
        }
    }
    let answers: Vec<_> = jobs.iter().map(|job| call(&job.text, &job.figures)).collect();
    eprint!("{}", Table::of(&answers));
    ExitCode::SUCCESS
}
