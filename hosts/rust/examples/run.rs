//! `run [--check] [FILE]`: the report of a job on standard output, or on standard error why it was refused, with the
//! refusal's number as exit status. Without a file the job is standard input's. With `--check` it is judged and not run.
//!
//! From the repository's root:
//!
//!     TROSCUNEL_LIBRARY=$(hosts/library) cargo run --manifest-path hosts/rust/Cargo.toml --example run < examples/first.glp

use std::io::{Read, Write};
use std::process::ExitCode;

use troscunel::{Job, Machine, Refusal};

fn main() -> std::io::Result<ExitCode> {
    let mut words: Vec<String> = std::env::args().skip(1).collect();
    let check = words.first().is_some_and(|word| word == "--check");
    if check {
        words.remove(0);
    }
    let text = text_of(words.first())?;
    Ok(match answered(&text, check) {
        Ok(report) => {
            std::io::stdout().lock().write_all(&report)?;
            ExitCode::SUCCESS
        }
        Err(refusal) => {
            eprintln!("{}", refusal.in_file(words.first().map_or("<stdin>", String::as_str)));
            ExitCode::from(refusal.number() as u8)
        }
    })
}

fn text_of(file: Option<&String>) -> std::io::Result<Vec<u8>> {
    let Some(file) = file else {
        let mut text = Vec::new();
        std::io::stdin().lock().read_to_end(&mut text)?;
        return Ok(text);
    };
    std::fs::read(file)
}

/// The report; of a text that is only checked none.
fn answered(text: &[u8], check: bool) -> Result<Vec<u8>, Refusal> {
    let mut machine = Machine::new();
    if check {
        return machine.check(text).map(|()| Vec::new());
    }
    machine.run(&Job::new(text)).into_result()
}
