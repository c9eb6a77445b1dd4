//! `texts --seed S --count N`: the texts of a seed's jobs with the answers of the reference's reading, for the program `test_loader`.
//!
//! Standard output has the frames: `000001`, LF, the text's length in six digits, LF, the text, LF. Standard error has a line for each: number,
//! line and offset, `0 0 0` for a job. Texts above 16,384 bytes are left out: they are refused before they are read.

use std::io::Write;
use std::process::ExitCode;

use generator::jobs;
use generator::options::Options;

fn main() -> ExitCode {
    let options = match Options::read(std::env::args().skip(1)) {
        Ok(options) => options,
        Err(message) => {
            eprintln!("texts: {message}");
            return ExitCode::from(2);
        }
    };
    let (mut frames, mut answers) = (Vec::new(), String::new());
    for job in jobs(options.seed, options.count).iter().filter(|job| job.text.len() <= 16_384) {
        frames.extend(format!("000001\n{:06}\n", job.text.len()).bytes());
        frames.extend(&job.text);
        frames.push(b'\n');
        answers += &match reference::read(&job.text) {
            Ok(_) => "0 0 0\n".to_string(),
            Err(refusal) => format!("{} {} {}\n", refusal.number, refusal.line, refusal.offset),
        };
    }
    if let Err(error) = std::io::stdout().lock().write_all(&frames) {
        eprintln!("texts: {error}");
        return ExitCode::from(2);
    }
    eprint!("{answers}");
    ExitCode::SUCCESS
}
