//! The editors' syntax files held to the reference's reader (`tests/editors` runs it).
//!
//! ```text
//! highlight FOLDER JOB..     FOLDER is editors/ or a copy of it: whether the TextMate grammar gives every byte of the jobs, of the corners and of all
//!                            short texts the class that the reader gives it, and whether the Vim file has the same patterns
//! highlight --corners        prints the corners as one text
//! highlight --groups JOB..   prints Vim's group of every byte by the reader, 'LINE COLUMN GROUP', for a comparison with Vim itself
//! ```
//!
//! The status is 0 where all agree, 1 where something does not, with the first difference on standard error, and 2 on bad usage.

#![forbid(unsafe_code)]

mod grammar;
mod json;
mod kinds;
mod pattern;
mod texts;
mod vim;

use grammar::Grammar;
use kinds::{expected, Kind};
use std::path::Path;

fn main() {
    let words: Vec<String> = std::env::args().skip(1).collect();
    let words: Vec<&str> = words.iter().map(String::as_str).collect();
    let done = match words.as_slice() {
        ["--corners"] => {
            print!("{}", texts::corners().join("\n") + "\n");
            Ok(())
        }
        ["--groups", jobs @ ..] => groups(jobs),
        [folder, jobs @ ..] if !folder.starts_with('-') => holds(Path::new(folder), jobs),
        _ => {
            eprintln!("usage: highlight FOLDER JOB.. | --corners | --groups JOB..");
            std::process::exit(2)
        }
    };
    if let Err(why) = done {
        eprintln!("highlight: {why}");
        std::process::exit(1)
    }
}

fn bytes(path: &Path) -> Result<Vec<u8>, String> {
    std::fs::read(path).map_err(|error| format!("{}: {error}", path.display()))
}

fn string(path: &Path) -> Result<String, String> {
    String::from_utf8(bytes(path)?).map_err(|error| format!("{}: {error}", path.display()))
}

fn holds(folder: &Path, jobs: &[&str]) -> Result<(), String> {
    let grammar = Grammar::read(&string(&folder.join("textmate/glp.tmLanguage.json"))?)?;
    let vim = vim::read(&string(&folder.join("vim/syntax/glp.vim"))?)?;
    vim::same(&grammar, &vim)?;
    let mut tokens = 0;
    for job in jobs {
        tokens += agrees(&grammar, job, &bytes(Path::new(job))?)?;
    }
    let corners = texts::corners();
    for corner in &corners {
        agrees(&grammar, "a corner", corner.as_bytes())?;
    }
    let mut short = 0;
    texts::short(4, &mut |text| {
        short += 1;
        agrees(&grammar, "a short text", text).map(|_| ())
    })?;
    println!(
        "{} jobs ({tokens} tokens), {} corners and {short} short texts: every byte has the reader's class; {} kinds, with the same patterns in the Vim file",
        jobs.len(),
        corners.len(),
        grammar.rules.len()
    );
    Ok(())
}

/// Whether grammar and reader give every byte of a text the same class; with the number of tokens by the reader.
fn agrees(grammar: &Grammar, what: &str, text: &[u8]) -> Result<usize, String> {
    let (expected, tokens) = expected(text);
    let found = grammar.classes(text);
    match (0..text.len()).find(|at| expected[*at] != found[*at]) {
        None => Ok(tokens),
        Some(at) => Err(format!(
            "{what}, line {}, byte {at}, at '{}': the reader says {:?} and the grammar {:?}",
            1 + text[..at].iter().filter(|byte| **byte == b'\n').count(),
            String::from_utf8_lossy(&text[at..text.len().min(at + 20)]).escape_debug(),
            expected[at],
            found[at]
        )),
    }
}

fn groups(jobs: &[&str]) -> Result<(), String> {
    for job in jobs {
        let text = bytes(Path::new(job))?;
        let (classes, _) = expected(&text);
        println!("{job}");
        let (mut line, mut column) = (1, 0);
        for (byte, class) in text.iter().zip(classes) {
            column += 1;
            match byte {
                b'\n' => (line, column) = (line + 1, 0),
                _ => println!("{line} {column} {}", class.map_or(String::new(), Kind::group)),
            }
        }
    }
    Ok(())
}
