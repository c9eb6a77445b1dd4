//! `section K < REPORT`: section K of a report, put together from what [`Section`] gives of it: its numbers, values and
//! goals. Exit status 65: there is none; 1: standard input is no report.

use std::io::{Read, Write};
use std::process::ExitCode;

use troscunel::{Kind, Report, Section};

fn main() -> std::io::Result<ExitCode> {
    let place = std::env::args().nth(1).and_then(|word| word.parse::<usize>().ok());
    let mut bytes = Vec::new();
    std::io::stdin().lock().read_to_end(&mut bytes)?;
    let Some(report) = Report::of(&bytes) else { return Ok(ExitCode::from(1)) };
    let Some(section) = report.sections().find(|section| Some(section.number()) == place) else {
        return Ok(ExitCode::from(65));
    };
    put(&section, &mut std::io::stdout().lock())?;
    Ok(ExitCode::SUCCESS)
}

fn put(section: &Section<'_>, to: &mut impl Write) -> std::io::Result<()> {
    write!(to, "query {} tries {}", section.number(), section.tries())?;
    Kind::ALL.iter().try_for_each(|kind| write!(to, " {} {}", kind.word(), section.count(*kind)))?;
    writeln!(to)?;
    section.values().try_for_each(|(name, value)| writeln!(to, "{name} = {value}"))?;
    Kind::ALL.iter().try_for_each(|kind| {
        section.goals(*kind).try_for_each(|goal| {
            writeln!(to, "{} {} from {} at {}", kind.word(), goal.text(), goal.clause(), goal.tries())
        })
    })
}
