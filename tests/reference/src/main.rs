//! The program: one job from standard input, its report or the line `refused N line L` to standard output.
//!
//! Options give the figures, `--answer` prints the call's answer first, and `--framed` reads a sequence of jobs, each
//! with figures of its own. A bad command line or a bad frame is told on standard error, with exit status 2.

use std::io::{self, BufRead, BufReader, BufWriter, Read, Write};
use std::process::ExitCode;

use reference::{call, Answer, Figures};

#[derive(Default)]
struct Options {
    figures: Figures,
    answer: bool,
    framed: bool,
}

fn main() -> ExitCode {
    let result = options(std::env::args().skip(1)).and_then(|options| match options.framed {
        true => framed(),
        false => single(&options),
    });
    match result {
        Ok(()) => ExitCode::SUCCESS,
        Err(message) => {
            eprintln!("reference: {message}");
            ExitCode::from(2)
        }
    }
}

fn options(mut arguments: impl Iterator<Item = String>) -> Result<Options, String> {
    let mut options = Options::default();
    while let Some(argument) = arguments.next() {
        let figures = &mut options.figures;
        let figure = match argument.as_str() {
            "--answer" => {
                options.answer = true;
                continue;
            }
            "--framed" => {
                options.framed = true;
                continue;
            }
            "--budget" => &mut figures.budget,
            "--pairs" => &mut figures.pairs,
            "--compounds" => &mut figures.compounds,
            "--goals" => &mut figures.goals,
            "--buffer" => &mut figures.buffer,
            "--scratch" => &mut figures.scratch,
            "--need" => &mut figures.need,
            _ => return Err(format!("no such option: {argument}")),
        };
        let number = arguments.next().ok_or(format!("{argument} needs a number"))?;
        *figure = decimal(&number).ok_or(format!("{argument} needs a number, not {number}"))?;
    }
    Ok(options)
}

/// Decimal digits alone, as a number of 64 bits.
fn decimal(digits: &str) -> Option<u64> {
    let plain = !digits.is_empty() && digits.bytes().all(|byte| byte.is_ascii_digit());
    plain.then(|| digits.parse().ok()).flatten()
}

fn told(error: io::Error) -> String {
    error.to_string()
}

fn single(options: &Options) -> Result<(), String> {
    let mut text = Vec::new();
    io::stdin().lock().read_to_end(&mut text).map_err(told)?;
    let answer = call(&text, &options.figures);
    let mut output = io::stdout().lock();
    if options.answer {
        write_answer(&mut output, &answer).map_err(told)?;
    }
    match &answer.report {
        Some(report) => output.write_all(report),
        None => writeln!(output, "refused {} line {}", answer.number, answer.line),
    }
    .map_err(told)
}

fn write_answer(output: &mut impl Write, answer: &Answer) -> io::Result<()> {
    writeln!(output, "{} {} {} {}", answer.number, answer.line, answer.length, answer.offset)
}

fn framed() -> Result<(), String> {
    let mut input = BufReader::new(io::stdin().lock());
    let mut output = BufWriter::new(io::stdout().lock());
    let result = frames(&mut input, &mut output);
    output.flush().map_err(told)?;
    result
}

fn frames<R: Read>(input: &mut BufReader<R>, output: &mut impl Write) -> Result<(), String> {
    while let Some((figures, text)) = frame(input)? {
        let answer = call(&text, &figures);
        write_answer(output, &answer).map_err(told)?;
        output.write_all(answer.report.as_deref().unwrap_or_default()).map_err(told)?;
        // Whoever sends one frame at a time gets each answer at once.
        if input.buffer().is_empty() {
            output.flush().map_err(told)?;
        }
    }
    Ok(())
}

/// The next frame, or `None` at the end of the input.
fn frame(input: &mut impl BufRead) -> Result<Option<(Figures, Vec<u8>)>, String> {
    let mut header = Vec::new();
    input.read_until(b'\n', &mut header).map_err(told)?;
    if header.is_empty() {
        return Ok(None);
    }
    let (figures, length) = header_figures(&header).ok_or("bad frame: eight decimal numbers and LF expected")?;
    let mut text = Vec::new();
    input.take(length).read_to_end(&mut text).map_err(told)?;
    let mut end = [0];
    if text.len() as u64 != length || input.read_exact(&mut end).is_err() || end != *b"\n" {
        return Err("bad frame: the text is not as long as its header says".into());
    }
    Ok(Some((figures, text)))
}

/// `BUDGET PAIRS COMPOUNDS GOALS BUFFER SCRATCH NEED LENGTH`, ended by LF.
fn header_figures(header: &[u8]) -> Option<(Figures, u64)> {
    let line = std::str::from_utf8(header.strip_suffix(b"\n")?).ok()?;
    let numbers = line.split(' ').map(decimal).collect::<Option<Vec<u64>>>()?;
    let &[budget, pairs, compounds, goals, buffer, scratch, need, length] = numbers.as_slice() else {
        return None;
    };
    Some((Figures { budget, pairs, compounds, goals, buffer, scratch, need }, length))
}
