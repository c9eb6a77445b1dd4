//! `fuzz [--seed S] [--seconds N] [--executions N] [--journal FILE] [--falsify WHAT]`: changed jobs through the proved
//! call and the reference in one process, compared by answer, report, scratch and guards.
//!
//! It begins with generated jobs of the seed, the jobs of `heavy` and the examples, changes them, and keeps what gives
//! something new. The same seed gives the same executions in the same order; only how many there are depends on the time.
//! The first difference ends it with status 1, and its frame is written to FILE, for which `target/fuzz.job` stands
//! otherwise. Where a call does not come back, `--journal` shows which: then the frame of every execution is written
//! before it is made.
//!
//! `--falsify` changes one byte of what the call gave, so that one sees that it is found; `--list` names what it can
//! change.

use std::process::ExitCode;
use std::time::{Duration, Instant};

use generator::random::Random;
use generator::{heavy, Figures, Job};
use linked::changes::{around, change};
use linked::input::Input;
use linked::novelty::Novelty;
use linked::watched::{on_large_stack, Falsified, Watched, FALSIFIED};

/// How many generated jobs it begins with; few where something falsified is to be found; and how many inputs it keeps.
const GENERATED: usize = 4_000;
const FEW: usize = 300;
const KEPT: usize = 60_000;

#[derive(Clone, Debug)]
struct Options {
    seed: u64,
    time: Duration,
    executions: u64,
    journal: Option<String>,
    falsified: Option<Falsified>,
}

fn main() -> ExitCode {
    if std::env::args().nth(1).as_deref() == Some("--list") {
        FALSIFIED.iter().for_each(|(name, _)| println!("{name}"));
        return ExitCode::SUCCESS;
    }
    let result = options(std::env::args().skip(1)).map(|options| on_large_stack(move || fuzz(&options)));
    match result {
        Ok(Ok(())) => ExitCode::SUCCESS,
        Ok(Err(difference)) => {
            eprintln!("fuzz: {difference}");
            ExitCode::from(1)
        }
        Err(message) => {
            eprintln!("fuzz: {message}");
            ExitCode::from(2)
        }
    }
}

fn options(mut words: impl Iterator<Item = String>) -> Result<Options, String> {
    let (seed, time, executions) = (1, Duration::from_secs(10), u64::MAX);
    let mut options = Options { seed, time, executions, journal: None, falsified: None };
    while let Some(word) = words.next() {
        let value = words.next().ok_or(format!("{word} needs a value"))?;
        let number = || value.parse().map_err(|_| format!("{word} needs a number, not {value}"));
        match word.as_str() {
            "--seed" => options.seed = number()?,
            "--seconds" => options.time = Duration::from_secs(number()?),
            "--executions" => options.executions = number()?,
            "--journal" => options.journal = Some(value),
            "--falsify" => {
                let known = FALSIFIED.iter().find(|(name, _)| *name == value);
                options.falsified = Some(known.ok_or(format!("nothing is called {value}"))?.1);
            }
            _ => return Err(format!("no such option: {word}")),
        }
    }
    Ok(options)
}

/// The inputs so far, and what is known of them.
struct Fuzz<'o> {
    options: &'o Options,
    random: Random,
    inputs: Vec<Input>,
    /// The places of those that were read to the end.
    read: Vec<usize>,
    novelty: Novelty,
    watched: Watched,
    executions: u64,
    numbers: [u64; 12],
}

fn fuzz(options: &Options) -> Result<(), String> {
    let begin = Instant::now();
    let mut fuzz = Fuzz {
        options,
        random: Random::new(options.seed),
        inputs: Vec::new(),
        read: Vec::new(),
        novelty: Novelty::default(),
        watched: Watched::default(),
        executions: 0,
        numbers: [0; 12],
    };
    let count = if options.falsified.is_some() { FEW } else { GENERATED };
    for input in beginning(options.seed, count)? {
        fuzz.execute(input)?;
    }
    while begin.elapsed() < options.time && fuzz.executions < options.executions {
        let input = fuzz.next();
        fuzz.execute(input)?;
    }
    if let Some(number) = fuzz.numbers.iter().position(|times| *times == 0) {
        return Err(format!("no execution of seed {} is answered by {number}", options.seed));
    }
    println!(
        "{} executions of seed {} in {} s, {} inputs kept, no difference; answers 0 to 11: {:?}",
        fuzz.executions,
        options.seed,
        begin.elapsed().as_secs(),
        fuzz.inputs.len(),
        fuzz.numbers
    );
    Ok(())
}

/// Generated jobs, the heavy ones with a small budget and room, and the examples with the program's.
fn beginning(seed: u64, count: usize) -> Result<Vec<Input>, String> {
    let mut inputs: Vec<Input> = generator::jobs(seed, count).iter().map(Input::of).collect();
    inputs.extend(heavy::jobs().into_iter().map(|job| Input {
        text: job.text.into_bytes(),
        budget: 300,
        pairs: 1_000,
        compounds: 2_000,
        goals: 300,
        buffer: 20_000,
        beyond: 0,
    }));
    for text in examples().map_err(|error| format!("examples: {error}"))? {
        let figures = Figures::default();
        inputs.push(Input::of(&Job { label: String::new(), text, figures }));
    }
    Ok(inputs)
}

/// The texts of `examples/*.glp` below this folder, in the order of their names.
fn examples() -> std::io::Result<Vec<Vec<u8>>> {
    let entries = std::fs::read_dir("examples")?.collect::<std::io::Result<Vec<_>>>()?;
    let mut paths: Vec<_> = entries.iter().map(std::fs::DirEntry::path).collect();
    paths.retain(|path| path.extension().map_or(false, |end| end == "glp"));
    paths.sort();
    paths.iter().map(std::fs::read).collect()
}

impl Fuzz<'_> {
    /// A changed input. Mostly of one that was read, and of the later ones more often: they are further from where it
    /// began.
    fn next(&mut self) -> Input {
        let one = match self.random.below(10) {
            0..=3 => self.read[self.random.below(self.read.len())],
            4..=7 => self.read[self.random.between(self.read.len() * 7 / 8, self.read.len() - 1)],
            _ => self.random.below(self.inputs.len()),
        };
        let two = match self.random.chance(80) {
            true => self.read[self.random.below(self.read.len())],
            false => self.random.below(self.inputs.len()),
        };
        change(&mut self.random, &self.inputs[one], &self.inputs[two])
    }

    fn execute(&mut self, mut input: Input) -> Result<(), String> {
        let mut answer = reference::call(&input.text, &input.figures());
        if answer.length > 0 && self.random.chance(25) {
            input.buffer = around(&mut self.random, answer.length.into());
            answer = reference::call(&input.text, &input.figures());
        }
        if let Some(journal) = &self.options.journal {
            write(journal, &input)?;
        }
        self.executions += 1;
        self.numbers[usize::from(answer.number)] += 1;
        if let Err(what) = self.watched.compare(&input, &answer, self.options.falsified) {
            let place = self.options.journal.as_deref().unwrap_or("target/fuzz.job");
            write(place, &input)?;
            let Options { seed, .. } = self.options;
            return Err(format!("execution {} of seed {seed}: {what}; its frame stands in {place}", self.executions));
        }
        if self.inputs.len() < KEPT && self.novelty.is_new(&input.text, &answer) {
            if matches!(answer.number, 0 | 7 | 8) {
                self.read.push(self.inputs.len());
            }
            self.inputs.push(input);
        }
        Ok(())
    }
}

fn write(place: &str, input: &Input) -> Result<(), String> {
    std::fs::write(place, input.framed()).map_err(|error| format!("{place}: {error}"))
}
