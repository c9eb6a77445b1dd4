//! The options of both programs: `--seed S` and `--count N`.
//!
//! Without them it is always the same seed and 400 jobs. What is wrong with a command line is told in words.

/// A seed, and how many of its jobs.
#[derive(Clone, Copy, Debug)]
pub struct Options {
    pub seed: u64,
    pub count: usize,
}

impl Default for Options {
    fn default() -> Self {
        Options { seed: 20_240_001, count: 400 }
    }
}

impl Options {
    /// The options of a command line, or what is wrong with it.
    pub fn read(mut arguments: impl Iterator<Item = String>) -> Result<Self, String> {
        let mut options = Options::default();
        while let Some(argument) = arguments.next() {
            let value = arguments.next().ok_or(format!("{argument} needs a number"))?;
            let bad = |_| format!("{argument} needs a number, not {value}");
            match argument.as_str() {
                "--seed" => options.seed = value.parse().map_err(bad)?,
                "--count" => options.count = value.parse().map_err(bad)?,
                _ => return Err(format!("no such option: {argument}")),
            }
        }
        if options.count == 0 {
            return Err("--count needs at least 1".to_string());
        }
        Ok(options)
    }
}
