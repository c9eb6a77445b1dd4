//! How often each number, verdict and kind of goal line occurs among the answers.
//!
//! A comparison says nothing of what never occurred, so a table can tell which counts are 0. Numbers are counted over
//! all answers, verdicts and lines over the reports that were delivered; apart also waiting goals with several
//! unassigned readers, failed ones that have one, and goals of each kind that a clause made, some of them by a clause
//! behind the ninth, after nine tries, or in a query behind the first.

use std::fmt;

use reference::Answer;

const VERDICTS: [&str; 3] = ["rest", "budget", "room"];
const GOALS: [&str; 3] = ["active", "waiting", "failed"];
const READERS: [&str; 2] = ["waiting, several", "failed, a reader"];
const MADE: [&str; 6] =
    ["active, made", "waiting, made", "failed, made", "clause 10 or up", "tries 10 or up", "another query"];

/// The counts of some answers.
#[derive(Clone, Debug, Default)]
pub struct Table {
    numbers: [usize; 12],
    verdicts: [usize; 3],
    goals: [usize; 3],
    readers: [usize; 2],
    made: [usize; 6],
}

impl Table {
    pub fn of<'a>(answers: impl IntoIterator<Item = &'a Answer>) -> Self {
        let mut table = Table::default();
        for answer in answers {
            table.count(answer);
        }
        table
    }

    fn count(&mut self, answer: &Answer) {
        self.numbers[usize::from(answer.number)] += 1;
        let Some(report) = &answer.report else { return };
        let mut queries = 0;
        for line in String::from_utf8_lossy(report).lines() {
            let mut words = line.split(' ');
            match (words.next(), words.next()) {
                (Some("run"), Some(verdict)) => add(&VERDICTS, &mut self.verdicts, verdict),
                (Some("query"), _) => queries += 1,
                (Some(goal), _) => add(&GOALS, &mut self.goals, goal),
                _ => {}
            }
            self.count_made(line, queries > 1);
            let readers = line.matches('?').count();
            self.readers[0] += usize::from(line.starts_with("waiting ") && readers > 1);
            self.readers[1] += usize::from(line.starts_with("failed ") && readers > 0);
        }
    }

    /// A goal's line, if a clause made the goal; whether its query is another than the first.
    fn count_made(&mut self, line: &str, another: bool) {
        let words: Vec<&str> = line.split(' ').collect();
        let [kind, _, "from", clause, "at", tries] = words[..] else { return };
        let [clause, tries] = [clause, tries].map(|digits| digits.parse::<u64>().unwrap_or(0));
        if clause > 0 {
            add(&GOALS, &mut self.made[..3], kind);
            self.made[3] += usize::from(clause > 9);
            self.made[4] += usize::from(tries > 9);
            self.made[5] += usize::from(another);
        }
    }

    /// The names of the counts that are 0.
    pub fn missing(&self) -> Vec<String> {
        self.rows().into_iter().filter(|(_, count)| *count == 0).map(|(name, _)| name).collect()
    }

    fn rows(&self) -> Vec<(String, usize)> {
        let numbers = self.numbers.iter().enumerate().map(|(number, count)| (format!("number {number}"), *count));
        let verdicts = VERDICTS.iter().zip(self.verdicts).map(|(name, count)| (format!("run {name}"), count));
        let goals = GOALS.iter().zip(self.goals).map(|(name, count)| (format!("{name} lines"), count));
        let readers = READERS.iter().zip(self.readers).map(|(name, count)| (name.to_string(), count));
        let made = MADE.iter().zip(self.made).map(|(name, count)| (name.to_string(), count));
        numbers.chain(verdicts).chain(goals).chain(readers).chain(made).collect()
    }
}

fn add(names: &[&str], counts: &mut [usize], name: &str) {
    if let Some(place) = names.iter().position(|other| *other == name) {
        counts[place] += 1;
    }
}

impl fmt::Display for Table {
    fn fmt(&self, f: &mut fmt::Formatter) -> fmt::Result {
        for (name, count) in self.rows() {
            writeln!(f, "{name:<16} {count:>6}")?;
        }
        Ok(())
    }
}
