//! What is new in an answer: a cheap sum of what the run did, kept in one table of bits.
//!
//! An answer shows number, line, offset, verdict, tries and goals of each query, where the goals come from, and the
//! shapes of its values. Each of these, coarsened, is one bit of the table; an answer with a bit that no answer before
//! it had is new.

use reference::Answer;

const BITS: usize = 1 << 18;
/// Bytes of a report whose shapes are looked at.
const LOOKED_AT: usize = 3_000;

pub struct Novelty {
    seen: Vec<bool>,
}

impl Default for Novelty {
    fn default() -> Self {
        Novelty { seen: vec![false; BITS] }
    }
}

impl Novelty {
    /// Whether the answer has something new; it is then known.
    pub fn is_new(&mut self, text: &[u8], answer: &Answer) -> bool {
        let refusal = [1, u64::from(answer.number), log(answer.line.into()), log(text.len() as u64)];
        let length = [2, u64::from(answer.number), log(answer.length.into()), 0];
        let offset = [6, u64::from(answer.number), log(answer.offset.into()), around(text, answer.offset as usize)];
        let mut new = self.see(refusal) | self.see(length) | self.see(offset);
        let report = answer.report.as_deref().unwrap_or_default();
        let report = &report[..report.len().min(LOOKED_AT)];
        for line in report.split(|byte| *byte == b'\n') {
            new |= self.see_line(line);
        }
        new
    }

    /// The numbers of a line `run` or `query`, coarsened; of any other line the shapes, three bytes at a time, and of a
    /// goal's also the numbers at its end.
    fn see_line(&mut self, line: &[u8]) -> bool {
        if line.starts_with(b"run ") || line.starts_with(b"query ") {
            let sum = line.split(|byte| *byte == b' ').fold(3, |sum, word| {
                let other = word.len() as u64 + u64::from(word.first().copied().unwrap_or(0));
                mixed(sum, number(word).map_or(other, log))
            });
            return self.see([4, sum, 0, 0]);
        }
        let kind = u64::from(line.first().copied().unwrap_or(0).to_ascii_lowercase());
        let mut new = self.see_origin(kind, line);
        let (mut last, mut last_but_one) = (0, 0);
        for &byte in line {
            let shape = shape(byte);
            if shape != last || shape > 3 {
                new |= self.see([5, kind, last_but_one << 8 | last, shape]);
                (last_but_one, last) = (last, shape);
            }
        }
        new
    }

    /// Of a goal's line the clause that made it and the tries, coarsened.
    fn see_origin(&mut self, kind: u64, line: &[u8]) -> bool {
        let words: Vec<&[u8]> = line.split(|byte| *byte == b' ').collect();
        let [_, _, b"from", clause, b"at", tries] = words[..] else { return false };
        self.see([7, kind, number(clause).map_or(0, log), number(tries).map_or(0, log)])
    }

    fn see(&mut self, what: [u64; 4]) -> bool {
        let place = what.iter().fold(0, |sum, part| mixed(sum, *part)) as usize % BITS;
        !std::mem::replace(&mut self.seen[place], true)
    }
}

/// The number that a word is, if it is one.
fn number(word: &[u8]) -> Option<u64> {
    std::str::from_utf8(word).ok().and_then(|digits| digits.parse().ok())
}

/// The shapes of the bytes before an offset and at it; 0 where there is none.
fn around(text: &[u8], offset: usize) -> u64 {
    let at = |place: Option<usize>| place.and_then(|place| text.get(place)).map_or(0, |byte| shape(*byte));
    at(offset.checked_sub(1)) << 8 | at(Some(offset))
}

/// Letters and digits are each one shape, every other byte its own.
fn shape(byte: u8) -> u64 {
    match byte {
        b'a'..=b'z' => 1,
        b'A'..=b'Z' => 2,
        b'0'..=b'9' => 3,
        other => u64::from(other),
    }
}

fn log(number: u64) -> u64 {
    u64::from(64 - number.leading_zeros())
}

fn mixed(sum: u64, part: u64) -> u64 {
    let sum = (sum ^ part).wrapping_mul(0x9e37_79b9_7f4a_7c15);
    sum ^ (sum >> 29)
}
