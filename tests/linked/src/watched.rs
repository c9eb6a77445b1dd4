//! The proved call with guards around all that it is lent, held to the reference's answer.
//!
//! Text, scratch and buffer each stand between guards, at an offset that changes; all of it is filled with a mark that
//! changes, too. After the call the answer is the reference's, and every byte lent is what document 01 says: 'On 0 the
//! report stands at the front of its buffer and the bytes behind it keep their values. On 1 to 8 (and on 9 and 10, which
//! take 5's place, and on 11) the whole report buffer keeps its values. Scratch is untouched on 1, 2, 3; otherwise the
//! needed part is zero afterwards and any part beyond it is untouched.'

use reference::Answer;
use troscunel::Given;

use crate::input::Input;

/// What to falsify after a call, so that the comparison is seen to find it.
#[derive(Clone, Copy, Debug, PartialEq, Eq)]
pub enum Falsified {
    Number,
    Line,
    Length,
    Offset,
    NoOffset,
    Report,
    BehindReport,
    Refused,
    Scratch,
    BeyondScratch,
    UntouchedScratch,
    Text,
    BeforeText,
    BehindText,
    BeforeScratch,
    BehindScratch,
    BeforeBuffer,
    BehindBuffer,
}

pub const FALSIFIED: [(&str, Falsified); 18] = [
    ("number", Falsified::Number),
    ("line", Falsified::Line),
    ("length", Falsified::Length),
    ("offset", Falsified::Offset),
    ("no-offset", Falsified::NoOffset),
    ("report", Falsified::Report),
    ("behind-report", Falsified::BehindReport),
    ("refused-buffer", Falsified::Refused),
    ("scratch", Falsified::Scratch),
    ("beyond-scratch", Falsified::BeyondScratch),
    ("untouched-scratch", Falsified::UntouchedScratch),
    ("text", Falsified::Text),
    ("before-text", Falsified::BeforeText),
    ("behind-text", Falsified::BehindText),
    ("before-scratch", Falsified::BeforeScratch),
    ("behind-scratch", Falsified::BehindScratch),
    ("before-buffer", Falsified::BeforeBuffer),
    ("behind-buffer", Falsified::BehindBuffer),
];

/// Items on each side of what is lent.
const GUARD: usize = 64;
const OFFSETS: usize = 16;

/// Memory of which a part is lent, with guards on both sides of it.
#[derive(Default)]
struct Guarded<T> {
    whole: Vec<T>,
    from: usize,
    to: usize,
}

impl<T: Copy + PartialEq + Default> Guarded<T> {
    /// So many items at an offset, they and the guards filled with the mark.
    fn lend(&mut self, length: usize, offset: usize, mark: T) {
        (self.from, self.to) = (GUARD + offset, GUARD + offset + length);
        let needed = self.to + GUARD;
        if self.whole.len() < needed {
            self.whole.resize(needed, T::default());
        }
        self.whole[..needed].fill(mark);
    }

    fn lent(&mut self) -> &mut [T] {
        &mut self.whole[self.from..self.to]
    }

    /// The guards hold the mark.
    fn kept(&self, mark: T) -> bool {
        all(&self.whole[..self.from], mark) && all(&self.whole[self.to..self.to + GUARD], mark)
    }
}

/// Every item is this one.
fn all<T: PartialEq>(items: &[T], one: T) -> bool {
    items.iter().all(|item| *item == one)
}

/// The memory that is lent to one call after the other.
#[derive(Default)]
pub struct Watched {
    text: Guarded<u8>,
    scratch: Guarded<u64>,
    buffer: Guarded<u8>,
    calls: u64,
}

impl Watched {
    /// Makes the call and holds what it gave to the reference's answer. `Err` says what differs.
    pub fn compare(&mut self, input: &Input, answer: &Answer, falsified: Option<Falsified>) -> Result<(), String> {
        self.calls = self.calls.wrapping_add(1);
        let (mark, word) = (0x80 | (self.calls % 113) as u8, self.calls.wrapping_mul(0x9e37_79b9_7f4a_7c15) | 1);
        let offset = (self.calls / 3) as usize % OFFSETS;
        self.text.lend(input.text.len(), offset, mark);
        self.text.lent().copy_from_slice(&input.text);
        self.scratch.lend(input.words(), offset % 3, word);
        self.buffer.lend(input.buffer as usize, OFFSETS - 1 - offset, mark);
        let mut given = self.call(input);
        self.falsify(input, &mut given, falsified);
        self.differs(input, given, answer, mark, word).map_or(Ok(()), Err)
    }

    fn call(&mut self, input: &Input) -> Given {
        let text = &self.text.whole[self.text.from..self.text.to];
        let budget = input.budget as usize;
        // SAFETY: `on_large_stack` runs this in a thread with the stack of the largest room and more.
        unsafe { troscunel::call(text, budget, input.room(), self.scratch.lent(), self.buffer.lent()) }
    }

    /// The first thing that is not as it has to be.
    fn differs(&self, input: &Input, given: Given, answer: &Answer, mark: u8, word: u64) -> Option<String> {
        let wanted = given_by(answer);
        if given != wanted {
            return Some(format!("the call gave {given:?}, the reference {wanted:?}"));
        }
        let buffer = &self.buffer.whole[self.buffer.from..self.buffer.to];
        let report = answer.report.as_deref().unwrap_or_default();
        let scratch = &self.scratch.whole[self.scratch.from..self.scratch.to];
        let cleared = if (1..=3).contains(&given.number) { 0 } else { input.need() };
        let wrong = [
            (buffer[..report.len()] != *report, "the report is another one"),
            (!all(&buffer[report.len()..], mark), "a byte of the buffer has changed that is none of a report"),
            (!all(&scratch[..cleared], 0), "the needed scratch is not zero"),
            (!all(&scratch[cleared..], word), "a word of scratch has changed that is not needed"),
            (self.text.whole[self.text.from..self.text.to] != *input.text, "the text has changed"),
            (!self.text.kept(mark), "a guard of the text has changed"),
            (!self.scratch.kept(word), "a guard of the scratch has changed"),
            (!self.buffer.kept(mark), "a guard of the buffer has changed"),
        ];
        wrong.iter().find(|(is, _)| *is).map(|(_, what)| what.to_string())
    }

    /// Changes one byte, or one figure of the answer, where this call has it.
    fn falsify(&mut self, input: &Input, given: &mut Given, falsified: Option<Falsified>) {
        let Some(falsified) = falsified else { return };
        let ran = given.number == 0;
        let touched = !(1..=3).contains(&given.number);
        let (need, words, length) = (input.need(), input.words(), given.length);
        let flip = |bytes: &mut [u8], at: usize| {
            if let Some(byte) = bytes.get_mut(at) {
                *byte ^= 1;
            }
        };
        let flip_word = |words: &mut [u64], at: usize| {
            if let Some(word) = words.get_mut(at) {
                *word ^= 1 << 17;
            }
        };
        match falsified {
            Falsified::Number => given.number ^= 1,
            Falsified::Line => given.line += 1,
            Falsified::Length if !ran => given.length += 1,
            Falsified::Offset if matches!(given.number, 4 | 5 | 9 | 10) => given.offset += 1,
            Falsified::NoOffset if given.number == 0 => given.offset = 1,
            Falsified::Report if ran => flip(self.buffer.lent(), length - 1),
            Falsified::BehindReport if ran => flip(self.buffer.lent(), length),
            Falsified::Refused if !ran => flip(self.buffer.lent(), 0),
            Falsified::Scratch if touched => flip_word(self.scratch.lent(), need - 1),
            Falsified::BeyondScratch if touched && words > need => flip_word(self.scratch.lent(), need),
            Falsified::UntouchedScratch if !touched => flip_word(self.scratch.lent(), 0),
            Falsified::Text => flip(self.text.lent(), 0),
            Falsified::BeforeText => flip(&mut self.text.whole, self.text.from - 1),
            Falsified::BehindText => flip(&mut self.text.whole, self.text.to),
            Falsified::BeforeScratch => flip_word(&mut self.scratch.whole, self.scratch.from - 1),
            Falsified::BehindScratch => flip_word(&mut self.scratch.whole, self.scratch.to),
            Falsified::BeforeBuffer => flip(&mut self.buffer.whole, self.buffer.from - 1),
            Falsified::BehindBuffer => flip(&mut self.buffer.whole, self.buffer.to),
            _ => {}
        }
    }
}

/// The reference's answer, as the call gives its own.
pub fn given_by(answer: &Answer) -> Given {
    let Answer { number, line, length, offset, .. } = *answer;
    Given { number: number.into(), line: line as usize, length: length as usize, offset: offset as usize }
}

/// Runs in a thread with stack enough for every call.
pub fn on_large_stack<T: Send>(work: impl FnOnce() -> T + Send) -> T {
    std::thread::scope(|scope| {
        let stack = troscunel::Room::LARGEST.stack() + (16 << 20);
        let thread = std::thread::Builder::new().stack_size(stack).spawn_scoped(scope, work);
        thread.expect("the system gives a thread").join().expect("a panic is told where it is")
    })
}
