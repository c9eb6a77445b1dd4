//! What a call is given: the text, the figures, and how much scratch and buffer it is lent.

use generator::frame;
use generator::Job;
use reference::Figures;
use troscunel::Room;

#[derive(Clone, Debug)]
pub struct Input {
    pub text: Vec<u8>,
    pub budget: u64,
    pub pairs: u64,
    pub compounds: u64,
    pub goals: u64,
    pub buffer: u64,
    /// Words of scratch beyond the need; below 0 it is short.
    pub beyond: i64,
}

impl Input {
    /// A generated job. Its scratch counts from the generator's own need, a small one.
    pub fn of(job: &Job) -> Self {
        let Figures { budget, pairs, compounds, goals, buffer, scratch, need } = job.figures;
        let text = job.text.clone();
        Input { text, budget, pairs, compounds, goals, buffer, beyond: scratch as i64 - need as i64 }
    }

    pub fn room(&self) -> Room {
        Room { pairs: self.pairs as usize, compounds: self.compounds as usize, goals: self.goals as usize }
    }

    /// The words that the call needs; 0 where a figure is out of range.
    pub fn need(&self) -> usize {
        self.room().need().unwrap_or(0)
    }

    /// The words that it is lent.
    pub fn words(&self) -> usize {
        (self.need() as i64).saturating_add(self.beyond).max(0) as usize
    }

    /// For the reference, which takes the scratch as two figures.
    pub fn figures(&self) -> Figures {
        let Input { budget, pairs, compounds, goals, buffer, .. } = *self;
        Figures { budget, pairs, compounds, goals, buffer, scratch: self.words() as u64, need: self.need() as u64 }
    }

    /// The frame that other programs of the repository read.
    pub fn framed(&self) -> Vec<u8> {
        frame::framed(&self.text, &self.figures())
    }
}
