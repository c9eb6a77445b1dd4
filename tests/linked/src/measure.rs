//! Calls of the proved code and of the reference, measured in one thread, in turn.

use std::hint::black_box;

use reference::Figures;
use troscunel::{Given, Room, LONGEST_REPORT};

use crate::clock::thread_time;

/// A call to measure, with a buffer for every report or with none.
#[derive(Clone, Copy)]
pub struct Call<'t> {
    pub text: &'t [u8],
    pub budget: u64,
    pub room: Room,
    pub buffer: bool,
}

impl Call<'_> {
    fn buffer(&self) -> usize {
        if self.buffer {
            LONGEST_REPORT
        } else {
            0
        }
    }

    pub fn figures(&self) -> Figures {
        let Room { pairs, compounds, goals } = self.room;
        let [pairs, compounds, goals] = [pairs, compounds, goals].map(|figure| figure as u64);
        Figures { budget: self.budget, pairs, compounds, goals, buffer: self.buffer() as u64, scratch: 0, need: 0 }
    }
}

/// What the proved call is lent, kept between calls.
pub struct Lent {
    scratch: Vec<u64>,
    buffer: Vec<u8>,
}

impl Default for Lent {
    /// Memory that has been touched once.
    fn default() -> Self {
        Lent { scratch: vec![1; Room::LARGEST.need().expect("in range")], buffer: vec![1; LONGEST_REPORT] }
    }
}

impl Lent {
    /// The proved call, in a thread that has the stack for it: see `on_large_stack`.
    pub fn call(&mut self, call: &Call) -> Given {
        let scratch = &mut self.scratch[..call.room.need().expect("in range")];
        let buffer = &mut self.buffer[..call.buffer()];
        // SAFETY: every program here makes its calls in `on_large_stack`, or in a thread of 64 MiB.
        unsafe { troscunel::call(call.text, call.budget as usize, call.room, scratch, buffer) }
    }

    pub fn report(&self, length: usize) -> &[u8] {
        &self.buffer[..length]
    }
}

/// Nanoseconds of the proved call and of the reference's.
#[derive(Clone, Copy, Debug)]
pub struct Times {
    pub own: f64,
    pub reference: f64,
}

impl std::ops::Sub for Times {
    type Output = Times;
    /// What is below nothing is nothing: the two were measured apart.
    fn sub(self, less: Times) -> Times {
        Times { own: (self.own - less.own).max(0.0), reference: (self.reference - less.reference).max(0.0) }
    }
}

/// Each call measured in turn, in so many rounds. The least counts: what others do to the machine only adds.
pub fn least<const N: usize>(lent: &mut Lent, calls: [Call; N], rounds: usize) -> [Times; N] {
    let mut least = [Times { own: f64::INFINITY, reference: f64::INFINITY }; N];
    let often = calls.map(|call| {
        let own = measured(1, || lent.call(black_box(&call)));
        let reference = measured(1, || reference::call(black_box(call.text), &call.figures()));
        [own, reference].map(|time| (4e6 / time).clamp(1.0, 400.0) as u32)
    });
    for _ in 0..rounds {
        for place in 0..N {
            let call = calls[place];
            let own = measured(often[place][0], || lent.call(black_box(&call)));
            let reference = measured(often[place][1], || reference::call(black_box(call.text), &call.figures()));
            least[place] = Times { own: least[place].own.min(own), reference: least[place].reference.min(reference) };
        }
    }
    least
}

/// Nanoseconds of this thread for one of so many repetitions.
fn measured<T>(times: u32, mut work: impl FnMut() -> T) -> f64 {
    let begin = thread_time();
    for _ in 0..times {
        black_box(work());
    }
    (thread_time() - begin) / f64::from(times)
}

/// KiB of stack that the proved call touches: the pages that a fresh thread's stack then has. Linux tells them; a stack
/// of 64 MiB is not used again.
pub fn stack(lent: &mut Lent, call: &Call) -> Option<u64> {
    std::thread::scope(|scope| {
        let thread = std::thread::Builder::new().stack_size(64 << 20).spawn_scoped(scope, || {
            let here = 0_u8;
            lent.call(call);
            resident(&here as *const u8 as u64)
        });
        thread.ok()?.join().ok()?
    })
}

/// The resident KiB of the mapping that holds an address.
fn resident(address: u64) -> Option<u64> {
    let maps = std::fs::read_to_string("/proc/self/smaps").ok()?;
    let mut lines = maps.lines();
    lines.find(|line| holds(line, address).unwrap_or(false))?;
    lines.find_map(|line| line.strip_prefix("Rss:"))?.trim().strip_suffix(" kB")?.trim().parse().ok()
}

fn holds(line: &str, address: u64) -> Option<bool> {
    let (from, to) = line.split(' ').next()?.split_once('-')?;
    Some((u64::from_str_radix(from, 16).ok()?..u64::from_str_radix(to, 16).ok()?).contains(&address))
}
