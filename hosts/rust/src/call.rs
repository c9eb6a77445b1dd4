//! The exported call over Rust's slices, and the thread that has the stack for it. All unsafe code of the crate stands
//! here.
#![allow(unsafe_code)]

use crate::room::Room;

extern "C" {
    /// `include/troscunel.h` has it in C. It keeps no pointer and calls nothing back.
    fn troscunel_call(
        text: *const u8,
        text_length: usize,
        budget: usize,
        pairs: usize,
        compounds: usize,
        goals: usize,
        scratch: *mut u64,
        scratch_length: usize,
        buffer: *mut u8,
        buffer_length: usize,
        line: *mut usize,
        length: *mut usize,
        offset: *mut usize,
    ) -> u32;
}

/// What the call gives: document 01's number, line and length, and document 02's offset.
#[derive(Clone, Copy, Debug, PartialEq, Eq)]
pub struct Given {
    /// 0: the job ran and its report stands at the front of the buffer. 1 to 11: it was refused.
    pub number: u32,
    /// The line of a refusal 4, 5, 6, 9 or 10, else 0.
    pub line: usize,
    /// The report's length on 0 and 8, else 0; at most 16,777,217.
    pub length: usize,
    /// The byte of a refusal 4, 5, 9 or 10, from 0 over the whole text, else 0.
    pub offset: usize,
}

/// The call itself. Any text, figures and lengths get an answer.
///
/// On 1 to 11 the report buffer is as it was. On 1, 2 and 3 the scratch is too; otherwise its first [`Room::need`] words
/// are zero afterwards and the others as they were.
///
/// # Safety
///
/// The thread has [`Room::stack`] bytes of stack left. Less is enough for most jobs, but texts can be written that take
/// half of it, and a call that runs past its stack overwrites what stands there, unless the system stops it.
pub unsafe fn call(text: &[u8], budget: usize, room: Room, scratch: &mut [u64], report: &mut [u8]) -> Given {
    let (mut line, mut length, mut offset) = (0, 0, 0);
    let Room { pairs, compounds, goals } = room;
    // SAFETY: each pointer is a reference's and goes with its own length; the slices that are written are borrowed for
    // this call alone, so nothing overlaps them. By its contract, which is proved, the call writes within them, and
    // leaves integers in them, for which every pattern of bits is good.
    let number = unsafe {
        troscunel_call(
            text.as_ptr(),
            text.len(),
            budget,
            pairs,
            compounds,
            goals,
            scratch.as_mut_ptr(),
            scratch.len(),
            report.as_mut_ptr(),
            report.len(),
            &mut line,
            &mut length,
            &mut offset,
        )
    };
    Given { number, line, length, offset }
}

/// What a thread takes of its stack before it is our turn, with much to spare.
const STARTING: usize = 64 << 10;

/// The call in a thread of its own, with the stack that the room may take.
///
/// # Panics
///
/// If the system gives no thread.
pub(crate) fn call_in_thread(text: &[u8], budget: usize, room: Room, scratch: &mut [u64], report: &mut [u8]) -> Given {
    std::thread::scope(|scope| {
        let thread = std::thread::Builder::new().stack_size(room.stack() + STARTING);
        // SAFETY: the thread has the room's stack and what it takes to start.
        let running = thread.spawn_scoped(scope, || unsafe { call(text, budget, room, scratch, report) });
        running.expect("the system gives a thread").join().expect("the call does not panic")
    })
}
