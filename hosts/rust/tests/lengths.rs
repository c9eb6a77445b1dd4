//! Reports of exactly the buffer's length and one byte more, up to the ceiling of 16,777,216 bytes and past it; and the
//! deepest values, which take the most stack. The texts and the reference's answers come from the generator.

use generator::{heavy, lengths};
use troscunel::{Answer, Job, Machine, Refusal, Room, LONGEST_REPORT};

fn job(text: &str, longest_report: usize) -> Job<'_> {
    Job::new(text).budget(1_000_000).room(Room::LARGEST).longest_report(longest_report)
}

fn reference(text: &str) -> Vec<u8> {
    let figures = generator::Figures { buffer: u64::MAX, ..lengths::figures() };
    generator::call(text.as_bytes(), &figures).report.expect("a report")
}

#[test]
fn exactly_the_buffers_length_and_one_more() {
    let mut machine = Machine::new();
    for length in [150, 4_096, 65_535, 65_536, 65_537, 1_000_000, LONGEST_REPORT - 1, LONGEST_REPORT] {
        let text = lengths::of_length(length as u32).expect("there is a text");
        let report = reference(&text);
        assert_eq!(report.len(), length);
        for longest in [length, length + 1, usize::MAX] {
            assert!(machine.run(&job(&text, longest)) == Answer::Ran(report.clone()), "{length} of {longest}");
        }
        for longest in [length - 1, length / 2, 1, 0] {
            let refused = Answer::Refused(Refusal::ReportLong { length });
            assert!(machine.run(&job(&text, longest)) == refused, "{length} of {longest}");
        }
    }
}

/// 'The smaller of its length and 16,777,217 is returned.'
#[test]
fn past_the_ceiling() {
    let mut machine = Machine::new();
    let just_past = LONGEST_REPORT + 1;
    let text = lengths::of_length(LONGEST_REPORT as u32).expect("there is a text");
    // One byte more: the goal's name stands once in the report.
    let past = text.replace("no(z", "no(zz");
    assert_ne!(text, past);
    let doubled = "mk(f(C,C?)).\np(f(R?,S)) :- mk(R), p(S?).\n?- mk(A), p(A?).\n";
    for longest in [0, LONGEST_REPORT, just_past, usize::MAX] {
        let refused = Answer::Refused(Refusal::ReportLong { length: just_past });
        assert_eq!(machine.run(&job(&past, longest)), refused);
        assert_eq!(machine.run(&job(doubled, longest)), refused);
    }
    let message = Refusal::ReportLong { length: just_past }.to_string();
    assert_eq!(message, "the report is longer than 16,777,216 bytes");
}

/// Beyond the report a lent buffer keeps its bytes, also where it is longer than any report; of length 0 it is refused,
/// with the length.
#[test]
fn lent_buffers_of_every_length() {
    let text = lengths::of_length(LONGEST_REPORT as u32).expect("there is a text");
    let report = reference(&text);
    on_large_stack(|| {
        let mut scratch = vec![7; Room::LARGEST.need().unwrap() + 1];
        for longer in [0, 1, 4_096] {
            let mut buffer = vec![b'.'; LONGEST_REPORT + longer];
            // SAFETY: this thread has the stack of the largest room.
            let given =
                unsafe { troscunel::call(text.as_bytes(), 1_000_000, Room::LARGEST, &mut scratch, &mut buffer) };
            assert_eq!((given.number, given.line, given.length, given.offset), (0, 0, LONGEST_REPORT, 0));
            assert!(buffer[..LONGEST_REPORT] == report && buffer[LONGEST_REPORT..].iter().all(|byte| *byte == b'.'));
        }
        for shorter in [1, LONGEST_REPORT] {
            let mut buffer = vec![b'.'; LONGEST_REPORT - shorter];
            // SAFETY: as above.
            let given =
                unsafe { troscunel::call(text.as_bytes(), 1_000_000, Room::LARGEST, &mut scratch, &mut buffer) };
            assert_eq!((given.number, given.line, given.length, given.offset), (8, 0, LONGEST_REPORT, 0));
            assert!(buffer.iter().all(|byte| *byte == b'.'));
        }
        assert!(scratch.pop() == Some(7) && scratch.iter().all(|word| *word == 0));
    });
}

#[test]
fn the_deepest_values_in_the_threads_stack() {
    let mut machine = Machine::new();
    for heavy in heavy::jobs().iter().filter(|job| job.for_stack()) {
        let answer = machine.run(&job(&heavy.text, LONGEST_REPORT)).into_result().expect(heavy.label);
        assert!(answer == reference(&heavy.text), "{}", heavy.label);
    }
}

fn on_large_stack(work: impl FnOnce() + Send) {
    std::thread::scope(|scope| {
        let thread = std::thread::Builder::new().stack_size(Room::LARGEST.stack() + (1 << 20));
        thread.spawn_scoped(scope, work).unwrap().join().unwrap();
    });
}
