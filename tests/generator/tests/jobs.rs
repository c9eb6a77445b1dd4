//! The generator's own promises: the same jobs for a seed, frames that can be read back, strings as antt writes them,
//! and everything that document 01 can answer occurring among few jobs.

use generator::{antt, call, frame, heavy, jobs, lengths, table::Table, worst, Job};
use reference::read;

fn frames(jobs: &[Job]) -> Vec<u8> {
    jobs.iter().flat_map(|job| frame::framed(&job.text, &job.figures)).collect()
}

/// A sum over bytes that is the same on every machine (FNV-1a).
fn sum(bytes: &[u8]) -> u64 {
    bytes.iter().fold(0xcbf2_9ce4_8422_2325, |sum, byte| (sum ^ u64::from(*byte)).wrapping_mul(0x0100_0000_01b3))
}

#[test]
fn a_seed_gives_the_same_jobs() {
    let (one, two) = (jobs(7, 300), jobs(7, 300));
    assert_eq!(frames(&one), frames(&two));
    assert!(one.iter().zip(&two).all(|(left, right)| left.label == right.label));
}

#[test]
fn fewer_jobs_are_the_first_ones() {
    assert_eq!(frames(&jobs(9, 50)), frames(&jobs(9, 120)[..50]));
}

#[test]
fn another_seed_gives_other_jobs() {
    assert_ne!(sum(&frames(&jobs(1, 50))), sum(&frames(&jobs(2, 50))));
}

#[test]
fn labels_are_distinct_and_plain() {
    let mut labels: Vec<String> = jobs(3, 500).into_iter().map(|job| job.label).collect();
    assert!(labels.iter().all(|label| label.bytes().all(|byte| byte.is_ascii_alphanumeric() || byte == b'-')));
    labels.sort();
    labels.dedup();
    assert_eq!(labels.len(), 500);
}

#[test]
fn frames_are_read_back() {
    let jobs = jobs(11, 400);
    let read = frame::unframed(&frames(&jobs)).unwrap();
    assert_eq!(read.len(), jobs.len());
    for (job, (text, figures)) in jobs.iter().zip(&read) {
        assert_eq!(&job.text, text);
        assert_eq!(format!("{:?}", job.figures), format!("{figures:?}"));
    }
}

#[test]
fn bad_frames_are_told() {
    assert!(frame::unframed(b"1 2 3\nabc\n").is_err());
    assert!(frame::unframed(b"0 1 1 1 0 0 0 9\nabc\n").is_err());
    assert!(frame::unframed(b"0 1 1 1 0 0 0 3\nabcd").is_err());
    assert!(frame::unframed(b"0 1 1 1 0 0 0 3").is_err());
}

#[test]
fn strings_are_escaped() {
    assert_eq!(antt::string(b"p(a).\n\t\r\"\\"), r#""p(a).\n\t\r\"\\""#);
    assert_eq!(antt::string(&[0, 7, 127, 128, 255]), r#""\u{0}\u{7}\u{7f}\u{80}\u{ff}""#);
}

#[test]
fn long_runs_are_replicated() {
    let mut bytes = b"?- p(".to_vec();
    bytes.extend([b' '; 100]);
    bytes.extend(b"a).");
    assert_eq!(antt::list(&bytes), r#"bytes "?- p(" ++ replicate 100 32 ++ bytes "a).""#);
    assert_eq!(antt::list(&[10; 50]), "replicate 50 10");
    assert_eq!(antt::list(b""), "[]");
    assert_eq!(antt::list(b"aa"), r#"bytes "aa""#);
}

#[test]
fn everything_occurs_among_two_hundred() {
    for seed in 0..25 {
        let answers: Vec<_> = jobs(seed, 200).iter().map(|job| call(&job.text, &job.figures)).collect();
        assert_eq!(Table::of(&answers).missing(), Vec::<String>::new(), "seed {seed}");
    }
}

#[test]
fn jobs_are_small() {
    let jobs = jobs(5, 4_000);
    let long_texts = jobs.iter().filter(|job| job.text.len() > 700).count();
    let lengths: Vec<u32> = jobs.iter().map(|job| call(&job.text, &job.figures).length).collect();
    let long_reports = lengths.iter().filter(|length| **length > 1_500).count();
    assert!(long_texts < 400, "{long_texts} of 4000 texts are long");
    assert!(long_reports < 40, "{long_reports} of 4000 reports are long");
    assert!(lengths.iter().all(|length| *length <= 4_000), "a report is very long");
    assert!(jobs.iter().all(|job| job.figures.need == 4 && job.figures.buffer <= 2_000));
}

#[test]
fn texts_of_a_reports_length() {
    let lengths = [150, 777, 778, 4_096, 65_535, 65_536, 65_537, 1_000_000, 16_777_215, 16_777_216];
    for length in lengths {
        let text = lengths::of_length(length).expect("there is one");
        assert_eq!(call(text.as_bytes(), &lengths::figures()).length, length);
    }
}

/// The jobs for measuring are read; the one that is not says so.
#[test]
fn jobs_for_measuring_are_accepted() {
    let heavy = heavy::jobs().into_iter().map(|job| (job.label.to_string(), job.text));
    let worst = worst::jobs().into_iter().map(|job| (job.label, job.text));
    for (label, text) in heavy.chain(worst).filter(|(label, _)| !label.contains("refused at its end")) {
        let refusal = read(text.as_bytes()).err();
        assert!(refusal.is_none(), "{label}, {} bytes: {refusal:?}", text.len());
    }
}
