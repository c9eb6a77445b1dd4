//! Each number of document 01 through the wrapper, with its message, and a machine that is used again and again.

use troscunel::{Answer, Job, Machine, Refusal, Room};

const RULES: &str = "tag([H|T],[hit(H?)|R?]) :- tag(T?,R).\ntag([],[]).\nend([]).\nsame(X,X?).\ntwo(1,1).\nw(1,2).\n";

fn answer(text: &str) -> Answer {
    Machine::new().run(&Job::new(text))
}

fn report(text: &str) -> String {
    String::from_utf8(answer(text).into_result().expect(text)).unwrap()
}

fn refusal(job: &Job<'_>) -> (u32, usize, String) {
    let refusal = Machine::new().run(job).into_result().expect_err("a refusal");
    (refusal.number(), refusal.line(), refusal.to_string())
}

#[test]
fn the_example_of_the_readme() {
    let text = include_str!("../../../examples/first.glp");
    assert_eq!(report(text), include_str!("../../../examples/first.report"));
}

#[test]
fn the_session() {
    let wanted = "run rest steps 5\nquery 1 tries 3 active 0 waiting 0 failed 0\nA = []\nZ = []\n\
                  query 2 tries 2 active 0 waiting 1 failed 0\nB = _1\nY = [hit(1)|_2?]\nwaiting tag(_1?,_2) from 1 at 1\n";
    assert_eq!(report(&format!("{RULES}?- tag(A?,Z), end(A).\n?- tag([1|B?],Y).\n")), wanted);
    assert!(report(&format!("{RULES}?- same(A?,A).\n")).contains("failed same(_1?,_1) from 0 at 0\n"));
    assert!(report(&format!("{RULES}?- two(A,A?).\n")).contains("waiting two(_1,_1?) from 0 at 0\n"));
    assert!(report(&format!("{RULES}?- w(A?,1).\n")).contains("failed w(_1?,1) from 0 at 0\n"));
    assert!(report(&format!("{RULES}?- same(7,B).\n")).contains("B = 7\n"));
}

#[test]
fn every_refusal_has_its_number_line_and_message() {
    let query = format!("{RULES}?- tag([3|A?],Z), end(A).\n");
    let job = Job::new(&query);
    let out_of_range = "the budget is over 1,000,000, or a room figure is not 1 to 65,535";
    for room in
        [Room { pairs: 0, ..job.room }, Room { compounds: 65_536, ..job.room }, Room { goals: usize::MAX, ..job.room }]
    {
        assert_eq!(refusal(&job.room(room)), (1, 0, out_of_range.into()));
    }
    assert_eq!(refusal(&job.budget(1_000_001)), (1, 0, out_of_range.into()));
    assert_eq!(refusal(&Job::new(&" ".repeat(16_385))), (3, 0, "the text is longer than 16,384 bytes".into()));
    assert_eq!(refusal(&Job::new("p(a).\np(_).\n")), (4, 2, "2:3: this cannot stand here\np(_).\n  ^".into()));
    let twice = "3:8: the writer X occurs a second time\np(X,X?,X).\n       ^";
    assert_eq!(refusal(&Job::new("p(a).\n\np(X,X?,X).\n")), (5, 3, twice.into()));
    let alone = "4:1: the writer X has no reader\nX).\n^";
    assert_eq!(refusal(&Job::new("p(a).\n\np(\nX).\n")), (9, 3, alone.into()));
    let alone = "4:1: the reader X? has no writer\nX?).\n^";
    assert_eq!(refusal(&Job::new("p(a).\n\np(\nX?).\n")), (10, 3, alone.into()));
    let figure = "2: the item that begins here passes a figure (docs/LIMITS.md has them)";
    assert_eq!(refusal(&Job::new("p(a).\n?- p(1,2,3,4,5,6,7).\n")), (6, 2, figure.into()));
    assert_eq!(refusal(&Job::new("")), (6, 0, "the text has no query".into()));
    let small = Room { pairs: 1, ..job.room };
    assert_eq!(refusal(&job.room(small)), (7, 0, "the queries alone pass a room figure".into()));
    let length = report(&query).len();
    let message = format!("the report has {length} bytes, more than were asked for");
    assert_eq!(refusal(&job.longest_report(length - 1)), (8, 0, message));
}

#[test]
fn a_machine_keeps_nothing_of_a_job() {
    let mut machine = Machine::new();
    let jobs = generator::jobs(5, 600);
    let answers = |machine: &mut Machine, backwards: bool| {
        let mut answers: Vec<Answer> = Vec::new();
        for place in 0..jobs.len() {
            let job = &jobs[if backwards { jobs.len() - 1 - place } else { place }];
            let figures = &job.figures;
            let room = Room {
                pairs: figures.pairs as usize,
                compounds: figures.compounds as usize,
                goals: figures.goals as usize,
            };
            let wanted = Job::new(&job.text).budget(figures.budget as usize).room(room);
            answers.push(machine.run(&wanted.longest_report(figures.buffer as usize)));
        }
        if backwards {
            answers.reverse();
        }
        answers
    };
    let forwards = answers(&mut machine, false);
    assert_eq!(forwards, answers(&mut machine, true));
    for (job, answer) in jobs.iter().zip(&forwards) {
        let wanted = generator::call(&job.text, &generator::Figures { scratch: 0, need: 0, ..job.figures });
        assert_eq!(answer.number(), u32::from(wanted.number), "{}", job.label);
        assert_eq!(answer.report(), wanted.report.as_deref(), "{}", job.label);
        if let Answer::Refused(refusal) = answer {
            let place = (wanted.line as usize, wanted.offset as usize);
            assert_eq!((refusal.line(), refusal.offset()), place, "{}", job.label);
        }
    }
}

#[test]
fn machines_run_beside_each_other() {
    let text = format!("{RULES}?- tag([a,b|A?],Z), end(A).\n");
    let wanted = answer(&text);
    let threads: Vec<_> = (0..4)
        .map(|_| {
            let text = text.clone();
            std::thread::spawn(move || {
                let mut machine = Machine::new();
                (0..50).map(|_| machine.run(&Job::new(&text))).collect::<Vec<_>>()
            })
        })
        .collect();
    for thread in threads {
        assert!(thread.join().unwrap().iter().all(|answer| *answer == wanted));
    }
}

/// A refusal is an error, so `?` and `Box<dyn Error>` take it.
#[test]
fn a_refusal_is_an_error() {
    let error: Box<dyn std::error::Error> = Box::new(Refusal::NoQuery);
    assert_eq!(error.to_string(), "the text has no query");
}
