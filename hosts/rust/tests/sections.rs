//! Reports read by sections: every example's, corner cases, generated ones; and bytes that are no report.

use troscunel::{Goal, Job, Kind, Machine, Report, Room, Section};

/// The report put together from all that is read of it.
fn put_together(report: &Report<'_>) -> String {
    let sections: String = report.sections().map(|section| section_put_together(&section)).collect();
    format!("run {} steps {}\n{sections}", report.verdict(), report.steps())
}

fn section_put_together(section: &Section<'_>) -> String {
    let counts: String = Kind::ALL.iter().map(|kind| format!(" {} {}", kind.word(), section.count(*kind))).collect();
    let values: String = section.values().map(|(name, value)| format!("{name} = {value}\n")).collect();
    let goals: String = Kind::ALL.iter().flat_map(|kind| section.goals(*kind).map(|goal| line(*kind, &goal))).collect();
    format!("query {} tries {}{counts}\n{values}{goals}", section.number(), section.tries())
}

fn line(kind: Kind, goal: &Goal<'_>) -> String {
    format!("{} {} from {} at {}\n", kind.word(), goal.text(), goal.clause(), goal.tries())
}

/// Of each goal its text and its origin.
fn goals<'r>(section: &Section<'r>, kind: Kind) -> Vec<(&'r str, usize, usize)> {
    section.goals(kind).map(|goal| (goal.text(), goal.clause(), goal.tries())).collect()
}

/// All that is given is a part of the report's own bytes.
fn is_part(part: &str, of: &[u8]) -> bool {
    let (from, to) = (part.as_ptr() as usize, part.as_ptr() as usize + part.len());
    let whole = of.as_ptr_range();
    (whole.start as usize) <= from && to <= whole.end as usize
}

/// A goal of the query was made before its tries, any other one by a clause in one of them.
fn is_origin(goal: &Goal<'_>, section: &Section<'_>) -> bool {
    match goal.clause() {
        0 => goal.tries() == 0,
        clause => clause <= 128 && (1..=section.tries()).contains(&goal.tries()),
    }
}

/// What holds of every report. Gives the number of its sections.
fn judge(bytes: &[u8], label: &str) -> usize {
    let report = Report::of(bytes).unwrap_or_else(|| panic!("{label}: no report"));
    assert_eq!(put_together(&report).as_bytes(), bytes, "{label}");
    assert!(is_part(report.verdict(), bytes), "{label}");
    for section in report.sections() {
        assert_eq!(section_put_together(&section), section.text(), "{label}");
        assert_eq!(Section::of(section.text()), Some(section), "{label}");
        assert!(is_part(section.text(), bytes), "{label}");
        assert!(section.values().all(|(name, value)| is_part(name, bytes) && is_part(value, bytes)), "{label}");
        for kind in Kind::ALL {
            assert_eq!(section.goals(kind).count(), section.count(kind), "{label}");
            assert!(section.goals(kind).all(|goal| is_part(goal.text(), bytes)), "{label}");
            assert!(section.goals(kind).all(|goal| is_origin(&goal, &section)), "{label}");
        }
    }
    report.sections().count()
}

fn run(job: &Job<'_>) -> Vec<u8> {
    Machine::new().run(job).into_result().expect("a report")
}

#[test]
fn every_example() {
    let folder = std::path::Path::new(env!("CARGO_MANIFEST_DIR")).join("../../examples");
    let mut count = 0;
    for entry in std::fs::read_dir(folder).unwrap() {
        let path = entry.unwrap().path();
        if path.extension().is_some_and(|ending| ending == "report") {
            judge(&std::fs::read(&path).unwrap(), &path.display().to_string());
            count += 1;
        }
    }
    assert!(count >= 14, "{count} reports");
}

#[test]
fn no_variables_and_no_goals() {
    let bytes = run(&Job::new("p(a).\n?- p(a).\n?- p(b).\n"));
    assert_eq!(judge(&bytes, "two queries"), 2);
    let sections: Vec<Section<'_>> = Report::of(&bytes).unwrap().sections().collect();
    assert_eq!(sections[0].text(), "query 1 tries 1 active 0 waiting 0 failed 0\n");
    assert_eq!(sections[0].values().next(), None);
    assert!(Kind::ALL.iter().all(|kind| sections[0].count(*kind) == 0 && sections[0].goals(*kind).next().is_none()));
    assert_eq!(goals(&sections[1], Kind::Failed), [("p(b)", 0, 0)]);
}

#[test]
fn eight_queries() {
    let text: String = (1..=8).map(|place| format!("?- p({place},X).\n")).collect();
    let bytes = run(&Job::new(&format!("p(N,N?).\n{text}")));
    assert_eq!(judge(&bytes, "eight queries"), 8);
    for (section, place) in Report::of(&bytes).unwrap().sections().zip(1..) {
        assert_eq!((section.number(), section.tries()), (place, 1));
        assert!(section.values().eq([("X", place.to_string().as_str())]));
    }
}

/// Some groups are empty and others not, in every way in which that can be.
#[test]
fn every_set_of_empty_groups() {
    // One of these goals is always active, waits, fails; the last one ends.
    let kinds = ["p(a)", "w(X?)", "n(a)"];
    for set in 0..8 {
        let full = |kind: Kind| set >> (kind as usize) & 1;
        let goals = Kind::ALL.iter().filter(|kind| full(**kind) == 1).map(|kind| kinds[*kind as usize]);
        let goals: Vec<&str> = goals.chain(["e(a)"]).collect();
        let text = format!("p(Y) :- p(Y?).\nw(a).\ne(a).\n?- {}.\n?- e(a).\n", goals.join(","));
        let bytes = run(&Job::new(&text).budget(20));
        assert_eq!(judge(&bytes, &text), 2);
        let section = Report::of(&bytes).unwrap().sections().next().unwrap();
        assert!(Kind::ALL.iter().all(|kind| section.count(*kind) == full(*kind)), "{text}");
    }
}

/// Names that could be taken for the report's own words.
#[test]
fn names_that_look_like_lines() {
    let bytes = run(&Job::new("?- query(Query,run,active).\n?- waiting(failed).\n"));
    assert_eq!(judge(&bytes, "names"), 2);
    let sections: Vec<Section<'_>> = Report::of(&bytes).unwrap().sections().collect();
    assert!(sections[0].values().eq([("Query", "_1")]));
    assert_eq!(goals(&sections[0], Kind::Failed), [("query(_1,run,active)", 0, 0)]);
    assert_eq!(goals(&sections[1], Kind::Failed), [("waiting(failed)", 0, 0)]);
    let bytes = run(&Job::new("from(at) :- at(from,1).\n?- from(at).\n"));
    let section = Report::of(&bytes).unwrap().sections().next().unwrap();
    assert_eq!(goals(&section, Kind::Failed), [("at(from,1)", 1, 1)]);
}

/// Which clause made a goal, and at which try of its own query, whatever the other query does between.
#[test]
fn where_goals_come_from() {
    let text = "a(X,Y) :- b(X?), c(Y?).\nb(1).\nset(X,X?).\n?- a(P?,2), set(1,P).\n?- a(3,Q?), b(R?).\n";
    let bytes = run(&Job::new(text));
    let sections: Vec<Section<'_>> = Report::of(&bytes).unwrap().sections().collect();
    assert_eq!(goals(&sections[0], Kind::Failed), [("c(2)", 1, 1)]);
    assert_eq!(goals(&sections[1], Kind::Waiting), [("b(_2?)", 0, 0)]);
    assert_eq!(goals(&sections[1], Kind::Failed), [("b(3)", 1, 1), ("c(_1?)", 1, 1)]);
    let loops = "n(0).\nn(0).\nn(0).\nn(0).\nn(0).\nn(0).\nn(0).\nn(0).\nn(0).\nloop(a) :- loop(a).\n?- loop(a).\n";
    let bytes = run(&Job::new(loops).budget(123));
    let section = Report::of(&bytes).unwrap().sections().next().unwrap();
    assert_eq!(goals(&section, Kind::Active), [("loop(a)", 10, 123)]);
}

#[test]
fn generated_reports() {
    let mut machine = Machine::new();
    let mut sections = 0;
    for job in generator::jobs(20_240_016, 1_500) {
        let figures = &job.figures;
        let room = Room {
            pairs: figures.pairs as usize,
            compounds: figures.compounds as usize,
            goals: figures.goals as usize,
        };
        let wanted = Job::new(&job.text).budget(figures.budget as usize).room(room).longest_report(1 << 20);
        let Ok(bytes) = machine.run(&wanted).into_result() else { continue };
        sections += judge(&bytes, &job.label.to_string());
    }
    assert!(sections > 500, "{sections} sections");
}

/// One edit of a good report, and it is none.
#[test]
fn bytes_that_are_no_report() {
    let good = "run rest steps 5\nquery 1 tries 3 active 0 waiting 0 failed 0\nHits = [a]\n\
                query 2 tries 2 active 1 waiting 1 failed 1\nMore = _1\nactive p(a) from 0 at 0\n\
                waiting p(_1?) from 12 at 1\nfailed q from 3 at 2\n";
    assert!(Report::of(good).is_some());
    for (from, to) in [
        ("run rest", "run west"),
        ("run rest", "Run rest"),
        ("steps 5", "steps"),
        ("steps 5", "steps +5"),
        ("steps 5", "steps 05"),
        ("steps 5", "steps 5 "),
        ("steps 5", "steps 99999999999999999999"),
        ("query 1", "query 2"),
        ("query 2", "query 3"),
        ("query 2", "query 1"),
        ("query 2", "query  2"),
        ("query 2", "quarry 2"),
        ("tries 2", "tries"),
        ("tries 2 active 1", "active 1 tries 2"),
        ("failed 0", "failed 0 0"),
        ("active 1", "active 0"),
        ("waiting 1", "waiting 2"),
        ("failed 1", "failed 0"),
        ("active 0", "active 1"),
        ("Hits = ", "hits = "),
        ("Hits = [a]", "Hits = [a] "),
        ("Hits = [a]", "Hits ="),
        ("Hits = [a]", "Hits = "),
        ("More = _1", "More=_1"),
        (
            "active p(a) from 0 at 0\nwaiting p(_1?) from 12 at 1",
            "waiting p(_1?) from 12 at 1\nactive p(a) from 0 at 0",
        ),
        ("More = _1\nactive p(a) from 0 at 0", "active p(a) from 0 at 0\nMore = _1"),
        ("More = _1\n", "More = _1 from 0 at 0\n"),
        ("failed q from 3 at 2\n", "failed q from 3 at 2"),
        ("failed q from 3 at 2\n", "failed q\n"),
        ("failed q from 3 at 2\n", "failed from 3 at 2\n"),
        ("failed q from 3 at 2\n", "failed  from 3 at 2\n"),
        ("failed q from 3 at 2\n", "failed q at 2 from 3\n"),
        ("failed q from 3 at 2\n", "failed q from 3 at 2 at 2\n"),
        ("failed q from 3 at 2\n", "failed q from 3 at 2\n\n"),
        ("failed q from 3 at 2\n", "failed q from 3 at 2\nfailed r from 3 at 2\n"),
        ("from 12 at", "from at"),
        ("from 12 at", "from -12 at"),
        ("from 12 at", "from 012 at"),
        ("from 12 at", "from  12 at"),
        ("from 12 at 1", "from 12 at 1 "),
        ("from 12 at 1", "from 12 at"),
        ("from 12 at 1", "from 12"),
        ("p(_1?) from", "p(_1?)from"),
        ("p(_1?) from", "p(_1? ) from"),
        ("p(_1?) from", "p(_1?) From"),
        ("p(a)", "p(\u{e4})"),
        ("p(a)", "p(\r)"),
    ] {
        let edited = good.replacen(from, to, 1);
        assert_ne!(edited, good, "{from}");
        assert_eq!(Report::of(&edited), None, "{to}");
    }
    for bytes in ["", "\n", "run rest steps 5\n", &good[17..], "run rest steps 5"] {
        assert_eq!(Report::of(bytes), None, "{bytes}");
    }
    // Cut anywhere but behind a whole section it is none.
    let whole: Vec<usize> = (0..=good.len()).filter(|length| Report::of(&good[..*length]).is_some()).collect();
    let first = good.find("query 2").unwrap();
    assert_eq!(whole, [first - "Hits = [a]\n".len(), first, good.len()]);
    // A section is no report, and a report no section.
    assert_eq!(Section::of(good), None);
    assert_eq!(Section::of(&good[17..]), None);
    assert!(Section::of(&good[17..first]).is_some());
    assert_eq!(Report::of(&[0xff_u8][..]), None);
}
