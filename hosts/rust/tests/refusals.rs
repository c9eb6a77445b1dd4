//! How refusals are shown: every case of `hosts/refusals/cases`, to which the C host is held too (`tests/refusals`), and
//! what has to hold of the line and the caret of any text, on generated ones.

use generator::{call, jobs, Figures};
use troscunel::{Answer, Job, Machine, Refusal, Room};

/// A case: its name, its text and figures, the answer, and what is shown.
struct Case {
    name: String,
    options: Vec<String>,
    text: Vec<u8>,
    answer: Vec<usize>,
    shown: Vec<String>,
}

fn cases() -> Vec<Case> {
    let mut cases = Vec::new();
    for row in include_str!("../../refusals/cases").lines() {
        let Some((sign, rest)) = row.split_once(' ') else { continue };
        let case: Option<&mut Case> = cases.last_mut();
        match (sign, case) {
            ("=", _) => {
                let name = rest.to_string();
                cases.push(Case { name, options: vec![], text: vec![], answer: vec![], shown: vec![] });
            }
            ("$", Some(case)) => case.options = rest.split(' ').map(String::from).collect(),
            (":", Some(case)) => case.text.extend(bytes(rest)),
            (">", Some(case)) => case.shown.push(String::from_utf8(bytes(rest)).unwrap()),
            (number, Some(case)) if number.parse::<u8>().is_ok() => {
                case.answer = row.split(' ').map(|number| number.parse().unwrap()).collect();
            }
            _ => {}
        }
    }
    cases
}

/// The bytes of a row: `\n`, `\r`, `\t`, `\\` and `\0ooo` stand for one each.
fn bytes(row: &str) -> Vec<u8> {
    let mut bytes = Vec::new();
    let mut rest = row.bytes();
    while let Some(byte) = rest.next() {
        bytes.push(match byte {
            b'\\' => match rest.next().expect("a sign behind the backslash") {
                b'n' => b'\n',
                b'r' => b'\r',
                b't' => b'\t',
                b'0' => (0..3).fold(0, |sum, _| sum * 8 + (rest.next().unwrap() - b'0')),
                other => other,
            },
            other => other,
        });
    }
    bytes
}

fn job<'t>(text: &'t [u8], options: &[String]) -> Job<'t> {
    let mut job = Job::new(text);
    for option in options.chunks(2) {
        let figure = option[1].parse().unwrap();
        match option[0].as_str() {
            "--budget" => job.budget = figure,
            "--pairs" => job.room.pairs = figure,
            "--buffer" => job.longest_report = figure,
            other => panic!("{other}"),
        }
    }
    job
}

#[test]
fn every_case_is_shown_as_it_stands_there() {
    let mut machine = Machine::new();
    let mut numbers = [0; 12];
    for case in cases() {
        numbers[case.answer[0]] += 1;
        // A machine lends as much scratch as is needed.
        if case.options.first().is_some_and(|option| option == "--scratch") {
            assert_eq!(format!("job.glp: {}", Refusal::ScratchShort), case.shown.join("\n"));
            continue;
        }
        let refusal = machine.run(&job(&case.text, &case.options)).into_result().expect_err(&case.name);
        let answer = vec![refusal.number() as usize, refusal.line(), refusal.offset()];
        assert_eq!(answer, case.answer, "{}", case.name);
        assert_eq!(refusal.in_file("job.glp").to_string(), case.shown.join("\n"), "{}", case.name);
        let checked = machine.check(&case.text);
        match refusal.number() {
            3..=6 | 9..=11 => assert_eq!(checked, Err(refusal), "{}", case.name),
            _ => assert_eq!(checked, Ok(()), "{}", case.name),
        }
    }
    // 3 has a text that no row holds.
    let missing: Vec<usize> = (1..numbers.len()).filter(|number| numbers[*number] == 0).collect();
    assert_eq!(missing, [3]);
}

#[test]
fn the_longest_text_and_one_byte_more() {
    let mut machine = Machine::new();
    let text = format!("?- p(a){}", " ".repeat(16_377));
    let shown = format!("1:16385: the text ends here, inside an item\n..{0}\n  {0}^", " ".repeat(36));
    assert_eq!(machine.check(&text).unwrap_err().to_string(), shown);
    assert_eq!(machine.check(&format!("{text} ")), Err(Refusal::TextLong));
}

/// The room of `check` is enough for every text that can be read, and nothing is run.
#[test]
fn nothing_but_the_text_is_judged() {
    let pairs: Vec<String> = (0..16).map(|pair| format!("V{pair}")).collect();
    let goals: Vec<String> = (0..8).map(|goal| format!("p([{}],a,b)", pairs[2 * goal..][..2].join(","))).collect();
    let query = format!("?- {},f(f(a)),f(f(a)).\n", goals[..6].join(","));
    let full = format!("?- {},p([1],[1],[1],[1],[1],[1]).\n", goals[..7].join(","));
    for text in [query.repeat(8), full.repeat(8), "go(X) :- go(X?).\n?- go(a).\n".to_string()] {
        assert_eq!(Machine::new().check(&text), Ok(()), "{text}");
    }
    let most = format!("?- {}.\n", vec!["p([a,a,a])"; 8].join(","));
    assert_eq!(Machine::new().check(&most.repeat(8)), Ok(()));
    assert_eq!(
        Machine::new().check(&most.repeat(9)).unwrap_err().to_string(),
        "9: the item that begins here passes a figure (docs/LIMITS.md has them)"
    );
}

fn shown_byte(byte: u8) -> String {
    match byte {
        b'\t' | b' '..=b'~' => char::from(byte).to_string(),
        _ => format!("\\x{byte:02x}"),
    }
}

/// Of any text: row and column lead to the offset, the caret stands under its byte, and a tab is above a tab.
#[test]
fn the_caret_stands_under_the_byte() {
    let mut machine = Machine::new();
    let mut seen = [0; 12];
    for job in jobs(20_240_014, 4_000) {
        let Err(refusal) = machine.check(&job.text) else { continue };
        let Some(place) = refusal.place() else { continue };
        seen[refusal.number() as usize] += 1;
        let message = refusal.to_string();
        let rows: Vec<&str> = message.split('\n').collect();
        let [_, line, caret] = rows[..] else { panic!("three lines: {message}") };
        assert!(message.starts_with(&format!("{}:{}: ", place.row, place.column)), "{}", job.label);
        let begin: usize = job.text.split_inclusive(|byte| *byte == b'\n').take(place.row - 1).map(<[u8]>::len).sum();
        assert_eq!(begin + place.column - 1, place.offset, "{}", job.label);
        let before = caret.strip_suffix('^').expect("a caret");
        assert!(before
            .bytes()
            .zip(line.bytes())
            .all(|(below, above)| below == if above == b'\t' { above } else { b' ' }));
        match job.text.get(place.offset) {
            Some(byte) => assert!(line[before.len()..].starts_with(&shown_byte(*byte)), "{message}"),
            None => assert_eq!(line.len(), before.len(), "{message}"),
        }
        assert!(line.bytes().all(|byte| byte == b'\t' || (b' '..=b'~').contains(&byte)));
        assert!(line.len() <= 4 * 72 + 4, "{message}");
        if refusal.number() != 4 {
            assert!(!place.variable.is_empty() && line[before.len()..].starts_with(&place.variable), "{message}");
        }
    }
    assert!([4, 5, 9, 10].iter().all(|number| seen[*number] > 50), "{seen:?}");
}

/// Number, line, offset and report of generated jobs are the reference's.
#[test]
fn generated_jobs_are_answered_as_by_the_reference() {
    let mut machine = Machine::new();
    for job in jobs(20_240_015, 1_500) {
        let Figures { budget, pairs, compounds, goals, buffer, .. } = job.figures;
        let room = Room { pairs: pairs as usize, compounds: compounds as usize, goals: goals as usize };
        let wanted = call(&job.text, &Figures { scratch: 0, need: 0, ..job.figures });
        let own = Job::new(&job.text).budget(budget as usize).room(room).longest_report(buffer as usize);
        match machine.run(&own) {
            Answer::Ran(report) => assert_eq!(Some(report), wanted.report, "{}", job.label),
            Answer::Refused(refusal) => {
                let answer = (refusal.number(), refusal.line(), refusal.offset());
                assert_eq!(
                    answer,
                    (wanted.number.into(), wanted.line as usize, wanted.offset as usize),
                    "{}",
                    job.label
                );
            }
        }
    }
}
