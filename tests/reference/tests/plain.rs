//! Random jobs, jobs whose values double, and programs that keep going: run by the reference and by the plain model.

mod common;
mod model;

use common::Dice;
use model::plain_report;
use reference::{call, Figures};

struct Jobs(Dice);

impl Jobs {
    fn roll(&mut self, sides: u64) -> u64 {
        self.0.roll(sides)
    }

    /// A term with `#` for each variable.
    fn term(&mut self, depth: u64) -> String {
        match self.roll(if depth == 0 { 7 } else { 11 }) {
            0..=4 => "#".into(),
            5 => "a".into(),
            6 => "[]".into(),
            7 => format!("f({})", self.term(depth - 1)),
            8 => format!("g({},{})", self.term(depth - 1), self.term(depth - 1)),
            9 => format!("[{}|{}]", self.term(depth - 1), self.term(depth - 1)),
            _ => format!("[{},{}]", self.term(depth - 1), self.term(depth - 1)),
        }
    }

    fn goal(&mut self, depth: u64) -> String {
        let name = ["p", "q", "r"][self.roll(3) as usize];
        match name {
            "p" => format!("p({},{})", self.term(depth), self.term(depth)),
            "q" => format!("q({},{})", self.term(depth), self.term(depth)),
            _ => format!("r({},{},{})", self.term(depth), self.term(depth), self.term(depth)),
        }
    }

    /// Put writers and readers in: both halves of each variable in a clause, some missing in a query.
    fn variables(&mut self, skeleton: String, clause: bool) -> String {
        let places = skeleton.matches('#').count();
        let mut halves: Vec<String> = Vec::new();
        let mut variable = 0;
        while halves.len() < places {
            let name = format!("{}{}", ["X", "Y", "Zed"][variable % 3], variable);
            variable += 1;
            let both = if clause { places - halves.len() > 1 } else { self.roll(4) > 0 };
            match both {
                true => halves.extend([name.clone(), name + "?"]),
                false if clause => halves.push("b".into()),
                false => halves.push(if self.roll(2) == 0 { name } else { name + "?" }),
            }
        }
        halves.truncate(places);
        for place in (1..places).rev() {
            halves.swap(place, self.roll(place as u64 + 1) as usize);
        }
        let mut parts = skeleton.split('#');
        let mut out = parts.next().unwrap().to_string();
        for part in parts {
            out += &halves.pop().unwrap();
            out += part;
        }
        out
    }

    /// Guards before a clause's body: their variables are readers of the head's writers, and those that are the
    /// argument of ground, integer or constant may come again in the body.
    fn guarded(&mut self, clause: String) -> String {
        let (head, body) = clause.split_once(":-").unwrap_or((&clause, ""));
        let variables = head.split(|c: char| !c.is_alphanumeric() && c != '?');
        let writers: Vec<&str> =
            variables.filter(|v| v.starts_with(|c: char| c.is_uppercase()) && !v.ends_with('?')).collect();
        let (mut guards, mut goals): (Vec<String>, Vec<String>) = (Vec::new(), Vec::new());
        goals.extend((!body.is_empty()).then(|| body.into()));
        for _ in 0..1 + self.roll(3) {
            let mut reader = || match writers.len() as u64 {
                0 => "a".to_string(),
                writers_in_all => format!("{}?", writers[self.roll(writers_in_all) as usize]),
            };
            let (one, other) = (reader(), reader());
            let test = ["ground", "integer", "constant", "compound", "known"][self.roll(5) as usize];
            guards.push(match self.roll(12) {
                0 | 1 => "otherwise".into(),
                2 => format!("{one}=={other}"),
                3 => format!("{one}==f({other})"),
                4 => format!("[a|{one}]==[{other}|{one}]"),
                5 => format!("{test}(g({one},{other}))"),
                _ => {
                    let again = ["ground", "integer", "constant"].contains(&test) && one != "a" && self.roll(2) == 0;
                    goals.extend(again.then(|| format!("q({one},g({one},{one}))")));
                    format!("{test}({one})")
                }
            });
        }
        format!("{head}:-{}|{}", guards.join(","), goals.join(","))
    }

    fn job(&mut self) -> String {
        let mut text = String::new();
        for _ in 0..3 + self.roll(10) {
            let depth = self.roll(3);
            let mut clause = self.goal(depth);
            for number in 0..self.roll(4) {
                clause += if number == 0 { ":-" } else { "," };
                clause += &self.goal(1);
            }
            clause = self.variables(clause, true);
            if self.roll(2) == 0 {
                clause = self.guarded(clause);
            }
            text += &(clause + ".\n");
        }
        for _ in 0..1 + self.roll(3) {
            let goals: Vec<String> = (0..1 + self.roll(4)).map(|_| self.goal(2)).collect();
            text += &(self.variables(format!("?- {}", goals.join(", ")), false) + ".\n");
        }
        text
    }
}

#[test]
fn random_jobs_run_as_the_plain_model_says() {
    let (mut dice, mut accepted, mut reductions, mut longest) = (Jobs(Dice(0x9e37_79b9_7f4a_7c15)), 0, 0, 0);
    let count = common::random_jobs(20_000) as usize;
    for _ in 0..count {
        let text = dice.job();
        let small = dice.roll(2) == 0;
        let figures = Figures {
            budget: if small { dice.roll(40) } else { 60 },
            pairs: if small { 10 + dice.roll(60) } else { 200 },
            compounds: if small { 20 + dice.roll(80) } else { 400 },
            goals: if small { 3 + dice.roll(20) } else { 100 },
            ..Figures::default()
        };
        let answer = call(text.as_bytes(), &figures);
        let Some(report) = answer.report else {
            assert!([6, 7, 8].contains(&answer.number), "{} for\n{text}", answer.number);
            continue;
        };
        let (plain, own) = plain_report(&text, &figures);
        assert_eq!(String::from_utf8(report).unwrap(), plain, "{figures:?}\n{text}");
        accepted += 1;
        reductions += own;
        longest = longest.max(own);
    }
    println!("{accepted} of {count} accepted, {reductions} reductions, {longest} at most");
    assert!(accepted * 2 > count && reductions > accepted);
}

/// Values whose written form doubles: what is copied instead of walked again is the same text.
#[test]
fn doubling_jobs_run_as_the_plain_model_says() {
    for (make, meet) in [
        ("f(C,C?)", "f(R?,S)"),
        ("[C|C?]", "[R?|S]"),
        ("[C?|C]", "[S|R?]"),
        ("[1,C?,f([C|[]])]", "[1,S,f([R?])]"),
        ("f([1|C?],[C,D],D?)", "f([1|S],[R?,2],2)"),
    ] {
        let text = format!("mk({make}).\np({meet}) :- mk(R), p(S?).\n?- mk(A), p(A?), mk(B).\n?- mk(A), no(A?).\n");
        for budget in 0..26 {
            let figures = Figures { budget, buffer: 1 << 24, ..Figures::default() };
            let report = call(text.as_bytes(), &figures).report.expect(&text);
            assert_eq!(String::from_utf8(report).unwrap(), plain_report(&text, &figures).0, "{text}");
        }
    }
}

/// Programs that keep going: streams, merges, copies, chains, and goals that wait on several readers.
#[test]
fn known_programs_run_as_the_plain_model_says() {
    let streams = "ones([1|X?]) :- ones(X). twos([2|X?]) :- twos(X). list([a,b,c]).
merge([X|Xs],Ys,[X?|Zs?]) :- merge(Ys?,Xs?,Zs). merge(Xs,[Y|Ys],[Y?|Zs?]) :- merge(Xs?,Ys?,Zs).
merge([],Y,Y?). merge(X,[],X?). same(X,X?). link(X?) :- link(X).
tag([H|T],[hit(H?)|R?]) :- tag(T?,R). tag([],[]).
dup([X|Xs],[A?|As?],[B?|Bs?]) :- both(X?,A,B), dup(Xs?,As,Bs). dup([],[],[]).
both(1,1,1). both(2,2,2). both(hit(X),hit(A?),hit(B?)) :- both(X?,A,B).
rev([X|Xs],A,R?) :- rev(Xs?,[X?|A?],R). rev([],A,A?).
wrap(X,g(X?)). loop(V) :- wrap(V?,U), loop(U?). reply([ask(X,Y?)|T]) :- same(X?,Y), reply(T?). reply([]).
fan([X|Xs],[X?|As?],Bs?) :- ground(X?) | put(X?,Cs?,Bs), fan(Xs?,As,Cs). fan([],[],[]). put(X,Xs,[X?|Xs?]).
sort([X|Xs],[X?|I?],C?,O?) :- integer(X?) | sort(Xs?,I,C,O). sort([],[],[],[]).
sort([X|Xs],I?,[X?|C?],O?) :- constant(X?) | sort(Xs?,I,C,O). sort([X|Xs],I?,C?,[X?|O?]) :- otherwise | sort(Xs?,I,C,O).
runs([X,Y|Xs],[X?|R?]) :- X? == Y? | runs([Y?|Xs?],R). runs([X,Y|Xs],[X?,new|R?]) :- otherwise | runs([Y?|Xs?],R).
runs([X],[X?]). runs([],[]). deep(s(N),X,Z?) :- ground(X?) | deep(N?,f(X?,X?),Z). deep(0,X,X?) :- ground(X?) | .
";
    for queries in [
        "?- ones(A), twos(B), merge(A?,B?,C).",
        "?- merge(A?,B?,C), merge(C?,D?,E), ones(B), list(D), list(A). ?- list(A), merge(A?,[],B), tag(B?,C).",
        "?- ones(A), dup(A?,B,C), tag(B?,D), merge(C?,D?,E), dup(E?,F,G).",
        "?- list(A), rev(A?,[],B), rev([1,2,3|C?],[],D), list(C).",
        "?- loop(A?), link(A). ?- loop(a). ?- loop(B?), same(f(C?),B), same(1,C).",
        "?- reply(A?), same([ask(1,B),ask(C?,D),ask(D?,E)],A), same(7,C). ?- reply([ask(X?,X)]).",
        "?- tag(A?,B), tag(B?,A). ?- merge(A?,B?,A). ?- tag([A|B?],B).",
        "?- fan(A?,B,C), list(A), fan(C?,D,E), merge(B?,E?,F). ?- fan([1,X?,f(Y?)|T?],A,B), same(2,Y), list(T).",
        "?- sort([1,a,f(b),X?,[],-7,[c]|T?],I,C,O), same(Y?,X), same(9,Y), list(T). ?- ones(A), fan(A?,B,C).",
        "?- runs([1,1,a,[b],[b],X?,f(Y?),f(c)|T?],R), same(c,Y), same(f(c),X), list(T).",
        "?- deep(s(s(s(A?))),a,Z), same(s(0),A). ?- ones(A), fan(A?,B,C), sort(B?,D,E,F).",
    ] {
        let text = format!("{streams}{queries}");
        for budget in (0..40).chain([60, 100, 200, 300]) {
            let figures = Figures { budget, ..Figures::default() };
            let report = call(text.as_bytes(), &figures).report.expect(&text);
            assert_eq!(String::from_utf8(report).unwrap(), plain_report(&text, &figures).0, "{text}");
        }
    }
}
