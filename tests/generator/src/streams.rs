//! Programs written by hand, and random queries over them: streams, channels, circles, waking, doubling and guards.
//!
//! A kit is its clauses and the goals that a query may hold, with the pairs as `$0`, `$1`, .. . A network of goals is
//! put in a random order, so that consumers come before their producers, wait and are woken. Further queries of a
//! job are often the same network with goals missing, so that their pairs have the same numbers and other fates.

use crate::random::Random;
use crate::term::{split, Token};

const STREAMS: &[&str] = &[
    "tag([H|T],[hit(H?)|R?]) :- tag(T?,R).",
    "tag([],[]).",
    "app([],Ys,Ys?).",
    "app([X|Xs],Ys,[X?|Zs?]) :- app(Xs?,Ys?,Zs).",
    "mix([X|Xs],Ys,[X?|Zs?]) :- mix(Ys?,Xs?,Zs).",
    "mix(Xs,[Y|Ys],[Y?|Zs?]) :- mix(Xs?,Ys?,Zs).",
    "mix([],[],[]).",
    "rev([],[]).",
    "rev([X|Xs],Zs?) :- rev(Xs?,Ys), app(Ys?,[X?],Zs).",
    "end([]).",
    "one([1|R?]) :- one(R).",
    "abc([a,b|R?]) :- end(R).",
    "eat([X|Xs]) :- eat(Xs?), keep(X?).",
    "eat([]).",
    "copy(X,X?).",
    "fan([X|Xs],[X?|As?],Bs?) :- ground(X?) | put(X?,Cs?,Bs), fan(Xs?,As,Cs).",
    "fan([],[],[]).",
    "put(X,Xs,[X?|Xs?]).",
    "sort([X|Xs],[X?|As?],Bs?) :- integer(X?) | sort(Xs?,As,Bs).",
    "sort([X|Xs],As?,[X?|Bs?]) :- otherwise | sort(Xs?,As,Bs).",
    "sort([],[],[]).",
    "runs([X,Y|Xs],[X?|Zs?]) :- X? == Y? | runs([Y?|Xs?],Zs).",
    "runs([X,Y|Xs],[X?,new|Zs?]) :- otherwise | runs([Y?|Xs?],Zs).",
    "runs([X],[X?]).",
    "runs([],[]).",
    "all([X|Xs],[c(X?)|Ys?]) :- constant(X?) | all(Xs?,Ys).",
    "all([X|Xs],[X?|Ys?]) :- compound(X?), known(Xs?) | all(Xs?,Ys).",
    "all([],[]).",
];
const CHANNELS: &[&str] = &[
    "new(ch(X,Y?),ch(Y,X?)).",
    "send(M,ch(In,[M?|Out?]),ch(In?,Out)).",
    "get(M?,ch([M|In],Out?),ch(In?,Out)).",
    "close(ch(In,[])) :- left(In?).",
    "left([]).",
    "same(X,X?).",
];
const CIRCLES: &[&str] = &[
    "same(X,X?).",
    "wrap(X,f(X?)).",
    "cell(X,[X?,1]).",
    "back(X?,X).",
    "pair(f(X,Y?),X?,Y).",
    "tie(X,X?).",
    "tie(X,no) :- keep(X?).",
    "hold(C,C?,done).",
    "mk(f(C,C?)).",
    "two(1,1).",
    "w(1,2).",
];
const WAKING: &[&str] = &[
    "fan(1,2,3).",
    "one(1).",
    "two(2).",
    "two(X) :- bad(X?).",
    "three(3,X?) :- one(X).",
    "some(1,Y,Y?).",
    "some(X,2,X?).",
    "some(3,3,3).",
    "both(1,1).",
    "both(2,X) :- one(X?).",
    "via(X?,X).",
    "late(1) :- one(1), two(2), one(1).",
];
const DOUBLING: &[&str] = &["mk(f(C,C?)).", "p(f(R?,S)) :- mk(R), p(S?)."];
/// Each guard alone and with others, before and behind clauses that wait.
const GUARDS: &[&str] = &[
    "set(X,X?).",
    "kind(X,int,X?) :- integer(X?) | .",
    "kind(X,con,X?) :- constant(X?) | .",
    "kind(X,cmp,X?) :- compound(X?) | .",
    "gr(X,X?) :- ground(X?) | .",
    "kn(X,X?) :- known(X?) | .",
    "kn(X,no(X?)) :- otherwise | .",
    "mk(f(X),X?) :- known(X?) | .",
    "mk([X],X?) :- ground(X?) | .",
    "mk(f(X),g(X?)) :- compound(f(X?)), otherwise | .",
    "nk(f(X,Y),Z,g(X?,Y?,Z?)) :- known(f(X?)), Z? == a | .",
    "nk([X|Y],Z,[X?,Y?|Z?]) :- known(Z?), a == Y? | .",
    "nk(Y,Z,f(Y?,Z?)) :- constant(f(Y?)) | .",
    "nk(Y,Z,f(Z?,Y?)) :- known([Y?|Z?]), otherwise | .",
    "h(1,Y,Y?) :- ground(Y?) | .",
    "h(Y,Z,f(Y?,Z?)) :- otherwise, known(Z?) | .",
    "eq(X,Y,X?,Y?) :- X? == Y? | .",
    "eq(X,Y,X?,no(Y?)) :- otherwise | .",
    "in(X,Y,yes(Y?)) :- X? == f(a,[Y?|b]) | put(X?).",
    "in(X,Y,no(Y?)) :- [X?] == [Y?], otherwise | put(X?).",
    "put(X) :- constant(X?) | put(X?,X?), put([X?|X?],a).",
    "put(f(X)) :- ground(X?) | put(X?), put(X?).",
    "c(a,yes).",
    "c(X,other(X?)) :- otherwise | .",
    "ci(a,B) :- put(B?).",
    "ci(X,B) :- integer(B?), otherwise | put(X?), put(B?).",
    "ci(X,B) :- otherwise, integer(B?) | put(f(X?)), put(B?).",
    "m(X,Y,R?) :- known(X?) | kn(X?,Q), eq(Q?,Y?,P,R), put(P?).",
    "m(X,Y,R?) :- known(Y?) | eq(X?,Y?,R,Q), put(Q?).",
    "s(X,X?) :- known(X?) | .",
    "s(X,Y?) :- otherwise | kind(X?,K,Y), put(K?).",
    "two(X,Y) :- integer(X?), integer(Y?) | put(X?), put(Y?).",
    "two(X,Y) :- integer(Y?), integer(X?) | put(Y?), put(X?).",
    "late(1) :- put(1), put(2).",
    "give(1,f(a,[b|b]),[2]).",
];
/// Ground values that stand several times, and grow so.
const SHARED: &[&str] = &[
    "d(s(N),X,Z?) :- ground(X?) | d(N?,f(X?,X?),Z).",
    "d(0,X,X?) :- ground(X?) | .",
    "e(X,Y,yes) :- X? == Y? | put(X?,Y?).",
    "e(X,Y,no) :- otherwise | put(X?,Y?).",
    "set(X,X?).",
    "sh(X,[X?|Y?]) :- ground(X?) | sh(X?,X?,Y).",
    "sh(X,Y,f(X?,Y?)) :- constant(X?) | e(X?,Y?,Z), put(X?,Z?).",
    "sh(X,Y,[Z?]) :- otherwise | e(X?,Y?,Z).",
];
const SESSION: &[&str] =
    &["tag([H|T],[hit(H?)|R?]) :- tag(T?,R).", "tag([],[]).", "end([]).", "same(X,X?).", "two(1,1).", "w(1,2)."];

/// Goals of the circle kit over the pairs at hand.
const CIRCLE_GOALS: &[&str] = &[
    "same($0?,$1)",
    "wrap($0?,$1)",
    "cell($0?,$1)",
    "back($1,$0?)",
    "pair($1,$0?,$2)",
    "tie($0?,$1)",
    "two($0,$1?)",
    "w($0?,1)",
    "mk($1)",
    "same(f($0?),$1)",
    "hold($0,$1,$2)",
];
const WAKING_GOALS: &[&str] = &[
    "one($0?)",
    "two($1?)",
    "three($2?,$3)",
    "fan($0,$1,$2)",
    "fan($2,$0,$1)",
    "some($0?,$1?,$4)",
    "some($2?,$2,$3)",
    "via($0,$5?)",
    "one($5)",
    "late($0)",
    "two($0)",
    "fan($1,$2?,$3)",
];

const GUARD_GOALS: &[&str] = &[
    "kind($0?,$1,$2)",
    "kind(f($0?),$1,$2)",
    "gr(f($0?,$1?),$2)",
    "gr([$0?,1|$1?],$2)",
    "gr(f($0?,$1),$2)",
    "gr([$1|$0?],$2)",
    "nk($0,$1?,$2)",
    "nk($0?,$1?,$2)",
    "nk(f($1?),$0?,$2)",
    "kn($0?,$1)",
    "kn($1?,$3)",
    "mk($0,$1)",
    "mk($0?,$1)",
    "h($0,$0?,$1)",
    "h($0?,$1?,$2)",
    "eq($0?,$1?,$2,$3)",
    "eq(f(a,$0?),f($1?,[b]),$2,$3)",
    "eq([$0?|$1],$2?,$3,$4)",
    "eq(f($1),f($0?),$2,$3)",
    "in($0?,$1?,$2)",
    "in(f(a,[$0?|b]),$1?,$2)",
    "c($0?,$1)",
    "c($1?,$2)",
    "ci($0?,$1?)",
    "ci($1?,$0?)",
    "m($0?,$1?,$2)",
    "m($0?,f($1?),$2)",
    "s($0?,$0)",
    "s($0?,$1)",
    "two($0?,$1?)",
    "two($1?,b)",
    "put(f($0?))",
];
const GUARD_VALUES: &[&str] = &[
    "set(1,$0)",
    "set(-7,$1)",
    "set(a,$0)",
    "set([],$1)",
    "set(f(a,[b|b]),$0)",
    "set(f($2?),$0)",
    "set([$2?],$1)",
    "set($1?,$0)",
    "set(b,$2)",
    "set([b],$1)",
    "late($0)",
    "late($2)",
    "give($0,$1,$2)",
    "give($1,$0,$3)",
];

/// The items of a job over one of the kits.
pub fn program(random: &mut Random) -> Vec<Vec<Token>> {
    match random.below(24) {
        0..=3 => job(random, STREAMS, &network),
        4 => job(random, STREAMS, &two_inputs),
        5 => job(random, CHANNELS, &dialogue),
        6 | 7 => job(random, CIRCLES, &|random| some_goals(random, CIRCLE_GOALS, 4)),
        8 => job(random, WAKING, &|random| some_goals(random, WAKING_GOALS, 7)),
        9 | 10 => job(random, WAKING, &fan),
        11 => job(random, WAKING, &either_input),
        12 => job(random, DOUBLING, &|_| vec!["mk($0)".into(), "p($0?)".into()]),
        13..=19 => job(random, GUARDS, &guards),
        20..=22 => job(random, SHARED, &shared),
        _ => job(random, SESSION, &session),
    }
}

/// Clauses of a kit that the goals of a job may need, now and then one missing, with 1 to 8 queries.
fn job(random: &mut Random, kit: &[&str], goals: &dyn Fn(&mut Random) -> Vec<String>) -> Vec<Vec<Token>> {
    let mut queries = Vec::new();
    let count = random.pick(&[1, 1, 1, 1, 2, 2, 2, 3, 4, 8]);
    let mut network = goals(random);
    while queries.len() < count {
        queries.push(query(random, &network));
        if random.chance(40) {
            network = goals(random);
        } else if network.len() > 1 && random.chance(60) {
            network.remove(random.below(network.len()));
        } else {
            random.shuffle(&mut network);
        }
    }
    let used = used_clauses(random, kit, &queries);
    let mut items: Vec<Vec<Token>> = used.iter().map(|clause| split(clause)).collect();
    items.extend(queries.iter().map(|query| split(query)));
    if random.chance(15) {
        random.shuffle(&mut items);
    }
    items
}

/// The clauses whose procedures are named by the queries or by one another.
fn used_clauses<'a>(random: &mut Random, kit: &[&'a str], queries: &[String]) -> Vec<&'a str> {
    let name = |clause: &str| clause[..=clause.find('(').unwrap()].to_string();
    let mut named = queries.join(" ");
    for _ in 0..3 {
        let bodies: Vec<&str> = kit.iter().copied().filter(|clause| named.contains(&name(clause))).collect();
        named = format!("{} {}", queries.join(" "), bodies.join(" "));
    }
    let missing = random.chance(8);
    let used: Vec<&str> = kit.iter().copied().filter(|clause| named.contains(&name(clause))).collect();
    let left_out = if missing && !used.is_empty() { random.below(used.len()) } else { used.len() };
    used.iter().enumerate().filter(|(place, _)| *place != left_out).map(|(_, clause)| *clause).collect()
}

/// A query of these goals: nothing occurs twice, each further use of a half is a pair of its own.
fn query(random: &mut Random, goals: &[String]) -> String {
    const NAMES: [&str; 16] = ["A", "B", "C", "D", "E", "F", "G", "H", "I", "J", "K", "L", "M", "N", "O", "P"];
    let first = if random.chance(30) { random.below(8) } else { 0 };
    let joined = goals.join(", ");
    let mut text = String::from("?- ");
    let mut seen: Vec<String> = Vec::new();
    let mut parts = joined.split('$');
    text.push_str(parts.next().unwrap());
    for part in parts {
        let digits = part.len() - part.trim_start_matches(|c: char| c.is_ascii_digit()).len();
        let number: usize = part[..digits].parse().unwrap();
        let reader = part[digits..].starts_with('?');
        let mut spelling = NAMES[(number + first) % 16].to_string();
        while seen.contains(&format!("{spelling}{reader}")) {
            spelling.push('x');
        }
        seen.push(format!("{spelling}{reader}"));
        text.push_str(&spelling);
        text.push_str(&part[digits..]);
    }
    text.push('.');
    text
}

/// Streams through producers, transformers and consumers, in a random order.
fn network(random: &mut Random) -> Vec<String> {
    let mut goals = Vec::new();
    let mut next = 0;
    let mut open: Vec<String> = (0..random.between(1, 2)).map(|_| source(random, &mut next, &mut goals)).collect();
    for _ in 0..random.between(1, 3) {
        let taken = open.remove(random.below(open.len()));
        let goal = match random.below(10) {
            6 | 7 => {
                next += 1;
                open.push(format!("${}?", next - 1));
                format!("{}({taken},${},${next})", random.pick(&["fan", "fan", "sort"]), next - 1)
            }
            8 => format!("runs({taken},${next})"),
            9 => format!("all({taken},${next})"),
            0 => format!("tag({taken},${next})"),
            1 => format!("rev({taken},${next})"),
            2 => format!("copy({taken},${next})"),
            3 => format!("app({taken},{},${next})", second(random, &mut open)),
            _ => format!("mix({taken},{},${next})", second(random, &mut open)),
        };
        goals.push(goal);
        open.push(format!("${next}?"));
        next += 1;
    }
    if random.chance(30) {
        let taken = open.remove(random.below(open.len()));
        goals.push(format!("eat({taken})"));
    }
    random.shuffle(&mut goals);
    goals
}

/// A stream: a list, a list with an open tail that a goal ends, or a producer's.
fn source(random: &mut Random, next: &mut usize, goals: &mut Vec<String>) -> String {
    let pair = *next;
    match random.below(8) {
        0 | 1 => literal(random, "]"),
        2 | 3 => {
            *next += 1;
            goals.push(format!("end(${pair})"));
            literal(random, &format!("|${pair}?]"))
        }
        4 => {
            *next += 1;
            literal(random, &format!("|${pair}?]"))
        }
        5 => {
            *next += 1;
            goals.push(format!("one(${pair})"));
            format!("${pair}?")
        }
        _ => {
            *next += 1;
            goals.push(format!("abc(${pair})"));
            format!("${pair}?")
        }
    }
}

fn literal(random: &mut Random, end: &str) -> String {
    let elements: Vec<&str> =
        (0..random.between(1, 3)).map(|_| random.pick(&["1", "2", "a", "-7", "[]", "f(b)", "[c]"])).collect();
    format!("[{}{end}", elements.join(","))
}

fn second(random: &mut Random, open: &mut Vec<String>) -> String {
    if open.is_empty() {
        literal(random, "]")
    } else {
        open.remove(random.below(open.len()))
    }
}

/// Two ends of a channel, with messages sent and received on either.
fn dialogue(random: &mut Random) -> Vec<String> {
    let mut goals = vec!["new($0,$1)".to_string()];
    let mut ends = ["$0?".to_string(), "$1?".to_string()];
    let mut next = 2;
    for _ in 0..random.between(1, 4) {
        let side = random.below(2);
        let taken = ends[side].clone();
        if random.chance(50) {
            goals.push(format!("send({},{taken},${next})", random.pick(&["hi", "1", "[x]"])));
        } else {
            goals.push(format!("get(${},{taken},${next})", next + 1));
        }
        ends[side] = format!("${next}?");
        next += 2;
    }
    if random.chance(40) {
        goals.push(format!("close({})", ends[random.below(2)]));
    }
    random.shuffle(&mut goals);
    goals
}

/// Goals of a list, their pairs moved so that they share some and not others.
fn some_goals(random: &mut Random, from: &[&str], most: usize) -> Vec<String> {
    let pairs = random.between(2, 4);
    (0..random.between(1, most))
        .map(|_| {
            let shift = if random.chance(70) { 0 } else { random.below(pairs) };
            shifted(random.pick(from), shift)
        })
        .collect()
}

fn shifted(goal: &str, shift: usize) -> String {
    goal.chars().fold(String::new(), |mut text, c| {
        let pair = text.ends_with('$');
        match c.to_digit(10) {
            Some(digit) if pair => text.push_str(&(digit as usize + shift).to_string()),
            _ => text.push(c),
        }
        text
    })
}

/// Goals that wait in a random order, then one that assigns their pairs in another: all are woken in one step.
fn fan(random: &mut Random) -> Vec<String> {
    let mut goals: Vec<String> = (0..3)
        .map(|pair| match random.below(5) {
            0 | 1 => format!("one(${pair}?)"),
            2 => format!("two(${pair}?)"),
            3 => format!("both(${pair}?,${}?)", pair + 4),
            _ => format!("three(${pair}?,${})", pair + 4),
        })
        .collect();
    random.shuffle(&mut goals);
    let mut pairs = ["$0", "$1", "$2"];
    random.shuffle(&mut pairs);
    goals.push(format!("fan({})", pairs.join(",")));
    if random.chance(30) {
        goals.push(format!("one(${})", random.between(4, 6)));
    }
    goals
}

/// Goals that wait on two readers, one for each clause; then either pair is assigned, or both are.
fn either_input(random: &mut Random) -> Vec<String> {
    let mut goals = vec!["some($0?,$1?,$2)".to_string()];
    if random.chance(40) {
        goals.push("some($2?,$3?,$4)".to_string());
        goals.push("two($3)".to_string());
    }
    goals.push(random.pick(&["one($0)", "two($1)", "via($0,$5?)", "via($1,$5?)", "one($1)"]).to_string());
    if random.chance(40) {
        goals.push(random.pick(&["one($5)", "two($1)", "one($0)", "two($5)"]).to_string());
    }
    goals
}

/// A merge that waits on both of its streams; then one of them comes, or both.
fn two_inputs(random: &mut Random) -> Vec<String> {
    let mut goals = vec![random.pick(&["mix($0?,$1?,$2)", "mix($1?,$0?,$2)"]).to_string()];
    if random.chance(40) {
        goals.push("tag($2?,$3)".to_string());
    }
    goals.push(random.pick(&["abc($0)", "abc($1)", "end($0)", "end($1)", "copy([1,2|$4?],$1)"]).to_string());
    if random.chance(40) {
        goals.push(random.pick(&["abc($1)", "end($0)", "one($1)", "end($4)"]).to_string());
    }
    goals
}

/// Goals with guarded clauses, and others that give their pairs values, mostly behind them.
fn guards(random: &mut Random) -> Vec<String> {
    if random.chance(40) {
        return needed(random);
    }
    let mut goals = some_goals(random, GUARD_GOALS, 3);
    let main = goals.len();
    goals.extend(some_goals(random, GUARD_VALUES, 4));
    match random.below(10) {
        0..=5 => {}
        6 | 7 => random.shuffle(&mut goals[main..]),
        _ => random.shuffle(&mut goals),
    }
    goals
}

/// A guard that needs several readers, and goals that give some of them values, one by one.
fn needed(random: &mut Random) -> Vec<String> {
    let shapes = ["f($0?,$1?)", "[$0?,f($1?)|$4?]", "[[$0?]|$1?]", "f(f($0?,a),$1?,$4?)", "f($0?,$5,$1?)"];
    let asked = ["gr(S,$2)", "eq(S,$3?,$2,$6)", "eq($3?,S,$2,$6)", "in($3?,S,$2)", "m($3?,S,$2)", "s(S,$2)"];
    let asked = if random.chance(50) { asked[0] } else { random.pick(&asked) };
    let mut goals = vec![asked.replace('S', random.pick(&shapes))];
    let mut values = ["set(1,$0)", "set(f(2),$1)", "set($7?,$4)", "set(a,$3)", "set([],$7)", "set(f(1,f(2)),$3)"];
    random.shuffle(&mut values);
    goals.extend(values[..random.between(1, 4)].iter().map(|goal| goal.to_string()));
    goals
}

/// Values that double, built apart or shared, compared and shared again.
fn shared(random: &mut Random) -> Vec<String> {
    let numerals = ["0", "s(0)", "s(s(0))", "s(s(s(0)))", "s($5?)"];
    let leaves = ["a", "a", "b", "f(a,a)", "f(1)", "$4?", "[$4?|$6?]"];
    let mut goals = vec![
        format!("d({},{},$0)", random.pick(&numerals), random.pick(&leaves)),
        format!("d({},{},$1)", random.pick(&numerals), random.pick(&leaves)),
        random.pick(&["e($0?,$1?,$2)", "e($0?,$1?,$2)", "sh($0?,$1?,$2)", "sh([$0?,$1?],$2)"]).to_string(),
    ];
    if random.chance(60) {
        goals.push(random.pick(&["set(a,$4)", "set(f(a,a),$4)", "set(1,$4)", "set(f(1),$4)"]).to_string());
    }
    if random.chance(40) {
        goals.push(random.pick(&["set(s(0),$5)", "set(0,$5)", "set([],$6)", "sh($2?,$3)"]).to_string());
    }
    if random.chance(40) {
        random.shuffle(&mut goals);
    }
    goals
}

/// The queries of document 01's session.
fn session(random: &mut Random) -> Vec<String> {
    let queries: [&[&str]; 10] = [
        &["tag([3|$0?],$1)", "end($0)"],
        &["tag($0?,$1)", "end($0)"],
        &["tag([1|$0?],$1)"],
        &["same($0?,$0)"],
        &["same($0,$1)"],
        &["same(7,$0)"],
        &["same(1,1)"],
        &["two($0,$0?)"],
        &["w($0?,1)"],
        &["same($0?)"],
    ];
    random.pick(&queries).iter().map(|goal| goal.to_string()).collect()
}
