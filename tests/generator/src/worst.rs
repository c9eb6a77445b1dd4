//! Jobs made to hurt: the largest texts and rooms, the deepest values, the longest chains, the most waits, values that
//! double, clauses that all but match, and guards that look at all of these.
//!
//! Each reduction charges a compound at least, and a goal that waits is woken by a pair that is assigned, so no run
//! takes 1,000,000 steps: what costs is what one step can cost, times the steps that the room allows. The products are
//! cut to some budget here, and named.

use crate::heavy::{self, nested};
use crate::lengths;
use crate::texts::{texts, LONGEST};

pub struct Worst {
    pub label: String,
    /// What grows with what.
    pub product: &'static str,
    pub budget: u64,
    pub text: String,
}

/// The largest budget.
const ALL: u64 = 1_000_000;

pub fn jobs() -> Vec<Worst> {
    let job = |label: &str, product, budget, text| Worst { label: label.to_string(), product, budget, text };
    let mut jobs = vec![
        job("the largest rooms, no step", "clearing", 0, "?- p(a).\n".to_string()),
        job("the largest text, refused at its end", "bytes", 0, largest_text()),
    ];
    jobs.extend(
        texts()
            .into_iter()
            .filter(|(_, text)| text.len() > LONGEST / 2)
            .map(|(label, text)| job(&format!("text: {label}"), "bytes", 0, text)),
    );
    jobs.extend(
        heavy::jobs()
            .into_iter()
            .filter(heavy::Heavy::for_stack)
            .map(|heavy| job(&format!("deepest: {}", heavy.label), "levels", ALL, heavy.text)),
    );
    jobs.extend([
        job("waits: goals that wait and are woken one by one", "steps", ALL, waits()),
        job(
            "waits: one goal, woken at each step",
            "steps",
            ALL,
            "c([X?|Xs?]) :- c(Xs), d(X).\nd(a).\nw([a|Xs]) :- w(Xs?).\n?- c(Z), w(Z?).\n".to_string(),
        ),
        job("waits: a goal that needs 71 readers by 75 clauses", "steps × readers × clauses", ALL, readers(75)),
        job("waits: a goal that needs 1,296 readers, given one by one", "readers × clauses × places", ALL, tree()),
        job(
            "doubling: the longest report",
            "bytes written",
            ALL,
            lengths::of_length(16_777_216).expect("there is one"),
        ),
        job(
            "doubling: past the longest",
            "bytes counted",
            ALL,
            "mk(f(C,C?)).\np(f(R?,S)) :- mk(R), p(S?).\n?- mk(A), p(A?).\n".to_string(),
        ),
        job("doubling: 2,097,152 leaves behind a chain", "bytes written", 30_000, leaves()),
        job("127 heads of 15 levels that all but match", "steps × clauses", ALL, heads(127, 15, 1)),
        job("127 heads of 43 places that all but match", "steps × places", ALL, heads(127, 15, 3)),
        job(
            "125 heads of 43 places that all but match, 28 of which wait",
            "steps × places",
            ALL,
            waiting_heads(125, 15),
        ),
        job("60,000 goals that fail on 120 clauses", "steps × clauses", ALL, failing()),
        job("a chain read at each second link", "steps × links", ALL, chain(1)),
        job("a chain read by 100 clauses", "steps × links × clauses", 1_000, chain(100)),
        job("a chain read by 100 clauses, twice as long", "steps × links × clauses", 2_000, chain(100)),
        job(
            "a term that grows, passed on",
            "steps × levels",
            ALL,
            "count(N,R?) :- succ(N?,M), count(M?,R).\nsucc(N,s(N?)).\n?- count(0,A).\n".to_string(),
        ),
        job("circles of 28,000 levels by 100 clauses, 1 time", "steps × clauses × levels", ALL, circles(1)),
        job("circles of 28,000 levels by 100 clauses, 8 times", "steps × clauses × levels", ALL, circles(8)),
    ]);
    jobs.extend(guards());
    jobs
}

/// What guards look at: `ground` and `==` go over values that are deep, open or, written out, larger than any room.
fn guards() -> Vec<Worst> {
    let job = |label: &str, product, budget, text| Worst { label: label.to_string(), product, budget, text };
    let one = |inner: String| format!("f({inner})");
    let growing = |guards: &str, value: &str| format!("l(X) :- {guards} | l({value}).\n?- l(a).\n");
    let open = nested(15, "X?", one);
    let grown = format!("d({open}) :- d(X).\ng(X) :- ground(X?) | no(X?).\n?- d(A), g(A?).\n");
    let deeper = nested(14, "X?", one);
    let sides = [nested(7, "X?", one), nested(7, "Y?", one)].join(",");
    let both = |sides: &str| format!("l(X,Y) :- X? == Y?, ground(X?), ground(Y?) | l({sides}).\n?- l(a,a).\n");
    let shared = format!("l(X) :- ground(X?) | {}l(X?).\nn(f(a)).\n?- l(f(a)).\n", "n(X?), ".repeat(7));
    let levels = "clauses × levels";
    vec![
        job("ground: an open list of 8,932 readers, given one by one", "readers × readers", ALL, open_list(29, 1)),
        job(
            "ground: 1,540 readers, given one by one, by 20 clauses",
            "readers × readers × clauses",
            ALL,
            open_list(5, 20),
        ),
        job("ground: a value that grows by 15 levels at its open end", "steps × levels", 3_000, grown),
        job("ground: 53,760 levels by 100 clauses", levels, ALL, heavy::deep_ground(one, 100)),
        job("ground: a value that doubles at each step", "steps", ALL, growing("ground(X?)", "f(X?,X?)")),
        job("ground: a value that is 14 levels deeper at each step", "steps", ALL, growing("ground(X?)", &deeper)),
        job("==: 23,040 levels by 100 clauses", levels, ALL, heavy::deep_equal(one, "a", 100)),
        job("==: 23,040 levels, innermost unequal, by 100 clauses", levels, ALL, heavy::deep_equal(one, "b", 100)),
        job("==: two values 7 levels deeper at each step", "steps × levels", ALL, both(&sides)),
        job("==: two values that double at each step", "steps × doublings", ALL, both("f(X?,X?),f(Y?,Y?)")),
        job("==: 60 doublings built apart, by 100 clauses", "clauses", ALL, doublings("a")),
        job("==: 60 doublings, innermost unequal, by 100 clauses", "clauses × doublings", ALL, doublings("b")),
        job("==: a chain behind a list of 23,040 that grows", "steps × elements", 6_000, behind_a_list()),
        job("guards: 8 of each of 120 clauses, the last fails", "steps × clauses × guards", 10_000, eight(120)),
        job("otherwise: behind 120 clauses that fail", "steps × clauses", ALL, behind(120)),
        job("sharing: a value in 8 goals at each step", "steps", ALL, shared),
    ]
}

/// A list of readers, 11 from each of 28 times so many calls, that so many clauses ask of; its writers are given one by
/// one.
fn open_list(calls: usize, clauses: usize) -> String {
    let of = |half: &str| (0..11).map(|k| format!("V{k}{half}")).collect::<Vec<_>>().join(",");
    let ones = |count: usize| vec!["1"; count].join(",");
    let call = format!("a([1|N],L?,M?) :- b([{}],L,L1?,M,M1?), a(N?,L1,M1).\na([],[],[]).\n", ones(28));
    let some = format!("b([1|N],[{}|L?],R,[{}|M?],S) :- b(N?,L,R?,M,S?).\nb([],L?,L,M?,M).\n", of("?"), of(""));
    let asks = "g(X) :- ground(X?) | no(X?).\n".repeat(clauses);
    format!("{call}{some}{asks}s([1|T]) :- s(T?).\ns([]).\n?- a([{}],L,K), g(L?), s(K?).\n", ones(calls))
}

/// Two values of 60 doublings, from these leaves, that 100 clauses compare before they fail.
fn doublings(leaf: &str) -> String {
    let build = "d([],X,X?) :- ground(X?) | .\nd([1|N],X,Z?) :- ground(X?) | d(N?,f(f(X?,X?),f(X?,X?)),Z).\n";
    let asks = "e(X,Y) :- X? == Y?, integer(X?) | no(X?,Y?).\n".repeat(100);
    let numeral = vec!["1"; 30].join(",");
    format!("n([{numeral}]).\n{build}{asks}?- n(N), n(M), d(N?,a,A), d(M?,{leaf},B), e(A?,B?).\n")
}

/// A list that is ground but for its end, at which a chain grows: each second link wakes a goal that compares it.
fn behind_a_list() -> String {
    let elements = vec!["a"; 15].join(",");
    let lists = format!("part([{elements}|X?],X).\n{}", heavy::spread());
    let rules = "c(X?) :- c(X).\ne(X,Y) :- X? == Y? | no(X?,Y?).\n";
    format!("{lists}{rules}?- all(L,M?), all(M,N?), all(N,A?), c(A), e(L?,[a|B?]).\n")
}

/// Clauses with eight guards each, of which the last one fails, and one that calls again.
fn eight(clauses: usize) -> String {
    let guards = ["known(X?)", "ground(X?)", "compound(X?)", "X? == Y?", "known(Y?)", "f(X?) == f(Y?)", "ground(Y?)"];
    let clause = format!("p(X,Y) :- {}, integer(X?) | no(X?,Y?).\n", guards.join(","));
    format!("{}p(X,Y) :- otherwise | p(X?,Y?).\n?- p(f(a,[b]),f(a,[b])).\n", clause.repeat(clauses))
}

/// Clauses with another constant, and one for the rest that calls again.
fn behind(clauses: usize) -> String {
    let facts: String = (0..clauses).map(|k| format!("p(k{k}).\n")).collect();
    format!("{facts}p(X) :- otherwise | p(X?).\n?- p(a).\n")
}

/// 16,384 bytes of clauses, and a last one without its full stop.
fn largest_text() -> String {
    let clause = "p([a,b,c,d,e,f,g,h,i,j,k,l,m,n,o,p,q,r,s,t,u,v,w,x,y,z],12,345,-6789,f(g(h)),[1|[]]).\n";
    let mut text = clause.repeat(127);
    text += &" ".repeat(LONGEST - text.len() - 7);
    text + "?- p(a)"
}

/// A value that doubles twenty times, whose every leaf is the end of one chain of readers.
fn leaves() -> String {
    let rules = "mk(f(C,C?)).\nlink(X?) :- link(X).\np([1|Xs],f(R?,S)) :- mk(R), p(Xs?,S?).\np([],f(R?,S)) :- link(R), no(S?).\n";
    format!("{rules}?- mk(A), p([{}],A?).\n", vec!["1"; 20].join(","))
}

/// Heads that differ from the goal in their last place alone, and one that takes it and calls again.
fn heads(clauses: usize, depth: usize, arguments: usize) -> String {
    let before = "a,".repeat(arguments - 1);
    let term = |last: &str| nested(depth - 1, last, |inner| format!("f({before}{inner})"));
    let heads: String = (0..clauses).map(|k| format!("p({}).\n", term(&format!("k{k}")))).collect();
    format!("{heads}p(X) :- p(X?).\n?- p({}).\n", term("last"))
}

/// The same heads, of three arguments, on a value in which two of each level are readers that nobody gives a value, and
/// whose innermost constant fails all of them.
fn waiting_heads(clauses: usize, depth: usize) -> String {
    let term = |last: &str| nested(depth - 1, last, |inner| format!("f(a,a,{inner})"));
    let heads: String = (0..clauses).map(|k| format!("p({}).\n", term(&format!("k{k}")))).collect();
    let levels = vec!["a"; depth - 1].join(",");
    let rules = "v([a|T],f(A?,B?,F?)) :- v(T?,F), no(A,B).\nv([],last).\n";
    format!("{rules}{heads}p(X) :- p(X?).\n?- v([{levels}],V), p(V?).\n")
}

/// Eight goals at a time, each with a constant that none of 120 clauses has.
fn failing() -> String {
    let facts: String = (0..120).map(|k| format!("p(k{k}).\n")).collect();
    format!("{facts}go(a) :- {},go(a).\n?- go(a).\n", ["p(a)"; 7].join(","))
}

/// Goals that wait, each on a pair of its own, and are then woken one by one.
fn waits() -> String {
    "make([X|Xs?]) :- w(X?), make(Xs).\nw(a).\ngive([a|Xs]) :- give(Xs?).\nnet(a) :- make(S), late(S?).\nlate(S) :- give(S?).\n?- net(a).\n".to_string()
}

/// A goal that so many clauses need 71 readers of, 70 in a value of 14 levels; the chain behind the last of them grows,
/// and each link wakes the goal.
fn readers(clauses: usize) -> String {
    let levels = "a,".repeat(13) + "a";
    let row = nested(14, "a", |inner| format!("f(a,a,a,a,a,{inner})"));
    let facts: String = (0..clauses).map(|k| format!("w({row},{k}).\n")).collect();
    let rules = "v([a|T],f(A?,B?,C?,D?,E?,F?)) :- v(T?,F), no(A,B,C,D,E).\nv([],a).\nc(X?) :- c(X).\n";
    format!("{rules}{facts}?- v([{levels}],V), c(Z), w(V?,Z?).\n")
}

/// A value with 36 branches of 36 leaves, all of them readers; of the 36 clauses each needs every leaf of a branch of its
/// own, and a reader that nobody gives a value. The leaves are given one by one, and each wakes the goal that needs
/// those that are left.
fn tree() -> String {
    let six = |inside: &str| format!("f({})", [inside; 6].join(","));
    let branch = six(&six("a"));
    let names = ["A", "B", "C", "D", "E", "F"];
    let others =
        |k: usize, mark: &str| (0..6).filter(|n| *n != k).map(|n| format!("{}{mark}", names[n])).collect::<Vec<_>>();
    let mut heads = String::new();
    for outer in 0..6 {
        for inner in 0..6 {
            let row = |k: usize, own: &str, mark: &str| {
                let mut places: Vec<String> = names.iter().map(|n| format!("{n}{mark}")).collect();
                places[k] = own.to_string();
                format!("f({})", places.join(","))
            };
            let head = row(outer, &row(inner, &branch, "2"), "1");
            let body = |mark: &str, k: usize| format!("no({})", others(k, &format!("{mark}?")).join(","));
            heads += &format!("w({head},b) :- {}, {}.\n", body("1", outer), body("2", inner));
        }
    }
    let between = ["L?", "M1", "M2", "M3", "M4", "M5", "M"];
    let spread = |name: usize| {
        let behind = |k: usize| format!("{}?", between[k].trim_end_matches('?'));
        let goals: Vec<String> = (0..6)
            .map(|k| format!("t{}({},{},{})", name + 1, names[k], between[k].trim_end_matches('?'), behind(k + 1)))
            .collect();
        format!("t{name}(f(A?,B?,C?,D?,E?,F?),L?,M) :- {}.\n", goals.join(", "))
    };
    let rules: String = (1..4).map(spread).collect();
    let leaves = "t4(f(A?,B?,C?,D?,E?,F?),[A,B,C,D,E,F|M?],M).\ngive([a|Xs]) :- give(Xs?).\ngive([]).\n";
    format!("{rules}{leaves}{heads}?- t1(V,L,[]), w(V?,Z?), give(L?).\n")
}

/// A chain of readers that grows, and a goal at its end that so many clauses follow whenever it is woken.
fn chain(clauses: usize) -> String {
    let facts: String = (0..clauses).map(|k| format!("w(k{k}).\n")).collect();
    format!("c(X?) :- c(X).\n{facts}?- c(Z), w(Z?).\n")
}

/// A deep value with a pair innermost, which 100 clauses would assign the value itself; then it is passed on, so many
/// times.
fn circles(times: usize) -> String {
    let part = format!("part({},X).\n", nested(14, "X?", |inner| format!("f({inner})")));
    let later: String = (1..12).map(|k| format!("l{k}(X,Y?) :- l{}(X?,Y).\n", k - 1)).collect();
    let begin = format!("l0(X,Y?) :- t(X?,Y,[{}]).\n", vec!["a"; times].join(","));
    let tests = "t(X,X?,C) :- no(C?).\n".repeat(100);
    let rules = format!("{part}{}{later}{begin}{tests}t(X,Y?,[a|C]) :- t(X?,Y,C?).\n", heavy::spread());
    rules + "?- all(L,A?), all(M,L?), all(N,M?), all(O,N?), l11(O?,A).\n"
}
