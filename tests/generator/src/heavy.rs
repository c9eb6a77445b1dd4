//! Jobs for measuring, each within 16,384 bytes of text, to be run with the largest rooms: runs that are long, reports
//! that are large, and the deepest values.
//!
//! What a run makes stands behind a goal `net(a)` where it is much, so that no variable of a query shows it and the
//! report is short. There is no arithmetic, so whatever has a size is spread: clauses call a procedure eight times, each
//! call joined to the next by a pair. A run that does not end by itself ends by the room or by the budget.

/// What a job is measured for: its steps, its report, its stack.
#[derive(Clone, Copy, PartialEq, Eq)]
pub enum Kind {
    Run,
    Report,
    /// Run only for its stack; and the same with no buffer, so that the report is counted and not written.
    Deepest,
    DeepestRun,
}

pub struct Heavy {
    pub label: &'static str,
    pub kind: Kind,
    pub budget: u64,
    pub text: String,
}

impl Heavy {
    /// Whether the job is one that is run for its stack.
    pub fn for_stack(&self) -> bool {
        self.kind == Kind::Deepest || self.kind == Kind::DeepestRun
    }
}

/// The largest budget.
const ALL: u64 = 1_000_000;

pub fn jobs() -> Vec<Heavy> {
    let mut jobs = runs();
    jobs.extend(reports());
    jobs.extend(deepest());
    jobs
}

fn runs() -> Vec<Heavy> {
    let run = |label, budget, text| Heavy { label, kind: Kind::Run, budget, text };
    vec![
        run("a stream of 5,000", 10_000, stream()),
        run("a stream of 10,000", 20_000, stream()),
        run("fair merges", ALL, merges()),
        run("naive reverse", ALL, naive_reverse()),
        run("woken in order", ALL, waking([1, 2, 3, 4, 5, 6])),
        run("woken in reverse", ALL, waking([6, 5, 4, 3, 2, 1])),
        run("woken shuffled", ALL, waking([3, 6, 1, 4, 2, 5])),
        run("4 clauses, first argument", ALL, clauses(4, |key| format!("{key},b,c"))),
        run("128 clauses, first argument", ALL, clauses(128, |key| format!("{key},b,c"))),
        run("4 clauses, last argument", ALL, clauses(4, |key| format!("a,b,c,d,e,{key}"))),
        run("128 clauses, last argument", ALL, clauses(128, |key| format!("a,b,c,d,e,{key}"))),
        run("128 clauses, nested", ALL, clauses(128, |key| format!("f(g(a,h({key})))"))),
        run("124 clauses that wait", ALL, waiting_clauses()),
        run("a chain of readers made", ALL, "c(X?) :- c(X).\n?- c(A).\n".to_string()),
        run("chains of 64 readers", ALL, short_chains()),
        run("a chain of readers, read often", 8_000, "c(X?) :- c(X).\nw(a).\n?- c(Z), w(Z?).\n".to_string()),
        run("deep terms compared", ALL, deep_compared()),
        run("large terms passed on", ALL, passed_on()),
        run(
            "a term that grows, passed on",
            4_000,
            "count(N,R?) :- succ(N?,M), count(M?,R).\nsucc(N,s(N?)).\n?- count(0,A).\n".to_string(),
        ),
        run("a list made in pieces, passed on", ALL, in_pieces()),
        run("a deep open value handed on", ALL, handed_on()),
        run("a circle found deep", ALL, circle(15, |inner| format!("f({inner})"), 30)),
        run("found in first arguments", ALL, circle(15, |inner| format!("f({inner},a)"), 30)),
        run("found beside pairs", ALL, circle_through(&paired(), 30)),
        run("a stream passed on", ALL, guarded_stream("a", "pass([X|Xs],[X?|Ys?]) :- pass(Xs?,Ys).")),
        run("a stream by integer", ALL, stream_by("integer(X?)", "7")),
        run("a stream by constant", ALL, stream_by("constant(X?)", "a")),
        run("a stream by compound", ALL, stream_by("compound(X?)", "f(a)")),
        run("a stream by ground", ALL, stream_by("ground(X?)", "f(a,[b,1|c])")),
        run("a stream by known", ALL, stream_by("known(X?)", "a")),
        run("a stream by ==", ALL, stream_by("X? == f(a,[b,1|c])", "f(a,[b,1|c])")),
        run("a stream by otherwise", ALL, guarded_stream("a", BY_OTHERWISE)),
        run("a stream fanned out by ground", ALL, fan_out("f(a,[b,1|c])")),
    ]
}

fn reports() -> Vec<Heavy> {
    let report = |label, text: &str| Heavy { label, kind: Kind::Report, budget: ALL, text: text.to_string() };
    vec![
        report("a long list", "g([ab,cd,ef,gh,ij,kl,mn,op,qr,st,uv,wx,yz,a,b,c,d,e,f,g|X?]) :- g(X).\n?- g(A).\n"),
        report(
            "a long list of integers",
            "g([1,22,333,4444,55555,-1,-22,-333,2147483647,-2147483648|X?]) :- g(X).\n?- g(A).\n",
        ),
        report("a deep term", &deep(|inner| format!("f({inner})"))),
        report("a deep first argument", &deep(|inner| format!("f({inner},a)"))),
        report("wide terms", "g([w(alpha,beta,gamma,-12345,[],Y),w(1,2,3,4,5,Y?)|X?]) :- g(X).\n?- g(A).\n"),
        report("pairs without a value", "g([v(Y,Z?),v(Y?,Z)|X?]) :- g(X).\n?- g(A).\n"),
        report("active lines", &format!("t(a) :- {}.\n?- t(a).\n", ["t(a)"; 8].join(","))),
        report("waiting lines", "g(X?) :- w(Y,Z?), w(Y?,Z), g(X).\nw(zzz,zzz).\n?- g(A).\n"),
        report("failed lines", "g(X?) :- w(b,cc), w(ddd,-1), g(X).\nw(a,a).\n?- g(A).\n"),
        report("waiting lines, 3 queries", "g(X?) :- w(Y?,Z), w(Z?,Y), g(X).\nw(a,b).\n?- g(A).\n?- g(B).\n?- g(C).\n"),
        Heavy {
            budget: 42,
            ..report("one value many times", "mk(f(C,C?)).\np(f(R?,S)) :- mk(R), p(S?).\n?- mk(A), p(A?).\n")
        },
    ]
}

const BY_OTHERWISE: &str = "pass([b|Xs],[b|Ys?]) :- pass(Xs?,Ys).\npass([X|Xs],[X?|Ys?]) :- otherwise | pass(Xs?,Ys).";

/// A producer, a clause that passes its elements on by a guard, and a consumer: three steps an element.
fn stream_by(guard: &str, element: &str) -> String {
    guarded_stream(element, &format!("pass([X|Xs],[X?|Ys?]) :- {guard} | pass(Xs?,Ys)."))
}

fn guarded_stream(element: &str, pass: &str) -> String {
    let ends = format!("make([{element}|Xs?]) :- make(Xs).\neat([{element}|Xs]) :- eat(Xs?).\n");
    format!("{pass}\n{ends}net(a) :- make(A), pass(A?,B), eat(B?).\n?- net(a).\n")
}

/// A stream of ground terms to two consumers.
fn fan_out(element: &str) -> String {
    let fan = "fan([X|Xs],[X?|As?],Bs?) :- ground(X?) | put(X?,Cs?,Bs), fan(Xs?,As,Cs).\nput(X,Xs,[X?|Xs?]).\n";
    let ends = format!("make([{element}|Xs?]) :- make(Xs).\neat([{element}|Xs]) :- eat(Xs?).\n");
    format!("{fan}{ends}net(a) :- make(A), fan(A?,B,C), eat(B?), eat(C?).\n?- net(a).\n")
}

fn deepest() -> Vec<Heavy> {
    let deepest = |label, text| Heavy { label, kind: Kind::Deepest, budget: ALL, text };
    let run = |label, text| Heavy { label, kind: Kind::DeepestRun, budget: ALL, text };
    let once = |wrap: fn(String) -> String| circle(15, wrap, 1);
    vec![
        run("circle", circle_through(&paired(), 1)),
        run("circle, constants behind", once(|inner| format!("f({inner},a)"))),
        run("circle, lists", once(|inner| format!("[{inner}]"))),
        run("circle, pairs", pairs_circle()),
        run("ground", deep_ground(|inner| format!("f({inner},a)"), 1)),
        run("ground, one argument", deep_ground(|inner| format!("f({inner})"), 1)),
        run("ground, lists", deep_ground(|inner| format!("[{inner}]"), 1)),
        run("equality", deep_equal(|inner| format!("f({inner},a)"), "a", 1)),
        run("equality, one argument", deep_equal(|inner| format!("f({inner})"), "a", 1)),
        run("equality, lists", deep_equal(|inner| format!("[{inner}]"), "b", 1)),
        deepest("report", deep(|inner| format!("f({inner},a)"))),
        deepest("report, one argument", deep(|inner| format!("f({inner})"))),
        deepest("report, lists", deep(|inner| format!("[{inner}]"))),
        run("comparison and copy", deep_compared()),
        run("reading, compounds", brackets(|inner| format!("f({inner})"))),
        run("reading, lists", brackets(|inner| format!("[{inner}]"))),
        run("reading, tails", brackets(|inner| format!("[a|{inner}]"))),
        run("a job of one goal", "?- p(a).\n".to_string()),
    ]
}

/// A producer and a consumer: two steps an element.
fn stream() -> String {
    "make([a|Xs?]) :- make(Xs).\neat([a|Xs]) :- eat(Xs?).\nnet(a) :- make(S), eat(S?).\n?- net(a).\n".to_string()
}

/// Four producers, merged by three fair merges, and a consumer.
fn merges() -> String {
    let merge = "merge([X|Xs],Ys,[X?|Zs?]) :- merge(Ys?,Xs?,Zs).\nmerge(Xs,[Y|Ys],[Y?|Zs?]) :- merge(Xs?,Ys?,Zs).\n";
    let ends = "make([a|Xs?]) :- make(Xs).\neat([a|Xs]) :- eat(Xs?).\n";
    let net =
        "net(a) :- make(A), make(B), make(C), make(D), merge(A?,B?,E), merge(C?,D?,F), merge(E?,F?,G), eat(G?).\n";
    format!("{merge}{ends}{net}?- net(a).\n")
}

/// A list of 168 elements.
fn naive_reverse() -> String {
    let rules = "rev([],[]).\nrev([X|Xs],Zs?) :- rev(Xs?,Ys), app(Ys?,[X?],Zs).\napp([],Ys,Ys?).\napp([X|Xs],Ys,[X?|Zs?]) :- app(Xs?,Ys?,Zs).\n";
    let part = "part([a,b,c,d,e,f,g,h,i,j,k,l,m,n,o,p,q,r,s,t,u|T?],T).\n";
    let parts = spread_once("list", "part");
    format!("{rules}{part}{parts}?- list(L,[]), rev(L?,R).\n")
}

/// A clause that calls a procedure eight times, each call's second pair the next one's first.
fn spread_once(name: &str, called: &str) -> String {
    let writer = |k: usize| if k == 1 { "L".to_string() } else { format!("M{}", k - 1) };
    let reader = |k: usize| if k == 8 { "T?".to_string() } else { format!("M{k}?") };
    let calls: Vec<String> = (1..9).map(|k| format!("{called}({},{})", writer(k), reader(k))).collect();
    format!("{name}(L?,T) :- {}.\n", calls.join(", "))
}

/// The same three times over: 512 calls of `part`.
pub(crate) fn spread() -> String {
    spread_once("some", "part") + &spread_once("many", "some") + &spread_once("all", "many")
}

/// 5,184 goals that wait, each on a pair of its own, and are woken one by one. The pairs stand in four trees, whose branches are walked in
/// this order.
fn waking(order: [usize; 6]) -> String {
    let names = ["A", "B", "C", "D", "E", "F"];
    let all = |wrap: &dyn Fn(&str) -> String| names.iter().map(|name| wrap(name)).collect::<Vec<_>>().join(",");
    let leaves = format!("t1(n({})) :- {}.\n", all(&|name| format!("v({name})")), all(&|name| format!("w({name}?)")));
    let branches = (2..5).map(|k| {
        format!("t{k}(n({})) :- {}.\n", all(&|name| format!("{name}?")), all(&|name| format!("t{}({name})", k - 1)))
    });
    let next: Vec<String> = order.iter().map(|&k| format!("{}?", names[k - 1])).collect();
    let walk = format!(
        "go([n({})|R]) :- go([{}|R?]).\ngo([v(a)|R]) :- go(R?).\ngo([]).\n",
        all(&|name| name.to_string()),
        next.join(",")
    );
    let first = if order[0] < order[5] { "go([A?,B?,C?,D?])" } else { "go([D?,C?,B?,A?])" };
    format!(
        "w(a).\n{leaves}{}{walk}net(a) :- t4(A), t4(B), t4(C), t4(D), {first}.\n?- net(a).\n",
        branches.collect::<String>()
    )
}

/// A procedure of so many clauses of which the last one matches, and calls it again.
fn clauses(number: usize, arguments: impl Fn(&str) -> String) -> String {
    let facts: String = (1..number).map(|k| format!("p({}).\n", arguments(&format!("k{k}")))).collect();
    format!("{facts}p({0}) :- p({0}).\n?- p({0}).\n", arguments("last"))
}

/// A procedure of 124 clauses that all wait on one pair; then the last one matches.
fn waiting_clauses() -> String {
    let facts: String = (1..125).map(|k| format!("p(k{k}).\n")).collect();
    format!("{facts}go(X) :- p(Y?), give(Y), go(X?).\ngive(k124).\n?- go(a).\n")
}

/// A list that is made in 512 pieces of 8 elements, from its end on, and then passed on element by element.
fn in_pieces() -> String {
    let rules = "part([a,a,a,a,a,a,a,a|T?],T).\npass([X|Xs],[t(X?)|Ys?]) :- pass(Xs?,Ys).\npass([],[]).\n";
    format!("{rules}{}net(a) :- all(L,T?), pass(L?,M), end(T), eat(M?).\nend([]).\neat([]).\n?- net(a).\n", spread())
}

/// A value of 7,680 levels around a reader that nobody gives a value, handed on in a compound some thousand times.
fn handed_on() -> String {
    let part = format!("part({},X).\n", nested(15, "X?", |inner| format!("f({inner})")));
    let hand = "hand(X,r(X?)).\ngo([a|L],r(X),Y?) :- hand(X?,R), go(L?,R?,Y).\nmake([a|L?]) :- make(L).\n";
    format!("{part}{}{hand}net(a) :- all(V,A?), make(L), go(L?,r(V?),A).\n?- net(a).\n", spread())
}

/// Constants that are each passed over 64 readers.
fn short_chains() -> String {
    let pass: String = (1..7).map(|k| format!("i{k}(X,Y?) :- i{0}(X?,A), i{0}(A?,Y).\n", k - 1)).collect();
    format!("i0(X,X?).\n{pass}go(X) :- i6(k,Y), use(Y?), go(X?).\nuse(k).\n?- go(a).\n")
}

pub(crate) fn nested(depth: usize, innermost: &str, wrap: impl Fn(String) -> String) -> String {
    (0..depth).fold(innermost.to_string(), |inner, _| wrap(inner))
}

/// As many brackets as document 01 allows, one in the other.
fn brackets(wrap: fn(String) -> String) -> String {
    format!("?- p({}).\n", nested(15, "a", wrap))
}

/// A value that is 15 compounds deeper at each step.
fn deep(wrap: fn(String) -> String) -> String {
    format!("g({}) :- g(X).\n?- g(A).\n", nested(15, "X?", wrap))
}

/// Heads of 15 compounds nested, against goals that have them.
fn deep_compared() -> String {
    let head = nested(14, "X", |inner| format!("f({inner},a)"));
    let body = nested(14, "X?", |inner| format!("f({inner},a)"));
    let query = nested(14, "b", |inner| format!("f({inner},a)"));
    format!("p({head}) :- p({body}).\n?- p({query}).\n")
}

/// A stream of ground terms of 13 compounds each, passed on four times.
fn passed_on() -> String {
    let term = nested(12, "g(a,b)", |inner| format!("f({inner},c)"));
    let clauses = "pass([X|Xs],[X?|Ys?]) :- pass(Xs?,Ys).\n";
    let ends = format!("make([{term}|Xs?]) :- make(Xs).\neat([{term}|Xs]) :- eat(Xs?).\n");
    format!("{clauses}{ends}net(a) :- make(A), pass(A?,B), pass(B?,C), pass(C?,D), pass(D?,E), eat(E?).\n?- net(a).\n")
}

/// A value of about 3,500 times so many compounds, one in the other, with a pair innermost that so many clauses would assign the value.
fn circle(depth: usize, wrap: fn(String) -> String, clauses: usize) -> String {
    circle_through(&nested(depth, "X?", wrap), clauses)
}

/// The same with one part of the value given.
fn circle_through(value: &str, clauses: usize) -> String {
    let part = format!("part({value},X).\n");
    let later: String = (1..12).map(|k| format!("l{k}(X,Y?) :- l{}(X?,Y).\n", k - 1)).collect();
    let tests = "l0(X,X?).\n".repeat(clauses);
    let parts = "all(L,A?), all(M,L?), all(N,M?), all(O,N?), all(P,O?), all(Q,P?), all(R,Q?)";
    format!("{part}{}{later}{tests}?- {parts}, l11(R?,A).\n", spread())
}

/// A value of 53,760 levels around a reader that nobody gives a value: so many clauses ask whether it is ground.
pub(crate) fn deep_ground(wrap: fn(String) -> String, clauses: usize) -> String {
    let rules = asked_late(wrap, "X", "l0(X) :- ground(X?) | no(X?).\n", clauses);
    let parts = "all(L,A?), all(M,L?), all(N,M?), all(O,N?), all(P,O?), all(Q,P?), all(R,Q?)";
    format!("{rules}net(a) :- {parts}, go(R?,A).\ngo(X,A?) :- l11(X?), no(A).\n?- net(a).\n")
}

/// Two values of 23,040 levels, built apart, that so many clauses compare, and then fail. The innermost constant of the
/// first is `a`, that of the second is given.
pub(crate) fn deep_equal(wrap: fn(String) -> String, innermost: &str, clauses: usize) -> String {
    let rules = asked_late(wrap, "X,Y", "l0(X,Y) :- X? == Y?, integer(X?) | no(X?,Y?).\n", clauses);
    let parts = format!("all(L,a), all(M,L?), all(N,M?), all(P,{innermost}), all(Q,P?), all(R,Q?)");
    format!("{rules}net(a) :- {parts}, l11(N?,R?).\n?- net(a).\n")
}

/// Values made of parts of 15 levels, and a goal that is passed on until they are built; then so many clauses ask.
fn asked_late(wrap: fn(String) -> String, arguments: &str, ask: &str, clauses: usize) -> String {
    let part = format!("part({},X).\n", nested(15, "X?", wrap));
    let readers = arguments.replace(',', "?,") + "?";
    let later: String = (1..12).map(|k| format!("l{k}({arguments}) :- l{}({readers}).\n", k - 1)).collect();
    format!("{part}{}{later}{}", spread(), ask.repeat(clauses))
}

/// Compounds one in the other's first argument, with one half of a pair behind each: the circle test goes on to the last argument that leads on,
/// and has to descend into the first.
fn paired() -> String {
    (0..14).fold("X?".to_string(), |inner, k| format!("f({inner},V{}{})", k / 2, ["", "?"][k % 2]))
}

/// A circle through as many pairs as the room has, each leaning on two.
fn pairs_circle() -> String {
    circle(1, |inner| format!("f({inner},a)"), 1)
}
