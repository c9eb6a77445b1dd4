//! Texts close to the longest, for measuring how long reading takes: many names, long lists, many clauses, deep
//! brackets, blanks; and a small job.

pub const LONGEST: usize = 16_384;

/// Each with its label. All but the small one have 16,000 bytes at least, and just the one that says so is refused.
pub fn texts() -> Vec<(&'static str, String)> {
    let rule = "merge([X|Xs],Ys,[X?|Zs?]) :- merge(Ys?,Xs?,Zs), other(f(Ps?),g(Qs?,Rs)), third(Rs?,Qs,Ps), fourth(left(A),[B|A?],B?,12345678).\n";
    let list = format!("p([{}]).\n", ["123456"; 31].join(","));
    let tower = format!("{}g(x){}", "[nest(".repeat(7), ")]".repeat(7));
    let deep = format!("p({tower},{tower}).\n");
    let many = |item: &str| item.repeat(128.min((LONGEST - 32) / item.len()));
    let small = "tag([H|T],[hit(H?)|R?]) :- tag(T?,R).\ntag([],[]).\n?- tag([1,2|A?],Z), tag([3],A).\n";
    vec![
        ("256 names", names() + "?- n1(n3).\n"),
        ("long lists", many(&list) + "?- p([]).\n"),
        ("128 clauses", many(rule) + "?- merge([],[],A).\n"),
        ("deep brackets", many(&deep) + "?- p(1).\n"),
        ("remarks and blanks", format!("{}?- p(1).\n", "   \t  % a remark of some length\n".repeat(510))),
        ("refused at its end", many(rule) + "?- merge([],[],"),
        ("a small job", small.to_string()),
    ]
}

/// Clauses over 256 names, every second one of 31 bytes, each used again and again.
fn names() -> String {
    let name = |k: usize| {
        if k % 2 == 0 {
            format!("a_name_of_thirty_one_bytes_{:04}", k % 256)
        } else {
            format!("n{}", k % 256)
        }
    };
    let clause = |k: usize| {
        let words: Vec<String> = (7 * k + 1..7 * k + 7).map(name).collect();
        format!("{}({}).\n", name(7 * k), words.join(","))
    };
    let mut text = String::new();
    for k in 0.. {
        let next = clause(k);
        if LONGEST - 32 < text.len() + next.len() {
            return text;
        }
        text += &next;
    }
    text
}
