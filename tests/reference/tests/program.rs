//! The program: its options, the answer's line, frames, and its exit status.

mod common;

use common::RULES;
use std::io::Write;
use std::process::{Command, Stdio};

/// Standard output, whether anything came on standard error, and the exit status.
fn program(options: &[&str], input: &[u8]) -> (String, bool, i32) {
    let mut child = Command::new(env!("CARGO_BIN_EXE_reference"))
        .args(options)
        .stdin(Stdio::piped())
        .stdout(Stdio::piped())
        .stderr(Stdio::piped())
        .spawn()
        .unwrap();
    // A program that has refused its command line reads nothing.
    let _ = child.stdin.take().unwrap().write_all(input);
    let output = child.wait_with_output().unwrap();
    (String::from_utf8(output.stdout).unwrap(), !output.stderr.is_empty(), output.status.code().unwrap())
}

fn printed(options: &[&str], input: impl AsRef<[u8]>) -> String {
    let (output, errors, status) = program(options, input.as_ref());
    assert!(!errors && status == 0);
    output
}

const SHORT: &str = "run rest steps 1\nquery 1 tries 1 active 0 waiting 0 failed 1\nfailed p(a) from 0 at 0\n";

#[test]
fn the_report_or_the_refusal() {
    assert_eq!(printed(&[], "?- p(a)."), SHORT);
    assert_eq!(printed(&["--answer"], "?- p(a)."), format!("0 0 {} 0\n{SHORT}", SHORT.len()));
    assert_eq!(printed(&[], ""), "refused 6 line 0\n");
    assert_eq!(printed(&["--answer"], "\n!"), "4 2 0 1\nrefused 4 line 2\n");
    assert_eq!(printed(&[], " ".repeat(16_385)), "refused 3 line 0\n");
    assert_eq!(printed(&[], " ".repeat(1_000_000)), "refused 3 line 0\n");
    let k3 = printed(&[], format!("{RULES}?- tag(A?,Z), end(A).\n?- tag([1|B?],Y).\n"));
    assert!(k3.starts_with("run rest steps 5\n") && k3.ends_with("waiting tag(_1?,_2) from 1 at 1\n"));
}

#[test]
fn the_programs_figures() {
    let forever = "p(1) :- p(1). ?- p(1).";
    assert!(printed(&[], forever).starts_with("run room steps 511\n"));
    assert!(printed(&["--compounds", "65535"], forever).starts_with("run budget steps 10000\n"));
    assert!(printed(&["--budget", "5"], forever).starts_with("run budget steps 5\n"));
    assert!(printed(&[], "p(1) :- p(X),p(X?). ?- p(1).").starts_with("run"));
    for (options, number) in [
        (["--budget", "1000001"], 1),
        (["--pairs", "0"], 1),
        (["--compounds", "65536"], 1),
        (["--goals", "18446744073709551615"], 1),
        (["--need", "1"], 2),
        (["--buffer", "10"], 8),
    ] {
        assert_eq!(printed(&options, forever), format!("refused {number} line 0\n"));
    }
    assert!(printed(&["--need", "7", "--scratch", "7"], forever).starts_with("run"));
    let doubling = "mk(f(C,C?)). p(f(R?,S)) :- mk(R), p(S?). ?- mk(A), p(A?).";
    assert_eq!(printed(&["--answer"], doubling), "8 0 16777217 0\nrefused 8 line 0\n");
}

#[test]
fn bad_command_lines() {
    for options in [
        &["--budget"][..],
        &["--budget", "x"],
        &["--pairs", "-1"],
        &["--goals", "+1"],
        &["--what"],
        &["1"],
        &["--need", "18446744073709551616"],
    ] {
        assert_eq!(program(options, b"?- p(a)."), (String::new(), true, 2), "{options:?}");
    }
}

#[test]
fn frames() {
    let frame = |figures: &str, text: &str| format!("{figures} {}\n{text}\n", text.len());
    let usual = "10000 1024 1024 128 65536 0 0";
    let input = [
        frame(usual, "?- p(a)."),
        frame(usual, "\n\n!"),
        frame(usual, ""),
        frame("0 1 1 1 0 0 0", "?- p(a)."),
        frame("0 1 1 1 0 3 4", "?- p(a)."),
        frame(usual, "?- p(a).\n"),
    ]
    .concat();
    let short = format!("0 0 {} 0\n{SHORT}", SHORT.len());
    let active = "run budget steps 0\nquery 1 tries 0 active 1 waiting 0 failed 0\nactive p(a) from 0 at 0\n";
    let expected = format!("{short}4 3 0 2\n6 0 0 0\n8 0 {} 0\n2 0 0 0\n{short}", active.len());
    assert_eq!(printed(&["--framed"], input), expected);
    assert_eq!(printed(&["--framed"], ""), "");
}

#[test]
fn bad_frames() {
    let good = "10000 1024 1024 128 65536 0 0 8\n?- p(a).\n";
    let short = format!("0 0 {} 0\n{SHORT}", SHORT.len());
    for bad in [
        "1 2 3\n",
        "\n",
        "10000 1024 1024 128 65536 0 0 8 9\n?- p(a).\n",
        "10000 1024 1024 128 65536 0 0 8",
        "10000 1024 1024 128 65536 0 0 x\n?- p(a).\n",
        "10000 1024 1024 128 65536 0  0 8\n?- p(a).\n",
        "10000 1024 1024 128 65536 0 0 8\n?- p(a).",
        "10000 1024 1024 128 65536 0 0 8\n?- p(a)..\n",
        "10000 1024 1024 128 65536 0 0 9000000000000000000\n?- p(a).\n",
    ] {
        assert_eq!(program(&["--framed"], format!("{good}{bad}").as_bytes()), (short.clone(), true, 2), "{bad}");
    }
}
