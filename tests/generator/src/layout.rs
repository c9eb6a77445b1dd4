//! How tokens are laid out as a text: what stands between them.
//!
//! Any layout separates the tokens that would run together, so a text means the same in all of them, apart from its
//! lines. Remarks, CR, tabs and line ends between tokens make the lines of refusals matter.

use crate::random::Random;
use crate::term::Token;

#[derive(Clone, Copy)]
enum Layout {
    /// An item to a line, no blanks but the usual ones.
    Plain,
    /// Everything on one line.
    Line,
    /// Blanks of every kind anywhere.
    Scattered,
    /// Remarks and empty lines between the items.
    Remarked,
    /// Lines ended by CR and LF.
    Returns,
}

const REMARKS: [&[u8]; 6] = [b"% a remark\n", b"%\n", b"%% ?- p(a). \xff\x00\n", b"% X?\r\n", b"%:-%\n", b"% \t'\"_\n"];
const BLANKS: [&[u8]; 7] = [b" ", b"\n", b"\t", b"\r", b"\r\n", b"  ", b"% r\n"];

/// The items' tokens as one text.
pub fn text_of(random: &mut Random, items: &[Vec<Token>]) -> Vec<u8> {
    let layouts = [
        Layout::Plain,
        Layout::Plain,
        Layout::Plain,
        Layout::Line,
        Layout::Scattered,
        Layout::Remarked,
        Layout::Returns,
    ];
    let layout = random.pick(&layouts);
    laid_out(random, layout, items)
}

/// The items' tokens as one text with much between them.
pub fn odd_text_of(random: &mut Random, items: &[Vec<Token>]) -> Vec<u8> {
    let layout = random.pick(&[Layout::Scattered, Layout::Scattered, Layout::Remarked, Layout::Returns, Layout::Line]);
    laid_out(random, layout, items)
}

fn laid_out(random: &mut Random, layout: Layout, items: &[Vec<Token>]) -> Vec<u8> {
    let mut text = Vec::new();
    for item in items {
        write_item(random, layout, item, &mut text);
        text.extend(behind_item(random, layout));
    }
    if random.chance(10) {
        text.extend_from_slice(b"% the end");
    }
    text
}

fn write_item(random: &mut Random, layout: Layout, item: &[Token], text: &mut Vec<u8>) {
    for (place, token) in item.iter().enumerate() {
        if place > 0 {
            text.extend(between(random, layout, &item[place - 1], token));
        }
        text.extend_from_slice(token.as_bytes());
    }
}

/// What stands between two tokens of an item.
fn between(random: &mut Random, layout: Layout, left: &str, right: &str) -> Vec<u8> {
    if matches!(layout, Layout::Scattered) && random.chance(25) {
        return random.pick(&BLANKS).to_vec();
    }
    let spaced = left == ":-" || right == ":-" || left == "?-" || left == "==" || right == "==";
    if spaced || runs_together(left, right) {
        b" ".to_vec()
    } else {
        Vec::new()
    }
}

/// Two tokens that would be read as others if nothing stood between them.
fn runs_together(left: &str, right: &str) -> bool {
    let run = |byte: Option<&u8>| byte.is_some_and(|byte| byte.is_ascii_alphanumeric() || *byte == b'_');
    let last = left.as_bytes().last();
    let first = right.as_bytes().first();
    (run(last) && (run(first) || first == Some(&b'?')))
        || (last == Some(&b'-') && run(first))
        || left == "?"
        || left == ":"
        || (last == Some(&b'=') && first == Some(&b'='))
}

fn behind_item(random: &mut Random, layout: Layout) -> Vec<u8> {
    match layout {
        Layout::Plain => b"\n".to_vec(),
        Layout::Line => random.pick(&[&b" "[..], &b""[..]]).to_vec(),
        Layout::Scattered => random.pick(&BLANKS).to_vec(),
        Layout::Remarked => {
            let mut lines = random.pick(&[&b"\n"[..], &b" "[..], &b"\n\n"[..]]).to_vec();
            lines.extend_from_slice(random.pick(&REMARKS));
            lines
        }
        Layout::Returns => b"\r\n".to_vec(),
    }
}
