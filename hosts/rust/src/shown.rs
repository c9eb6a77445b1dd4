//! The part of a text that a refusal points at, as `hosts/refusals/README.md` has it: row, column, the line and a caret.

use std::fmt::Write;
use std::ops::Range;

/// How many bytes are shown on each side at most.
const SHOWN: usize = 36;

/// Where in its text a refusal 4, 5, 9 or 10 points, and what stands there.
#[derive(Clone, Debug, PartialEq, Eq, Hash)]
#[non_exhaustive]
pub struct Place {
    /// Document 01's line: for 4 the token's, or at the text's end that of its last byte; for 5, 9 and 10 where the item
    /// begins.
    pub line: usize,
    /// The byte, from 0 over the whole text; at the text's end its length.
    pub offset: usize,
    /// The line in which the offset lies, from 1.
    pub row: usize,
    /// The offset's place in that line, from 1, in bytes.
    pub column: usize,
    /// The text ends here.
    pub at_end: bool,
    /// The variable that is spelled here, a reader with its `?`; empty if there is none.
    pub variable: String,
    /// The line with a caret under it: two lines, the first one ended by LF.
    pub shown: String,
}

impl Place {
    /// The place at an offset of a text, which is at most the text's length.
    pub(crate) fn of(text: &[u8], line: usize, offset: usize) -> Self {
        let own = line_at(text, offset);
        Place {
            line,
            offset,
            row: 1 + text[..own.start].iter().filter(|byte| **byte == b'\n').count(),
            column: offset - own.start + 1,
            at_end: offset == text.len(),
            variable: variable_at(text, offset),
            shown: line_and_caret(&text[own.clone()], (offset - own.start).min(own.len())),
        }
    }
}

/// The line that holds an offset, without its end. The text's end belongs to the line of the last byte.
fn line_at(text: &[u8], offset: usize) -> Range<usize> {
    let at = offset.min(text.len().saturating_sub(1));
    let from = text[..at].iter().rposition(|byte| *byte == b'\n').map_or(0, |end| end + 1);
    let to = text[at..].iter().position(|byte| *byte == b'\n').map_or(text.len(), |length| at + length);
    let returns = text[from..to].ends_with(b"\r");
    from..to - usize::from(returns)
}

fn variable_at(text: &[u8], offset: usize) -> String {
    let rest = &text[offset..];
    if !matches!(rest.first(), Some(b'A'..=b'Z')) {
        return String::new();
    }
    let run = rest.iter().take_while(|byte| byte.is_ascii_alphanumeric() || **byte == b'_').count();
    let reader = rest.get(run) == Some(&b'?');
    rest[..run + usize::from(reader)].iter().map(|byte| char::from(*byte)).collect()
}

/// The line, cut around a place in it, and a caret under that.
fn line_and_caret(line: &[u8], at: usize) -> String {
    let before = &line[at.saturating_sub(SHOWN)..at];
    let behind = &line[at..line.len().min(at + SHOWN)];
    let (front, back) = (at > SHOWN, line.len() - at > SHOWN);
    let mut shown = String::from(if front { ".." } else { "" });
    before.iter().chain(behind).for_each(|byte| put_byte(&mut shown, *byte));
    shown.push_str(if back { "..\n" } else { "\n" });
    shown.push_str(if front { "  " } else { "" });
    before.iter().for_each(|byte| shown.push_str(blank(*byte)));
    shown.push('^');
    shown
}

fn is_printed(byte: u8) -> bool {
    matches!(byte, b'\t' | b' '..=b'~')
}

fn put_byte(shown: &mut String, byte: u8) {
    if is_printed(byte) {
        shown.push(char::from(byte));
    } else {
        let _ = write!(shown, "\\x{byte:02x}");
    }
}

/// As wide as the byte: a tab stays a tab.
fn blank(byte: u8) -> &'static str {
    match byte {
        b'\t' => "\t",
        byte if is_printed(byte) => " ",
        _ => "    ",
    }
}
