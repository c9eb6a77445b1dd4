//! Tokens of a job text, taken from left to right on demand. Separators and remarks between tokens are passed over.
//!
//! 'A token is the longest run of letters, digits and `_` (with a `-` right before a first digit, or a `?` right after
//! a run led by an uppercase letter), `:-`, `?-`, or one of the signs; a run led by `_` and any other byte are bad
//! tokens.' A malformed or out-of-range integer and an overlong name or variable are one bad token too. `==` is one
//! token, as `:-` is (document 02, T-02); `=` alone is a bad one.

#[derive(Clone, Copy, PartialEq, Eq, Debug)]
pub enum Sort {
    Name,
    Writer,
    Reader,
    Integer,
    If,
    Ask,
    OpenRound,
    CloseRound,
    OpenSquare,
    CloseSquare,
    Comma,
    Bar,
    Equal,
    Stop,
    Bad,
    End,
}

impl Sort {
    /// Whether a term can begin with this token.
    pub fn begins_term(self) -> bool {
        matches!(self, Sort::Name | Sort::Writer | Sort::Reader | Sort::Integer | Sort::OpenSquare)
    }
}

#[derive(Clone, Copy, Debug)]
pub struct Token {
    pub sort: Sort,
    pub begin: usize,
    pub end: usize,
}

impl Token {
    /// The bytes of a name or integer, or of a variable without its `?`.
    pub fn spelling<'t>(&self, text: &'t [u8]) -> &'t [u8] {
        let mark = (self.sort == Sort::Reader) as usize;
        &text[self.begin..self.end - mark]
    }
}

/// The longest name or variable; 'the 31 bytes don't count the `?`'.
const LONGEST_NAME: usize = 31;

/// The token that begins first at or behind `from`.
pub fn token(text: &[u8], from: usize) -> Token {
    let begin = pass_over(text, from);
    let Some(&byte) = text.get(begin) else {
        return Token { sort: Sort::End, begin, end: begin };
    };
    let next = text.get(begin + 1).copied();
    let sign = |sort, length| Token { sort, begin, end: begin + length };
    match byte {
        b'a'..=b'z' => name(text, begin),
        b'A'..=b'Z' => variable(text, begin),
        b'0'..=b'9' => integer(text, begin, begin),
        b'-' if next.is_some_and(|b| b.is_ascii_digit()) => integer(text, begin, begin + 1),
        b':' if next == Some(b'-') => sign(Sort::If, 2),
        b'?' if next == Some(b'-') => sign(Sort::Ask, 2),
        b'=' if next == Some(b'=') => sign(Sort::Equal, 2),
        b'(' => sign(Sort::OpenRound, 1),
        b')' => sign(Sort::CloseRound, 1),
        b'[' => sign(Sort::OpenSquare, 1),
        b']' => sign(Sort::CloseSquare, 1),
        b',' => sign(Sort::Comma, 1),
        b'|' => sign(Sort::Bar, 1),
        b'.' => sign(Sort::Stop, 1),
        _ => sign(Sort::Bad, 1),
    }
}

/// 'Space, tab, CR and LF separate; `%` starts a remark up to LF or the end of the text.'
fn pass_over(text: &[u8], from: usize) -> usize {
    let mut at = from;
    let mut remark = false;
    while let Some(&byte) = text.get(at) {
        match byte {
            b'\n' => remark = false,
            _ if remark => {}
            b' ' | b'\t' | b'\r' => {}
            b'%' => remark = true,
            _ => break,
        }
        at += 1;
    }
    at
}

/// Where the run of letters, digits and `_` from `begin` ends.
fn run_end(text: &[u8], begin: usize) -> usize {
    begin + text[begin..].iter().take_while(|byte| in_run(**byte)).count()
}

/// 'The test for a byte of a name shall be written as one visible row of ranges in rising order' (document 02).
fn in_run(byte: u8) -> bool {
    matches!(byte, b'0'..=b'9' | b'A'..=b'Z' | b'_' | b'a'..=b'z')
}

fn name(text: &[u8], begin: usize) -> Token {
    let end = run_end(text, begin);
    let sort = if end - begin <= LONGEST_NAME { Sort::Name } else { Sort::Bad };
    Token { sort, begin, end }
}

/// 'A reader is a writer with `?` directly after it.' The `?` ends the token.
fn variable(text: &[u8], begin: usize) -> Token {
    let end = run_end(text, begin);
    let reader = text.get(end) == Some(&b'?');
    let sort = match (end - begin <= LONGEST_NAME, reader) {
        (false, _) => Sort::Bad,
        (true, true) => Sort::Reader,
        (true, false) => Sort::Writer,
    };
    Token { sort, begin, end: end + reader as usize }
}

/// 'An integer is `0`, or an optional `-` and digits without a leading zero, from -2147483648 to 2147483647.'
fn integer(text: &[u8], begin: usize, digits: usize) -> Token {
    let end = run_end(text, digits);
    let run = &text[digits..end];
    let negative = digits > begin;
    let well_formed = run.iter().all(u8::is_ascii_digit) && (run[0] != b'0' || (run.len() == 1 && !negative));
    let most: u64 = if negative { 2_147_483_648 } else { 2_147_483_647 };
    let size = |run: &[u8]| run.iter().fold(0u64, |sum, d| sum * 10 + (d - b'0') as u64);
    let sort = if well_formed && run.len() <= 10 && size(run) <= most { Sort::Integer } else { Sort::Bad };
    Token { sort, begin, end }
}

/// The line of the byte at `place`. 'Lines count from 1 and end at LF': an LF belongs to the line that it ends.
pub fn line(text: &[u8], place: usize) -> u32 {
    1 + text[..place].iter().filter(|b| **b == b'\n').count() as u32
}
