//! What a byte of a job text can be, by the reference's reader, with the name of each kind in the two files.

use reference::{token, Sort};

#[derive(Clone, Copy, PartialEq, Eq, Debug)]
pub enum Kind {
    Remark,
    Token(Sort),
}

/// Every kind, with its scope in the TextMate grammar. Its group in the Vim file is `glp` with the kind's name.
pub const KINDS: [(Kind, &str); 16] = [
    (Kind::Remark, "comment.line.percentage.glp"),
    (Kind::Token(Sort::Ask), "keyword.operator.ask.glp"),
    (Kind::Token(Sort::If), "keyword.operator.if.glp"),
    (Kind::Token(Sort::Equal), "keyword.operator.equal.glp"),
    (Kind::Token(Sort::Reader), "variable.parameter.reader.glp"),
    (Kind::Token(Sort::Writer), "variable.other.writer.glp"),
    (Kind::Token(Sort::Name), "entity.name.function.glp"),
    (Kind::Token(Sort::Integer), "constant.numeric.integer.glp"),
    (Kind::Token(Sort::OpenRound), "punctuation.section.parens.begin.glp"),
    (Kind::Token(Sort::CloseRound), "punctuation.section.parens.end.glp"),
    (Kind::Token(Sort::OpenSquare), "punctuation.section.brackets.begin.glp"),
    (Kind::Token(Sort::CloseSquare), "punctuation.section.brackets.end.glp"),
    (Kind::Token(Sort::Comma), "punctuation.separator.comma.glp"),
    (Kind::Token(Sort::Bar), "punctuation.separator.bar.glp"),
    (Kind::Token(Sort::Stop), "punctuation.terminator.stop.glp"),
    (Kind::Token(Sort::Bad), "invalid.illegal.token.glp"),
];

impl Kind {
    pub fn group(self) -> String {
        match self {
            Kind::Remark => "glpRemark".to_string(),
            Kind::Token(sort) => format!("glp{sort:?}"),
        }
    }
}

/// The kind of each byte by the reader, None for a separator; and how many tokens there are. The reader stops at a bad
/// token, and of 'a run led by `_`' it has looked at the first byte alone: here the whole run is that token.
pub fn expected(text: &[u8]) -> (Vec<Option<Kind>>, usize) {
    let mut kinds = vec![None; text.len()];
    let (mut at, mut tokens) = (0, 0);
    loop {
        let token = token(text, at);
        let mut remark = false;
        for place in at..token.begin {
            remark = text[place] != b'\n' && (remark || text[place] == b'%');
            kinds[place] = remark.then_some(Kind::Remark);
        }
        if token.sort == Sort::End {
            return (kinds, tokens);
        }
        at = token.end;
        if text[token.begin] == b'_' {
            at += text[at..].iter().take_while(|byte| byte.is_ascii_alphanumeric() || **byte == b'_').count();
        }
        kinds[token.begin..at].fill(Some(Kind::Token(token.sort)));
        tokens += 1;
    }
}
