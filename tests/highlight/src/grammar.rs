//! As much of a TextMate grammar as ours uses: `patterns` in order, each with `name` and `match` and nothing else; no `begin` and `end`, no captures, no
//! repository. A text is taken line by line, each with its LF, as editors do: from a place on, the match that begins first is taken, and of several that
//! begin there that of the first rule.

use crate::json::{self, Json};
use crate::kinds::{Kind, KINDS};
use crate::pattern::Pattern;

pub struct Rule {
    pub kind: Kind,
    pub source: String,
    pattern: Pattern,
}

pub struct Grammar {
    pub rules: Vec<Rule>,
}

impl Grammar {
    pub fn read(text: &str) -> Result<Grammar, String> {
        let Json::Object(fields) = json::read(text)? else { return Err("the grammar is no object".to_string()) };
        let mut rules = Vec::new();
        for (name, value) in fields {
            match (name.as_str(), value) {
                ("patterns", Json::Array(all)) => rules = all.into_iter().map(rule).collect::<Result<_, _>>()?,
                ("scopeName", Json::Text(scope)) if scope == "source.glp" => {}
                ("fileTypes", Json::Array(_)) | ("comment" | "name", Json::Text(_)) => {}
                (name, _) => return Err(format!("the grammar's field '{name}' is not understood")),
            }
        }
        for (kind, scope) in KINDS {
            if rules.iter().filter(|rule: &&Rule| rule.kind == kind).count() != 1 {
                return Err(format!("not one rule, but none or several, have the scope {scope}"));
            }
        }
        Ok(Grammar { rules })
    }

    /// The kind of each byte, None where no rule matches.
    pub fn classes(&self, text: &[u8]) -> Vec<Option<Kind>> {
        let mut kinds = Vec::with_capacity(text.len());
        for line in text.split_inclusive(|byte| *byte == b'\n') {
            let begin = kinds.len();
            kinds.resize(begin + line.len(), None);
            let mut at = 0;
            while at < line.len() {
                let found = self
                    .rules
                    .iter()
                    .find_map(|rule| Some((rule.kind, rule.pattern.end(line, at).filter(|end| *end > at)?)));
                match found {
                    None => at += 1,
                    Some((kind, end)) => {
                        kinds[begin + at..begin + end].fill(Some(kind));
                        at = end;
                    }
                }
            }
        }
        kinds
    }
}

fn rule(value: Json) -> Result<Rule, String> {
    let Json::Object(fields) = value else { return Err("a rule of the grammar is no object".to_string()) };
    let (mut scope, mut source) = (None, None);
    for (name, value) in fields {
        match (name.as_str(), value) {
            ("name", Json::Text(text)) => scope = Some(text),
            ("match", Json::Text(text)) => source = Some(text),
            (name, _) => return Err(format!("a rule's field '{name}' is not understood")),
        }
    }
    let (Some(scope), Some(source)) = (scope, source) else { return Err("a rule has no name or no match".to_string()) };
    let known = KINDS.iter().find(|(_, known)| *known == scope);
    let (kind, _) = known.ok_or_else(|| format!("the scope {scope} is that of no kind"))?;
    Ok(Rule { kind: *kind, pattern: Pattern::read(&source)?, source })
}
