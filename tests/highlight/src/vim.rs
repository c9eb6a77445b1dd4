//! The Vim file held to the grammar: the same kinds in the reverse order, since of two matches at one place Vim takes the later item, each with the grammar's
//! pattern in Vim's notation, and with a colour. Vim itself is asked by `tests/editors` where it is installed.

use crate::grammar::Grammar;

/// Groups with their patterns, in the file's order.
pub type Items = Vec<(String, String)>;

/// What the file says. Lines that begin with `syntax` or `highlight` have to be understood.
pub fn read(text: &str) -> Result<Items, String> {
    let mut items = Items::new();
    let mut coloured = Vec::new();
    let mut exact = false;
    for line in text.lines() {
        let words: Vec<&str> = line.splitn(4, ' ').collect();
        match words.as_slice() {
            ["syntax", "case", "match"] => exact = true,
            ["syntax", "match", group, pattern] => {
                let inside = pattern.strip_prefix("/\\v").and_then(|rest| rest.strip_suffix('/'));
                items.push((
                    group.to_string(),
                    inside.ok_or(format!("the pattern of {group} is not /\\v../"))?.to_string(),
                ));
            }
            ["highlight", "default", "link", groups] => {
                coloured.push(groups.split(' ').next().unwrap_or("").to_string())
            }
            ["syntax" | "highlight", ..] => return Err(format!("the Vim file's line '{line}' is not understood")),
            _ => {}
        }
    }
    if !exact {
        return Err("the Vim file has no 'syntax case match'".to_string());
    }
    for (group, _) in &items {
        if coloured.iter().filter(|name| *name == group).count() != 1 {
            return Err(format!("the Vim file links {group} to no colour, or to several"));
        }
    }
    if coloured.len() != items.len() {
        return Err("the Vim file has a colour for a group that it does not match".to_string());
    }
    Ok(items)
}

pub fn same(grammar: &Grammar, items: &Items) -> Result<(), String> {
    let wanted: Items = grammar.rules.iter().rev().map(|rule| (rule.kind.group(), notation(&rule.source))).collect();
    if let Some((wanted, found)) = wanted.iter().zip(items).find(|(wanted, found)| wanted != found) {
        return Err(format!(
            "the Vim file has {} /\\v{}/ where the grammar has {} /\\v{}/",
            found.0, found.1, wanted.0, wanted.1
        ));
    }
    if wanted.len() != items.len() {
        return Err(format!("the Vim file has {} kinds and the grammar {}", items.len(), wanted.len()));
    }
    Ok(())
}

/// A pattern of `pattern`'s subset in Vim's notation behind `\v`: `%(..)` for `(?:..)`, `%(..)@!` for `(?!..)`, `\%` for `%`, `\=` for `=`, and no `\n`, since
/// Vim's lines have none. The rest is written alike.
fn notation(source: &str) -> String {
    let mut vim = String::new();
    let mut closings = Vec::new();
    let mut rest = source;
    while let Some(first) = rest.chars().next() {
        let groups = [("(?:", ")"), ("(?!", ")@!")];
        let (out, length) = match groups.iter().find(|(opening, _)| rest.starts_with(opening)) {
            Some((opening, closing)) => {
                closings.push(*closing);
                ("%(", opening.len())
            }
            None if rest.starts_with("\\n") => ("", 2),
            None if first == '\\' => (&rest[..2], 2),
            None if first == '%' => ("\\%", 1),
            None if first == '=' => ("\\=", 1),
            None if first == ')' => (closings.pop().unwrap_or(")"), 1),
            None => (&rest[..first.len_utf8()], first.len_utf8()),
        };
        vim.push_str(out);
        rest = &rest[length..];
    }
    vim
}
