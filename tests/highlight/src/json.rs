//! As much of JSON as the grammar uses: objects, arrays, and strings whose escapes are `\\`, `\"`, `\/`, `\n` and `\t`.

#[derive(Debug)]
pub enum Json {
    Object(Vec<(String, Json)>),
    Array(Vec<Json>),
    Text(String),
}

pub fn read(text: &str) -> Result<Json, String> {
    let mut rest = text.chars().peekable();
    let value = value(&mut rest)?;
    match after_space(&mut rest) {
        None => Ok(value),
        Some(c) => Err(format!("the grammar goes on behind its end with '{c}'")),
    }
}

type Rest<'t> = std::iter::Peekable<std::str::Chars<'t>>;

/// The next character that is no white space, which stays in front.
fn after_space(rest: &mut Rest) -> Option<char> {
    while rest.next_if(|c| c.is_ascii_whitespace()).is_some() {}
    rest.peek().copied()
}

fn take(rest: &mut Rest, wanted: char) -> Result<(), String> {
    match after_space(rest) {
        Some(c) if c == wanted => {
            rest.next();
            Ok(())
        }
        found => Err(format!("the grammar is no JSON: {found:?} where '{wanted}' is wanted")),
    }
}

fn value(rest: &mut Rest) -> Result<Json, String> {
    match after_space(rest) {
        Some('{') => Ok(Json::Object(list(rest, '{', '}', |rest| {
            let name = string(rest)?;
            take(rest, ':')?;
            Ok((name, value(rest)?))
        })?)),
        Some('[') => Ok(Json::Array(list(rest, '[', ']', value)?)),
        Some('"') => Ok(Json::Text(string(rest)?)),
        found => Err(format!("{found:?} begins no object, array or string")),
    }
}

fn list<T>(
    rest: &mut Rest,
    open: char,
    close: char,
    one: impl Fn(&mut Rest) -> Result<T, String>,
) -> Result<Vec<T>, String> {
    take(rest, open)?;
    let mut all = Vec::new();
    while after_space(rest) != Some(close) {
        if !all.is_empty() {
            take(rest, ',')?;
        }
        all.push(one(rest)?);
    }
    take(rest, close)?;
    Ok(all)
}

fn string(rest: &mut Rest) -> Result<String, String> {
    take(rest, '"')?;
    let mut text = String::new();
    loop {
        match rest.next() {
            None => return Err("a string is not closed".to_string()),
            Some('"') => return Ok(text),
            Some('\\') => match rest.next() {
                Some(c @ ('\\' | '"' | '/')) => text.push(c),
                Some('n') => text.push('\n'),
                Some('t') => text.push('\t'),
                found => return Err(format!("the escape {found:?} is not in the subset")),
            },
            Some(c) => text.push(c),
        }
    }
}
