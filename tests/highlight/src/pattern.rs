//! As much of Oniguruma's regular expressions, over bytes, as the grammar uses: bytes; `.`; `\` before a sign, and `\t`, `\r`, `\n`; `[..]` and `[^..]` with
//! ranges; `(?:..)`; `(?!..)`; `|`; and `*`, `+`, `?`, `{N}`, `{N,M}`, all greedy. Anything else is refused.

pub struct Pattern(Vec<Vec<Part>>);

enum Part {
    Byte { not: bool, ranges: Vec<(u8, u8)> },
    Any(Vec<Vec<Part>>),
    NotHere(Vec<Vec<Part>>),
    Repeated(Box<Part>, usize, usize),
}

impl Pattern {
    pub fn read(source: &str) -> Result<Pattern, String> {
        let mut reading = Reading { source: source.as_bytes(), at: 0 };
        let ways = reading.ways();
        match ways {
            Ok(ways) if reading.at == source.len() => Ok(Pattern(ways)),
            Ok(_) => Err(format!("'{source}' has a ')' too many")),
            Err(why) => Err(format!("'{source}' at {}: {why}", reading.at)),
        }
    }

    /// Where the match that begins at `at` ends.
    pub fn end(&self, text: &[u8], at: usize) -> Option<usize> {
        ways(&self.0, text, at, &mut Some)
    }
}

type Then<'t> = &'t mut dyn FnMut(usize) -> Option<usize>;

fn ways(all: &[Vec<Part>], text: &[u8], at: usize, then: Then) -> Option<usize> {
    all.iter().find_map(|way| parts(way, text, at, then))
}

fn parts(all: &[Part], text: &[u8], at: usize, then: Then) -> Option<usize> {
    match all.split_first() {
        None => then(at),
        Some((first, rest)) => part(first, text, at, &mut |at| parts(rest, text, at, then)),
    }
}

fn part(one: &Part, text: &[u8], at: usize, then: Then) -> Option<usize> {
    match one {
        Part::Byte { not, ranges } => {
            let byte = *text.get(at)?;
            (ranges.iter().any(|(from, to)| (*from..=*to).contains(&byte)) != *not).then_some(())?;
            then(at + 1)
        }
        Part::Any(all) => ways(all, text, at, then),
        Part::NotHere(all) => match ways(all, text, at, &mut Some) {
            Some(_) => None,
            None => then(at),
        },
        Part::Repeated(one, least, most) => repeated(one, *least, *most, text, at, then),
    }
}

fn repeated(one: &Part, least: usize, most: usize, text: &[u8], at: usize, then: Then) -> Option<usize> {
    if most > 0 {
        let more = part(one, text, at, &mut |next| {
            (next > at).then_some(())?;
            repeated(one, least.saturating_sub(1), most - 1, text, next, then)
        });
        if more.is_some() {
            return more;
        }
    }
    if least == 0 {
        then(at)
    } else {
        None
    }
}

struct Reading<'t> {
    source: &'t [u8],
    at: usize,
}

impl Reading<'_> {
    fn front(&self) -> Option<u8> {
        self.source.get(self.at).copied()
    }

    fn takes(&mut self, wanted: &str) -> bool {
        let there = self.source[self.at..].starts_with(wanted.as_bytes());
        self.at += if there { wanted.len() } else { 0 };
        there
    }

    fn ways(&mut self) -> Result<Vec<Vec<Part>>, String> {
        let mut all = vec![Vec::new()];
        loop {
            match self.front() {
                None | Some(b')') => return Ok(all),
                Some(b'|') => {
                    self.at += 1;
                    all.push(Vec::new());
                }
                Some(_) => {
                    let part = self.counted()?;
                    all.last_mut().unwrap().push(part);
                }
            }
        }
    }

    fn counted(&mut self) -> Result<Part, String> {
        let one = self.part()?;
        let (least, most) = match self.front() {
            Some(b'*') => (0, usize::MAX),
            Some(b'+') => (1, usize::MAX),
            Some(b'?') => (0, 1),
            Some(b'{') => {
                self.at += 1;
                let least = self.number()?;
                let most = if self.takes(",") { self.number()? } else { least };
                (least, most)
            }
            _ => return Ok(one),
        };
        self.at += 1;
        if matches!(self.front(), Some(b'*' | b'+' | b'?' | b'{')) {
            return Err("lazy and possessive repetition is not in the subset".to_string());
        }
        Ok(Part::Repeated(Box::new(one), least, most))
    }

    fn number(&mut self) -> Result<usize, String> {
        let digits = self.source[self.at..].iter().take_while(|byte| byte.is_ascii_digit()).count();
        let number = String::from_utf8_lossy(&self.source[self.at..self.at + digits]).parse();
        self.at += digits;
        number.map_err(|_| "a number is wanted".to_string())
    }

    fn part(&mut self) -> Result<Part, String> {
        let negated = match () {
            _ if self.takes("(?:") => Some(false),
            _ if self.takes("(?!") => Some(true),
            _ => None,
        };
        if let Some(negated) = negated {
            let ways = self.ways()?;
            if !self.takes(")") {
                return Err("a group is not closed".to_string());
            }
            return Ok(if negated { Part::NotHere(ways) } else { Part::Any(ways) });
        }
        if self.takes("[") {
            return self.set();
        }
        match self.front() {
            Some(b'.') => {
                self.at += 1;
                Ok(Part::Byte { not: true, ranges: vec![(b'\n', b'\n')] })
            }
            Some(b'(' | b'*' | b'+' | b'?' | b'{' | b'^' | b'$') => Err("this is not in the subset".to_string()),
            _ => {
                let byte = self.byte()?;
                Ok(Part::Byte { not: false, ranges: vec![(byte, byte)] })
            }
        }
    }

    fn set(&mut self) -> Result<Part, String> {
        let not = self.takes("^");
        let mut ranges = Vec::new();
        while !self.takes("]") {
            if matches!(self.front(), Some(b'[' | b'&')) {
                return Err("sets inside sets are not in the subset".to_string());
            }
            let from = self.byte()?;
            let to = if self.takes("-") { self.byte()? } else { from };
            ranges.push((from, to));
        }
        Ok(Part::Byte { not, ranges })
    }

    fn byte(&mut self) -> Result<u8, String> {
        let byte = self.front().ok_or("the pattern ends too early")?;
        self.at += 1;
        if byte != b'\\' {
            return Ok(byte);
        }
        let escaped = self.front().ok_or("the pattern ends too early")?;
        self.at += 1;
        match escaped {
            b't' => Ok(b'\t'),
            b'r' => Ok(b'\r'),
            b'n' => Ok(b'\n'),
            sign if sign.is_ascii_punctuation() => Ok(sign),
            other => Err(format!("'\\{}' is not in the subset", other as char)),
        }
    }
}
