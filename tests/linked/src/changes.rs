//! How an input is changed into another one: bytes, tokens and items of its text, and its figures.

use std::ops::Range;

use generator::corners::{change_byte, TOKENS};
use generator::random::Random;
use generator::term::token_end;

use crate::input::Input;

/// Texts are cut here: a little above the longest that is read.
const LONGEST: usize = 16_500;

/// One to three changes, some of them with parts of another input.
pub fn change(random: &mut Random, input: &Input, other: &Input) -> Input {
    let mut changed = input.clone();
    for _ in 0..random.pick(&[1, 1, 1, 2, 2, 3]) {
        if random.chance(65) {
            change_text(random, &mut changed.text, &other.text);
        } else {
            change_figure(random, &mut changed, other);
        }
    }
    changed.text.truncate(LONGEST);
    changed
}

fn change_text(random: &mut Random, text: &mut Vec<u8>, other: &[u8]) {
    match random.below(40) {
        0 => flip(random, text),
        1 => change_byte(random, text),
        2 => text.truncate(random.below(text.len() + 1)),
        3..=6 => change_token(random, text, other),
        7..=19 => exchange_token(random, text, other),
        20..=38 => change_item(random, text, other),
        _ => {
            let from = some(random, other.len());
            splice(random, text, &other[from]);
        }
    }
}

fn flip(random: &mut Random, text: &mut [u8]) {
    if !text.is_empty() {
        let at = random.below(text.len());
        text[at] ^= 1 << random.below(8);
    }
}

/// A token removed, doubled, replaced by any of the other text or of a list, or by the other half of its pair.
fn change_token(random: &mut Random, text: &mut Vec<u8>, other: &[u8]) {
    let Some(place) = some_token(random, text, |_| true) else { return };
    let token = text[place.clone()].to_vec();
    let new = match random.below(5) {
        0 => Vec::new(),
        1 => token.repeat(2),
        2 => random.pick(TOKENS).as_bytes().to_vec(),
        3 => other_half(&token),
        _ => some_token(random, other, |_| true).map_or(Vec::new(), |place| other[place].to_vec()),
    };
    text.splice(place, new);
}

/// A token replaced by one of its kind, mostly of the same text: what could be read can mostly be read then, too.
fn exchange_token(random: &mut Random, text: &mut Vec<u8>, other: &[u8]) {
    let Some(place) = some_token(random, text, |first| first.is_ascii_alphanumeric()) else { return };
    let first = text[place.start];
    let alike = |byte: u8| kind(byte) == kind(first);
    let from = if random.chance(70) { text.clone() } else { other.to_vec() };
    let Some(new) = some_token(random, &from, alike) else { return };
    text.splice(place, from[new].iter().copied());
}

fn kind(first: u8) -> (bool, bool) {
    (first.is_ascii_uppercase(), first.is_ascii_lowercase() || first.is_ascii_digit())
}

/// The place of a token whose first byte is such a one.
fn some_token(random: &mut Random, text: &[u8], such: impl Fn(u8) -> bool) -> Option<Range<usize>> {
    let places: Vec<_> = tokens(text).into_iter().filter(|place| such(text[place.start])).collect();
    (!places.is_empty()).then(|| places[random.below(places.len())].clone())
}

/// `X?` for `X` and `X` for `X?`; anything else as it is.
fn other_half(token: &[u8]) -> Vec<u8> {
    match token {
        [half @ .., b'?'] => half.to_vec(),
        [first, ..] if first.is_ascii_uppercase() => [token, b"?"].concat(),
        _ => token.to_vec(),
    }
}

/// An item removed, moved, set many times, or one of the other text set before it or in its place.
fn change_item(random: &mut Random, text: &mut Vec<u8>, other: &[u8]) {
    let items = items(text);
    let place = items[random.below(items.len())].clone();
    let theirs = self::items(other);
    let their = other[theirs[random.below(theirs.len())].clone()].to_vec();
    match random.below(6) {
        0 => drop(text.splice(place, [])),
        1 => {
            let item: Vec<u8> = text.splice(place, []).collect();
            splice(random, text, &item);
        }
        2 => {
            let item = text[place.clone()].repeat(random.between(2, 9));
            text.splice(place, item);
        }
        3 => drop(text.splice(place, their)),
        _ => drop(text.splice(place.start..place.start, their)),
    }
}

/// Bytes set between two items.
fn splice(random: &mut Random, text: &mut Vec<u8>, bytes: &[u8]) {
    let items = items(text);
    let at = items[random.below(items.len())].start;
    text.splice(at..at, bytes.iter().copied());
}

fn some(random: &mut Random, length: usize) -> Range<usize> {
    let (one, two) = (random.below(length + 1), random.below(length + 1));
    one.min(two)..one.max(two)
}

/// Where the tokens stand, blanks left out.
fn tokens(text: &[u8]) -> Vec<Range<usize>> {
    let mut places = Vec::new();
    let mut at = 0;
    while at < text.len() {
        let end = token_end(text, at);
        if !text[at].is_ascii_whitespace() {
            places.push(at..end);
        }
        at = end;
    }
    places
}

/// The stretches up to each full stop, and what is left; never none.
fn items(text: &[u8]) -> Vec<Range<usize>> {
    let mut begin = 0;
    let mut places = Vec::new();
    for end in (0..text.len()).filter(|&at| text[at] == b'.') {
        places.push(begin..end + 1);
        begin = end + 1;
    }
    places.push(begin..text.len());
    places
}

/// Mostly small figures, so that calls are quick; now and then the largest, or one past it.
fn change_figure(random: &mut Random, input: &mut Input, other: &Input) {
    let kind = random.below(8);
    let figure = match kind {
        0 | 1 => &mut input.budget,
        2 => &mut input.pairs,
        3 => &mut input.compounds,
        4 => &mut input.goals,
        5 => return change_scratch(random, input),
        6 => {
            input.buffer = random.pick(&[0, 1, 100, 2_000, 2_000, 2_000, 20_000, 70_000]);
            return;
        }
        _ => {
            let Input { budget, pairs, compounds, goals, buffer, beyond, .. } = *other;
            *input = Input { text: std::mem::take(&mut input.text), budget, pairs, compounds, goals, buffer, beyond };
            return;
        }
    };
    let (most, past) = if kind < 2 { (1_000_000, 1_000_001) } else { (65_535, 65_536) };
    *figure = match random.below(200) {
        0 => most,
        1 => past,
        2 => 0,
        3 => random.pick(&[u64::MAX, 1 << 32, (1 << 32) + 7, 1 << 63]),
        4..=9 => random.between(500, 5_000) as u64,
        10..=79 => figure.saturating_add(1).min(past),
        80..=139 => figure.saturating_sub(1),
        140..=169 => random.between(1, 40) as u64,
        _ => random.between(10, 600) as u64,
    };
}

fn change_scratch(random: &mut Random, input: &mut Input) {
    input.beyond = match random.below(20) {
        0 => -1,
        1 => -(random.between(1, 50_000) as i64),
        2 => i64::MIN,
        3 => random.between(1, 5_000) as i64,
        _ => random.between(0, 5) as i64,
    };
}

/// The buffer's length around the report's, which the reference has told.
pub fn around(random: &mut Random, length: u64) -> u64 {
    match random.below(6) {
        0 => length,
        1 => length.saturating_sub(1),
        2 => length + 1,
        3 => length + random.below(40) as u64,
        4 => random.below(length as usize + 1) as u64,
        _ => 0,
    }
}
