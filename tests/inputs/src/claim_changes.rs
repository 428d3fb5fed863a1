//! Changes to the text of a claim: of bytes, of tokens, and of the place where
//! a token stands.

use reference::claim::LIMITS;
use reference::claim_tokens::{Kind, tokens};

use crate::rng::Rng;

/// Bytes that begin, end or break a token.
pub const ODD_BYTES: &[u8] = b" \n\x0c\0\"\\/*@:-_019AtI[](){}!&|\xff";

/// Tokens that may stand in the wrong place.
const ODD_TOKENS: &[&str] = &[
    "HOA:",
    "v1",
    "States:",
    "Start:",
    "State:",
    "AP:",
    "Acceptance:",
    "Alias:",
    "name:",
    "Foo:",
    "_x:",
    "--BODY--",
    "--END--",
    "--ABORT--",
    "@a",
    "/*",
    "/",
    "\"s\"",
    "\"\n\"",
    "0",
    "1",
    "2",
    "14",
    "15",
    "16",
    "01",
    "2147483648",
    "[",
    "]",
    "(",
    ")",
    "{",
    "}",
    "!",
    "&",
    "|",
    "t",
    "f",
    "Inf",
    "Fin",
];

/// The place of each token, in order.
fn places(text: &[u8]) -> Vec<(usize, usize)> {
    let tokens = tokens(text).into_iter();
    let real = tokens.filter(|token| token.kind != Kind::Nothing);
    real.map(|token| (token.start, token.end)).collect()
}

/// The text with another token, and blanks around it, in this place.
fn with_token(text: &[u8], (start, end): (usize, usize), token: &[u8]) -> Vec<u8> {
    [&text[..start], b" ", token, b" ", &text[end..]].concat()
}

/// Every text that comes of one change of a token: left out, doubled, swapped
/// with the next, and each odd token before it or in its place.
pub fn every_token_change(text: &[u8]) -> Vec<Vec<u8>> {
    let places = places(text);
    let mut changed = Vec::new();
    for (number, &(start, end)) in places.iter().enumerate() {
        changed.push(with_token(text, (start, end), b""));
        changed.push(with_token(text, (end, end), &text[start..end]));
        if let Some(&(next_start, next_end)) = places.get(number + 1) {
            let swapped = [&text[next_start..next_end], b" ", &text[start..end]].concat();
            changed.push(with_token(text, (start, next_end), &swapped));
        }
        for odd in ODD_TOKENS {
            changed.push(with_token(text, (start, end), odd.as_bytes()));
            changed.push(with_token(text, (start, start), odd.as_bytes()));
        }
    }
    changed
}

/// The text with so many blanks at a place that what stood up to `end` ends
/// with the byte of this number.
fn moved(text: &[u8], place: usize, end: usize, number: usize) -> Vec<u8> {
    let blanks = vec![b' '; number.saturating_sub(end)];
    [&text[..place], &blanks, &text[place..]].concat()
}

/// Every text in which one token is moved to the edge of the longest text, so
/// that it ends there or close to it; each also cut after the last byte.
pub fn every_token_at_edge(text: &[u8]) -> impl Iterator<Item = Vec<u8>> {
    places(text).into_iter().flat_map(move |(start, end)| {
        (LIMITS.bytes - 2..=LIMITS.bytes + 2).flat_map(move |number| {
            let whole = moved(text, start, end, number);
            let cut = whole[..whole.len().min(LIMITS.bytes)].to_vec();
            [cut, whole]
        })
    })
}

/// Every text with an odd token in place of one of its own, which ends at the
/// edge of the longest text or one byte before or after it.
pub fn every_odd_token_at_edge(text: &[u8]) -> impl Iterator<Item = Vec<u8>> {
    places(text).into_iter().flat_map(move |(start, end)| {
        ODD_TOKENS.iter().flat_map(move |odd| {
            let with_odd = with_token(text, (start, end), odd.as_bytes());
            let odd_end = start + 1 + odd.len();
            let numbers = LIMITS.bytes - 1..=LIMITS.bytes + 1;
            numbers.map(move |number| moved(&with_odd, start, odd_end, number))
        })
    })
}

/// A changed copy, by one to three strokes.
pub fn changed(rng: &mut Rng, text: &[u8]) -> Vec<u8> {
    let mut text = text.to_vec();
    for _ in 0..rng.pick(&[1, 1, 1, 2, 3]) {
        text = if rng.chance(1, 2) {
            with_changed_byte(rng, text)
        } else {
            with_changed_token(rng, &text)
        };
    }
    text
}

fn with_changed_byte(rng: &mut Rng, mut text: Vec<u8>) -> Vec<u8> {
    let place = rng.below(text.len() + 1);
    match rng.below(8) {
        0 => text.truncate(place),
        1 => text.insert(place, rng.byte()),
        2..=4 => text.insert(place, rng.pick(ODD_BYTES)),
        _ if place == text.len() => {}
        5 => {
            text.remove(place);
        }
        _ => text[place] = rng.pick(ODD_BYTES),
    }
    text
}

/// Puts an odd token, or one of the text's own, before a token or in its place.
fn with_changed_token(rng: &mut Rng, text: &[u8]) -> Vec<u8> {
    let places = places(text);
    if places.is_empty() {
        return text.to_vec();
    }
    let (start, end) = rng.pick(&places);
    let (own_start, own_end) = rng.pick(&places);
    let own = &text[own_start..own_end];
    let odd = rng.pick(ODD_TOKENS).as_bytes();
    let token = rng.pick(&[odd, odd, own]);
    with_token(text, (start, rng.pick(&[start, end, end])), token)
}

/// A copy in which a token is moved to the edge of the longest text.
pub fn at_edge(rng: &mut Rng, text: &[u8]) -> Vec<u8> {
    let places = places(text);
    if places.is_empty() {
        return text.to_vec();
    }
    let (place, end) = rng.pick(&places);
    let number = LIMITS.bytes - 2 + rng.below(5);
    let end = if rng.chance(1, 4) { text.len() } else { end };
    moved(text, place, end, number)
}
