//! Damage to files: to bytes, to fields and to lines.

use std::ops::Range;

use crate::rng::Rng;

/// Bytes that a reader may be tempted to treat kindly or to trip over.
pub const ODD_BYTES: &[u8] = b"\n\r\t\0 -+.0123459:/aAvx\x0b\x7f\x80\xff";

/// Fields at and past the limits, and spellings that are no numbers.
const ODD_FIELDS: &[&str] = &[
    "",
    "-",
    "-0",
    "-00",
    "-01",
    "--1",
    "+1",
    "+0",
    "0",
    "00",
    "01",
    "007",
    "1",
    "2",
    "3",
    "-1",
    "15",
    "16",
    "17",
    "499",
    "500",
    "501",
    "-499",
    "-500",
    "-501",
    "1999",
    "2000",
    "2001",
    "2495",
    "2496",
    "2500",
    "4294967297",
    "999999999",
    "-999999999",
    "1000000000",
    "-1000000000",
    "0000000001",
    "2147483648",
    "1x",
    "x1",
    "0x1",
    "1.0",
    "lasso",
    "empty",
    "Lasso",
    "lassoo",
    "1\r",
    "1\t",
    "\u{661}",
];

/// What may stand in place of a version: those that are known, other numbers, and
/// what is no number.
pub const VERSIONS: &[&str] = &[
    "0",
    "1",
    "2",
    "3",
    "01",
    "02",
    "00",
    "10",
    "999999999",
    "1000000000",
    "1234567890",
    "-1",
    "+2",
    "2\r",
    "1\r",
    "2\t",
    "",
    "x",
    "2x",
    "v2",
];

/// A damaged copy, by one to three strokes: several faults in one file show
/// whether the first one decides.
pub fn damaged(rng: &mut Rng, text: &[u8]) -> Vec<u8> {
    let mut text = text.to_vec();
    for _ in 0..rng.pick(&[1, 1, 1, 2, 3]) {
        damage_once(rng, &mut text);
    }
    text
}

fn damage_once(rng: &mut Rng, text: &mut Vec<u8>) {
    match rng.below(14) {
        0 => flip_bit(rng, text),
        1 => replace_byte(rng, text),
        2 => insert_byte(rng, text),
        3 => delete_bytes(rng, text),
        4 => text.truncate(rng.below(text.len() + 1)),
        5 => text
            .extend_from_slice(rng.pick::<&[u8]>(&[b"\n", b" ", b"0 0\n", b"x", b"\r\n", b"\0"])),
        6 => edit_lines(rng, text),
        7 => widen_gap(rng, text),
        8 => replace_version(rng, text),
        9 => nudge_number(rng, text),
        10 => prefix_field(rng, text),
        11 => end_lines_with_return(rng, text),
        _ => replace_field(rng, text),
    }
}

fn flip_bit(rng: &mut Rng, text: &mut [u8]) {
    if !text.is_empty() {
        let place = rng.below(text.len());
        text[place] ^= 1 << rng.below(8);
    }
}

fn replace_byte(rng: &mut Rng, text: &mut [u8]) {
    if !text.is_empty() {
        let place = rng.below(text.len());
        text[place] = if rng.chance(1, 4) {
            rng.byte()
        } else {
            rng.pick(ODD_BYTES)
        };
    }
}

fn insert_byte(rng: &mut Rng, text: &mut Vec<u8>) {
    let place = rng.below(text.len() + 1);
    text.insert(place, rng.pick(ODD_BYTES));
}

fn delete_bytes(rng: &mut Rng, text: &mut Vec<u8>) {
    let start = rng.below(text.len() + 1);
    let end = (start + rng.pick(&[1, 1, 2, 5])).min(text.len());
    text.drain(start..end);
}

/// Swaps, repeats, drops or empties lines.
fn edit_lines(rng: &mut Rng, text: &mut Vec<u8>) {
    let mut lines: Vec<Vec<u8>> = text
        .split_inclusive(|&byte| byte == b'\n')
        .map(<[u8]>::to_vec)
        .collect();
    if lines.is_empty() {
        return;
    }
    let (one, other) = (rng.below(lines.len()), rng.below(lines.len()));
    match rng.below(4) {
        0 => lines.swap(one, other),
        1 => lines.insert(one, lines[one].clone()),
        2 => lines[one] = b"\n".to_vec(),
        _ => {
            lines.remove(one);
        }
    }
    *text = lines.concat();
}

/// Puts a second space, or one where none belongs.
fn widen_gap(rng: &mut Rng, text: &mut Vec<u8>) {
    if let Some(field) = random_field(rng, text) {
        text.insert(rng.pick(&[field.start, field.end]), b' ');
    }
}

/// Replaces line 2's first field, at times beside a broken line 1.
fn replace_version(rng: &mut Rng, text: &mut Vec<u8>) {
    *text = with_version(text, rng.pick(VERSIONS));
    let Some(first_end) = text.iter().position(|&byte| byte == b'\n') else {
        return;
    };
    let start = first_end + 1;
    match rng.below(6) {
        0 => text.insert(first_end, b'x'),
        1 => text.truncate(start + rng.below(text.len() - start + 1)),
        _ => {}
    }
}

/// A copy with this in place of line 2's first field, if there is a line 2.
pub fn with_version(text: &[u8], version: &str) -> Vec<u8> {
    let mut text = text.to_vec();
    if let Some(first_end) = text.iter().position(|&byte| byte == b'\n') {
        let start = first_end + 1;
        let ends = |&byte: &u8| byte == b' ' || byte == b'\n';
        let length = text[start..].iter().position(ends);
        let end = length.map_or(text.len(), |length| start + length);
        text.splice(start..end, version.bytes());
    }
    text
}

/// Raises or lowers one number by one.
fn nudge_number(rng: &mut Rng, text: &mut Vec<u8>) {
    let Some(field) = random_field(rng, text) else {
        return;
    };
    let number = std::str::from_utf8(&text[field.clone()])
        .ok()
        .and_then(|field| field.parse::<i64>().ok());
    if let Some(number) = number {
        let nudged = (number + rng.pick(&[1, -1])).to_string();
        text.splice(field, nudged.bytes());
    }
}

/// Puts a sign or a zero before a field.
fn prefix_field(rng: &mut Rng, text: &mut Vec<u8>) {
    if let Some(field) = random_field(rng, text) {
        text.insert(field.start, rng.pick(b"0--+"));
    }
}

/// Puts a carriage return before one line feed or before all.
fn end_lines_with_return(rng: &mut Rng, text: &mut Vec<u8>) {
    let ends: Vec<usize> = (0..text.len())
        .filter(|&place| text[place] == b'\n')
        .collect();
    if ends.is_empty() {
        return;
    }
    let chosen = if rng.chance(1, 3) {
        ends
    } else {
        vec![rng.pick(&ends)]
    };
    for end in chosen.into_iter().rev() {
        text.insert(end, b'\r');
    }
}

fn replace_field(rng: &mut Rng, text: &mut Vec<u8>) {
    if let Some(field) = random_field(rng, text) {
        text.splice(field, rng.pick(ODD_FIELDS).bytes());
    }
}

/// The place of a field; the fields of line 2, which rule the rest, come up
/// more often than others.
fn random_field(rng: &mut Rng, text: &[u8]) -> Option<Range<usize>> {
    let fields = fields(text);
    if fields.is_empty() {
        return None;
    }
    let choices = if rng.chance(1, 4) {
        fields.len().min(10)
    } else {
        fields.len()
    };
    Some(fields[rng.below(choices)].clone())
}

fn fields(text: &[u8]) -> Vec<Range<usize>> {
    let mut fields = Vec::new();
    let mut start = 0;
    for piece in text.split(|&byte| byte == b' ' || byte == b'\n') {
        if !piece.is_empty() {
            fields.push(start..start + piece.len());
        }
        start += piece.len() + 1;
    }
    fields
}

/// Every file that comes of one small change at one place: a cut, a byte
/// left out, and each odd byte put before or in place of the one there.
pub fn every_small_change(text: &[u8]) -> Vec<Vec<u8>> {
    every_change_by(text, ODD_BYTES)
}

/// The same by other odd bytes.
pub fn every_change_by(text: &[u8], odd_bytes: &[u8]) -> Vec<Vec<u8>> {
    let mut changed = Vec::new();
    for place in 0..text.len() {
        let (before, after) = (&text[..place], &text[place + 1..]);
        changed.push(before.to_vec());
        changed.push([before, after].concat());
        for &odd in odd_bytes {
            changed.push([before, &[odd], after].concat());
            changed.push([before, &[odd], &text[place..]].concat());
        }
    }
    for &odd in odd_bytes {
        changed.push([text, &[odd]].concat());
    }
    changed
}
