//! Texts damaged in any place.

use crate::check::random::Random;
use std::ops::Range;

/// The bytes of texts, those next to them, and what editors and other machines write.
pub const TELLING: &[u8] = b"0169,\"\r\n /:;.'\t+-AFex\0\x1A\x80\xB0\xFF\xEF\xBB\xBF";

/// What follows a whole text.
const PIECES: [&[u8]; 8] = [b"\r\n", b"\r\n\r\n", b"\n\r", b"0\r\n", b"\r\n0", b",0", b"\"0\"", b"\"\""];

/// Hands over each text that comes of the given one by one damage: cut in a place; one of the bytes put in, or in the
/// place of another; a byte left out, doubled or exchanged with the next one; a piece put behind.
pub fn each(text: &[u8], bytes: &[u8], mut hand_over: impl FnMut(&[u8]) -> Result<(), String>) -> Result<(), String> {
    for place in 0..=text.len() {
        hand_over(&text[..place])?;
        for &byte in bytes {
            hand_over(&replaced(text, place..place, &[byte]))?;
        }
    }
    for place in 0..text.len() {
        hand_over(&replaced(text, place..place + 1, &[]))?;
        hand_over(&replaced(text, place..place, &[text[place]]))?;
        for &byte in bytes {
            hand_over(&replaced(text, place..place + 1, &[byte]))?;
        }
    }
    for place in 1..text.len() {
        hand_over(&replaced(text, place - 1..place + 1, &[text[place], text[place - 1]]))?;
    }
    PIECES.into_iter().chain([text]).try_for_each(|piece| hand_over(&[text, piece].concat()))
}

fn replaced(text: &[u8], part: Range<usize>, other: &[u8]) -> Vec<u8> {
    [&text[..part.start], other, &text[part.end..]].concat()
}

/// Puts a few bytes in the place of a few others.
pub fn anywhere(random: &mut Random, text: &mut Vec<u8>) {
    let place = random.within(0, text.len());
    let end = random.within(place, text.len().min(place + 2));
    let other = match random.below(8) {
        0 => random.next().to_le_bytes()[..1].to_vec(),
        1 => text[random.below(place + 1)..place].to_vec(),
        _ => (0..random.below(3)).map(|_| random.pick(TELLING)).collect(),
    };
    text.splice(place..end, other);
}
