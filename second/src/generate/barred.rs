//! Names with bytes that 2026-06 bars in them.

use super::damage::lines;
use super::random::Random;
use crate::bytes::is_barred;

/// The bounds of the barred bytes, and CR.
const BOUNDS: [u8; 6] = [0, 8, 11, 13, 31, 127];

/// A barred byte, mostly one of the bounds.
pub fn barred_byte(random: &mut Random) -> u8 {
    if !random.once_in(4) {
        return *random.pick(&BOUNDS);
    }
    let all: Vec<u8> = (0..=255).filter(|&byte| is_barred(byte)).collect();
    *random.pick(&all)
}

/// Puts a barred byte in the place of the last byte of a name, of its first or of any, at times of two.
pub fn bar(random: &mut Random, name: &mut [u8]) {
    let last = name.len() - 1;
    let place = match random.below(5) {
        0 => 0,
        1 | 2 => random.below(name.len()),
        _ => last,
    };
    name[place] = barred_byte(random);
    if random.once_in(6) {
        let other = random.below(name.len());
        name[other] = barred_byte(random);
    }
}

/// Puts one in the name of a line of this key, such as `font=` or `glyph=`, where there is such a line; at times makes
/// that name longer first.
pub fn bar_line(random: &mut Random, bytes: &mut Vec<u8>, key: &[u8]) {
    let mut lines = lines(bytes);
    let is_named = |line: &[u8]| line.starts_with(key) && line.len() > key.len() + 1;
    let places: Vec<usize> = (0..lines.len()).filter(|&place| is_named(&lines[place])).collect();
    if places.is_empty() {
        return;
    }
    let line = &mut lines[*random.pick(&places)];
    let end = line.len() - 1;
    if random.once_in(3) {
        let more = *random.pick(&[1, 2, 62, 63, 64]);
        line.splice(end..end, vec![b'n'; more]);
    }
    let end = line.len() - 1;
    bar(random, &mut line[key.len()..end]);
    *bytes = lines.concat();
}
