//! Draws that a session is made by, and bad lines of every sort.

use crate::lines::{FRAME, LINE, MUST_BE_ZERO, write_bytes};
use crate::model::KINDS;
use crate::prng::Prng;

/// The longest bad line.
const LONGEST: usize = 100_000;

impl Prng {
    pub fn one_in(&mut self, times: usize) -> bool {
        self.below(times) == 0
    }

    pub fn pick<T: Copy>(&mut self, from: &[T]) -> T {
        from[self.below(from.len())]
    }

    /// Any byte but a line feed, which would end the line.
    fn byte(&mut self) -> u8 {
        loop {
            let byte = self.below(256) as u8;
            if byte != b'\n' {
                return byte;
            }
        }
    }
}

/// A line that is no frame, mostly a good frame's with one thing wrong; upper case alone leaves a
/// line good that has no letters.
pub fn bad_line(prng: &mut Prng, frame: [u8; FRAME]) -> Vec<u8> {
    let good = hexadecimal(&frame);
    match prng.below(12) {
        0 => hexadecimal(&of_unknown_kind(prng, frame)),
        1..=3 => hexadecimal(&with_unused_byte(prng, frame)),
        4 | 5 => of_other_length(prng, &good),
        6 | 7 => with_bad_character(prng, good),
        8 => good.to_ascii_uppercase(),
        9 => [&good[prng.below(2)..], b"\r"].concat(),
        10 => (0..LINE).map(|_| prng.byte()).collect(),
        _ => (0..prng.below(60)).map(|_| prng.byte()).collect(),
    }
}

fn hexadecimal(frame: &[u8; FRAME]) -> Vec<u8> {
    let mut line = vec![0; LINE];
    write_bytes(&mut line, frame);
    line
}

fn of_unknown_kind(prng: &mut Prng, mut frame: [u8; FRAME]) -> [u8; FRAME] {
    frame[0] = (KINDS + prng.below(256 - KINDS)) as u8;
    frame
}

/// One byte that the kind doesn't use, any of them, isn't zero.
fn with_unused_byte(prng: &mut Prng, mut frame: [u8; FRAME]) -> [u8; FRAME] {
    let must_be_zero = MUST_BE_ZERO[usize::from(frame[0])];
    let unused: Vec<usize> = (0..FRAME).filter(|i| must_be_zero >> i & 1 == 1).collect();
    frame[prng.pick(&unused)] = 1 + prng.below(255) as u8;
    frame
}

/// Begins like the good line, so that a reader that stops early would take it.
fn of_other_length(prng: &mut Prng, good: &[u8]) -> Vec<u8> {
    let length = match prng.below(100) {
        0 => prng.below(LONGEST + 1),
        1..=9 => prng.below(2_000),
        10..=19 => 0,
        20..=39 => LINE + 1,
        _ => prng.below(2 * LINE),
    };
    let length = if length == LINE { LINE - 1 } else { length };
    good.iter().copied().cycle().take(length).collect()
}

/// Neighbours of the digits, upper case, and bytes that a text hardly has.
fn with_bad_character(prng: &mut Prng, mut line: Vec<u8>) -> Vec<u8> {
    let place = prng.below(LINE);
    line[place] = prng.pick(b"/:@ABCDEFG`g\r\0\xff\x80 \t+-x");
    line
}
