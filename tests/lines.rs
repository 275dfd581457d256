//! Lines of hexadecimal: from a line to a step, and what writing a step and writing an answer have
//! in common. Both programs read lines here, so that the generator's model follows whatever its
//! lines turn out to mean.

use crate::model::{Condition, Condition::*, KINDS, Numbers, Step, Time};

/// The bytes of a step frame.
pub const FRAME: usize = 13;
/// The characters of a step line.
pub const LINE: usize = 2 * FRAME;

// Bit i stands for byte i of a frame.
const KIND: u16 = 1;
const A: u16 = 1 << 1;
const B: u16 = 1 << 2;
const SET_OR_COUNT: u16 = 1 << 3;
const KEY: u16 = 1 << 4;
const NUMBER: u16 = 3 << 5;
const TERM: u16 = 3 << 7;
const TIME: u16 = 15 << 9;
const ALL: u16 = (1 << FRAME) - 1;

const fn all_but(used: u16) -> u16 {
    ALL & !(KIND | used)
}

/// For each kind, which bytes must be zero.
pub const MUST_BE_ZERO: [u16; KINDS] = [
    all_but(A | SET_OR_COUNT),
    all_but(A | SET_OR_COUNT),
    all_but(A),
    all_but(A | B),
    all_but(A | B),
    all_but(A | B),
    all_but(A | KEY | NUMBER | TIME),
    all_but(A),
    all_but(A),
    all_but(A),
    all_but(A | KEY | TIME),
    all_but(A | KEY | TIME),
    all_but(A | SET_OR_COUNT | NUMBER | TERM),
    all_but(0),
    all_but(A),
    all_but(A | KEY | NUMBER | TERM),
    all_but(A),
];

/// Reads a line without its line feed; of a longer one its first 27 bytes are enough.
pub fn read_line(line: &[u8]) -> Result<Step, Condition> {
    read_frame(&read_bytes(line)?)
}

/// The bytes that a line stands for, where it has the digits of just so many.
pub fn read_bytes<const N: usize>(line: &[u8]) -> Result<[u8; N], Condition> {
    if line.len() != 2 * N {
        return Err(WrongLength);
    }
    let mut bytes = [0; N];
    for (byte, pair) in bytes.iter_mut().zip(line.chunks_exact(2)) {
        *byte = digit(pair[0])? << 4 | digit(pair[1])?;
    }
    Ok(bytes)
}

pub fn digit(character: u8) -> Result<u8, Condition> {
    match character {
        b'0'..=b'9' => Ok(character - b'0'),
        b'a'..=b'f' => Ok(character - b'a' + 10),
        _ => Err(WrongCharacter),
    }
}

fn read_frame(frame: &[u8; FRAME]) -> Result<Step, Condition> {
    let must_be_zero = *MUST_BE_ZERO.get(usize::from(frame[0])).ok_or(UnknownKind)?;
    if (0..FRAME).any(|i| must_be_zero >> i & 1 == 1 && frame[i] != 0) {
        return Err(UnusedByte);
    }
    let pair = |i: usize| u16::from_be_bytes([frame[i], frame[i + 1]]);
    let [kind, a, b, set, key, ..] = *frame;
    let (number, term, time) = (pair(5), pair(7), Time { p: pair(9), l: pair(11) });
    Ok(match kind {
        0 => Step::Start { servers: a, followers: set },
        1 => Step::Elect { a, set },
        2 => Step::StepDown { a },
        3 => Step::Hears { a, b },
        4 => Step::Pulls { a, b },
        5 => Step::RollsBack { a, b },
        6 => Step::Writes { a, key, value: number, client: time },
        7 => Step::Advances { a },
        8 => Step::WallClock { a },
        9 => Step::Restarts { a },
        10 => Step::LocalRead { a, key, time },
        11 => Step::MajorityRead { a, key, time },
        12 => Step::Acknowledged { a, count: set, position: number, term },
        13 => Step::ClocksAgree,
        14 => Step::WritesNothing { a },
        15 => Step::NewestRead { a, key, position: number, term },
        // The table above has let pass no kind but 16 here.
        _ => Step::TakesReport { a },
    })
}

/// Writes the number, term and time that step frames and answer frames both end in.
pub fn put_numbers(place: &mut [u8], numbers: &Numbers) {
    let pairs = [numbers.number, numbers.term, numbers.time.p, numbers.time.l];
    for (place, pair) in place.chunks_exact_mut(2).zip(&pairs) {
        place.copy_from_slice(&pair.to_be_bytes());
    }
}

/// Writes bytes as hexadecimal at the beginning of a line.
pub fn write_bytes(line: &mut [u8], bytes: &[u8]) {
    const DIGITS: &[u8; 16] = b"0123456789abcdef";
    for (pair, byte) in line.chunks_exact_mut(2).zip(bytes) {
        pair[0] = DIGITS[usize::from(byte >> 4)];
        pair[1] = DIGITS[usize::from(byte & 15)];
    }
}

#[cfg(test)]
mod tests {
    use super::*;

    #[test]
    fn the_table_is_the_rulings_table() {
        let rulings = [
            0x1ff4, 0x1ff4, 0x1ffc, 0x1ff8, 0x1ff8, 0x1ff8, 0x018c, 0x1ffc, 0x1ffc, 0x1ffc, 0x01ec,
            0x01ec, 0x1e14, 0x1ffe, 0x1ffc, 0x1e0c, 0x1ffc,
        ];
        assert_eq!(MUST_BE_ZERO, rulings);
    }

    #[test]
    fn each_sort_of_bad_line_is_told_apart() {
        let frame = b"0c010200000003000400000000";
        assert_eq!(read_line(&frame[..25]), Err(WrongLength));
        assert_eq!(read_line(b""), Err(WrongLength));
        assert_eq!(read_line(frame), Err(UnusedByte));
        assert_eq!(read_line(b"0C010002000003000400000000"), Err(WrongCharacter));
        assert_eq!(read_line(b"11000000000000000000000000"), Err(UnknownKind));
        let step = Step::Acknowledged { a: 1, count: 2, position: 0x304, term: 0x506 };
        assert_eq!(read_line(b"0c010002000304050600000000"), Ok(step));
    }

    #[test]
    fn kinds_0_6_and_14_to_16_use_these_fields_alone() {
        let step = Step::Start { servers: 7, followers: 0x86 };
        assert_eq!(read_line(b"00070086000000000000000000"), Ok(step));
        let step = Step::Start { servers: 3, followers: 0 };
        assert_eq!(read_line(b"00030000000000000000000000"), Ok(step));
        let client = Time { p: 0x506, l: 0x708 };
        let step = Step::Writes { a: 1, key: 2, value: 0x304, client };
        assert_eq!(read_line(b"06010000020304000005060708"), Ok(step));
        assert_eq!(read_line(b"0e070000000000000000000000"), Ok(Step::WritesNothing { a: 7 }));
        assert_eq!(read_line(b"10080000000000000000000000"), Ok(Step::TakesReport { a: 8 }));
        let step = Step::NewestRead { a: 1, key: 255, position: 0x304, term: 0x506 };
        assert_eq!(read_line(b"0f010000ff0304050600000000"), Ok(step));
        let write = vec![1, 4, 5, 6, 9, 10, 11, 12];
        let newest = vec![1, 4, 5, 6, 7, 8];
        let start = vec![1, 3];
        for (kind, used) in [(0, start), (6, write), (14, vec![1]), (15, newest), (16, vec![1])] {
            for byte in 1..FRAME {
                let mut line = [0; LINE];
                let mut frame = [0; FRAME];
                (frame[0], frame[byte]) = (kind, 1);
                write_bytes(&mut line, &frame);
                assert_eq!(read_line(&line).is_ok(), used.contains(&byte), "{kind}, byte {byte}");
            }
        }
    }
}
