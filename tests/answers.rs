//! The line of an answer, for the programs that answer.

use crate::lines::{put_numbers, write_bytes};
use crate::model::{Answer, Numbers};

/// The bytes of an answer frame.
const ANSWER_FRAME: usize = 9;
/// The characters of an answer line, its line feed too.
pub const ANSWER_LINE: usize = 2 * ANSWER_FRAME + 1;

pub fn answer_line(answer: Answer) -> [u8; ANSWER_LINE] {
    let (refusal, numbers) = match answer {
        Ok(numbers) => (0, numbers),
        Err(condition) => (condition.number(), Numbers::NONE),
    };
    let mut frame = [refusal; ANSWER_FRAME];
    put_numbers(&mut frame[1..], &numbers);
    let mut line = [b'\n'; ANSWER_LINE];
    write_bytes(&mut line, &frame);
    line
}
