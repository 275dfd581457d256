//! The frame and the line of a step, for the generator to write.

use crate::lines::{FRAME, LINE, put_numbers, write_bytes};
use crate::model::{Numbers, Step};

/// What a step frame holds besides its kind.
struct Fields {
    a: u8,
    b: u8,
    set_or_count: u8,
    key: u8,
    numbers: Numbers,
}

/// The fields of a step; those it doesn't use are zero.
fn fields_of(step: &Step) -> Fields {
    const NUMBERS: Numbers = Numbers::NONE;
    const UNUSED: Fields = Fields { a: 0, b: 0, set_or_count: 0, key: 0, numbers: NUMBERS };
    match *step {
        Step::StepDown { a }
        | Step::Advances { a }
        | Step::WallClock { a }
        | Step::Restarts { a }
        | Step::WritesNothing { a }
        | Step::TakesReport { a } => Fields { a, ..UNUSED },
        Step::Start { servers: a, followers: set } | Step::Elect { a, set } => {
            Fields { a, set_or_count: set, ..UNUSED }
        }
        Step::Hears { a, b } | Step::Pulls { a, b } | Step::RollsBack { a, b } => {
            Fields { a, b, ..UNUSED }
        }
        Step::Writes { a, key, value, client } => {
            let numbers = Numbers { number: value, time: client, ..NUMBERS };
            Fields { a, key, numbers, ..UNUSED }
        }
        Step::LocalRead { a, key, time } | Step::MajorityRead { a, key, time } => {
            Fields { a, key, numbers: Numbers { time, ..NUMBERS }, ..UNUSED }
        }
        Step::Acknowledged { a, count, position, term } => {
            let numbers = Numbers { number: position, term, ..NUMBERS };
            Fields { a, set_or_count: count, numbers, ..UNUSED }
        }
        Step::ClocksAgree => UNUSED,
        Step::NewestRead { a, key, position, term } => {
            Fields { a, key, numbers: Numbers { number: position, term, ..NUMBERS }, ..UNUSED }
        }
    }
}

/// The frame of a step, the only one it has.
pub fn frame_of(step: &Step) -> [u8; FRAME] {
    let fields = fields_of(step);
    let mut frame = [0; FRAME];
    frame[..5].copy_from_slice(&[step.kind(), fields.a, fields.b, fields.set_or_count, fields.key]);
    put_numbers(&mut frame[5..], &fields.numbers);
    frame
}

pub fn line_of(step: &Step) -> [u8; LINE] {
    let mut line = [0; LINE];
    write_bytes(&mut line, &frame_of(step));
    line
}
