//! The library's planners and marker, their answers as numbers, and the planners compared with reference.rs.

use crate::reference::{Heuristic, Memory, Planned, Planner};
use frames::{plan_into, Answer, Verdict};
use Heuristic::{Heft, MinMin};
use Memory::{Aware, Plain};

/// The library's name of a planner.
pub fn named(planner: Planner) -> frames::Planner {
    match (planner.heuristic, planner.memory) {
        (Heft, Plain) => frames::Planner::Heft,
        (Heft, Aware) => frames::Planner::MemHeft,
        (MinMin, Plain) => frames::Planner::MinMin,
        (MinMin, Aware) => frames::Planner::MemMinMin,
    }
}

/// A planner's answer, and the lent buffer after the call.
#[derive(Clone, Debug, PartialEq, Eq)]
pub struct Answered {
    pub answer: Answer,
    pub buffer: Vec<u8>,
}

impl Answered {
    /// What is due with a buffer of a length: the text and the pattern behind it, or, where the text does not fit, 31 and the pattern.
    pub fn due(want: &Planned, room: usize) -> Answered {
        let mut buffer = pattern(room);
        let short = want.number == 0 && room < want.text.len();
        if !short {
            buffer[..want.text.len()].copy_from_slice(&want.text);
        }
        Answered {
            answer: Answer {
                number: if short { 31 } else { want.number },
                place: want.place,
                trials: want.trials,
            },
            buffer,
        }
    }

    /// The timetable; empty after a refusal.
    pub fn text(&self) -> &[u8] {
        match self.answer.number {
            0 => &self.buffer[..self.answer.place as usize],
            _ => &[],
        }
    }
}

/// What a buffer has in it before a call.
pub fn pattern(room: usize) -> Vec<u8> {
    (0..room).map(|i| (i * 7 + 13) as u8).collect()
}

/// A planner of the library with a buffer of a length.
pub fn plan(planner: Planner, sheet: &[u8], room: usize) -> Answered {
    let mut buffer = pattern(room);
    let answer = plan_into(named(planner), sheet, &mut buffer);
    Answered { answer, buffer }
}

/// The same; an error where the answer or a byte of the buffer is not the one due.
pub fn compared(
    planner: Planner,
    sheet: &[u8],
    want: &Planned,
    room: usize,
) -> Result<Answered, String> {
    let got = plan(planner, sheet, room);
    let due = Answered::due(want, room);
    if got == due {
        return Ok(got);
    }
    let shown = |buffer: &[u8]| String::from_utf8_lossy(&buffer[..room.min(2000)]).into_owned();
    Err(format!(
        "{:?} differs with {room} bytes: {:?}, wanted {:?}\nbuffer:\n{}\nwanted:\n{}",
        named(planner),
        got.answer,
        due.answer,
        shown(&got.buffer),
        shown(&due.buffer)
    ))
}

/// The library's marker: number, place, span and peaks.
pub fn mark(sheet: &[u8], paper: &[u8]) -> [u64; 5] {
    match frames::mark(sheet, paper) {
        Verdict::Accepted {
            span,
            blue_peak,
            red_peak,
        } => [0, 0, span, blue_peak, red_peak],
        Verdict::Refused(refusal) => {
            let (number, place) = refusal.numbers();
            [number, place, 0, 0, 0]
        }
    }
}
