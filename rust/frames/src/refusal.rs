//! The refusals, with their numbers, places and meaning: those of docs/RULES.md and of include/frames.h.

use std::fmt;

/// Why a text was refused, a timetable is not valid, or a planner or the converter could not finish.
#[derive(Clone, Copy, Debug, PartialEq, Eq)]
pub enum Refusal {
    /// 1
    SheetTooLong,
    /// 2
    SheetMalformed { line: u64 },
    /// 3
    SheetOutOfRange { line: u64 },
    /// 4
    SheetNotAllowed { line: u64 },
    /// 11
    PaperTooLong,
    /// 12
    PaperMalformed { line: u64 },
    /// 13
    PaperOutOfRange { line: u64 },
    /// 14
    PaperNotDue { line: u64 },
    /// 15
    Overlap { task: u64 },
    /// 16
    Early { task: u64 },
    /// 17
    OverLimit { tick: u64 },
    /// 18
    ClaimUntrue,
    /// 21
    Stuck { placed: u64 },
    /// 31
    BufferTooShort { needed: u64 },
    /// 41
    TooManyTasks,
    /// 42
    TooManyFiles,
}

use Refusal::*;

impl Refusal {
    /// The refusal of a number and a place, if the number is listed; 0 and every other number is none.
    pub fn from_numbers(number: u64, place: u64) -> Option<Refusal> {
        Some(match number {
            1 => SheetTooLong,
            2 => SheetMalformed { line: place },
            3 => SheetOutOfRange { line: place },
            4 => SheetNotAllowed { line: place },
            11 => PaperTooLong,
            12 => PaperMalformed { line: place },
            13 => PaperOutOfRange { line: place },
            14 => PaperNotDue { line: place },
            15 => Overlap { task: place },
            16 => Early { task: place },
            17 => OverLimit { tick: place },
            18 => ClaimUntrue,
            21 => Stuck { placed: place },
            31 => BufferTooShort { needed: place },
            41 => TooManyTasks,
            42 => TooManyFiles,
            _ => return None,
        })
    }

    /// Its number and place.
    pub fn numbers(self) -> (u64, u64) {
        match self {
            SheetTooLong => (1, 0),
            SheetMalformed { line } => (2, line),
            SheetOutOfRange { line } => (3, line),
            SheetNotAllowed { line } => (4, line),
            PaperTooLong => (11, 0),
            PaperMalformed { line } => (12, line),
            PaperOutOfRange { line } => (13, line),
            PaperNotDue { line } => (14, line),
            Overlap { task } => (15, task),
            Early { task } => (16, task),
            OverLimit { tick } => (17, tick),
            ClaimUntrue => (18, 0),
            Stuck { placed } => (21, placed),
            BufferTooShort { needed } => (31, needed),
            TooManyTasks => (41, 0),
            TooManyFiles => (42, 0),
        }
    }
}

impl fmt::Display for Refusal {
    fn fmt(&self, f: &mut fmt::Formatter) -> fmt::Result {
        match self {
            SheetTooLong => write!(f, "the board sheet is over {} bytes", crate::MAX_TEXT),
            SheetMalformed { line } => write!(f, "line {line} of the board sheet is none of its forms, lacks its line feed, or is missing"),
            SheetOutOfRange { line } => write!(f, "line {line} of the board sheet has a number out of its range"),
            SheetNotAllowed { line } => write!(f, "line {line} of the board sheet is not allowed there"),
            PaperTooLong => write!(f, "the timetable is over {} bytes", crate::MAX_TEXT),
            PaperMalformed { line } => write!(f, "line {line} of the timetable is none of its forms, lacks its line feed, or is missing"),
            PaperOutOfRange { line } => write!(f, "line {line} of the timetable has a number out of its range"),
            PaperNotDue { line } => write!(f, "line {line} of the timetable is not the one due"),
            Overlap { task } => write!(f, "task {task} shares an instant with another run on its processor"),
            Early { task } => write!(f, "task {task} starts before a file that it reads has arrived, or that file moves before it is made"),
            OverLimit { tick } => write!(f, "at tick {tick} a memory holds more than its limit"),
            ClaimUntrue => write!(f, "the claim is untrue"),
            Stuck { placed } => write!(f, "the planner is stuck with {placed} tasks placed"),
            BufferTooShort { needed } => write!(f, "the output buffer is too short: {needed} bytes are needed"),
            TooManyTasks => write!(f, "the converted sheet would have over 64 tasks"),
            TooManyFiles => write!(f, "the converted sheet would have over 256 files"),
        }
    }
}

impl std::error::Error for Refusal {}

#[cfg(test)]
mod tests {
    use super::*;

    #[test]
    fn numbers_and_back() {
        let mut listed = 0;
        for number in 0..1000 {
            if let Some(refusal) = Refusal::from_numbers(number, 5) {
                listed += 1;
                let place = match number {
                    1 | 11 | 18 | 41 | 42 => 0,
                    _ => 5,
                };
                assert_eq!(refusal.numbers(), (number, place));
            }
        }
        assert_eq!(listed, 16);
        assert_eq!(Refusal::from_numbers(0, 0), None);
        assert_eq!(Refusal::from_numbers(u64::MAX, 0), None);
    }
}
