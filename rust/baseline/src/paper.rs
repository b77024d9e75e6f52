//! The timetable, read in one pass.

use crate::sheet::{is_task, File, Sheet};
use crate::text::{Refusal, Text, MAX_TEXT};

/// The greatest start, and the greatest number of a claim.
const MAX_TICK: u64 = 999_999_999_999;

#[derive(Clone, Default)]
pub struct Run {
    pub processor: u64,
    /// 0 is blue and 1 is red
    pub memory: usize,
    pub start: u64,
    pub finish: u64,
    /// until when its memory holds the files that it reads and its W
    pub release: u64,
}

pub struct Paper {
    pub runs: Vec<Run>,
    /// the start of each file's move; 0 for a file that is not moved
    pub moves: Vec<u64>,
    /// span, blue peak and red peak
    pub claim: [u64; 3],
}

/// A line of one of the three forms; tasks are counted from 1.
enum Line {
    Run {
        task: u64,
        processor: u64,
        start: u64,
    },
    Move {
        maker: u64,
        reader: u64,
        start: u64,
    },
    Claim([u64; 3]),
}

/// Reads three numbers behind these bytes, and the end of the line.
fn three<const N: usize>(text: &mut Text, bytes: &[u8; N]) -> Option<[u64; 3]> {
    let numbers = [
        text.number_behind(bytes)?,
        text.number_behind(b" ")?,
        text.number_behind(b" ")?,
    ];
    text.literal(b")\n")?;
    Some(numbers)
}

impl Line {
    /// Reads a line with its LF; None where it is none of the forms. The byte behind the bracket tells which form it can be.
    fn read(text: &mut Text) -> Option<Line> {
        Some(match text.peek(1)? {
            b'r' => {
                let [task, processor, start] = three(text, b"(run ")?;
                Line::Run {
                    task,
                    processor,
                    start,
                }
            }
            b'm' => {
                let [maker, reader, start] = three(text, b"(move ")?;
                Line::Move {
                    maker,
                    reader,
                    start,
                }
            }
            _ => Line::Claim(three(text, b"(claim ")?),
        })
    }

    /// Whether each number is in its range on a board of so many processors.
    fn is_in_range(&self, processors: u64) -> bool {
        match *self {
            Line::Run {
                task,
                processor,
                start,
            } => is_task(task) && (1..=processors).contains(&processor) && start <= MAX_TICK,
            Line::Move {
                maker,
                reader,
                start,
            } => is_task(maker) && is_task(reader) && start <= MAX_TICK,
            Line::Claim(numbers) => numbers.iter().all(|n| *n <= MAX_TICK),
        }
    }
}

/// The lines of a timetable, on a board of so many processors.
struct Lines<'a> {
    text: Text<'a>,
    processors: u64,
    /// the lines read
    place: u64,
}

impl Lines<'_> {
    /// The next line, if it is readable.
    fn next(&mut self) -> Result<Line, Refusal> {
        self.place += 1;
        let line = Line::read(&mut self.text).ok_or((12, self.place))?;
        if line.is_in_range(self.processors) {
            Ok(line)
        } else {
            Err((13, self.place))
        }
    }

    /// The refusal of the line read last, where it is not the one due.
    fn not_due(&self) -> Refusal {
        (14, self.place)
    }

    /// The run of a task, counted from 0.
    fn run(&mut self, sheet: &Sheet, i: usize) -> Result<Run, Refusal> {
        match self.next()? {
            Line::Run {
                task,
                processor,
                start,
            } if task as usize == i + 1 => {
                let memory = sheet.memory(processor);
                let time = sheet.tasks[i].times[memory];
                Ok(Run {
                    processor,
                    memory,
                    start,
                    finish: start + time,
                    release: start + time.max(1),
                })
            }
            _ => Err(self.not_due()),
        }
    }

    /// The start of a file's move.
    fn move_of(&mut self, file: &File) -> Result<u64, Refusal> {
        let due = (file.maker + 1, file.reader + 1);
        match self.next()? {
            Line::Move {
                maker,
                reader,
                start,
            } if (maker as usize, reader as usize) == due => Ok(start),
            _ => Err(self.not_due()),
        }
    }

    fn claim(&mut self) -> Result<[u64; 3], Refusal> {
        match self.next()? {
            Line::Claim(numbers) => Ok(numbers),
            _ => Err(self.not_due()),
        }
    }

    /// Nothing is due behind the claim.
    fn end(&mut self) -> Result<(), Refusal> {
        if self.text.is_read() {
            return Ok(());
        }
        self.next()?;
        Err(self.not_due())
    }
}

impl Paper {
    /// Reads a timetable, or refuses it by 11 to 14.
    pub fn read(sheet: &Sheet, bytes: &[u8]) -> Result<Paper, Refusal> {
        if bytes.len() > MAX_TEXT {
            return Err((11, 0));
        }
        let mut lines = Lines {
            text: Text::new(bytes),
            processors: sheet.processors[0] + sheet.processors[1],
            place: 0,
        };
        let mut runs = Vec::with_capacity(sheet.tasks.len());
        for i in 0..sheet.tasks.len() {
            runs.push(lines.run(sheet, i)?);
        }
        let mut moves = Vec::with_capacity(sheet.files.len());
        for file in &sheet.files {
            let moved = runs[file.maker].memory != runs[file.reader].memory;
            moves.push(if moved { lines.move_of(file)? } else { 0 });
        }
        let claim = lines.claim()?;
        lines.end()?;
        Ok(Paper { runs, moves, claim })
    }
}
