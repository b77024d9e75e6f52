//! The board sheet, read in one pass.

use crate::text::{Refusal, Text, MAX_TEXT};

/// Tasks of a sheet, and the greatest task number.
pub const MAX_TASKS: usize = 64;

/// Files of a sheet.
pub const MAX_FILES: usize = 256;

/// Processors of one colour, at least 1.
const MAX_PROCESSORS: u64 = 8;

/// A memory limit.
pub const MAX_LIMIT: u64 = 999_999_999;

/// A run time, or a move time, which is at least 1.
const MAX_TIME: u64 = 1_000_000_000;

/// The size of a file, or a W, which is at least 1 where it is written.
const MAX_AMOUNT: u64 = 1_000_000;

pub struct Task {
    /// run times on blue and on red
    pub times: [u64; 2],
    /// W; 0 if it is left out
    pub work: u64,
}

pub struct File {
    /// maker and reader are counted from 0
    pub maker: usize,
    pub reader: usize,
    pub size: u64,
    pub move_time: u64,
}

/// Pairs are of blue and of red.
pub struct Sheet {
    pub processors: [u64; 2],
    pub limits: [u64; 2],
    pub tasks: Vec<Task>,
    pub files: Vec<File>,
}

/// A line of one of the three forms; tasks are counted from 1.
enum Line {
    Board {
        processors: [u64; 2],
        limits: [u64; 2],
    },
    Task {
        task: u64,
        times: [u64; 2],
        work: Option<u64>,
    },
    File {
        maker: u64,
        reader: u64,
        size: u64,
        move_time: u64,
    },
}

/// Whether a task number is in its range.
pub fn is_task(number: u64) -> bool {
    (1..=MAX_TASKS as u64).contains(&number)
}

impl Line {
    /// Reads a line with its LF; None where it is none of the forms. The byte behind the first bracket tells which form it can be.
    fn read(text: &mut Text) -> Option<Line> {
        match text.peek(1)? {
            b'f' => Line::file(text),
            b't' => Line::task(text),
            _ => Line::board(text),
        }
    }

    fn board(text: &mut Text) -> Option<Line> {
        let blue = text.number_behind(b"(board (blue ")?;
        let blue_limit = text.number_behind(b" ")?;
        let red = text.number_behind(b") (red ")?;
        let red_limit = text.number_behind(b" ")?;
        text.literal(b"))\n")?;
        Some(Line::Board {
            processors: [blue, red],
            limits: [blue_limit, red_limit],
        })
    }

    fn task(text: &mut Text) -> Option<Line> {
        let task = text.number_behind(b"(task ")?;
        let times = [text.number_behind(b" ")?, text.number_behind(b" ")?];
        let work = match text.peek(0)? {
            b' ' => Some(text.number_behind(b" ")?),
            _ => None,
        };
        text.literal(b")\n")?;
        Some(Line::Task { task, times, work })
    }

    fn file(text: &mut Text) -> Option<Line> {
        let maker = text.number_behind(b"(file ")?;
        let reader = text.number_behind(b" ")?;
        let size = text.number_behind(b" ")?;
        let move_time = text.number_behind(b" ")?;
        text.literal(b")\n")?;
        Some(Line::File {
            maker,
            reader,
            size,
            move_time,
        })
    }

    /// Whether each number is in its range.
    fn is_in_range(&self) -> bool {
        match *self {
            Line::Board { processors, limits } => {
                processors.iter().all(|p| (1..=MAX_PROCESSORS).contains(p))
                    && limits.iter().all(|m| *m <= MAX_LIMIT)
            }
            Line::Task { task, times, work } => {
                is_task(task)
                    && times.iter().all(|time| *time <= MAX_TIME)
                    && work.is_none_or(|w| (1..=MAX_AMOUNT).contains(&w))
            }
            Line::File {
                maker,
                reader,
                size,
                move_time,
            } => {
                is_task(maker)
                    && is_task(reader)
                    && size <= MAX_AMOUNT
                    && (1..=MAX_TIME).contains(&move_time)
            }
        }
    }
}

impl Sheet {
    /// Reads a sheet, or refuses it by 1 to 4.
    pub fn read(bytes: &[u8]) -> Result<Sheet, Refusal> {
        if bytes.len() > MAX_TEXT {
            return Err((1, 0));
        }
        let mut text = Text::new(bytes);
        let mut sheet = Sheet {
            processors: [0; 2],
            limits: [0; 2],
            tasks: Vec::with_capacity(MAX_TASKS),
            files: Vec::with_capacity(MAX_FILES),
        };
        let mut place = 0;
        while sheet.tasks.is_empty() || !text.is_read() {
            place += 1;
            let line = Line::read(&mut text).ok_or((2, place))?;
            if !line.is_in_range() {
                return Err((3, place));
            }
            if !sheet.add(line, place) {
                return Err((4, place));
            }
        }
        Ok(sheet)
    }

    /// Adds a line; false where it is not allowed at its place.
    fn add(&mut self, line: Line, place: u64) -> bool {
        match line {
            Line::Board { processors, limits } if place == 1 => {
                self.processors = processors;
                self.limits = limits;
                true
            }
            Line::Task { task, times, work } if place > 1 => {
                let due = self.files.is_empty() && task as usize == self.tasks.len() + 1;
                if due {
                    let work = work.unwrap_or(0);
                    self.tasks.push(Task { times, work });
                }
                due
            }
            Line::File {
                maker,
                reader,
                size,
                move_time,
            } => {
                let file = File {
                    maker: maker as usize - 1,
                    reader: reader as usize - 1,
                    size,
                    move_time,
                };
                let allowed = self.allows(file.maker, file.reader);
                if allowed {
                    self.files.push(file);
                }
                allowed
            }
            _ => false,
        }
    }

    /// Whether a file with this maker and this reader may be next.
    fn allows(&self, maker: usize, reader: usize) -> bool {
        let ascending = match self.files.last() {
            Some(last) => (last.maker, last.reader) < (maker, reader),
            None => true,
        };
        maker < reader && reader < self.tasks.len() && ascending && self.files.len() < MAX_FILES
    }

    /// The memory of a processor, counted from 1: 0 is blue and 1 is red.
    pub fn memory(&self, processor: u64) -> usize {
        usize::from(processor > self.processors[0])
    }
}
