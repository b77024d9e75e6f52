//! The marker of rust/baseline, which sorts changes: the library is measured against it, so it must give the library's answers. How often
//! each number was reached.

use crate::reference::{self, CURRENT, MAX_FILES, MAX_TASKS, PRESENT};
use crate::widths::NUMBERS;
use crate::work_promises::{count_of, listed};
use crate::{edges, library, plans, work};
use baseline::marker::mark;
use std::collections::BTreeMap;

/// A sheet of the most tasks, and of so many files.
fn with_files(count: usize) -> Vec<u8> {
    let mut text = String::from("(board (blue 1 0) (red 1 0))\n");
    for i in 1..=MAX_TASKS {
        text += &format!("(task {i} 1 1)\n");
    }
    let pairs = (1..=MAX_TASKS).flat_map(|i| (i + 1..=MAX_TASKS).map(move |j| (i, j)));
    for (i, j) in pairs.take(count) {
        text += &format!("(file {i} {j} 0 1)\n");
    }
    text.into_bytes()
}

/// The most files are read, and then the timetable's first line is absent; one more is not allowed in its line.
fn file_counts() -> [(usize, [u64; 5]); 2] {
    let line = 1 + MAX_TASKS as u64 + MAX_FILES as u64 + 1;
    [
        (MAX_FILES, [12, 1, 0, 0, 0]),
        (MAX_FILES + 1, [4, line, 0, 0, 0]),
    ]
}

/// A text with each of its bytes in turn replaced by each byte.
fn each_byte(text: &[u8]) -> impl Iterator<Item = Vec<u8>> + '_ {
    (0..text.len()).flat_map(move |at| {
        (0..=u8::MAX).map(move |byte| {
            let mut other = text.to_vec();
            other[at] = byte;
            other
        })
    })
}

/// How often each number was reached, how many texts with another byte were marked alike, and how many known answers were given.
#[derive(Default)]
pub struct Counts {
    numbers: BTreeMap<u64, u64>,
    bytes: u64,
    known: u64,
}

impl Counts {
    /// Two texts and the library's answer to them; an error where this marker's is another.
    pub fn marked(&mut self, sheet: &[u8], paper: &[u8], want: [u64; 5]) -> Result<(), String> {
        let got = mark(sheet, paper);
        if got != want {
            return Err(format!(
                "the marker that sorts changes answers {got:?}, wanted {want:?}"
            ));
        }
        *self.numbers.entry(got[0]).or_default() += 1;
        Ok(())
    }

    /// Two texts with each byte of either replaced, for which the library and reference.rs must give the same answers too.
    pub fn each_byte(&mut self, sheet: &[u8], paper: &[u8]) -> Result<(), String> {
        let sheets = each_byte(sheet).map(|other| (other, paper.to_vec()));
        let papers = each_byte(paper).map(|other| (sheet.to_vec(), other));
        for (sheet, paper) in sheets.chain(papers) {
            let got = [mark, library::mark, reference::mark].map(|mark| mark(&sheet, &paper));
            if got != [got[0]; 3] {
                let [sheet, paper] = [&sheet, &paper].map(|text| String::from_utf8_lossy(text));
                return Err(format!(
                    "a byte replaced: {got:?}\nsheet:\n{sheet}\npaper:\n{paper}"
                ));
            }
            self.bytes += 1;
        }
        Ok(())
    }

    /// Holds it against the known marks, and against those of the known plans.
    pub fn by_hand(&mut self) -> Result<(), String> {
        for texts in edges::known() {
            texts.hold(CURRENT, mark)?;
            self.known += 1;
        }
        for texts in work::marks() {
            texts.hold(PRESENT, mark)?;
            self.known += 1;
        }
        for sheet in plans::plans().into_iter().chain(work::plans()) {
            sheet.hold(library::plan, mark)?;
            self.known += 1;
        }
        for (count, due) in file_counts() {
            let sheet = with_files(count);
            let got = [mark, library::mark, reference::mark].map(|mark| mark(&sheet, b""));
            if got != [due; 3] {
                return Err(format!("{count} files: {got:?}, wanted {due:?}"));
            }
            self.known += 1;
        }
        Ok(())
    }

    pub fn print(&self) {
        println!(
            "the marker that sorts changes: {} marks, no difference, {}; {} texts with a byte replaced, {} known texts",
            self.numbers.values().sum::<u64>(),
            listed(&self.numbers),
            self.bytes,
            self.known
        );
    }

    /// What was never reached: a line each.
    pub fn faults(&self) -> Vec<String> {
        let never = NUMBERS.iter().filter(|n| count_of(&self.numbers, **n) == 0);
        let mut all: Vec<String> = never
            .map(|n| format!("the marker that sorts changes: the answer {n} was never reached"))
            .collect();
        if self.bytes == 0 || self.known == 0 {
            all.push("the marker that sorts changes: no texts replaced or known".to_string());
        }
        all
    }
}
