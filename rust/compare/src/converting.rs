//! The library's converter held against conversion.rs: sheets converted, and timetables of the converted sheets stripped, the planners' own,
//! others, and damaged ones. What Order 7 promises is looked at in the library's answers: a reader without W accepts the converted sheet, a
//! sheet without W comes out as it was, and what is left of an accepted timetable is accepted for the sheet. How often each answer was reached.

use crate::conversion::{added, convert, left, strip};
use crate::conversion_edges::{conversions, strippings, Outcome, SIZES};
use crate::conversion_papers::{elsewhere, faulty, later};
use crate::generate::{self, write_sheet, Random};
use crate::library::{self, pattern};
use crate::reference::{
    mark, moves, peaks, read_sheet, read_sheet_by, read_table, write_table, Memory, Planner, Sheet,
    Table, MAX_FILES, MAX_TASKS, MAX_TEXT, PLANNERS, WITHOUT_WORK,
};
use crate::work_promises::{count_of, in_words, listed, Rows};
use frames::{convert_into, strip_into, Written};
use std::collections::BTreeMap;
use Memory::{Aware, Plain};

/// How often each number was answered.
type Numbers = BTreeMap<u64, u64>;

/// The numbers that the converter answers, that stripping does, and those that it must reach on sheets with W.
const CONVERTED: [u64; 8] = [0, 1, 2, 3, 4, 31, 41, 42];
const STRIPPED: [u64; 16] = [0, 1, 2, 3, 4, 11, 12, 13, 14, 15, 16, 17, 18, 31, 41, 42];
const WITH_WORK: [u64; 10] = [0, 11, 12, 13, 14, 15, 16, 17, 18, 31];

/// One in so many marked papers is also stripped.
const MARKED: usize = 8;

/// What is due with a buffer of a length: the text and the pattern behind it, or a refusal and the pattern.
fn due(want: &Outcome, room: usize) -> (Written, Vec<u8>) {
    let mut buffer = pattern(room);
    let (number, place) = match want {
        Ok(text) if text.len() <= room => {
            buffer[..text.len()].copy_from_slice(text);
            (0, text.len() as u64)
        }
        Ok(text) => (31, text.len() as u64),
        Err(refused) => *refused,
    };
    (Written { number, place }, buffer)
}

/// The lengths of the buffers: that of the text, one byte less, more, and none; after a refusal any, and none.
fn rooms(r: &mut Random, want: &Outcome) -> Vec<usize> {
    match want {
        Ok(text) => vec![text.len(), text.len() - 1, text.len() + 1 + r.below(40), 0],
        Err(_) => vec![r.below(300), 0],
    }
}

/// A call with a buffer of a length; its number. An error where the answer or a byte of the buffer is not the one due.
fn call(
    name: &str,
    want: &Outcome,
    room: usize,
    write: impl FnOnce(&mut [u8]) -> Written,
) -> Result<u64, String> {
    let mut buffer = pattern(room);
    let got = write(&mut buffer);
    let (answer, bytes) = due(want, room);
    if (got, &buffer) == (answer, &bytes) {
        return Ok(got.number);
    }
    let shown = |buffer: &[u8]| String::from_utf8_lossy(&buffer[..room.min(2000)]).into_owned();
    Err(format!(
        "{name} differs with {room} bytes: {got:?}, wanted {answer:?}\nbuffer:\n{}\nwanted:\n{}",
        shown(&buffer),
        shown(&bytes)
    ))
}

/// A sheet that is converted, and the converted one.
struct Case {
    text: Vec<u8>,
    sheet: Sheet,
    converted: Vec<u8>,
    job: Sheet,
    added: usize,
}

impl Case {
    /// None of a sheet that is refused.
    fn new(text: &[u8]) -> Option<Case> {
        let converted = convert(text).ok()?;
        let sheet = read_sheet(text).expect("a sound sheet");
        Some(Case {
            text: text.to_vec(),
            job: read_sheet(&converted).expect("a sound sheet"),
            added: added(&sheet),
            sheet,
            converted,
        })
    }

    /// The same with other limits.
    fn limited(&self, limits: [i64; 2]) -> Case {
        let mut sheet = self.sheet.clone();
        sheet.limits = limits;
        Case::new(write_sheet(&sheet).as_bytes()).expect("a sound sheet")
    }

    /// The peaks of what is left of a timetable of the converted sheet.
    fn peaks_left(&self, table: &Table) -> [i64; 2] {
        let rest = Table {
            runs: table.runs[self.added..].to_vec(),
            moves: table.moves[self.added..].to_vec(),
        };
        peaks(&self.sheet, &rest)
    }
}

/// The sheets that were converted.
#[derive(Default)]
struct Sheets {
    same: u64,
    with_work: u64,
    every: u64,
    relay: u64,
    most_tasks: u64,
    most_files: u64,
}

impl Sheets {
    /// An error where a reader without W does not accept the converted sheet, it does not have the tasks and files that are due, or a sheet
    /// without W is another one now.
    fn add(&mut self, case: &Case) -> Result<(), String> {
        let (n, m) = (case.sheet.tasks.len(), case.added);
        let (tasks, files) = (case.job.tasks.len(), case.job.files.len());
        let read = read_sheet_by(WITHOUT_WORK, &case.converted).is_ok();
        let counted = (tasks, files) == (n + m, case.sheet.files.len() + m);
        if !read || !counted || (m == 0) != (case.text == case.converted) {
            let shown = String::from_utf8_lossy(&case.converted);
            return Err(format!("converted, with {m} tasks that have W:\n{shown}"));
        }
        let mut works = case.sheet.tasks.iter().filter(|t| t.work > 0);
        self.same += u64::from(m == 0);
        self.with_work += u64::from(m > 0);
        self.every += u64::from(m == n);
        self.relay += u64::from(works.any(|t| t.times.contains(&0)));
        self.most_tasks += u64::from(m > 0 && tasks as i64 == MAX_TASKS);
        self.most_files += u64::from(m > 0 && files == MAX_FILES);
        Ok(())
    }

    fn rows(&self) -> Rows<6> {
        [
            ("without W, byte for byte", self.same),
            ("with W", self.with_work),
            ("W on every task", self.every),
            ("W on a relay", self.relay),
            ("64 tasks then", self.most_tasks),
            ("256 files then", self.most_files),
        ]
    }
}

/// Plans of converted sheets.
#[derive(Default)]
struct Plans {
    /// memory-aware and plain ones that were accepted and stripped
    accepted: [u64; 2],
    over: u64,
    stuck: u64,
}

impl Plans {
    fn rows(&self) -> Rows<4> {
        let [aware, plain] = self.accepted;
        [
            ("memory-aware ones stripped", aware),
            ("stuck", self.stuck),
            ("plain ones stripped", plain),
            ("refused by 17", self.over),
        ]
    }
}

/// Timetables that were stripped, of sheets with W.
#[derive(Default)]
struct Left {
    same_claim: u64,
    lower: u64,
    /// with a move of an added file left out, and with an added task before the start of the task that it serves
    moved: u64,
    before: u64,
}

impl Left {
    /// A timetable accepted on the converted sheet, with its mark and that of what is left: the span is the same, and no peak is higher.
    fn add(
        &mut self,
        case: &Case,
        paper: &[u8],
        before: [u64; 5],
        now: [u64; 5],
    ) -> Result<(), String> {
        let [_, _, span, blue, red] = before;
        if now[0] != 0 || now[2] != span || now[3] > blue || now[4] > red {
            return Err(format!("marked {before:?}, and stripped {now:?}"));
        }
        if case.added == 0 {
            return Ok(());
        }
        self.same_claim += u64::from(before == now);
        self.lower += u64::from(before != now);
        let (table, _) = read_table(&case.job, paper).expect("a sound timetable");
        let starts = |i: usize| table.runs[i].unwrap().1;
        let files = || case.job.files[..case.added].iter();
        self.moved += u64::from(files().any(|f| moves(&case.job, &table, f)));
        let sooner = files().any(|f| starts(f.maker) < starts(f.reader));
        self.before += u64::from(sooner);
        Ok(())
    }

    fn rows(&self) -> Rows<4> {
        [
            ("with the claim as it was", self.same_claim),
            ("with a lower peak", self.lower),
            ("without the move of an added file", self.moved),
            ("with an added task sooner than the one served", self.before),
        ]
    }
}

/// Timetables of other makings than the planners' that were accepted and stripped.
const MAKINGS: [&str; 4] = [
    "by chance",
    "a plan put off",
    "an added task in the other memory",
    "in the same memory, sooner or on another processor",
];

/// How often each kind was reached.
#[derive(Default)]
pub struct Counts {
    draws: Random,
    convert: Numbers,
    strip: Numbers,
    /// on sheets with W
    with_work: Numbers,
    sheets: Sheets,
    plans: Plans,
    left: Left,
    makings: [u64; MAKINGS.len()],
    /// timetables refused by 15 to 18, where what is left would be accepted
    alone: [u64; 4],
    /// known conversions, timetables, and sheets on both sides of 64 tasks and 256 files
    known: [u64; 3],
}

impl Counts {
    /// A sheet with buffers of several lengths.
    fn convert(&mut self, sheet: &[u8], want: &Outcome) -> Result<(), String> {
        for room in rooms(&mut self.draws, want) {
            let number = call("convert", want, room, |out| convert_into(sheet, out))?;
            *self.convert.entry(number).or_default() += 1;
        }
        Ok(())
    }

    /// A timetable with buffers of several lengths: all, or that of the text and another.
    fn strip(
        &mut self,
        sheet: &[u8],
        paper: &[u8],
        want: &Outcome,
        all: bool,
    ) -> Result<Numbers, String> {
        let mut rooms = rooms(&mut self.draws, want);
        if !all {
            let other = 1 + self.draws.below(rooms.len() - 1);
            rooms = vec![rooms[0], rooms[other]];
        }
        let mut numbers = Numbers::new();
        for room in rooms {
            let number = call("strip", want, room, |out| strip_into(sheet, paper, out))?;
            *numbers.entry(number).or_default() += 1;
            *self.strip.entry(number).or_default() += 1;
        }
        Ok(numbers)
    }

    /// A timetable of a converted sheet; the number that refuses it. An error has the texts.
    fn paper(&mut self, case: &Case, paper: &[u8], all: bool) -> Result<u64, String> {
        self.stripped(case, paper, all).map_err(|difference| {
            let [sheet, paper] = [&case.text, paper].map(String::from_utf8_lossy);
            format!("{difference}\nstripped for the sheet:\n{sheet}\ntimetable:\n{paper}\n")
        })
    }

    /// The same. Refused by the marker on that sheet, it is refused so; else the marker accepts what is left of it, with the claim of
    /// conversion.rs.
    fn stripped(&mut self, case: &Case, paper: &[u8], all: bool) -> Result<u64, String> {
        let want = strip(&case.text, paper);
        let numbers = self.strip(&case.text, paper, &want, all)?;
        if case.added > 0 {
            for (number, n) in numbers {
                *self.with_work.entry(number).or_default() += n;
            }
        }
        let marked = library::mark(&case.converted, paper);
        match &want {
            Ok(rest) => {
                let now = library::mark(&case.text, rest);
                if now != claimed(rest) {
                    return Err(format!("what is left is marked {now:?}"));
                }
                self.left.add(case, paper, marked, now)?;
            }
            Err(refused) if *refused != (marked[0], marked[1]) => {
                return Err(format!("refused by {refused:?}, marked {marked:?}"));
            }
            Err((number @ 15..=18, _)) if case.added > 0 => {
                let rest = left(&case.sheet, paper);
                let accepted = mark(&case.text, &rest)[0] == 0;
                self.alone[*number as usize - 15] += u64::from(accepted);
            }
            Err(_) => {}
        }
        Ok(marked[0])
    }

    /// The planners on a converted sheet; one of the timetables that are accepted.
    fn planned(&mut self, case: &Case) -> Result<Option<Table>, String> {
        let mut accepted = None;
        for planner in PLANNERS {
            let plan = library::plan(planner, &case.converted, MAX_TEXT);
            let number = match plan.answer.number {
                0 => self.paper(case, plan.text(), true)?,
                refused => refused,
            };
            self.count_plan(planner, number)?;
            if number == 0 && (accepted.is_none() || self.draws.one_in(2)) {
                accepted = Some(read_table(&case.job, plan.text()).expect("accepted").0);
            }
        }
        Ok(accepted)
    }

    /// A planner that is memory-aware is stuck or accepted; a plain one is accepted or refused by 17.
    fn count_plan(&mut self, planner: Planner, number: u64) -> Result<(), String> {
        match (planner.memory, number) {
            (memory, 0) => self.plans.accepted[memory as usize] += 1,
            (Aware, 21) => self.plans.stuck += 1,
            (Plain, 17) => self.plans.over += 1,
            other => return Err(format!("a converted sheet is planned: {other:?}")),
        }
        Ok(())
    }

    /// A timetable of one of the `MAKINGS`.
    fn made(&mut self, case: &Case, table: &Table, making: usize) -> Result<(), String> {
        let paper = write_table(&case.job, table);
        let number = self.paper(case, paper.as_bytes(), false)?;
        self.makings[making] += u64::from(number == 0);
        Ok(())
    }

    /// A timetable by chance: with the limits that it needs, with those that what is left of it needs, and with one block less. The sheet
    /// with the first, and the timetable.
    fn by_chance(&mut self, case: &Case) -> Result<(Case, Table), String> {
        let table = generate::table(&mut self.draws, &case.job);
        let needed = peaks(&case.job, &table);
        let fitted = case.limited(needed);
        self.made(&fitted, &table, 0)?;
        let mut less = case.peaks_left(&table);
        if self.draws.one_in(3) {
            let colour = self.draws.below(2);
            less[colour] = (less[colour] - 1).max(0);
        }
        self.made(&case.limited(less), &table, 0)?;
        Ok((fitted, table))
    }

    /// Timetables made from an accepted one.
    fn others(&mut self, case: &Case, table: &Table) -> Result<(), String> {
        let put_off = later(&mut self.draws, &case.job, table);
        self.made(case, &put_off, 1)?;
        for (making, away) in [(2, true), (3, false)] {
            let put = elsewhere(&mut self.draws, &case.job, case.added, table, away);
            if put.runs != table.runs {
                self.made(case, &put, making)?;
            }
        }
        for _ in 0..3 {
            let paper = faulty(&mut self.draws, &case.job, case.added, table);
            self.paper(case, &paper, false)?;
        }
        Ok(())
    }

    /// Any sheet; an error at the first difference, or where a promise is not kept.
    pub fn sheet(&mut self, text: &[u8]) -> Result<(), String> {
        self.convert(text, &convert(text))?;
        let Some(case) = Case::new(text) else {
            return Ok(());
        };
        self.sheets.add(&case)?;
        if case.added == 0 {
            return Ok(());
        }
        self.convert(&case.converted, &Ok(case.converted.clone()))?;
        let planned = self.planned(&case)?;
        let (fitted, table) = self.by_chance(&case)?;
        match planned {
            Some(planned) if self.draws.below(4) > 0 => self.others(&case, &planned),
            _ => self.others(&fitted, &table),
        }
    }

    /// Two texts and the marker's answer to them, some of which are stripped too. Without W it is the marker's refusal, or the same text.
    pub fn marked(&mut self, sheet: &[u8], paper: &[u8], mark: [u64; 5]) -> Result<(), String> {
        if !self.draws.one_in(MARKED) {
            return Ok(());
        }
        let want = strip(sheet, paper);
        self.strip(sheet, paper, &want, false)?;
        let without = match mark {
            [0, ..] => Ok(paper.to_vec()),
            [number, place, ..] => Err((number, place)),
        };
        let bare = Case::new(sheet).is_none_or(|case| case.added == 0);
        let too_many = matches!(want, Err((41 | 42, _)));
        if bare && !too_many && want != without {
            return Err(format!("marked {mark:?} and stripped {want:?}"));
        }
        Ok(())
    }

    /// Holds the library and conversion.rs against the known answers; and the sheets on both sides of 64 tasks and of 256 files, with what
    /// is promised of them.
    pub fn by_hand(&mut self) -> Result<(), String> {
        for known in conversions() {
            let name = &known.name;
            as_known(name, &convert(&known.sheet), &known.due)?;
            self.convert(&known.sheet, &known.due)?;
            self.known[0] += 1;
        }
        for known in strippings() {
            let name = &known.name;
            as_known(name, &strip(&known.sheet, &known.paper), &known.due)?;
            self.strip(&known.sheet, &known.paper, &known.due, true)?;
            self.known[1] += 1;
        }
        for size in SIZES {
            let (first, last) = (size.sheet(true), size.sheet(false));
            for sheet in [first, last] {
                let refused = convert(&sheet).err();
                if refused != size.refusal.map(|number| (number, 0)) {
                    return Err(format!("{}: {refused:?}", size.name()));
                }
                self.sheet(&sheet)?;
                self.known[2] += 1;
            }
        }
        Ok(())
    }

    pub fn print(&self) {
        println!(
            "converter: {}; sheets converted: {}",
            listed(&self.convert),
            in_words(self.sheets.rows())
        );
        println!(
            "stripped: {}; of these on sheets with W: {}",
            listed(&self.strip),
            listed(&self.with_work)
        );
        println!(
            "timetables of converted sheets stripped: {}; plans: {}; others: {}; refused where what is left is accepted: {}",
            in_words(self.left.rows()),
            in_words(self.plans.rows()),
            in_words(self.making_rows()),
            in_words(self.alone_rows())
        );
        let [conversions, timetables, sizes] = self.known;
        println!("known answers of the converter: {conversions} sheets, {timetables} timetables, {sizes} sheets of many tasks or files");
    }

    fn making_rows(&self) -> Rows<4> {
        let mut at = 0;
        MAKINGS.map(|name| {
            at += 1;
            (name, self.makings[at - 1])
        })
    }

    fn alone_rows(&self) -> Rows<4> {
        let [overlap, early, over, untrue] = self.alone;
        [
            ("by 15", overlap),
            ("by 16", early),
            ("by 17", over),
            ("by 18", untrue),
        ]
    }

    /// What was never reached: a line each.
    pub fn faults(&self) -> Vec<String> {
        let due = [
            ("the converter's", &self.convert, &CONVERTED[..]),
            ("stripped, the answer", &self.strip, &STRIPPED),
            ("with W, stripped, the answer", &self.with_work, &WITH_WORK),
        ];
        let mut all = vec![];
        for (name, counts, numbers) in due {
            let never = numbers.iter().filter(|n| count_of(counts, **n) == 0);
            all.extend(never.map(|n| format!("converter, {name} {n}: none")));
        }
        let [conversions, timetables, sizes] = self.known;
        let known = [
            ("sheets", conversions),
            ("timetables", timetables),
            ("sheets of many tasks or files", sizes),
        ];
        let groups = [
            ("sheets", &self.sheets.rows()[..]),
            ("timetables stripped", &self.left.rows()),
            ("plans", &self.plans.rows()),
            ("others", &self.making_rows()),
            ("refused for what is added alone", &self.alone_rows()),
            ("known", &known),
        ];
        for (group, rows) in groups {
            let never = rows.iter().filter(|r| r.1 == 0);
            all.extend(never.map(|r| format!("converter, {group}, {}: none", r.0)));
        }
        all
    }
}

/// The marker's answer that a timetable's claim says.
fn claimed(text: &[u8]) -> [u64; 5] {
    let at = text.iter().rposition(|b| *b == b'(').unwrap_or(0);
    let claim = String::from_utf8_lossy(&text[at..]);
    let words = claim.split(|c: char| !c.is_ascii_digit());
    let numbers: Vec<u64> = words.filter_map(|w| w.parse().ok()).collect();
    match numbers[..] {
        [span, blue, red] => [0, 0, span, blue, red],
        _ => panic!("a claim has three numbers: {claim}"),
    }
}

/// An error where the outcome of conversion.rs is another than the known one.
fn as_known(name: &str, got: &Outcome, due: &Outcome) -> Result<(), String> {
    if got == due {
        return Ok(());
    }
    let shown = |outcome: &Outcome| match outcome {
        Ok(text) => String::from_utf8_lossy(text).into_owned(),
        Err(refused) => format!("{refused:?}"),
    };
    Err(format!(
        "'{name}' gives\n{}\nwanted\n{}",
        shown(got),
        shown(due)
    ))
}

#[cfg(test)]
mod tests {
    use super::*;

    /// conversion.rs gives the known answers.
    #[test]
    fn known_answers() {
        for known in conversions() {
            as_known(&known.name, &convert(&known.sheet), &known.due).unwrap();
        }
        for known in strippings() {
            let got = strip(&known.sheet, &known.paper);
            as_known(&known.name, &got, &known.due).unwrap();
        }
    }

    /// The sizes are on both sides of the limits, as they say.
    #[test]
    fn known_sizes() {
        for size in SIZES {
            let (tasks, files) = size.converted();
            let number = match (tasks > 64, files > 256) {
                (true, _) => Some(41),
                (false, true) => Some(42),
                _ => None,
            };
            assert_eq!(size.refusal, number, "{}", size.name());
            for first in [true, false] {
                let got = convert(&size.sheet(first)).map(|text| read_sheet(&text).unwrap());
                match got {
                    Ok(sheet) => assert_eq!((sheet.tasks.len(), sheet.files.len()), (tasks, files)),
                    Err(refused) => assert_eq!(Some(refused.0), number),
                }
            }
        }
    }

    #[test]
    fn due_with_buffers() {
        let written = |number, place| Written { number, place };
        let text: Outcome = Ok(b"ab".to_vec());
        let [first, second, third] = [pattern(3)[0], pattern(3)[1], pattern(3)[2]];
        assert_eq!(due(&text, 3), (written(0, 2), vec![b'a', b'b', third]));
        assert_eq!(due(&text, 2), (written(0, 2), b"ab".to_vec()));
        assert_eq!(due(&text, 1), (written(31, 2), vec![first]));
        assert_eq!(due(&text, 0), (written(31, 2), vec![]));
        let refused = (written(41, 0), vec![first, second]);
        assert_eq!(due(&Err((41, 0)), 2), refused);
    }

    /// A call that writes too much, or answers otherwise, is noticed.
    #[test]
    fn differences() {
        let want: Outcome = Ok(b"ab".to_vec());
        let write = |text: &'static [u8], number, place| {
            call("a call", &want, 3, move |out: &mut [u8]| {
                out[..text.len()].copy_from_slice(text);
                Written { number, place }
            })
        };
        assert_eq!(write(b"ab", 0, 2), Ok(0));
        assert!(write(b"abc", 0, 2).is_err());
        assert!(write(b"aB", 0, 2).is_err());
        assert!(write(b"a", 0, 2).is_err());
        assert!(write(b"ab", 0, 3).is_err());
        assert!(write(b"ab", 31, 2).is_err());
    }

    /// Where nothing was reached, each number and each row is a fault.
    #[test]
    fn nothing_reached() {
        let numbers = CONVERTED.len() + STRIPPED.len() + WITH_WORK.len();
        let rows = [6, 4, 4, 4, 4, 3].iter().sum::<usize>();
        assert_eq!(Counts::default().faults().len(), numbers + rows);
    }

    #[test]
    fn claims() {
        assert_eq!(claimed(b"(run 1 1 0)\n(claim 4 10 0)\n"), [0, 0, 4, 10, 0]);
    }
}
