//! Timetables of converted sheets, made from one that is accepted: put off, with an added task elsewhere, or with a fault.

use crate::generate::{self, put_off, Random};
use crate::reference::{finish, moves, span, write_table, Sheet, Table, CURRENT};

/// A timetable a few ticks later, or so late that its span is the last tick that can be written.
pub fn later(r: &mut Random, sheet: &Sheet, table: &Table) -> Table {
    let most = CURRENT.tick - span(sheet, table);
    let by = if r.one_in(4) { most } else { r.between(1, 9) };
    put_off(table.clone(), by)
}

/// Whether a relay at a tick would be strictly inside a run on its processor.
fn inside(sheet: &Sheet, table: &Table, processor: i64, tick: i64) -> bool {
    let mut runs = table.runs.iter().map(|run| run.unwrap()).enumerate();
    runs.any(|(i, (p, s))| p == processor && s < tick && tick < finish(sheet, table, i))
}

/// The ticks up to one of them at which a relay can stand on a processor: the last one, the first, and where other runs start or finish.
fn relay_ticks(sheet: &Sheet, table: &Table, processor: i64, until: i64) -> Vec<i64> {
    let mut ticks = vec![0, until];
    for (i, run) in table.runs.iter().enumerate() {
        let (p, s) = run.unwrap();
        if p == processor {
            ticks.extend([s, finish(sheet, table, i)]);
        }
    }
    ticks.retain(|t| *t <= until && !inside(sheet, table, processor, *t));
    ticks.sort();
    ticks
}

/// A timetable with one of the so many added tasks on another processor and at another tick: in the memory of the task that it serves, or
/// in the other one, with a move of its file. As it was if there is no tick for it.
pub fn elsewhere(r: &mut Random, sheet: &Sheet, added: usize, table: &Table, away: bool) -> Table {
    let mut t = table.clone();
    let k = r.below(added);
    let (p, start) = t.runs[sheet.files[k].reader].unwrap();
    let until = match away {
        true => start - sheet.files[k].time - r.between(0, 2),
        false => start,
    };
    let all = sheet.processors[0] + sheet.processors[1];
    let other = |q: &i64| (sheet.colour(*q) != sheet.colour(p)) == away;
    let processors: Vec<i64> = (1..=all).filter(other).collect();
    let processor = processors[r.below(processors.len())];
    let ticks = relay_ticks(sheet, table, processor, until);
    if until < 0 || ticks.is_empty() {
        return t;
    }
    let at = if r.one_in(2) {
        ticks.len() - 1
    } else {
        r.below(ticks.len())
    };
    t.runs[k] = Some((processor, ticks[at]));
    t.moves[k] = until;
    t
}

/// A timetable with an added task strictly inside another run, on any processor; as it was if no run is so long.
fn put_inside(r: &mut Random, sheet: &Sheet, added: usize, table: &Table) -> Table {
    let mut t = table.clone();
    let runs = (0..t.runs.len()).map(|i| (table.runs[i].unwrap(), finish(sheet, table, i)));
    let long: Vec<_> = runs.filter(|((_, s), end)| s + 1 < *end).collect();
    if !long.is_empty() {
        let ((p, s), end) = long[r.below(long.len())];
        t.runs[r.below(added)] = Some((p, r.between(s + 1, end - 1)));
    }
    due_moves(sheet, table, &mut t);
    t
}

/// Gives the files that move now, and did not, a move at their maker's finish.
fn due_moves(sheet: &Sheet, before: &Table, now: &mut Table) {
    for (k, f) in sheet.files.iter().enumerate() {
        if moves(sheet, now, f) && !moves(sheet, before, f) {
            now.moves[k] = finish(sheet, now, f.maker);
        }
    }
}

/// A timetable with a move that starts one tick before its file is made, or ends one tick after its reader starts; mostly of an added file.
/// As it was if no file moves.
fn ill_timed(r: &mut Random, sheet: &Sheet, added: usize, table: &Table) -> Table {
    let mut t = table.clone();
    let moved = |k: &usize| moves(sheet, table, &sheet.files[*k]);
    let mut files: Vec<usize> = (0..added).filter(moved).collect();
    if files.is_empty() || r.one_in(3) {
        files = (0..sheet.files.len()).filter(moved).collect();
    }
    if !files.is_empty() {
        let k = files[r.below(files.len())];
        let f = &sheet.files[k];
        let made = finish(sheet, table, f.maker);
        let late = table.runs[f.reader].unwrap().1 - f.time + 1;
        t.moves[k] = if made > 0 && r.one_in(2) {
            made - 1
        } else {
            late
        };
    }
    t
}

/// The text of a timetable with some fault.
pub fn faulty(r: &mut Random, sheet: &Sheet, added: usize, table: &Table) -> Vec<u8> {
    let text = write_table(sheet, table);
    let other = match r.below(16) {
        0..=4 => return generate::damaged(r, text.as_bytes()),
        5 if r.one_in(4) => return generate::long(r, text.as_bytes()),
        5 | 6 => return generate::untrue(r, &text).into_bytes(),
        7 | 8 => put_inside(r, sheet, added, table),
        9 | 10 => ill_timed(r, sheet, added, table),
        11 | 12 => return generate::shifted(r, sheet, table).into_bytes(),
        _ => generate::moved_about(r, sheet, table),
    };
    generate::write_paper(sheet, &other).into_bytes()
}

#[cfg(test)]
mod tests {
    use super::*;
    use crate::conversion::{added, convert};
    use crate::reference::{fault, peaks, read_sheet};

    /// A converted sheet with W on some tasks, the number of added tasks, and a timetable that keeps its limits.
    fn drawn(r: &mut Random) -> (Sheet, usize, Table) {
        let plain = generate::sheet(r, 7);
        let text = generate::with_work(r, &plain);
        let converted = convert(text.as_bytes()).unwrap();
        let mut sheet = read_sheet(&converted).unwrap();
        let table = generate::table(r, &sheet);
        sheet.limits = peaks(&sheet, &table);
        let added = added(&read_sheet(text.as_bytes()).unwrap());
        (sheet, added, table)
    }

    /// What is made of a timetable by putting it off, or an added task elsewhere, has no other fault than 17.
    #[test]
    fn sound() {
        let mut r = Random(11);
        let mut away = 0;
        for _ in 0..300 {
            let (sheet, added, table) = drawn(&mut r);
            assert_eq!(fault(&sheet, &later(&mut r, &sheet, &table)), None);
            for other in [true, false] {
                let put = elsewhere(&mut r, &sheet, added, &table, other);
                let number = fault(&sheet, &put).map_or(17, |refused| refused.0);
                assert_eq!(number, 17);
                away += u64::from(other && put.runs != table.runs);
            }
        }
        assert!(away > 100);
    }

    /// Each fault of a timetable is reached.
    #[test]
    fn faults() {
        let mut r = Random(12);
        let mut numbers = [0; 3];
        for _ in 0..300 {
            let (sheet, added, table) = drawn(&mut r);
            let put = put_inside(&mut r, &sheet, added, &table);
            let timed = ill_timed(&mut r, &sheet, added, &table);
            let faults = [fault(&sheet, &put), fault(&sheet, &timed)];
            for (number, _) in faults.into_iter().flatten() {
                numbers[number as usize - 15] += 1;
            }
        }
        assert!(numbers[0] > 100 && numbers[1] > 100);
    }
}
