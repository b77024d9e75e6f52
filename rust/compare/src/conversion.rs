//! Order 7 for tests, from document 02's words: board sheets converted for readers that lack working memory, and timetables of converted
//! sheets stripped for the sheets that those come from. Lines are taken apart and put together again as words and numbers; what they say is
//! looked at by reference.rs alone, for the refusals and for the claim.

use crate::reference::{
    mark, peaks, read_sheet, read_table, span, Refused, Sheet, Table, MAX_FILES, MAX_TASKS,
};

/// Run times of an added task, and the move time of its file.
const ADDED_TIMES: [i64; 2] = [0, 0];
const ADDED_MOVE: i64 = 1;

/// The numbers of the lines of an accepted text that begin with a word.
fn numbers_of(text: &str, word: &str) -> Vec<Vec<i64>> {
    let begins = |line: &&str| line.split(' ').next() == Some(word);
    let numbers = |line: &str| {
        let words = line.split(|c: char| !c.is_ascii_digit());
        words.filter_map(|w| w.parse().ok()).collect()
    };
    text.lines().filter(begins).map(numbers).collect()
}

/// A line of a word and some numbers.
fn line(word: &str, numbers: &[i64]) -> String {
    let numbers: Vec<String> = numbers.iter().map(i64::to_string).collect();
    format!("{word} {})\n", numbers.join(" "))
}

fn as_text(bytes: &[u8]) -> &str {
    std::str::from_utf8(bytes).expect("an accepted text is ASCII")
}

/// The number of tasks with W.
pub fn added(sheet: &Sheet) -> usize {
    sheet.tasks.iter().filter(|t| t.work > 0).count()
}

/// The converted sheet. 31 is left to the caller.
pub fn convert(sheet: &[u8]) -> Result<Vec<u8>, Refused> {
    read_sheet(sheet)?;
    let text = as_text(sheet);
    let (tasks, files) = (numbers_of(text, "(task"), numbers_of(text, "(file"));
    let served: Vec<(i64, i64)> = tasks
        .iter()
        .filter(|v| v.len() == 4)
        .map(|v| (v[0], v[3]))
        .collect();
    let m = served.len() as i64;
    if tasks.len() as i64 + m > MAX_TASKS {
        return Err((41, 0));
    }
    if files.len() + served.len() > MAX_FILES {
        return Err((42, 0));
    }
    let [blue, red] = ADDED_TIMES;
    let mut out = text.lines().next().expect("a board line").to_string() + "\n";
    out.extend((1..=m).map(|k| line("(task", &[k, blue, red])));
    out.extend(tasks.iter().map(|v| line("(task", &[v[0] + m, v[1], v[2]])));
    let added = (1..).zip(&served);
    out.extend(added.map(|(k, (i, work))| line("(file", &[k, m + i, *work, ADDED_MOVE])));
    out.extend(
        files
            .iter()
            .map(|v| line("(file", &[v[0] + m, v[1] + m, v[2], v[3]])),
    );
    Ok(out.into_bytes())
}

/// What is left of a readable timetable of the converted sheet: without the runs and moves of the added tasks, renumbered, and with its
/// claim worked out afresh.
pub fn left(sheet: &Sheet, paper: &[u8]) -> Vec<u8> {
    let (text, m) = (as_text(paper), added(sheet) as i64);
    let mut out = String::new();
    for v in numbers_of(text, "(run").iter().filter(|v| v[0] > m) {
        out += &line("(run", &[v[0] - m, v[1], v[2]]);
    }
    for v in numbers_of(text, "(move").iter().filter(|v| v[0] > m) {
        out += &line("(move", &[v[0] - m, v[1] - m, v[2]]);
    }
    let table = table_of(sheet, &out);
    let [blue, red] = peaks(sheet, &table);
    out += &line("(claim", &[span(sheet, &table), blue, red]);
    out.into_bytes()
}

/// The timetable of its runs and moves.
fn table_of(sheet: &Sheet, lines: &str) -> Table {
    let any_claim = format!("{lines}(claim 0 0 0)\n");
    let read = read_table(sheet, any_claim.as_bytes());
    read.unwrap_or_else(|refused| panic!("{refused:?} in what is left:\n{lines}"))
        .0
}

/// The timetable of the converted sheet, stripped. 31 is left to the caller.
pub fn strip(sheet: &[u8], paper: &[u8]) -> Result<Vec<u8>, Refused> {
    let converted = convert(sheet)?;
    match mark(&converted, paper) {
        [0, ..] => Ok(left(&read_sheet(sheet)?, paper)),
        [number, place, ..] => Err((number, place)),
    }
}

#[cfg(test)]
mod tests {
    use super::*;
    use crate::generate::{self, Random};
    use crate::reference::{read_sheet_by, write_table, File, Task, WITHOUT_WORK};

    /// The same conversion of what a sheet says.
    fn converted(sheet: &Sheet) -> Sheet {
        let m = added(sheet);
        let with_work = sheet.tasks.iter().enumerate().filter(|t| t.1.work > 0);
        let new_files = with_work.enumerate().map(|(k, (i, task))| File {
            maker: k,
            reader: m + i,
            size: task.work,
            time: 1,
        });
        let old_files = sheet.files.iter().map(|f| File {
            maker: m + f.maker,
            reader: m + f.reader,
            ..f.clone()
        });
        let task = |times| Task { times, work: 0 };
        let old_tasks = sheet.tasks.iter().map(|t| task(t.times));
        Sheet {
            tasks: vec![task([0, 0]); m].into_iter().chain(old_tasks).collect(),
            files: new_files.chain(old_files).collect(),
            ..sheet.clone()
        }
    }

    /// What is left of a timetable, by its runs and moves.
    fn left_of(sheet: &Sheet, table: &Table) -> String {
        let m = added(sheet);
        let rest = Table {
            runs: table.runs[m..].to_vec(),
            moves: table.moves[m..].to_vec(),
        };
        write_table(sheet, &rest)
    }

    fn drawn(r: &mut Random) -> (Vec<u8>, Sheet) {
        let mut text = generate::sheet(r, 9);
        if r.one_in(2) {
            text = generate::with_relays(r, &text);
        }
        if r.below(4) > 0 {
            text = generate::with_work(r, &text);
        }
        let sheet = read_sheet(text.as_bytes()).expect("a sound sheet");
        (text.into_bytes(), sheet)
    }

    /// By lines and by what the sheet says it is the same conversion, and a reader from before Order 6 accepts what comes out.
    #[test]
    fn by_lines_and_by_what_they_say() {
        let mut r = Random(7);
        for _ in 0..400 {
            let (text, sheet) = drawn(&mut r);
            let out = convert(&text).unwrap();
            let due = generate::write_sheet(&converted(&sheet));
            assert_eq!(as_text(&out), due);
            assert!(read_sheet_by(WITHOUT_WORK, &out).is_ok());
            assert_eq!(out == text, added(&sheet) == 0);
            assert_eq!(convert(&out), Ok(out));
        }
    }

    /// Timetables by chance that keep the limits are stripped, and the marker accepts what is left.
    #[test]
    fn accepted_when_stripped() {
        let mut r = Random(8);
        let mut lower = 0;
        for _ in 0..400 {
            let (_, mut sheet) = drawn(&mut r);
            let table = generate::table(&mut r, &converted(&sheet));
            sheet.limits = peaks(&converted(&sheet), &table);
            let text = generate::write_sheet(&sheet).into_bytes();
            let paper = write_table(&converted(&sheet), &table);
            let out = strip(&text, paper.as_bytes()).unwrap();
            assert_eq!(as_text(&out), left_of(&sheet, &table));
            let [number, _, _, blue, red] = mark(&text, &out);
            assert_eq!(number, 0, "{paper}");
            lower += u64::from([blue, red].map(|peak| peak as i64) != sheet.limits);
        }
        assert!(lower > 0);
    }

    /// 41 goes before 42, and both before the timetable's refusals.
    #[test]
    fn refused() {
        let one = b"(board (blue 1 9) (red 1 9))\n(task 1 4 4 5)\n";
        assert_eq!(convert(b""), Err((2, 1)));
        assert_eq!(strip(one, b""), Err((12, 1)));
        let text = |tasks: usize| {
            let plain = generate::large_sheet(&mut Random(9), tasks);
            generate::all_work(plain.as_bytes(), 1)
        };
        assert_eq!(convert(&text(64)), Err((41, 0)));
        assert_eq!(strip(&text(32), b""), Err((42, 0)));
    }
}
