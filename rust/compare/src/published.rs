//! The published sheets of Order 10, in examples/speed, on which planning is measured; the LU and Cholesky sheets of examples are measured
//! too. None of them is refused by any planner.

use crate::generate::{ample, large_sheet, write_sheet, Random};
use crate::long_stairs::{fork, longest, with_limits, Wait, AWARE};
use crate::measuring::in_baseline;
use crate::reference::{read_sheet, Colour, File, Sheet, Task, MAX_TEXT};
use std::path::PathBuf;

/// The sheets of examples that are measured too: the largest LU and Cholesky graphs that fit into 64 tasks and 256 files.
pub const FACTORIZATIONS: [&str; 4] = ["lu", "lu-direct", "cholesky", "cholesky-direct"];

/// The sheets that have a tight twin, beside those of examples.
const DRAWN: [&str; 5] = [
    "spread-8",
    "spread-32",
    "spread-64",
    "fork-64",
    "crossing-64",
];

/// The sheets of the longest staircases, and what most tasks of each wait for.
const STAIRS: [(&str, Wait); 3] = [
    ("stairs-start1-64", Wait::Processor),
    ("stairs-start3-64", Wait::Run),
    ("stairs-start4-64", Wait::Move),
];

/// A sheet by the name of its file.
pub struct Published {
    pub name: String,
    pub text: String,
}

/// A folder of the repository.
pub fn folder(name: &str) -> PathBuf {
    let root = [env!("CARGO_MANIFEST_DIR"), "..", "..", name];
    root.iter().collect()
}

/// The text of a sheet of a folder.
pub fn read_published(folder_name: &str, name: &str) -> Vec<u8> {
    let path = folder(folder_name).join(format!("{name}.sheet"));
    std::fs::read(&path).unwrap_or_else(|error| panic!("{}: {error}", path.display()))
}

fn sound(text: &[u8]) -> Sheet {
    read_sheet(text).expect("a sound sheet")
}

/// A sheet of 64 tasks and 256 files, each of which is between a task far faster on blue and one far faster on red; other numbers as in
/// `large_sheet`.
fn crossing(r: &mut Random) -> Sheet {
    let task = |i: usize| {
        let fast = r.between(1, 1000);
        let mut times = [fast, fast + 100_000];
        times.rotate_left(i % 2);
        Task { times, work: 0 }
    };
    let tasks = (0..64).map(task).collect();
    let pairs = (0..64).flat_map(|i| (i + 1..64).step_by(2).map(move |j| (i, j)));
    let file = |(maker, reader)| File {
        maker,
        reader,
        size: r.between(0, 300),
        time: r.between(1, 100),
    };
    Sheet {
        processors: [4, 4],
        limits: [60_000; 2],
        tasks,
        files: pairs.step_by(4).map(file).collect(),
    }
}

/// The sheets of `DRAWN`.
fn drawn() -> [Sheet; 5] {
    let mut r = Random(64);
    let spread = [8, 32, 64].map(|tasks| sound(large_sheet(&mut r, tasks).as_bytes()));
    let [small, middle, large] = spread;
    [small, middle, large, fork(&mut r), crossing(&mut r)]
}

/// The sheet with one limit for both memories, the least at which neither memory-aware planner is stuck. A planner that fits may be stuck
/// with a greater limit, so every limit is tried from 0 on, by the planners of the baseline.
fn tight(sheet: &Sheet) -> Sheet {
    let text = write_sheet(sheet);
    let (_, jobs) = text.split_once('\n').expect("a board line");
    let [blues, reds] = sheet.processors;
    let mut out = vec![0; MAX_TEXT];
    let mut fits = |m: &i64| {
        let text = format!("(board (blue {blues} {m}) (red {reds} {m}))\n{jobs}");
        AWARE.iter().all(|planner| {
            let planner = in_baseline(*planner);
            let [number, ..] = baseline::planner::plan(planner, text.as_bytes(), &mut out);
            number == 0
        })
    };
    let least = (0..=ample(sheet)).find(|limit| fits(limit));
    with_limits(sheet, [least.expect("ample limits suffice"); 2])
}

/// The names of the sheets of examples/speed.
pub fn names() -> Vec<String> {
    let mut all = vec![];
    for name in DRAWN {
        all.extend([name.to_string(), format!("{name}-tight")]);
    }
    all.extend(FACTORIZATIONS.map(|name| format!("{name}-tight")));
    all.extend(STAIRS.map(|(name, _)| name.to_string()));
    all
}

/// The sheets of examples/speed, in the order of `names`.
pub fn published() -> Vec<Published> {
    let mut all = vec![];
    for sheet in drawn() {
        let tight = tight(&sheet);
        all.extend([sheet, tight]);
    }
    all.extend(FACTORIZATIONS.map(|name| tight(&sound(&read_published("examples", name)))));
    all.extend(STAIRS.map(|(_, wait)| longest(wait, Colour::Blue)));
    let texts = all.iter().map(write_sheet);
    let named = names().into_iter().zip(texts);
    named.map(|(name, text)| Published { name, text }).collect()
}

/// The texts of all sheets on which planning is measured, each with its name.
pub fn measured() -> Vec<(String, Vec<u8>)> {
    let drawn = names().into_iter().map(|name| ("examples/speed", name));
    let known = FACTORIZATIONS.map(|name| ("examples", name.to_string()));
    let text = |(folder, name): (&str, String)| {
        let text = read_published(folder, &name);
        (name, text)
    };
    drawn.chain(known).map(text).collect()
}

/// The names of the sheets of a folder, in order.
pub fn names_in(folder_name: &str) -> Vec<String> {
    let entries = std::fs::read_dir(folder(folder_name)).expect("a folder");
    let names = entries.map(|entry| entry.expect("an entry").file_name());
    let names = names.map(|name| name.into_string().expect("a name"));
    let sheets = names.filter_map(|name| Some(name.strip_suffix(".sheet")?.to_string()));
    let mut sheets: Vec<String> = sheets.collect();
    sheets.sort();
    sheets
}

#[cfg(test)]
mod tests {
    use super::*;
    use crate::library::named;
    use crate::reference::{plan, PLANNERS};

    fn sheet(name: &str) -> Sheet {
        sound(&read_published("examples/speed", name))
    }

    /// The files are what is written, and there are no others.
    #[test]
    fn files_as_written() {
        for Published { name, text } in published() {
            let file = read_published("examples/speed", &name);
            assert!(file == text.as_bytes(), "{name} differs");
        }
        let mut due = names();
        due.sort();
        assert_eq!(names_in("examples/speed"), due);
    }

    /// No sheet is refused, by reference.rs, by the library or by the baseline.
    #[test]
    fn none_refused() {
        let mut out = vec![0; MAX_TEXT];
        for (name, text) in measured() {
            for planner in PLANNERS {
                assert_eq!(plan(planner, &text).number, 0, "{name}, {planner:?}");
                let answer = frames::plan_into(named(planner), &text, &mut out);
                assert_eq!(answer.number, 0, "{name}, {planner:?}");
                let planner = in_baseline(planner);
                let [number, ..] = baseline::planner::plan(planner, &text, &mut out);
                assert_eq!(number, 0, "{name}, {planner:?}");
            }
        }
    }

    /// With one block less in both memories one of the memory-aware planners is stuck. That no lower limit suffices is seen in the files being
    /// as written.
    #[test]
    fn tight_limits_are_the_least() {
        let names = names();
        let tight: Vec<_> = names.iter().filter(|n| n.ends_with("-tight")).collect();
        assert_eq!(tight.len(), DRAWN.len() + FACTORIZATIONS.len());
        for name in tight {
            let sheet = sheet(name);
            let [limit, other] = sheet.limits;
            assert_eq!(limit, other, "{name}");
            let less = write_sheet(&with_limits(&sheet, [limit - 1; 2]));
            let stuck = AWARE.map(|p| plan(p, less.as_bytes()).number == 21);
            assert!(stuck[0] || stuck[1], "{name}");
        }
    }

    /// A tight sheet is its loose twin but for the limits.
    #[test]
    fn twins() {
        let without_board = |text: &[u8]| {
            let end = text.iter().position(|b| *b == b'\n').unwrap();
            text[end..].to_vec()
        };
        let all = measured();
        let text = |name: &str| &all.iter().find(|known| known.0 == name).unwrap().1;
        for (name, tight) in &all {
            if let Some(loose) = name.strip_suffix("-tight") {
                assert_eq!(without_board(tight), without_board(text(loose)), "{name}");
            }
        }
    }

    #[test]
    fn tasks_and_files() {
        for (name, due) in [
            ("spread-8", (8, 28)),
            ("spread-32", (32, 256)),
            ("spread-64", (64, 256)),
            ("fork-64", (64, 240)),
            ("crossing-64", (64, 256)),
            ("stairs-start1-64", (64, 256)),
            ("stairs-start3-64", (64, 256)),
            ("stairs-start4-64", (64, 256)),
        ] {
            let sheet = sheet(name);
            assert_eq!((sheet.tasks.len(), sheet.files.len()), due, "{name}");
        }
    }
}
