//! How long the proved library takes beside rust/baseline, which is written for speed, keeps the same staircases and makes the same rounds:
//! the four planners on the published sheets of Order 10 (examples/speed, and the LU and Cholesky sheets of examples), the marker on
//! MemMinMin's timetable of each, and the reading of each sheet alone; the marker also on some other timetables. Before a row is
//! measured, both sides must give the same answer and the same bytes.
//!
//! A round times some calls of one side and then as many of the other, and the next round begins with the other side, so that both are
//! measured in one run under the same conditions. The rows take turns too, 20 rounds each. The time is the processor time of this process
//! (CLOCK_PROCESS_CPUTIME_ID of Linux); a round in which it is not the time of day too, to within 3 in 100, was disturbed, and is made
//! again. What is printed is the least and the median time of a call over all rounds, and the instructions of a call outside the kernel
//! where the machine counts them (- elsewhere). At the end, for each measure, the greatest ratios on the largest sheets.
//!
//! The first argument is the number of rounds of each row, 5000 if there is none, which takes some minutes. The second is a word: only the
//! rows that have it in their names are measured, such as `fork`, `MemHEFT` or `spread-64 MemHEFT`. With `--growth` in front, how times
//! grow with tasks and files is measured instead.

use compare::generate::{all_apart_with_work, all_moved, all_work};
use compare::growth;
use compare::measuring::{measure, Job, Measured, Row, What, WHATS};
use compare::published::{measured, read_published};

/// Sheets of so many tasks and more are among the largest: the factorization graphs do not reach the most tasks.
const LARGE: usize = 55;

/// The published sheets.
fn published() -> Vec<Job> {
    let sheets = measured().into_iter();
    sheets
        .map(|(name, text)| Job::planned(&name, text))
        .collect()
}

/// Timetables for the marker alone.
fn for_the_marker() -> [Job; 3] {
    let with_work = all_work(&read_published("examples/speed", "spread-64"), 300);
    let [(sheet, paper), (apart, paper_apart)] = [all_moved(), all_apart_with_work()];
    [
        Job::planned("spread-64, W on every task", with_work),
        Job::new("every file moved", sheet, paper),
        Job::new("640 ticks, W on every task", apart, paper_apart),
    ]
}

/// The jobs with what is measured on them.
fn rows<'a>(published: &'a [Job], others: &'a [Job], word: &str) -> Vec<Row<'a>> {
    let marker = [What::Mark, What::Read];
    let planned = published
        .iter()
        .flat_map(|job| WHATS.map(|what| (job, what)));
    let marked = others.iter().flat_map(|job| marker.map(|what| (job, what)));
    let named = |(job, what): &(&Job, What)| format!("{} {}", job.name, what.name()).contains(word);
    let chosen = planned.chain(marked).filter(named);
    chosen.map(|(job, what)| Row::new(job, what)).collect()
}

fn shown(instructions: Option<[f64; 2]>) -> String {
    match instructions {
        None => "- | - | -".to_string(),
        Some([proved, baseline]) => {
            format!("{proved:.0} | {baseline:.0} | {:.2}", proved / baseline)
        }
    }
}

fn print(row: &Row, measured: &Measured) {
    let (job, [proved, baseline]) = (row.job, measured.times);
    println!(
        "| {} | {} | {} | {} | {:.2} | {:.2} | {:.2} | {:.2} | {:.2} | {:.2} | {} |",
        job.tasks,
        job.files,
        job.name,
        row.what.name(),
        proved.least,
        baseline.least,
        measured.ratio(),
        proved.median,
        baseline.median,
        measured.ratio_of_medians(),
        shown(measured.instructions)
    );
}

/// The greatest ratio of some rows, with the sheet.
fn greatest<'a>(rows: &[&'a (Row, Measured)], ratio: fn(&Measured) -> f64) -> (f64, &'a str) {
    let ratios = rows.iter().map(|row| (ratio(&row.1), &*row.0.job.name));
    let none = (0.0, "");
    ratios.fold(none, |most, row| if most.0 < row.0 { row } else { most })
}

/// The greatest ratios of each measure on the largest sheets.
fn summary(measured: &[(Row, Measured)]) {
    println!("\nThe greatest ratios on sheets of {LARGE} tasks and more:\n");
    println!("| what | of least times | sheet | of medians | sheet |");
    println!("|---|---|---|---|---|");
    for what in WHATS {
        let of_large = |row: &&(Row, Measured)| row.0.what == what && row.0.job.tasks >= LARGE;
        let large: Vec<_> = measured.iter().filter(of_large).collect();
        if large.is_empty() {
            continue;
        }
        let (least, sheet) = greatest(&large, Measured::ratio);
        let (median, other) = greatest(&large, Measured::ratio_of_medians);
        let name = what.name();
        println!("| {name} | {least:.2} | {sheet} | {median:.2} | {other} |");
    }
}

fn all(rounds: usize, word: &str) {
    let (published, others) = (published(), for_the_marker());
    let mut rows = rows(&published, &others, word);
    measure(&mut rows, rounds);
    println!(
        "| tasks | files | sheet | what | proved, least, µs | baseline, least, µs | ratio | proved, median, µs \
         | baseline, median, µs | ratio | instructions, proved | baseline | ratio |"
    );
    println!("|---|---|---|---|---|---|---|---|---|---|---|---|---|");
    let mut measured = vec![];
    for mut row in rows {
        let found = row.measured();
        print(&row, &found);
        measured.push((row, found));
    }
    summary(&measured);
}

fn main() {
    let mut arguments: Vec<String> = std::env::args().skip(1).collect();
    let growth = arguments.first().is_some_and(|first| first == "--growth");
    if growth {
        arguments.remove(0);
    }
    let rounds = arguments
        .first()
        .map_or(5000, |a| a.parse().expect("a number of rounds"));
    match growth {
        true => growth::print(rounds),
        false => all(rounds, arguments.get(1).map_or("", String::as_str)),
    }
}
