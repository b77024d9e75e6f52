//! How the times of the proved library and of rust/baseline grow with the tasks and with the files of a sheet.

use crate::generate::{spread_sheet, Random};
use crate::measuring::{measure, Job, Row, What, WHATS};

/// Tasks of the sheets that grow by tasks, each with 4 files for a task, or as many as fit.
const TASKS: [usize; 6] = [8, 16, 24, 32, 48, 64];

/// Files of the sheets that grow by files, each with 64 tasks.
const FILES: [usize; 5] = [32, 64, 128, 192, 256];

/// MemHEFT, MemMinMin, the marker and the reading.
const GROWING: [What; 4] = [WHATS[0], WHATS[1], WHATS[4], WHATS[5]];

/// The slope of the line through points that has the least sum of squared distances in y.
fn slope(points: &[(f64, f64)]) -> f64 {
    let n = points.len() as f64;
    let [x, y] = [0, 1].map(|k| points.iter().map(|p| [p.0, p.1][k]).sum::<f64>() / n);
    let both: f64 = points.iter().map(|p| (p.0 - x) * (p.1 - y)).sum();
    let squares: f64 = points.iter().map(|p| (p.0 - x).powi(2)).sum();
    both / squares
}

/// The exponent by which a time grows with a size.
fn exponent(points: &[(f64, f64)]) -> f64 {
    let logs: Vec<(f64, f64)> = points.iter().map(|(n, t)| (n.ln(), t.ln())).collect();
    slope(&logs)
}

/// A sheet of a series: its job and its size.
struct Point {
    job: Job,
    size: f64,
}

fn point(r: &mut Random, tasks: usize, files: usize, size: usize) -> Point {
    let sheet = spread_sheet(r, tasks, files).into_bytes();
    Point {
        job: Job::planned(&format!("{tasks} tasks, {files} files"), sheet),
        size: size as f64,
    }
}

/// Measures a series; prints its times, and the exponents of both sides.
fn series(name: &str, points: &[Point], rounds: usize) {
    let measures = points.iter().flat_map(|p| GROWING.map(|what| (p, what)));
    let mut rows: Vec<Row> = measures.map(|(p, what)| Row::new(&p.job, what)).collect();
    measure(&mut rows, rounds);
    let least = |row: &mut Row| row.measured().times.map(|times| times.least);
    let times: Vec<[f64; 2]> = rows.iter_mut().map(least).collect();
    for (k, what) in GROWING.iter().enumerate() {
        let mut grown = [vec![], vec![]];
        for (p, times) in points
            .iter()
            .zip(times.iter().skip(k).step_by(GROWING.len()))
        {
            let [proved, baseline] = *times;
            let (tasks, files, ratio) = (p.job.tasks, p.job.files, proved / baseline);
            println!(
                "| {name} | {} | {tasks} | {files} | {proved:.2} | {baseline:.2} | {ratio:.2} |",
                what.name()
            );
            grown[0].push((p.size, proved));
            grown[1].push((p.size, baseline));
        }
        let [proved, baseline] = grown.map(|points| exponent(&points));
        println!(
            "| {name} | {} | exponent | | {proved:.2} | {baseline:.2} | |",
            what.name()
        );
    }
}

/// Both series.
pub fn print(rounds: usize) {
    let mut r = Random(10);
    let by_tasks = TASKS.map(|tasks| point(&mut r, tasks, 4 * tasks, tasks));
    let by_files = FILES.map(|files| point(&mut r, 64, files, files));
    println!(
        "| grows by | what | tasks | files | proved, least, µs | baseline, least, µs | ratio |"
    );
    println!("|---|---|---|---|---|---|---|");
    series("tasks", &by_tasks, rounds);
    series("files", &by_files, rounds);
}

#[cfg(test)]
mod tests {
    use super::*;

    #[test]
    fn exponents() {
        for (power, factor) in [(1.0, 3.0), (2.0, 0.5), (0.0, 7.0)] {
            let points = [8.0, 16.0, 48.0].map(|n: f64| (n, factor * n.powf(power)));
            assert!((exponent(&points) - power).abs() < 1e-9);
        }
        assert!((slope(&[(0.0, 0.0), (1.0, 3.0), (2.0, 3.0)]) - 1.5).abs() < 1e-9);
    }
}
