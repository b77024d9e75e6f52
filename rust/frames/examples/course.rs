// Plans the course example (docs/RULES.md), marks the plan, and steps through it.
use frames::{mark, plan, simulate, Planner, Progress, Verdict};

fn main() {
    let sheet = b"(board (blue 1 6) (red 1 6))\n(task 1 4 2)\n(task 2 3 5)\n(task 3 2 6)\n(file 1 2 2 1)\n(file 1 3 3 2)\n";
    match plan(Planner::MemHeft, sheet) {
        Ok(plan) => {
            print!("{}", String::from_utf8_lossy(&plan.timetable));
            match mark(sheet, &plan.timetable) {
                Verdict::Accepted {
                    span,
                    blue_peak,
                    red_peak,
                } => println!("accepted: span {span}, peaks {blue_peak} and {red_peak}"),
                Verdict::Refused(refusal) => println!("refused: {refusal}"),
            }
            watch(sheet, &plan.timetable);
        }
        Err(refusal) => println!("refused: {refusal}"),
    }
}

/// Prints each step: the tick, the task that each processor runs, and where each file is (1 blue, 2 red, 3 both); last, how it ended.
fn watch(sheet: &[u8], paper: &[u8]) {
    let mut now = simulate(sheet, paper, 0, 1);
    loop {
        let (running, contents) = (&now.running[..2], &now.contents[..2]);
        println!(
            "tick {}: running {running:?}, files in {contents:?}",
            now.time
        );
        if now.progress != Progress::StepsLeft {
            break;
        }
        now = simulate(sheet, paper, now.made, 1);
    }
    println!("{:?}", now.progress);
}
