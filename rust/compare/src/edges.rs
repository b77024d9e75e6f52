//! Texts with known marks on both sides of each limit that Order 5 made wider, worked by hand: by the former limits and by the present ones.
//! The comparison holds the library and reference.rs against them.

use crate::reference::{Widths, FORMER};

/// Two texts and the marker's answers to them.
pub struct Known {
    sheet: String,
    paper: String,
    former: [u64; 5],
    now: [u64; 5],
}

/// Two tasks and a file, which moves from blue to red.
const SHEET: &str = "(board (blue 1 9) (red 1 9))\n(task 1 4 4)\n(task 2 3 3)\n(file 1 2 2 5)\n";
const PAPER: &str = "(run 1 1 0)\n(run 2 2 9)\n(move 1 2 4)\n(claim 12 2 2)\n";
const ACCEPTED: [u64; 5] = [0, 0, 12, 2, 2];

/// One task, a relay on red.
const RELAY: &str = "(board (blue 1 9) (red 1 9))\n(task 1 4 0)\n";

fn refused(number: u64, place: u64) -> [u64; 5] {
    [number, place, 0, 0, 0]
}

fn accepted(span: u64) -> [u64; 5] {
    [0, 0, span, 2, 2]
}

/// The texts of two tasks and a file, changed: what is replaced, and by what.
fn changed(changes: &[(&str, String)], former: [u64; 5], now: [u64; 5]) -> Known {
    let (mut sheet, mut paper) = (SHEET.to_string(), PAPER.to_string());
    for (text, other) in changes {
        assert!(sheet.contains(text) || paper.contains(text), "{text}");
        sheet = sheet.replace(text, other);
        paper = paper.replace(text, other);
    }
    Known {
        sheet,
        paper,
        former,
        now,
    }
}

/// A run time B, with the timetable that it leads to.
fn blue_time(b: u64, former: [u64; 5], now: [u64; 5]) -> Known {
    let changes = [
        ("(task 1 4 4)", format!("(task 1 {b} 4)")),
        ("(move 1 2 4)", format!("(move 1 2 {b})")),
        ("(run 2 2 9)", format!("(run 2 2 {})", b + 5)),
        ("claim 12", format!("claim {}", b + 8)),
    ];
    changed(&changes, former, now)
}

/// A run time R, with the timetable that it leads to.
fn red_time(r: u64, former: [u64; 5], now: [u64; 5]) -> Known {
    let changes = [
        ("(task 2 3 3)", format!("(task 2 3 {r})")),
        ("claim 12", format!("claim {}", r + 9)),
    ];
    changed(&changes, former, now)
}

/// A move time C, with the timetable that it leads to.
fn move_time(c: u64, former: [u64; 5], now: [u64; 5]) -> Known {
    let changes = [
        ("(file 1 2 2 5)", format!("(file 1 2 2 {c})")),
        ("(run 2 2 9)", format!("(run 2 2 {})", c + 4)),
        ("claim 12", format!("claim {}", c + 7)),
    ];
    changed(&changes, former, now)
}

/// The former and the present greatest B, R and C, and one more.
fn times() -> Vec<Known> {
    vec![
        blue_time(1_000_000, accepted(1_000_008), accepted(1_000_008)),
        blue_time(1_000_001, refused(3, 2), accepted(1_000_009)),
        blue_time(999_999_999, refused(3, 2), accepted(1_000_000_007)),
        blue_time(1_000_000_000, refused(2, 2), accepted(1_000_000_008)),
        blue_time(1_000_000_001, refused(2, 2), refused(3, 2)),
        red_time(1_000_000, accepted(1_000_009), accepted(1_000_009)),
        red_time(1_000_001, refused(3, 3), accepted(1_000_010)),
        red_time(1_000_000_000, refused(2, 3), accepted(1_000_000_009)),
        red_time(1_000_000_001, refused(2, 3), refused(3, 3)),
        move_time(1_000_000, accepted(1_000_007), accepted(1_000_007)),
        move_time(1_000_001, refused(3, 4), accepted(1_000_008)),
        move_time(1_000_000_000, refused(2, 4), accepted(1_000_000_007)),
        move_time(1_000_000_001, refused(2, 4), refused(3, 4)),
    ]
}

/// One line changed, and the numbers of both marks: a refusal by 2 to 4 or 12 to 14 is at that line, one by 16 at task 2.
fn line(text: &str, other: &str, former: u64, now: u64) -> Known {
    let mut found = [SHEET, PAPER]
        .into_iter()
        .filter_map(|whole| whole.split_once(text));
    let (before, _) = found.next().expect("a text");
    let place = before.matches('\n').count() as u64 + 1;
    let mark = |number| match number {
        0 => ACCEPTED,
        16 => refused(16, 2),
        18 => refused(18, 0),
        _ => refused(number, place),
    };
    changed(&[(text, other.to_string())], mark(former), mark(now))
}

/// Numbers of the sheet whose ranges are as they were, and lines refused as before.
fn on_sheet() -> Vec<Known> {
    let (blue, task, file) = ("blue 1 9", "(task 1 4 4)", "(file 1 2 2 5)");
    vec![
        line(blue, "blue 1 999999999", 0, 0),
        line(blue, "blue 1 1000000000", 2, 3),
        line(blue, "blue 1 999999999999", 2, 3),
        line(blue, "blue 1 1000000000000", 2, 2),
        line(blue, "blue 1 0999999999", 2, 2),
        line(blue, "blue 9 1000000000", 2, 3),
        line(blue, "blue 9 9", 3, 3),
        line("red 1 9", "red 4294967297 9", 2, 3),
        line(task, "(task 1000000000 4 4)", 2, 3),
        line(task, "(task 4294967297 4 4)", 2, 3),
        line(task, "(task 2 4 1000000000)", 2, 4),
        line(task, "(task 2 4 1000001)", 3, 4),
        line(task, "(task 65 4 1000001)", 3, 3),
        line(task, "(task 1 4 1000000000000)", 2, 2),
        line(task, "(task 1 01000000000 4)", 2, 2),
        line(task, "(tusk 1 4 1000000000)", 2, 2),
        line(file, "(file 1000000000 2 2 5)", 2, 3),
        line(file, "(file 1 999999999999 2 5)", 2, 3),
        line(file, "(file 1 2 1000001 5)", 3, 3),
        line(file, "(file 1 2 1000000000 5)", 2, 3),
        line(file, "(file 1 2 2 0)", 3, 3),
        line("(file 1 2 2 5)\n", "(file 1 2 2 1000000000)", 2, 2),
    ]
}

/// Numbers of the timetable whose ranges are as they were, longer ones that lead to another refusal, and lines refused as before.
fn in_table() -> Vec<Known> {
    let (run, moved, claim) = ("(run 2 2 9)", "(move 1 2 4)", "(claim 12 2 2)");
    vec![
        line(run, "(run 1000000000 2 9)", 12, 13),
        line(run, "(run 2 999999999999 9)", 12, 13),
        line(run, "(run 2 4294967298 9)", 12, 13),
        line(run, "(run 2 3 9)", 13, 13),
        line(run, "(run 65 2 9)", 13, 13),
        line(run, "(run 1 2 1000000000)", 12, 14),
        line(run, "(run 2 2 1000000000000)", 12, 12),
        line(run, "(run 2 2 0999999999)", 12, 12),
        line(run, "(ran 2 2 1000000000)", 12, 12),
        line(moved, "(move 1000000000 2 4)", 12, 13),
        line(moved, "(move 1 999999999999 4)", 12, 13),
        line(moved, "(move 1 2 1000000000)", 12, 16),
        line(moved, "(move 1 2 999999999999)", 12, 16),
        line(moved, "(move 1 2 1000000000000)", 12, 12),
        line(claim, "(claim 1000000000 2 2)", 12, 18),
        line(claim, "(claim 12 999999999999 2)", 12, 18),
        line(claim, "(claim 12 2 1000000000)", 12, 18),
        line(claim, "(claim 12 2 1000000000000)", 12, 12),
        line("(claim 12 2 2)\n", "(claim 1000000000 2 2)", 12, 12),
    ]
}

/// One run at a start and a claim of a span: on blue, where it takes 4 ticks, or on red, where it is a relay.
fn alone(processor: u64, start: u64, span: u64, former: [u64; 5], now: [u64; 5]) -> Known {
    Known {
        sheet: RELAY.to_string(),
        paper: format!("(run 1 {processor} {start})\n(claim {span} 0 0)\n"),
        former,
        now,
    }
}

/// Starts and spans at the former and the present last tick, and past it. A span past the last tick cannot be claimed.
fn last_ticks() -> Vec<Known> {
    let accepted = |span| [0, 0, span, 0, 0];
    let (then, last) = (999_999_999, 999_999_999_999);
    let [long_start, long_claim, untrue] = [refused(12, 1), refused(12, 2), refused(18, 0)];
    vec![
        alone(2, then, then, accepted(then), accepted(then)),
        alone(1, then - 4, then, accepted(then), accepted(then)),
        alone(1, then - 3, then + 1, long_claim, accepted(then + 1)),
        alone(1, then, then, untrue, untrue),
        alone(1, then, then + 4, long_claim, accepted(then + 4)),
        alone(2, then + 1, then + 1, long_start, accepted(then + 1)),
        alone(2, last, last, long_start, accepted(last)),
        alone(1, last - 4, last, long_start, accepted(last)),
        alone(1, last - 3, last, long_start, untrue),
        alone(1, last - 3, last + 1, long_start, long_claim),
        alone(1, last, last, long_start, untrue),
        alone(1, last, 0, long_start, untrue),
        alone(1, last, last + 4, long_start, long_claim),
        alone(2, last + 1, last, long_start, long_start),
    ]
}

/// All texts.
pub fn known() -> Vec<Known> {
    let mut all = times();
    all.extend(on_sheet());
    all.extend(in_table());
    all.extend(last_ticks());
    all
}

impl Known {
    pub fn sheet(&self) -> &[u8] {
        self.sheet.as_bytes()
    }

    pub fn paper(&self) -> &[u8] {
        self.paper.as_bytes()
    }

    /// The mark by some limits.
    fn due(&self, widths: Widths) -> [u64; 5] {
        match widths {
            FORMER => self.former,
            _ => self.now,
        }
    }

    /// Holds a marker by some limits against the texts.
    pub fn hold(
        &self,
        widths: Widths,
        mark: impl Fn(&[u8], &[u8]) -> [u64; 5],
    ) -> Result<(), String> {
        let (got, due) = (mark(self.sheet(), self.paper()), self.due(widths));
        if got == due {
            return Ok(());
        }
        Err(format!(
            "marked {got:?} by {widths:?}, wanted {due:?}\nsheet:\n{}paper:\n{}",
            self.sheet, self.paper
        ))
    }
}

#[cfg(test)]
mod tests {
    use super::*;
    use crate::library;
    use crate::reference::{mark, mark_by, CURRENT};
    use crate::widths::NARROW;

    #[test]
    fn by_the_former_limits() {
        for texts in known() {
            texts.hold(FORMER, |s, p| mark_by(NARROW, s, p)).unwrap();
        }
    }

    #[test]
    fn by_the_present_limits() {
        for texts in known() {
            texts.hold(CURRENT, mark).unwrap();
            texts.hold(CURRENT, library::mark).unwrap();
        }
    }
}
