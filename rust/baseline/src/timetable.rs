//! The text of a planner's timetable.

use crate::paper::Run;
use crate::sheet::Sheet;

/// More than the bytes of any line of a run or a move.
const MAX_LINE: usize = 40;

/// The most digits of a number.
const MAX_DIGITS: usize = 20;

/// The due lines of a planner's timetable, in which each file that crosses arrives at its reader's start.
pub fn text(sheet: &Sheet, runs: &[Run], claim: [u64; 3]) -> Vec<u8> {
    let lines = runs.len() + sheet.files.len() + 2;
    let mut text = Vec::with_capacity(MAX_LINE * lines);
    for (i, run) in runs.iter().enumerate() {
        line(
            &mut text,
            b"(run ",
            [i as u64 + 1, run.processor, run.start],
        );
    }
    for file in &sheet.files {
        let (maker, reader) = (&runs[file.maker], &runs[file.reader]);
        if maker.memory != reader.memory {
            let start = reader.start - file.move_time;
            let numbers = [file.maker as u64 + 1, file.reader as u64 + 1, start];
            line(&mut text, b"(move ", numbers);
        }
    }
    line(&mut text, b"(claim ", claim);
    text
}

/// Writes a line of three numbers.
fn line<const N: usize>(text: &mut Vec<u8>, front: &[u8; N], [a, b, c]: [u64; 3]) {
    text.extend_from_slice(front);
    number(text, a);
    text.push(b' ');
    number(text, b);
    text.push(b' ');
    number(text, c);
    text.extend_from_slice(b")\n");
}

fn number(text: &mut Vec<u8>, mut value: u64) {
    if value < 10 {
        text.push(b'0' + value as u8);
        return;
    }
    if value < 100 {
        text.extend([b'0' + (value / 10) as u8, b'0' + (value % 10) as u8]);
        return;
    }
    let mut digits = [0; MAX_DIGITS];
    let mut at = MAX_DIGITS;
    while value > 0 {
        at -= 1;
        digits[at] = b'0' + (value % 10) as u8;
        value /= 10;
    }
    text.extend_from_slice(&digits[at..]);
}

#[cfg(test)]
mod tests {
    use super::number;

    #[test]
    fn numbers() {
        for value in [0, 7, 10, 99, 100, 123_456_789, 999_999_999_999, u64::MAX] {
            let mut text = vec![b' '];
            number(&mut text, value);
            assert_eq!(text, format!(" {value}").as_bytes());
        }
    }
}
