//! Two sides timed by turns, and the instructions of their calls.

use crate::timing::{processor_time, Times};
use std::fs::File;
use std::io::Read;
use std::os::fd::FromRawFd;
use std::time::Instant;

extern "C" {
    fn syscall(number: i64, ...) -> i64;
}

/// The time of a call in microseconds, over so many calls: the processor time; None where it is not the time of day too, to within 3 in 100.
/// Then another program ran meanwhile, or the machine counted time that it took from this process, here or elsewhere.
fn time(calls: u32, call: Side) -> Option<f64> {
    let (clock, start) = (Instant::now(), processor_time());
    for _ in 0..calls {
        call();
    }
    let time = (processor_time() - start) as f64;
    let elapsed = clock.elapsed().as_nanos() as f64;
    let undisturbed = (time - elapsed).abs() <= 0.03 * elapsed;
    undisturbed.then_some(time / f64::from(calls) / 1000.0)
}

/// A call of a side.
type Side<'a> = &'a mut dyn FnMut();

/// Two sides that are timed by turns: a round times some calls of the one and as many of the other, and the next round begins with the other.
pub struct Turns<'a> {
    sides: [Box<dyn FnMut() + 'a>; 2],
    /// calls of each side in a round
    calls: u32,
    times: [Vec<f64>; 2],
}

/// How often a round is made again that was disturbed.
const MOST_DISTURBED: usize = 1000;

impl<'a> Turns<'a> {
    /// The calls of a round take some 200 µs, by the least of some times.
    pub fn new(mut sides: [Box<dyn FnMut() + 'a>; 2]) -> Turns<'a> {
        let once = |_| {
            let clock = Instant::now();
            sides.iter_mut().for_each(|call| call());
            clock.elapsed().as_secs_f64() * 1e6
        };
        let least = (0..9).map(once).fold(f64::MAX, f64::min);
        Turns {
            sides,
            calls: (200.0 / least).clamp(1.0, 1000.0) as u32,
            times: [vec![], vec![]],
        }
    }

    pub fn rounds(&mut self, rounds: usize) {
        self.rounds_by(rounds, time);
    }

    /// Rounds that are timed in a given way.
    fn rounds_by(&mut self, rounds: usize, mut time: impl FnMut(u32, Side) -> Option<f64>) {
        for _ in 0..rounds {
            let mut again = 0..MOST_DISTURBED;
            let times = again.find_map(|_| self.round(&mut time));
            let [one, other] = times.expect("a round that nothing disturbs");
            self.times[0].push(one);
            self.times[1].push(other);
        }
    }

    /// The times of both sides; None where one was disturbed.
    fn round(&mut self, time: &mut impl FnMut(u32, Side) -> Option<f64>) -> Option<[f64; 2]> {
        let first = self.times[0].len() % 2;
        let mut times = [0.0; 2];
        for side in [first, 1 - first] {
            times[side] = time(self.calls, &mut *self.sides[side])?;
        }
        Some(times)
    }

    /// Over all rounds.
    pub fn times(&self) -> [Times; 2] {
        self.times.clone().map(Times::new)
    }

    /// The instructions of a call of each side outside the kernel; None where the machine does not count them.
    pub fn instructions(&mut self) -> Option<[f64; 2]> {
        let sides = self.sides.each_mut();
        let [one, other] = sides.map(|call| instructions(16, &mut **call));
        Some([one?, other?])
    }
}

/// The number of the system call perf_event_open.
const PERF_EVENT_OPEN: Option<i64> = match () {
    _ if cfg!(target_arch = "x86_64") => Some(298),
    _ if cfg!(target_arch = "aarch64") => Some(241),
    _ => None,
};

/// A kind of event and an event of that kind, by Linux: the instructions among the hardware's events.
const INSTRUCTIONS: [u64; 2] = [0, 1];

/// An event of this thread, counted outside the kernel; None where the machine does not count it.
fn counter([kind, event]: [u64; 2]) -> Option<File> {
    /// Bytes of Linux's perf_event_attr in its first version, and two of its flags.
    const SIZE: u64 = 64;
    const EXCLUDE_KERNEL: u64 = 1 << 5;
    const EXCLUDE_HYPERVISOR: u64 = 1 << 6;
    let flags = EXCLUDE_KERNEL | EXCLUDE_HYPERVISOR;
    let attributes: [u64; 8] = [kind | SIZE << 32, event, 0, 0, 0, flags, 0, 0];
    let (this_thread, any_processor, no_group) = (0_i32, -1_i32, -1_i32);
    let file = unsafe {
        syscall(
            PERF_EVENT_OPEN?,
            attributes.as_ptr(),
            this_thread,
            any_processor,
            no_group,
            0_u64,
        )
    };
    let file = i32::try_from(file).ok().filter(|file| *file >= 0)?;
    Some(unsafe { File::from_raw_fd(file) })
}

/// A count so far.
fn count(counter: &mut File) -> Option<u64> {
    let mut bytes = [0; 8];
    counter.read_exact(&mut bytes).ok()?;
    Some(u64::from_ne_bytes(bytes))
}

/// The instructions of a call outside the kernel, over so many calls.
fn instructions(calls: u32, call: Side) -> Option<f64> {
    let mut counter = counter(INSTRUCTIONS)?;
    let start = count(&mut counter)?;
    for _ in 0..calls {
        call();
    }
    let end = count(&mut counter)?;
    Some((end - start) as f64 / f64::from(calls))
}

#[cfg(test)]
mod tests {
    use super::*;

    /// Linux's own clock of a thread, which is counted in nanoseconds also where no hardware's events are.
    const TASK_CLOCK: [u64; 2] = [1, 1];

    /// A counter that the machine has goes up.
    #[test]
    fn counters() {
        for event in [TASK_CLOCK, INSTRUCTIONS] {
            let Some(mut counter) = counter(event) else {
                continue;
            };
            let before = count(&mut counter).unwrap();
            assert!((0..100).all(|_| processor_time() > 0));
            assert!(count(&mut counter).unwrap() > before);
        }
    }

    /// The sides take turns at being first, and a disturbed round is made again. The time here is the number of calls so far.
    #[test]
    fn turns() {
        let called = std::cell::RefCell::new(vec![]);
        let sides = [0, 1].map(|side| {
            let called = &called;
            let call = move || called.borrow_mut().push(side);
            Box::new(call) as Box<dyn FnMut()>
        });
        let mut turns = Turns::new(sides);
        called.borrow_mut().clear();
        turns.rounds_by(3, |_, call| {
            call();
            let calls = called.borrow().len();
            (calls != 4).then_some(calls as f64)
        });
        assert_eq!(turns.times, [[1.0, 6.0, 7.0], [2.0, 5.0, 8.0]]);
        assert_eq!(*called.borrow(), [0, 1, 1, 0, 1, 0, 0, 1]);
    }
}
