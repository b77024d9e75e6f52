//! What is free in a memory: pairs of a tick and the amount that is free from there on, until the next pair.

use crate::sheet::{MAX_FILES, MAX_TASKS};

/// A file and a W are held in a memory at most once, and each hold has two ends; one more pair is at tick 0.
const MAX_PAIRS: usize = 1 + 2 * (MAX_FILES + MAX_TASKS);

/// The ticks ascend from 0, and no two neighbours have the same free amount.
pub struct Staircase {
    ticks: Vec<u64>,
    free: Vec<u64>,
    /// an amount that is free at every tick
    least: u64,
}

impl Staircase {
    /// An empty memory with a limit.
    pub fn new(limit: u64) -> Staircase {
        let mut staircase = Staircase {
            ticks: Vec::with_capacity(MAX_PAIRS),
            free: Vec::with_capacity(MAX_PAIRS),
            least: 0,
        };
        staircase.ticks.push(0);
        staircase.free.push(limit);
        staircase
    }

    /// Holds so much more from a tick on.
    pub fn hold(&mut self, tick: u64, amount: u64) {
        self.change(tick, -(amount as i64));
    }

    /// Holds so much less from a tick on.
    pub fn release(&mut self, tick: u64, amount: u64) {
        self.change(tick, amount as i64);
    }

    /// Changes what is free from a tick on.
    fn change(&mut self, tick: u64, by: i64) {
        if by == 0 {
            return;
        }
        let at = up_to_last(&self.ticks, |t| t < tick);
        if self.ticks.get(at) != Some(&tick) {
            self.ticks.insert(at, tick);
            self.free.insert(at, self.free[at - 1]);
        }
        for free in &mut self.free[at..] {
            *free = free.wrapping_add_signed(by);
        }
        if at > 0 && self.free[at] == self.free[at - 1] {
            self.ticks.remove(at);
            self.free.remove(at);
        }
        self.least = 0;
    }

    /// The first tick from which on `all` is always free, and the first from which on `some` is, which is not more; None where there is no
    /// such tick. One walk from the end finds both.
    pub fn free_from(&self, all: u64, some: u64) -> Option<[u64; 2]> {
        if all <= self.least {
            return Some([0, 0]);
        }
        let for_all = self.settled(self.free.len(), all);
        let for_some = self.settled(for_all, some);
        Some([*self.ticks.get(for_all)?, self.ticks[for_some]])
    }

    /// The first of so many pairs from which on each has so much free. There is no walk for what is free at every tick.
    fn settled(&self, pairs: usize, need: u64) -> usize {
        if need <= self.least {
            return 0;
        }
        up_to_last(&self.free[..pairs], |free| free < need)
    }

    /// The least amount that is free at any tick.
    pub fn least(&self) -> u64 {
        self.free.iter().copied().min().unwrap_or(0)
    }

    /// Finds the least amount, so that until the next change there is no walk for a need that is not more.
    pub fn find_least(&mut self) {
        self.least = self.least();
    }
}

/// How many numbers are left when those behind the last one of which this is true are cut off.
fn up_to_last(mut numbers: &[u64], is_true: impl Fn(u64) -> bool) -> usize {
    while let [rest @ .., last] = numbers {
        if is_true(*last) {
            break;
        }
        numbers = rest;
    }
    numbers.len()
}

#[cfg(test)]
mod tests {
    use super::*;

    fn pairs(staircase: &Staircase) -> Vec<(u64, u64)> {
        let ticks = staircase.ticks.iter().copied();
        ticks.zip(staircase.free.iter().copied()).collect()
    }

    /// 5 free from 0, 1 from 3 and 4 from 7 on.
    fn steps() -> Staircase {
        let mut staircase = Staircase::new(5);
        staircase.hold(3, 4);
        staircase.release(7, 3);
        staircase
    }

    #[test]
    fn changes() {
        let mut staircase = steps();
        assert_eq!(pairs(&staircase), [(0, 5), (3, 1), (7, 4)]);
        staircase.hold(0, 1);
        assert_eq!(pairs(&staircase), [(0, 4), (3, 0), (7, 3)]);
        staircase.hold(5, 0);
        staircase.release(3, 4);
        assert_eq!(pairs(&staircase), [(0, 4), (7, 7)]);
        staircase.hold(9, 2);
        staircase.hold(7, 3);
        assert_eq!(pairs(&staircase), [(0, 4), (9, 2)]);
    }

    #[test]
    fn free_from_a_tick_on() {
        let staircase = steps();
        assert_eq!(staircase.least(), 1);
        for (need, from) in [
            (0, Some(0)),
            (1, Some(0)),
            (2, Some(7)),
            (4, Some(7)),
            (5, None),
        ] {
            let both = from.map(|tick| [tick, tick]);
            assert_eq!(staircase.free_from(need, need), both);
            assert_eq!(staircase.free_from(need, 0), from.map(|tick| [tick, 0]));
        }
        assert_eq!(staircase.free_from(3, 2), Some([7, 7]));
    }
}
