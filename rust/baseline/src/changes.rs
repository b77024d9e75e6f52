//! The changes of a memory: every rise and every fall of what it holds, each packed into one number that sorts by tick, falls before rises.

use crate::sheet::{MAX_FILES, MAX_TASKS};

/// Each hold is two changes; a memory holds a file or a W at most once.
const MAX_CHANGES: usize = 2 * (MAX_FILES + MAX_TASKS);

/// An amount is less than 2 to this power; a tick is less than 2 to the power of 42.
const AMOUNT_BITS: u32 = 20;

/// The changes of a memory.
pub struct Changes {
    packed: Vec<u64>,
}

/// What the running total shows.
#[derive(Debug, PartialEq, Eq)]
pub struct Totals {
    pub peak: u64,
    /// the first tick at which the total is over the limit
    pub over: Option<u64>,
}

fn pack(tick: u64, rises: bool, amount: u64) -> u64 {
    (2 * tick + u64::from(rises)) << AMOUNT_BITS | amount
}

impl Changes {
    pub fn new() -> Changes {
        Changes {
            packed: Vec::with_capacity(MAX_CHANGES),
        }
    }

    /// Lists a hold: an amount from a tick until a later one.
    pub fn hold(&mut self, amount: u64, from: u64, until: u64) {
        let changes = [pack(from, true, amount), pack(until, false, amount)];
        self.packed.extend(changes);
    }

    /// The running total over the changes in time order, with a limit.
    pub fn totals(mut self, limit: u64) -> Totals {
        self.packed.sort_unstable();
        let mut total = 0;
        let mut totals = Totals {
            peak: 0,
            over: None,
        };
        for change in self.packed {
            let amount = change & ((1 << AMOUNT_BITS) - 1);
            let rises = change >> AMOUNT_BITS & 1 == 1;
            total = if rises {
                total + amount
            } else {
                total - amount
            };
            if total > totals.peak {
                totals.peak = total;
                if total > limit && totals.over.is_none() {
                    totals.over = Some(change >> (AMOUNT_BITS + 1));
                }
            }
        }
        totals
    }
}

#[cfg(test)]
mod tests {
    use super::*;

    fn totals(holds: &[(u64, u64, u64)], limit: u64) -> (u64, Option<u64>) {
        let mut changes = Changes::new();
        for &(amount, from, until) in holds {
            changes.hold(amount, from, until);
        }
        let totals = changes.totals(limit);
        (totals.peak, totals.over)
    }

    #[test]
    fn falls_before_rises() {
        assert_eq!(totals(&[(5, 0, 4), (3, 4, 6)], 5), (5, None));
        assert_eq!(totals(&[(5, 0, 4), (3, 3, 6)], 5), (8, Some(3)));
    }

    /// The first tick over the limit need not be that of the peak.
    #[test]
    fn first_tick_over() {
        let holds = [(4, 7, 9), (1, 2, 9), (2, 3, 9), (0, 1, 9)];
        assert_eq!(totals(&holds, 2), (7, Some(3)));
        assert_eq!(totals(&holds, 0), (7, Some(2)));
        assert_eq!(totals(&holds, 7), (7, None));
        assert_eq!(totals(&[], 0), (0, None));
    }

    /// The greatest amount at the last tick at which a change can be.
    #[test]
    fn greatest() {
        let last = 1_000_999_999_999;
        let holds = [(1_000_000, last - 1, last), (1_000_000, last - 1, last)];
        assert_eq!(totals(&holds, 1_999_999), (2_000_000, Some(last - 1)));
    }

    /// Each hold is two changes, also of size 0.
    #[test]
    fn two_changes_each() {
        let mut changes = Changes::new();
        changes.hold(0, 5, 9);
        changes.hold(7, 3, 5);
        changes.packed.sort_unstable();
        let due = [(3, true, 7), (5, false, 7), (5, true, 0), (9, false, 0)];
        assert_eq!(changes.packed, due.map(|(t, rises, n)| pack(t, rises, n)));
    }
}
