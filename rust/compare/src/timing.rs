//! Processor time, and the least and the median of some times.

/// C's timespec on 64-bit Linux.
#[repr(C)]
struct Timespec {
    seconds: i64,
    nanoseconds: i64,
}

extern "C" {
    fn clock_gettime(clock: i32, time: *mut Timespec) -> i32;
}

const CLOCK_PROCESS_CPUTIME_ID: i32 = 2;

/// The processor time of this process so far, in nanoseconds.
pub fn processor_time() -> i64 {
    let mut time = Timespec {
        seconds: 0,
        nanoseconds: 0,
    };
    let failed = unsafe { clock_gettime(CLOCK_PROCESS_CPUTIME_ID, &mut time) };
    assert_eq!(failed, 0, "no processor time");
    1_000_000_000 * time.seconds + time.nanoseconds
}

/// The time of a call in microseconds, over so many calls.
pub fn time(calls: u32, mut call: impl FnMut()) -> f64 {
    let start = processor_time();
    for _ in 0..calls {
        call();
    }
    (processor_time() - start) as f64 / f64::from(calls) / 1000.0
}

/// The least and the median of some times.
#[derive(Clone, Copy)]
pub struct Times {
    pub least: f64,
    pub median: f64,
}

impl Times {
    pub fn new(mut times: Vec<f64>) -> Times {
        times.sort_by(f64::total_cmp);
        Times {
            least: times[0],
            median: times[times.len() / 2],
        }
    }
}

#[cfg(test)]
mod tests {
    use super::*;

    #[test]
    fn least_and_median() {
        let Times { least, median } = Times::new(vec![3.0, 1.0, 2.0, 9.0, 7.0]);
        assert_eq!((least, median), (1.0, 3.0));
    }
}
