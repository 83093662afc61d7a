//! Times: medians of several ways to do the same, sampled in turn, so that noise meets all of them alike.
use std::time::{Duration, Instant};

const SAMPLES: usize = 21;
const LEAST_SAMPLES: usize = 3;
/// A sample repeats its call for at least so long.
const SAMPLE: Duration = Duration::from_millis(1);
/// Past this no further round of samples is begun, once there are some.
const LONGEST: Duration = Duration::from_secs(3);

#[repr(C)]
struct Timespec {
    seconds: i64,
    nanoseconds: i64,
}

extern "C" {
    fn clock_gettime(clock: i32, time: *mut Timespec) -> i32;
}

/// Linux's number of the clock of a thread's processor time.
const THREAD_CLOCK: i32 = 3;

/// The processor time of this thread. It stands still while other programs have the processor, as the time of day does not.
pub fn now() -> Duration {
    let mut time = Timespec { seconds: 0, nanoseconds: 0 };
    // SAFETY: the pointer is to a timespec as 64-bit Linux has it, lent for this call alone.
    let failed = unsafe { clock_gettime(THREAD_CLOCK, &mut time) };
    assert_eq!(failed, 0, "the thread's clock can be read");
    Duration::new(time.seconds as u64, time.nanoseconds as u32)
}

/// Repeats a call so many times and says how long the calls took.
pub type Way<'a> = &'a mut dyn FnMut(usize) -> Duration;

/// How long so many calls take.
pub fn timed(times: usize, mut call: impl FnMut()) -> Duration {
    let start = now();
    (0..times).for_each(|_| call());
    now() - start
}

/// How many repetitions fill a sample; the first calls warm up.
fn repetitions(way: &mut Way) -> usize {
    let mut times = 1;
    while way(times) < SAMPLE {
        times *= 2;
    }
    times
}

/// The median time of one call of each way, in nanoseconds.
pub fn medians<const N: usize>(mut ways: [Way; N]) -> [f64; N] {
    let times: Vec<usize> = ways.iter_mut().map(repetitions).collect();
    let mut samples: [Vec<f64>; N] = std::array::from_fn(|_| Vec::new());
    let start = Instant::now();
    for round in 0..SAMPLES {
        if round >= LEAST_SAMPLES && start.elapsed() > LONGEST {
            break;
        }
        for (i, way) in ways.iter_mut().enumerate() {
            samples[i].push(way(times[i]).as_nanos() as f64 / times[i] as f64);
        }
    }
    samples.map(median)
}

fn median(mut samples: Vec<f64>) -> f64 {
    samples.sort_by(f64::total_cmp);
    samples[samples.len() / 2]
}
