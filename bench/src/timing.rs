//! Medians over many repetitions, in the processor time of this thread: what other programs of the machine take is left out.

use std::time::{Duration, Instant};

/// How long a row may be measured, and how many samples it has at least and at most.
const LONGEST: Duration = Duration::from_millis(400);
const FEWEST: usize = 15;
const MOST: usize = 1_001;

/// A sample is as many calls as take at least this long, so that the clock's own time does not count.
const SAMPLE: Duration = Duration::from_micros(50);

/// Microseconds of a call, the median of each function. The functions take turns, so that whatever else the machine does
/// falls on all of them.
pub fn medians<const N: usize>(mut calls: [&mut dyn FnMut(); N]) -> [f64; N] {
    let repetitions = calls.each_mut().map(|call| {
        let mut repetitions = 1;
        while sample(*call, repetitions) < SAMPLE {
            repetitions *= 2;
        }
        repetitions
    });
    let mut samples: [Vec<f64>; N] = std::array::from_fn(|_| Vec::new());
    let start = Instant::now();
    while samples[0].len() < FEWEST || (start.elapsed() < LONGEST && samples[0].len() < MOST) {
        for ((call, repetitions), samples) in calls.iter_mut().zip(repetitions).zip(&mut samples) {
            let time = sample(*call, repetitions);
            samples.push(time.as_secs_f64() * 1e6 / repetitions as f64);
        }
    }
    samples.map(median)
}

fn sample(call: &mut dyn FnMut(), repetitions: usize) -> Duration {
    let start = processor_time();
    for _ in 0..repetitions {
        call();
    }
    processor_time() - start
}

fn median(mut samples: Vec<f64>) -> f64 {
    samples.sort_by(f64::total_cmp);
    samples[samples.len() / 2]
}

/// The processor time that this thread has taken so far.
fn processor_time() -> Duration {
    /// The C library's `struct timespec` on 64-bit Linux.
    #[repr(C)]
    struct Timespec {
        seconds: i64,
        nanoseconds: i64,
    }
    unsafe extern "C" {
        fn clock_gettime(clock: i32, time: *mut Timespec) -> i32;
    }
    const THREAD_PROCESSOR_TIME: i32 = 3;
    let mut time = Timespec {
        seconds: 0,
        nanoseconds: 0,
    };
    // SAFETY: the C library, which std links, writes one timespec to where the pointer says.
    let status = unsafe { clock_gettime(THREAD_PROCESSOR_TIME, &mut time) };
    assert_eq!(status, 0, "the clock of processor time");
    Duration::new(time.seconds as u64, time.nanoseconds as u32)
}
