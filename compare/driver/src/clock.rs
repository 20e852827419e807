//! Times of several tasks in one run, taken in turns so that a change of the machine's load meets all.

use std::hint::black_box;
use std::time::{Duration, Instant};

/// Processor time of this thread in ns: on a shared machine steadier than wall time.
#[cfg(target_os = "linux")]
pub fn now() -> u64 {
    #[repr(C)]
    struct Timespec {
        sec: i64,
        nsec: i64,
    }
    extern "C" {
        fn clock_gettime(clock: i32, out: *mut Timespec) -> i32;
    }
    const THREAD_CPUTIME: i32 = 3;
    let mut time = Timespec { sec: 0, nsec: 0 };
    let status = unsafe { clock_gettime(THREAD_CPUTIME, &mut time) };
    assert_eq!(status, 0);
    time.sec as u64 * 1_000_000_000 + time.nsec as u64
}

/// Time that a call takes.
pub fn clocked<R>(call: impl FnOnce() -> R) -> u64 {
    let start = now();
    black_box(call());
    now() - start
}

/// One thing to time. It times itself, so that it can leave out what is not to be counted.
pub type Task<'a> = Box<dyn FnMut() -> u64 + 'a>;

/// A task.
pub fn task<'a>(call: impl FnMut() -> u64 + 'a) -> Task<'a> {
    Box::new(call)
}

/// How long and how often.
#[derive(Clone, Copy)]
pub struct Effort {
    pub batch: Duration,
    pub batches: usize,
}

/// Best and median time of a task in ns.
pub struct Time {
    pub best: f64,
    pub median: f64,
}

/// The mean time of one batch of calls.
fn batch(effort: &Effort, task: &mut Task) -> f64 {
    let start = Instant::now();
    let (mut total, mut count) = (0u64, 0u32);
    while count == 0 || start.elapsed() < effort.batch {
        total += task();
        count += 1;
    }
    total as f64 / f64::from(count)
}

/// The times of all tasks. The first batch of each warms it up and is not counted.
pub fn race(effort: &Effort, mut tasks: Vec<Task>) -> Vec<Time> {
    let mut means: Vec<Vec<f64>> = vec![vec![]; tasks.len()];
    for _ in 0..=effort.batches {
        let pairs = tasks.iter_mut().zip(&mut means);
        pairs.for_each(|(task, means)| means.push(batch(effort, task)));
    }
    let time = |mut means: Vec<f64>| {
        means.remove(0);
        means.sort_by(f64::total_cmp);
        Time { best: means[0], median: means[means.len() / 2] }
    };
    means.into_iter().map(time).collect()
}
