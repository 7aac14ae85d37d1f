//! Processor time of repeated runs, and peak memory.

use std::fs;
use std::hint::black_box;

#[repr(C)]
struct Time {
    seconds: i64,
    nanoseconds: i64,
}

extern "C" {
    fn clock_gettime(clock: i32, time: *mut Time) -> i32;
}

/// Processor time of this thread, in milliseconds.
fn now() -> f64 {
    const THREAD_TIME: i32 = 3;
    let mut time = Time { seconds: 0, nanoseconds: 0 };
    // SAFETY: writes the struct alone.
    unsafe { clock_gettime(THREAD_TIME, &mut time) };
    time.seconds as f64 * 1e3 + time.nanoseconds as f64 / 1e6
}

/// Milliseconds that a turn of short work takes at least, about.
pub const TURN: f64 = 2.0;

/// Milliseconds of one of several runs of a piece of work.
fn time_of(runs: usize, piece: &mut dyn FnMut() -> u64) -> f64 {
    let start = now();
    for _ in 0..runs {
        black_box(piece());
    }
    (now() - start) / runs as f64
}

/// Runs several pieces of work in turn, `repetitions` times after one turn that does not count, and answers the median time of
/// each in milliseconds, rounded to the three decimals that are printed. In a turn a short piece is run several times.
pub fn medians<const N: usize>(repetitions: usize, mut work: [&mut dyn FnMut() -> u64; N]) -> [f64; N] {
    let runs = work.each_mut().map(|piece| (TURN / time_of(1, piece)).clamp(1.0, 10_000.0).ceil() as usize);
    let mut turns = Vec::with_capacity(repetitions);
    for _ in 0..repetitions {
        turns.push(std::array::from_fn::<f64, N, _>(|piece| time_of(runs[piece], &mut *work[piece])));
    }
    std::array::from_fn(|piece| {
        let mut times: Vec<f64> = turns.iter().map(|turn| turn[piece]).collect();
        times.sort_by(f64::total_cmp);
        (times[times.len() / 2] * 1e3).round() / 1e3
    })
}

/// The processor's name.
pub fn processor() -> String {
    let text = fs::read_to_string("/proc/cpuinfo").unwrap_or_default();
    let line = text.lines().find_map(|line| line.strip_prefix("model name")).unwrap_or(": unknown");
    line.trim_start_matches([' ', '\t', ':']).to_string()
}

/// How many kilobytes more the process holds at the peak of a piece of work than before it.
pub fn peak_growth(work: impl FnOnce() -> u64) -> u64 {
    let _ = fs::write("/proc/self/clear_refs", "5");
    let before = status("VmRSS:");
    black_box(work());
    status("VmHWM:").saturating_sub(before)
}

/// A number of kilobytes from the process's status.
fn status(field: &str) -> u64 {
    let text = fs::read_to_string("/proc/self/status").unwrap_or_default();
    let line = text.lines().find_map(|line| line.strip_prefix(field)).unwrap_or_default();
    line.trim().trim_end_matches(" kB").parse().unwrap_or(0)
}
