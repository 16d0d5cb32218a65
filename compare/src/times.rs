//! CPU time of this thread, and calls that are timed in turns.
//!
//! CPU time leaves out what other work takes of the processor; it does not leave out the
//! caches and the clock that the work shares. Turns go through all calls one after another,
//! each turn the other way round, so that what disturbs one call disturbs the others.

#[repr(C)]
struct Timespec {
    seconds: i64,
    nanoseconds: i64,
}

extern "C" {
    fn clock_gettime(clock: i32, time: *mut Timespec) -> i32;
}

/// Linux's number of the clock of the thread's CPU time.
const THREAD_CPUTIME: i32 = 3;

/// Nanoseconds of CPU time that this thread has had.
fn now() -> f64 {
    let mut time = Timespec { seconds: 0, nanoseconds: 0 };
    // Safety: the pointer is to a `timespec` as Linux has it with 64 bits.
    let failed = unsafe { clock_gettime(THREAD_CPUTIME, &mut time) };
    assert_eq!(failed, 0, "no clock of CPU time");
    time.seconds as f64 * 1e9 + time.nanoseconds as f64
}

#[cfg(target_env = "gnu")]
extern "C" {
    fn mallopt(parameter: i32, value: i32) -> i32;
}

/// Has the allocator keep what is freed. Else it gives large parts back and asks for them again, or not, by what was
/// allocated earlier in the process, and the oracle's times differ by up to two thirds.
pub fn keep_memory() {
    #[cfg(target_env = "gnu")]
    {
        const TRIM_THRESHOLD: i32 = -1;
        const MMAP_THRESHOLD: i32 = -3;
        // Safety: both are numbers that the allocator knows, and it checks the values.
        let set = unsafe { [mallopt(TRIM_THRESHOLD, 1 << 30), mallopt(MMAP_THRESHOLD, 1 << 25)] };
        assert_eq!(set, [1, 1], "the allocator does not take its limits");
    }
}

/// Nanoseconds of one of `calls` calls.
pub fn time(calls: u64, call: &mut dyn FnMut()) -> f64 {
    let start = now();
    for _ in 0..calls {
        call();
    }
    (now() - start) / calls as f64
}

/// How often to call for a turn of half a millisecond; at least once.
fn calls(call: &mut dyn FnMut()) -> u64 {
    let once = time(1, call);
    if once > 5e5 {
        return 1;
    }
    (5e5 / time(1, call).min(once).max(10.0)).ceil() as u64
}

/// The times of each call, one for each turn: turns for half a second, 3 at least and 201 at most.
pub fn turns(sides: &mut [&mut dyn FnMut()]) -> Vec<Vec<f64>> {
    let counts: Vec<u64> = sides.iter_mut().map(|side| calls(*side)).collect();
    let mut times = vec![Vec::new(); sides.len()];
    let mut order: Vec<usize> = (0..sides.len()).collect();
    let start = now();
    while times[0].len() < 3 || times[0].len() < 201 && now() - start < 5e8 {
        for &side in &order {
            times[side].push(time(counts[side], sides[side]));
        }
        order.reverse();
    }
    times
}

pub fn median(mut numbers: Vec<f64>) -> f64 {
    numbers.sort_by(f64::total_cmp);
    numbers[numbers.len() / 2]
}

pub fn least(times: &[f64]) -> f64 {
    times.iter().copied().fold(f64::MAX, f64::min)
}

/// The median of the ratios of each turn.
pub fn ratio(times: &[f64], to: &[f64]) -> f64 {
    median(times.iter().zip(to).map(|(a, b)| a / b).collect())
}

/// A time in words.
pub fn shown(ns: f64) -> String {
    match ns {
        ns if ns < 1e4 => format!("{ns:.0} ns"),
        ns if ns < 1e7 => format!("{:.1} us", ns / 1e3),
        ns => format!("{:.1} ms", ns / 1e6),
    }
}
