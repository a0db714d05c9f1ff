//! Processor time, so that what else the machine does counts as little as it can, and the best of several rounds.

#[repr(C)]
#[derive(Clone, Copy, Default)]
struct Seconds {
    whole: i64,
    part: i64,
}

#[repr(C)]
struct Usage {
    user: Seconds,
    system: Seconds,
    others: [i64; 14],
}

extern "C" {
    fn clock_gettime(clock: i32, time: *mut Seconds) -> i32;
    fn getrusage(who: i32, usage: *mut Usage) -> i32;
}

const OWN_PROCESS: i32 = 2;
const ENDED_CHILDREN: i32 = -1;

/// Seconds of processor time that this process has used.
pub fn own() -> f64 {
    let mut time = Seconds::default();
    unsafe { clock_gettime(OWN_PROCESS, &mut time) };
    time.whole as f64 + time.part as f64 * 1e-9
}

/// Seconds of processor time that ended children have used.
pub fn children() -> f64 {
    let mut usage = Usage { user: Seconds::default(), system: Seconds::default(), others: [0; 14] };
    unsafe { getrusage(ENDED_CHILDREN, &mut usage) };
    let seconds = |time: Seconds| time.whole as f64 + time.part as f64 * 1e-6;
    seconds(usage.user) + seconds(usage.system)
}

/// Processor time of what is done.
pub fn timed(work: impl FnOnce()) -> f64 {
    let before = own();
    work();
    own() - before
}

/// The highest of some rates: what else the machine does can only lower one.
pub fn best(rates: &[f64]) -> f64 {
    rates.iter().copied().fold(f64::NAN, f64::max)
}
