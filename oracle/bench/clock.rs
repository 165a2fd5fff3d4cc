//! Thread time, and the least of many repeats taken in turn.

#[repr(C)]
struct Timespec {
    seconds: i64,
    nanoseconds: i64,
}

extern "C" {
    fn clock_gettime(clock: i32, time: *mut Timespec) -> i32;
}

/// Linux's clock of the processor time that this thread has used.
const THREAD_CPUTIME: i32 = 3;

fn now() -> f64 {
    let mut time = Timespec { seconds: 0, nanoseconds: 0 };
    // The kernel fills in the record that is lent.
    let failed = unsafe { clock_gettime(THREAD_CPUTIME, &mut time) };
    assert_eq!(failed, 0, "no clock of thread time");
    time.seconds as f64 * 1e9 + time.nanoseconds as f64
}

/// What is timed: each contender does the same work once.
pub type Contender<'a> = Box<dyn FnMut() + 'a>;

/// Nanoseconds that each contender takes, least of so many rounds. In each round all of them run in turn, so that a
/// slow moment of the machine falls on all alike.
pub fn least(rounds: usize, contenders: &mut [Contender]) -> Vec<f64> {
    let mut least = vec![f64::INFINITY; contenders.len()];
    for _ in 0..rounds {
        for (best, work) in least.iter_mut().zip(contenders.iter_mut()) {
            let began = now();
            work();
            *best = best.min(now() - began);
        }
    }
    least
}
