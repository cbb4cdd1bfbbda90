//! Times of calls, in nanoseconds.

pub const ROUNDS: usize = 9;

/// Shorter calls are timed many in a row, so that neither the clock nor a cold start counts.
const SHORTEST: f64 = 5e6;

/// What a call of `work(0)`, of `work(1)` and so on takes, the least of several rounds. The works take turns, so that a disturbance of
/// the machine meets all of them.
pub fn least<const WORKS: usize>(mut work: impl FnMut(usize)) -> [f64; WORKS] {
    let calls: [usize; WORKS] = std::array::from_fn(|which| {
        let once = taken(|| work(which)).max(1.0);
        1 + (SHORTEST / once) as usize
    });
    let mut least = [f64::INFINITY; WORKS];
    for _ in 0..ROUNDS {
        for which in 0..WORKS {
            let all = taken(|| (0..calls[which]).for_each(|_| work(which)));
            least[which] = least[which].min(all / calls[which] as f64);
        }
    }
    least
}

/// What one call takes.
pub fn taken(call: impl FnOnce()) -> f64 {
    let start = processor_time();
    call();
    (processor_time() - start) as f64
}

#[repr(C)]
struct Timespec {
    seconds: i64,
    nanoseconds: i64,
}

const CLOCK_PROCESS_CPUTIME_ID: i32 = 2;

extern "C" {
    fn clock_gettime(clock: i32, time: *mut Timespec) -> i32;
}

/// The processor's time in this process alone: other programs may be running.
fn processor_time() -> i64 {
    let mut time = Timespec {
        seconds: 0,
        nanoseconds: 0,
    };
    assert_eq!(
        unsafe { clock_gettime(CLOCK_PROCESS_CPUTIME_ID, &mut time) },
        0
    );
    time.seconds * 1_000_000_000 + time.nanoseconds
}
