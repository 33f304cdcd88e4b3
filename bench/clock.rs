//! Processor time of this thread in microseconds: other programs on the machine do not count.
#[repr(C)]
struct Time {
    seconds: i64,
    nanoseconds: i64,
}

extern "C" {
    fn clock_gettime(clock: i32, time: *mut Time) -> i32;
}

const THREAD_CPUTIME: i32 = 3;

pub fn now() -> f64 {
    let mut t = Time { seconds: 0, nanoseconds: 0 };
    unsafe { clock_gettime(THREAD_CPUTIME, &mut t) };
    t.seconds as f64 * 1e6 + t.nanoseconds as f64 / 1000.0
}

/// Microseconds that something takes.
pub fn timed(run: impl FnOnce()) -> f64 {
    let start = now();
    run();
    now() - start
}

/// Microseconds that a run says of each of its parts: the lower quartile of the runs that a third of a second has room for, and of five at least.
pub fn quartiles<const PARTS: usize>(mut run: impl FnMut(usize) -> [f64; PARTS]) -> [f64; PARTS] {
    let (whole, mut times) = (now(), vec![]);
    while now() < whole + 333_333.0 || times.len() < 5 {
        times.push(run(times.len()));
    }
    std::array::from_fn(|part| {
        let mut of_part: Vec<f64> = times.iter().map(|t| t[part]).collect();
        of_part.sort_by(f64::total_cmp);
        of_part[of_part.len() / 4]
    })
}

/// Microseconds of a run, in the same way.
pub fn quartile(mut run: impl FnMut(usize)) -> f64 {
    quartiles(|turn| [timed(|| run(turn))])[0]
}
