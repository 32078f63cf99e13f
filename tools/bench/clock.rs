// How long a call takes.
use std::hint::black_box;

unsafe extern "C" { fn clock_gettime(clock: i32, time: *mut [i64; 2]) -> i32; }

// Processor time of this thread, its page faults included: what else runs on the machine counts little.
fn now() -> f64 {
    const THREAD_CPUTIME: i32 = 3;
    let mut time = [0; 2];
    assert_eq!(unsafe { clock_gettime(THREAD_CPUTIME, &mut time) }, 0);
    time[0] as f64 + time[1] as f64 * 1e-9
}

// what the call answers is dropped outside the clock
fn clock<T>(f: impl FnOnce() -> T) -> f64 {
    let start = now();
    let value = black_box(f());
    let seconds = now() - start;
    drop(value);
    seconds
}

// What the clock itself takes; it is taken off every time.
fn clock_cost() -> f64 {
    let mut v: Vec<f64> = (0..10001).map(|_| clock(|| ())).collect();
    v.sort_by(f64::total_cmp);
    v[5000]
}
