//! The CPU time of this thread: what other work on the machine takes is not in it.

#[repr(C)]
struct Timespec {
    seconds: i64,
    nanoseconds: i64,
}

extern "C" {
    fn clock_gettime(clock: i32, time: *mut Timespec) -> i32;
}

const CLOCK_THREAD_CPUTIME_ID: i32 = 3;

fn thread_nanoseconds() -> u64 {
    let mut time = Timespec { seconds: 0, nanoseconds: 0 };
    // SAFETY: the pointer leads to a timespec of 64-bit Linux.
    let status = unsafe { clock_gettime(CLOCK_THREAD_CPUTIME_ID, &mut time) };
    assert_eq!(status, 0, "no thread CPU time");
    time.seconds as u64 * 1_000_000_000 + time.nanoseconds as u64
}

/// The nanoseconds that a piece of work takes.
pub fn nanoseconds(work: impl FnOnce()) -> u64 {
    let begun = thread_nanoseconds();
    work();
    thread_nanoseconds() - begun
}
