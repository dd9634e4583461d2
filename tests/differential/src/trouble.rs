//! Reports the case when the library stops the process or does not come back.

use differential::run::{CURRENT_CASE, NO_CASE};
use std::sync::atomic::{AtomicU64, Ordering};
use std::time::Duration;

/// A case takes far less than this many seconds.
const PATIENCE: u64 = 60;
/// SIGILL, SIGABRT, SIGBUS, SIGFPE and SIGSEGV.
const SIGNALS: [i32; 5] = [4, 6, 7, 8, 11];

static SEED: AtomicU64 = AtomicU64::new(0);

extern "C" {
    fn signal(number: i32, handler: extern "C" fn(i32)) -> usize;
    fn write(file: i32, octets: *const u8, length: usize) -> isize;
    fn _exit(status: i32) -> !;
}

pub fn watch(seed: u64) {
    SEED.store(seed, Ordering::Relaxed);
    for number in SIGNALS {
        unsafe { signal(number, stopped) };
    }
    std::thread::spawn(|| loop {
        let before = CURRENT_CASE.load(Ordering::Relaxed);
        std::thread::sleep(Duration::from_secs(PATIENCE));
        if before != NO_CASE && CURRENT_CASE.load(Ordering::Relaxed) == before {
            give_up(b"FAILED\nno answer for a minute");
        }
    });
}

extern "C" fn stopped(_number: i32) {
    give_up(b"FAILED\nthe process was stopped by a signal")
}

/// Writes seed and case with calls that are allowed in a signal handler, and ends.
fn give_up(why: &[u8]) -> ! {
    put(why);
    put(b": seed ");
    put_number(SEED.load(Ordering::Relaxed));
    put(b" case ");
    put_number(CURRENT_CASE.load(Ordering::Relaxed));
    put(b" (or one that another thread had under way)\n");
    unsafe { _exit(3) }
}

fn put(octets: &[u8]) {
    unsafe { write(1, octets.as_ptr(), octets.len()) };
}

fn put_number(number: u64) {
    if number >= 10 {
        put_number(number / 10);
    }
    put(&[b'0' + (number % 10) as u8]);
}
