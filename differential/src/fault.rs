//! What is said when a call touches a fence or stops the program.

use std::ffi::{c_int, c_void};
use std::sync::atomic::{AtomicU64, Ordering};

const SIGNALS: [c_int; 6] = [4, 5, 6, 7, 8, 11]; // ILL TRAP ABRT BUS FPE SEGV

static SEED: AtomicU64 = AtomicU64::new(0);
static CASE: AtomicU64 = AtomicU64::new(0);

unsafe extern "C" {
    fn signal(number: c_int, handler: extern "C" fn(c_int)) -> usize;
    fn write(file: c_int, bytes: *const c_void, length: usize) -> isize;
    fn _exit(status: c_int) -> !;
}

/// Has every such signal say its case.
pub fn watch(seed: u64) {
    SEED.store(seed, Ordering::Relaxed);
    for number in SIGNALS {
        // SAFETY: the handler only writes and leaves.
        unsafe { signal(number, stopped) };
    }
}

/// The case that runs from now on.
pub fn enter(case: u64) {
    CASE.store(case, Ordering::Relaxed);
}

extern "C" fn stopped(number: c_int) {
    let (seed, case) = (SEED.load(Ordering::Relaxed), CASE.load(Ordering::Relaxed));
    say(b"\nsignal ");
    say_number(number as u64);
    say(b" (11 is a fence touched or an input written) in case ");
    say_number(case);
    say(b"\nrepeat: make differential SEED=");
    say_number(seed);
    say(b" ONLY=");
    say_number(case);
    say(b"\n");
    // SAFETY: it never returns.
    unsafe { _exit(1) }
}

fn say(bytes: &[u8]) {
    // SAFETY: the bytes are a slice's.
    unsafe { write(2, bytes.as_ptr().cast(), bytes.len()) };
}

/// A handler may not allocate.
fn say_number(number: u64) {
    let mut digits = [0; 20];
    let mut first = digits.len();
    let mut rest = number;
    loop {
        first -= 1;
        digits[first] = b'0' + (rest % 10) as u8;
        rest /= 10;
        if rest == 0 {
            break;
        }
    }
    say(&digits[first..]);
}
