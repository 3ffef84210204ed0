//! A message where the library touches memory that it was not lent, or writes to an input.
use crate::call::Call;
use std::io::Write;
use std::sync::atomic::{AtomicU64, AtomicUsize, Ordering::Relaxed};

static CASE: AtomicU64 = AtomicU64::new(0);
static CALL: AtomicUsize = AtomicUsize::new(0);

extern "C" {
    fn signal(number: i32, handler: extern "C" fn(i32)) -> usize;
    fn _exit(status: i32) -> !;
}

const SIGSEGV: i32 = 11;

extern "C" fn stop(_: i32) {
    let call = Call::ALL[CALL.load(Relaxed)].word();
    let _ = writeln!(std::io::stderr(), "case {}: cosvint_{call} touched memory that it may not", CASE.load(Relaxed));
    // SAFETY: it has no preconditions.
    unsafe { _exit(1) }
}

pub fn tell() {
    // SAFETY: the handler only writes and ends the program.
    unsafe { signal(SIGSEGV, stop) };
}

pub fn at(case: u64, call: Call) {
    CASE.store(case, Relaxed);
    CALL.store(call as usize, Relaxed);
}
