//! What valgrind's memcheck is told of memory. Elsewhere these requests do nothing.
use std::arch::asm;

const NO_ACCESS: usize = 0x4D43_0000;
const UNDEFINED: usize = 0x4D43_0001;
const DEFINED: usize = 0x4D43_0002;
const CHECK_DEFINED: usize = 0x4D43_0005;
const RUNNING: usize = 0x1001;

/// A client request: a sequence of instructions that changes nothing and that valgrind knows. It answers 0 elsewhere.
#[cfg(target_arch = "x86_64")]
fn request(code: usize, s: *const u8, length: usize) -> usize {
    let arguments = [code, s as usize, length, 0, 0, 0];
    let mut answer = 0;
    // SAFETY: rdi is turned by 128 bits in all, and exchanging a register with itself does nothing.
    unsafe {
        asm!("rol rdi, 3", "rol rdi, 13", "rol rdi, 61", "rol rdi, 51", "xchg rbx, rbx",
            in("rax") arguments.as_ptr(), inout("rdx") answer);
    }
    answer
}

#[cfg(not(target_arch = "x86_64"))]
fn request(_: usize, _: *const u8, _: usize) -> usize {
    0
}

pub fn is_running() -> bool {
    request(RUNNING, std::ptr::null(), 0) != 0
}

pub fn no_access(s: *const u8, length: usize) {
    request(NO_ACCESS, s, length);
}

/// Whoever decides by one of these bytes before it is written is reported. The bytes keep their values.
pub fn undefined(s: &[u8]) {
    request(UNDEFINED, s.as_ptr(), s.len());
}

pub fn defined(s: *const u8, length: usize) {
    request(DEFINED, s, length);
}

/// Reports bytes that were never written.
pub fn check_defined(s: &[u8]) {
    request(CHECK_DEFINED, s.as_ptr(), s.len());
}
