//! Requests to valgrind's callgrind, which counts the instructions of a program. Outside valgrind they do nothing.

use std::arch::asm;
use std::ffi::CString;

const RUNNING_ON_VALGRIND: usize = 0x1001;
const CALLGRIND: usize = (b'C' as usize) << 24 | (b'T' as usize) << 16;
const ZERO_STATS: usize = CALLGRIND + 1;
const DUMP_STATS_AT: usize = CALLGRIND + 3;

/// The instructions by which valgrind knows a request on this processor (its header valgrind.h); the processor takes them for none.
#[cfg(target_arch = "x86_64")]
fn request(code: usize, argument: usize) -> usize {
    let request = [code, argument, 0, 0, 0, 0];
    let mut answer = 0;
    unsafe {
        asm!(
            "rol rdi, 3",
            "rol rdi, 13",
            "rol rdi, 61",
            "rol rdi, 51",
            "xchg rbx, rbx",
            in("rax") request.as_ptr(),
            inout("rdx") answer,
        );
    }
    answer
}

#[cfg(not(target_arch = "x86_64"))]
fn request(_code: usize, _argument: usize) -> usize {
    0
}

pub fn is_running() -> bool {
    request(RUNNING_ON_VALGRIND, 0) != 0
}

/// Has callgrind write a file with the instructions of this work alone, under a name.
pub fn count(name: &str, work: impl FnOnce()) {
    let name = CString::new(name).unwrap_or_default();
    request(ZERO_STATS, 0);
    work();
    request(DUMP_STATS_AT, name.as_ptr() as usize);
}
