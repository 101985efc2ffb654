//! Tells callgrind where counting begins and ends. Without valgrind these do nothing.
//!
//! Callgrind can also be told by function names, but it doesn't follow returns on every machine. What it is told here is exact on all of them: the
//! instruction sequences are those of valgrind's own header, which no program has by chance.

#[cfg(target_arch = "aarch64")]
use std::arch::asm;
#[cfg(target_arch = "x86_64")]
use std::arch::asm;

/// The requests' numbers: those of the tool whose letters are C and T.
const DUMP: u64 = 0x4354_0000;
const ZERO: u64 = DUMP + 1;

/// Counts from here.
pub fn begin() {
    request(ZERO);
}

/// Writes the counts into the next file.
pub fn end() {
    request(DUMP);
}

#[cfg(target_arch = "aarch64")]
fn request(number: u64) {
    let words = [number, 0, 0, 0, 0, 0];
    // Four turns of a register by 128 bits in all, and one that changes nothing: only valgrind sees a request in them.
    unsafe {
        asm!(
            "ror x12, x12, #3", "ror x12, x12, #13", "ror x12, x12, #51", "ror x12, x12, #61",
            "orr x10, x10, x10",
            inout("x3") 0u64 => _, in("x4") words.as_ptr(),
        );
    }
}

#[cfg(target_arch = "x86_64")]
fn request(number: u64) {
    let words = [number, 0, 0, 0, 0, 0];
    unsafe {
        asm!(
            "rol rdi, 3", "rol rdi, 13", "rol rdi, 61", "rol rdi, 51",
            "xchg rbx, rbx",
            inout("rdx") 0u64 => _, in("rax") words.as_ptr(), inout("rdi") 0u64 => _,
        );
    }
}

#[cfg(not(any(target_arch = "aarch64", target_arch = "x86_64")))]
fn request(_number: u64) {}
