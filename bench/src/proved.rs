//! The proved library's seven C entries.

// Code before the library's, to move it: where its loops lie in the cache lines changes their speed.
std::arch::global_asm!(
    ".section .text.hookup_shift,\"ax\",@progbits",
    ".p2align 4",
    ".globl hookup_shift",
    "hookup_shift:",
    concat!(".skip 16 + ", env!("HOOKUP_SHIFT"), ", 0xc3"),
    ".text",
);

extern "C" {
    fn hookup_shift();
    fn hookup_check(record: *const u8, len: usize) -> u32;
    fn hookup_join(a: *const u8, alen: usize, b: *const u8, blen: usize, out: *mut u8, outlen: usize) -> u32;
    fn hookup_closure(record: *const u8, len: usize, out: *mut u8, outlen: usize) -> u32;
    fn hookup_explain(record: *const u8, len: usize, out: *mut u8, outlen: usize) -> u32;
    fn hookup_run(script: *const u8, len: usize, shelf: *mut u8, shelflen: usize, answers: *mut u8, answerslen: usize) -> u32;
    fn hookup_count(shelf: *const u8, len: usize, out: *mut u8, outlen: usize) -> u32;
    fn hookup_part(shelf: *const u8, len: usize, i: usize, out: *mut u8, outlen: usize) -> u32;
}

/// Where the library's code begins within a cache line.
pub fn place() -> usize {
    std::hint::black_box(hookup_shift as *const () as usize);
    hookup_check as *const () as usize % 64
}

pub fn check(record: &[u8]) -> u32 {
    // SAFETY: the slice is readable for its length, and the call keeps nothing.
    unsafe { hookup_check(record.as_ptr(), record.len()) }
}

pub fn join(a: &[u8], b: &[u8], out: &mut [u8]) -> u32 {
    // SAFETY: the slices are readable, `out` is writable and, being a mutable borrow, overlaps neither.
    unsafe { hookup_join(a.as_ptr(), a.len(), b.as_ptr(), b.len(), out.as_mut_ptr(), out.len()) }
}

pub fn closure(record: &[u8], out: &mut [u8]) -> u32 {
    // SAFETY: the slice is readable, `out` is writable and, being a mutable borrow, does not overlap it.
    unsafe { hookup_closure(record.as_ptr(), record.len(), out.as_mut_ptr(), out.len()) }
}

pub fn explain(record: &[u8], out: &mut [u8]) -> u32 {
    // SAFETY: as for the closure.
    unsafe { hookup_explain(record.as_ptr(), record.len(), out.as_mut_ptr(), out.len()) }
}

pub fn run(script: &[u8], shelf: &mut [u8], answers: &mut [u8]) -> u32 {
    // SAFETY: the script is readable, shelf and answers are writable and, being mutable borrows, overlap nothing.
    unsafe { hookup_run(script.as_ptr(), script.len(), shelf.as_mut_ptr(), shelf.len(), answers.as_mut_ptr(), answers.len()) }
}

pub fn count(shelf: &[u8], out: &mut [u8]) -> u32 {
    // SAFETY: as for the closure.
    unsafe { hookup_count(shelf.as_ptr(), shelf.len(), out.as_mut_ptr(), out.len()) }
}

pub fn part(shelf: &[u8], i: usize, out: &mut [u8]) -> u32 {
    // SAFETY: as for the closure.
    unsafe { hookup_part(shelf.as_ptr(), shelf.len(), i, out.as_mut_ptr(), out.len()) }
}
