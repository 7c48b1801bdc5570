//! Calls the product: its seven C entries, and its programs as processes.

use second::rng::Rng;
use std::io::{Read, Write};
use std::process::{Command, Stdio};

extern "C" {
    fn hookup_check(record: *const u8, len: usize) -> u32;
    fn hookup_join(a: *const u8, alen: usize, b: *const u8, blen: usize, out: *mut u8, outlen: usize) -> u32;
    fn hookup_closure(record: *const u8, len: usize, out: *mut u8, outlen: usize) -> u32;
    fn hookup_explain(record: *const u8, len: usize, out: *mut u8, outlen: usize) -> u32;
    fn hookup_run(
        script: *const u8,
        len: usize,
        shelf: *mut u8,
        shelflen: usize,
        answers: *mut u8,
        answerslen: usize,
    ) -> u32;
    fn hookup_count(shelf: *const u8, len: usize, out: *mut u8, outlen: usize) -> u32;
    fn hookup_part(shelf: *const u8, len: usize, i: usize, out: *mut u8, outlen: usize) -> u32;
}

/// Bytes lent to the product, with guard bytes before and behind them, at any alignment.
pub struct Lent {
    whole: Vec<u8>,
    copy: Vec<u8>,
    from: usize,
    length: usize,
    null: bool,
}

const GUARD: usize = 32;

impl Lent {
    pub fn new(rng: &mut Rng, content: &[u8]) -> Lent {
        let from = GUARD + rng.below(8);
        let mut whole = vec![0xD7; from];
        whole.extend_from_slice(content);
        whole.extend_from_slice(&[0x28; GUARD]);
        let null = content.is_empty() && rng.chance(1, 2);
        Lent { copy: whole.clone(), whole, from, length: content.len(), null }
    }

    fn pointer(&self) -> *const u8 {
        if self.null {
            std::ptr::null()
        } else {
            self.whole[self.from..].as_ptr()
        }
    }

    fn pointer_to_write(&mut self) -> *mut u8 {
        if self.null {
            std::ptr::null_mut()
        } else {
            self.whole[self.from..].as_mut_ptr()
        }
    }

    /// Whether the product gets a null pointer, with length 0.
    pub fn is_null(&self) -> bool {
        self.null
    }

    /// The bytes with the guard bytes.
    pub fn whole(&self) -> &[u8] {
        &self.whole
    }

    pub fn content(&self) -> &[u8] {
        &self.whole[self.from..self.from + self.length]
    }

    /// No byte changed, the guard bytes included.
    pub fn is_unchanged(&self) -> bool {
        self.whole == self.copy
    }

    /// No guard byte changed.
    pub fn guards_are_unchanged(&self) -> bool {
        let behind = self.from + self.length;
        self.whole[..self.from] == self.copy[..self.from] && self.whole[behind..] == self.copy[behind..]
    }
}

/// What hookup_check returns.
pub fn check(record: &Lent) -> u32 {
    unsafe { hookup_check(record.pointer(), record.length) }
}

/// What hookup_join returns; it writes to `out`.
pub fn join(a: &Lent, b: &Lent, out: &mut Lent) -> u32 {
    unsafe { hookup_join(a.pointer(), a.length, b.pointer(), b.length, out.pointer_to_write(), out.length) }
}

/// What hookup_closure returns; it writes to `out`.
pub fn closure(record: &Lent, out: &mut Lent) -> u32 {
    unsafe { hookup_closure(record.pointer(), record.length, out.pointer_to_write(), out.length) }
}

/// What hookup_explain returns; it writes to `out`.
pub fn explain(record: &Lent, out: &mut Lent) -> u32 {
    unsafe { hookup_explain(record.pointer(), record.length, out.pointer_to_write(), out.length) }
}

/// What hookup_run returns; it writes to `shelf` and to `answers`.
pub fn run(script: &Lent, shelf: &mut Lent, answers: &mut Lent) -> u32 {
    let (shelflen, answerslen) = (shelf.length, answers.length);
    unsafe {
        hookup_run(
            script.pointer(),
            script.length,
            shelf.pointer_to_write(),
            shelflen,
            answers.pointer_to_write(),
            answerslen,
        )
    }
}

/// What hookup_count returns; it writes to `out`.
pub fn count(shelf: &Lent, out: &mut Lent) -> u32 {
    unsafe { hookup_count(shelf.pointer(), shelf.length, out.pointer_to_write(), out.length) }
}

/// What hookup_part returns; it writes to `out`.
pub fn part(shelf: &Lent, i: usize, out: &mut Lent) -> u32 {
    unsafe { hookup_part(shelf.pointer(), shelf.length, i, out.pointer_to_write(), out.length) }
}

/// Runs a program on an input; its output, or how it failed.
pub fn run_program(path: &str, input: &[u8]) -> Result<Vec<u8>, String> {
    let mut child = Command::new(path)
        .stdin(Stdio::piped())
        .stdout(Stdio::piped())
        .stderr(Stdio::null())
        .spawn()
        .map_err(|error| format!("cannot run {}: {}", path, error))?;
    let mut to_child = child.stdin.take().unwrap();
    let mut from_child = child.stdout.take().unwrap();
    let mut output = Vec::new();
    std::thread::scope(|scope| {
        scope.spawn(move || {
            // A program may stop reading early; what it then prints is compared all the same.
            let _ = to_child.write_all(input);
        });
        from_child.read_to_end(&mut output).map_err(|error| format!("reading from {}: {}", path, error))
    })?;
    let status = child.wait().map_err(|error| format!("waiting for {}: {}", path, error))?;
    match status.code() {
        Some(_) => Ok(output),
        None => Err(format!("{} was killed: {}", path, status)),
    }
}
