//! A script as the bytes that `replay` reads; `docs/FORMAT.md` has them. The file of a part has no place there.

use std::fmt;

use crate::proved;
use crate::shelf::{Call, Given, Loaded, Script, MAX_CAPACITY};

/// `replay` reads no longer script.
pub const MAX_BYTES: usize = 262_144;

const CLEAR: u8 = 0;
const LOAD: u8 = 1;
const HOOKUP: u8 = 2;
const COUNT: u8 = 3;
const PART: u8 = 4;

/// The bytes of a number.
const NUMBER: usize = 4;

/// What is wrong with the bytes, and from which one on.
#[derive(Clone, PartialEq, Eq, Debug)]
pub struct Misplaced {
    pub byte: usize,
    pub message: String,
}

impl fmt::Display for Misplaced {
    fn fmt(&self, f: &mut fmt::Formatter) -> fmt::Result {
        write!(f, "byte {}: {}", self.byte, self.message)
    }
}

/// The bytes from a place on.
struct Rest<'a> {
    bytes: &'a [u8],
    at: usize,
}

impl<'a> Rest<'a> {
    fn fault<T>(&self, message: String) -> Result<T, Misplaced> {
        Err(Misplaced { byte: self.at, message })
    }

    /// Are there so many bytes for what begins here?
    fn has(&self, thing: &str, needed: usize) -> Result<(), Misplaced> {
        let left = self.bytes.len() - self.at;
        match needed <= left {
            true => Ok(()),
            false => self.fault(format!("{thing} is cut off: expected {needed} bytes, found {left}")),
        }
    }

    /// A number, so many bytes from here.
    fn number(&self, offset: usize) -> u32 {
        u32::from_le_bytes(std::array::from_fn(|k| self.bytes[self.at + offset + k]))
    }

    fn pass(&mut self, length: usize) -> &'a [u8] {
        self.at += length;
        &self.bytes[self.at - length..self.at]
    }

    fn capacity(&mut self) -> Result<usize, Misplaced> {
        self.has("the capacity", NUMBER)?;
        let capacity = self.number(0) as usize;
        if capacity > MAX_CAPACITY {
            return self.fault(format!("expected a capacity from 0 to {MAX_CAPACITY}, found {capacity}"));
        }
        self.pass(NUMBER);
        Ok(capacity)
    }

    fn call(&mut self) -> Result<Call<Given>, Misplaced> {
        let operation = self.bytes[self.at];
        let (word, numbers) = match operation {
            CLEAR => ("clear", 0),
            LOAD => ("load", 1),
            HOOKUP => ("hookup", 2),
            COUNT => ("count", 0),
            PART => ("part", 1),
            other => return self.fault(format!("expected an operation from {CLEAR} to {PART}, found {other}")),
        };
        let length = 1 + numbers * NUMBER;
        self.has(word, length)?;
        let number = |i: usize| self.number(1 + i * NUMBER);
        let call = match operation {
            CLEAR => Call::Clear,
            LOAD => return self.load(length, number(0) as usize),
            HOOKUP => Call::Hookup(number(0), number(1)),
            COUNT => Call::Count,
            _ => Call::Part(number(0), None),
        };
        self.pass(length);
        Ok(call)
    }

    /// A load, with the record behind its head.
    fn load(&mut self, head: usize, record: usize) -> Result<Call<Given>, Misplaced> {
        self.has("load", head + record)?;
        let bytes = self.pass(head + record);
        Ok(Call::Load(Given::Bytes(bytes[head..].to_vec())))
    }
}

/// Reads a script up to its last byte.
pub fn read(bytes: &[u8]) -> Result<Script<Given>, Misplaced> {
    let mut rest = Rest { bytes, at: 0 };
    let capacity = rest.capacity()?;
    let mut calls = Vec::new();
    while rest.at < bytes.len() {
        calls.push(rest.call()?);
    }
    Ok(Script { capacity, calls })
}

fn operation(call: &Call<Loaded>) -> Vec<u8> {
    match call {
        Call::Clear => proved::script(proved::Call::Clear),
        Call::Load(loaded) => proved::script(proved::Call::Load(&loaded.source.record)),
        Call::Hookup(i, j) => proved::script(proved::Call::Hookup(*i, *j)),
        Call::Count => vec![COUNT],
        Call::Part(i, _) => [&[PART][..], &i.to_le_bytes()].concat(),
    }
}

/// The bytes of a script.
pub fn write(script: &Script<Loaded>) -> Vec<u8> {
    let capacity = (script.capacity as u32).to_le_bytes();
    capacity.into_iter().chain(script.calls.iter().flat_map(operation)).collect()
}

#[cfg(test)]
mod tests {
    use super::*;
    use crate::shelf::script;

    fn of_text(text: &str) -> Vec<u8> {
        write(&script::read(text.as_bytes(), false).unwrap().loaded())
    }

    fn text_of(bytes: &[u8]) -> String {
        script::write(&read(bytes).unwrap().loaded())
    }

    fn said(bytes: &[u8]) -> String {
        read(bytes).unwrap_err().to_string()
    }

    /// Each field at its place, lowest byte first.
    #[test]
    fn the_bytes_of_each_call() {
        let text = "capacity 262144\nclear\nload bytes 0708\nhookup 513 67305985\ncount\npart 4294967295\n";
        let expected = [
            &[0, 0, 4, 0][..],
            &[0],
            &[1, 2, 0, 0, 0, 7, 8],
            &[2, 1, 2, 0, 0, 1, 2, 3, 4],
            &[3],
            &[4, 255, 255, 255, 255],
        ];
        assert_eq!(of_text(text), expected.concat());
        assert_eq!(text_of(&expected.concat()), text);
    }

    /// A part's file, names, blanks and comments are not in the bytes.
    #[test]
    fn what_is_left_out() {
        let bytes = of_text("capacity 6 # six\n\n  part 1 -o x\nload bytes\n");
        assert_eq!(bytes, [6, 0, 0, 0, 4, 1, 0, 0, 0, 1, 0, 0, 0, 0]);
        assert_eq!(text_of(&bytes), "capacity 6\npart 1\nload bytes\n");
        assert_eq!(of_text(&text_of(&bytes)), bytes);
    }

    #[test]
    fn a_record_that_looks_like_a_table() {
        let bytes = [&[0, 0, 0, 0, 1, 5, 0, 0, 0][..], b"part\n"].concat();
        assert_eq!(text_of(&bytes), "capacity 0\nload bytes 706172740a\n");
        assert_eq!(of_text(&text_of(&bytes)), bytes);
    }

    #[test]
    fn faults() {
        assert_eq!(said(&[]), "byte 0: the capacity is cut off: expected 4 bytes, found 0");
        assert_eq!(said(&[1, 0, 0]), "byte 0: the capacity is cut off: expected 4 bytes, found 3");
        assert_eq!(said(&[1, 0, 4, 0]), "byte 0: expected a capacity from 0 to 262144, found 262145");
        assert_eq!(said(&[0, 0, 0, 0, 3, 5]), "byte 5: expected an operation from 0 to 4, found 5");
        assert_eq!(said(&[0, 0, 0, 0, 0, 4, 0]), "byte 5: part is cut off: expected 5 bytes, found 2");
        assert_eq!(said(&[0, 0, 0, 0, 2, 0, 0, 0, 0, 0, 0, 0]), "byte 4: hookup is cut off: expected 9 bytes, found 8");
        assert_eq!(said(&[0, 0, 0, 0, 1, 1, 0, 0]), "byte 4: load is cut off: expected 5 bytes, found 4");
        let load = [0, 0, 0, 0, 1, 3, 0, 0, 0, 9, 9];
        assert_eq!(said(&load), "byte 4: load is cut off: expected 8 bytes, found 7");
        let most = [0, 0, 0, 0, 1, 255, 255, 255, 255, 9];
        assert_eq!(said(&most), "byte 4: load is cut off: expected 4294967300 bytes, found 6");
    }

    /// Every beginning of a script is read, or cut off at the call that its end is in.
    #[test]
    fn cut_scripts() {
        let text = "capacity 17\nclear\nload bytes 0708\nhookup 1 2\ncount\npart 3\n";
        let whole = of_text(text);
        let ends = [4, 5, 12, 21, 22, 27];
        for end in 0..=whole.len() {
            let begun = ends.iter().rev().find(|&&place| place <= end).copied().unwrap_or(0);
            match read(&whole[..end]) {
                Ok(_) => assert!(ends.contains(&end), "{end}"),
                Err(fault) => assert!(!ends.contains(&end) && fault.byte == begun, "{end}: {fault}"),
            }
        }
    }
}
