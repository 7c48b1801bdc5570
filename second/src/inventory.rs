//! What lies on a shelf, in numbers: how many records, and where one of them lies.
//! Document 01, "The shelf" (Count and Part), and the C header, `hookup_count` and `hookup_part`.

use crate::record::push_u64;
use crate::shelf;

/// The bytes of a count: one number of eight bytes.
pub const COUNT: usize = 8;

/// The bytes of a place: two numbers of eight bytes.
pub const PLACE: usize = 16;

/// The C header, the answer where the numbers are written.
pub const DONE: u32 = 0;

/// Writes numbers to the buffer's start, the lowest byte of each first.
fn put(out: &mut [u8], numbers: &[u64]) {
    let mut bytes = Vec::new();
    for &number in numbers {
        push_u64(&mut bytes, number);
    }
    for i in 0..bytes.len() {
        out[i] = bytes[i];
    }
}

/// The C header, `hookup_count`. In this order: 12, 15, the number of records. The records are not checked.
pub fn count(shelf: &[u8], out: &mut [u8]) -> u32 {
    let count = match shelf::count(shelf) {
        Some(count) => count,
        None => return 12,
    };
    if out.len() < COUNT {
        return 15;
    }
    put(out, &[count as u64]);
    DONE
}

/// The C header, `hookup_part`. In this order: 12, 13, 15, the record's place and its length. The record is not checked.
pub fn part(shelf: &[u8], i: usize, out: &mut [u8]) -> u32 {
    let walk = match shelf::walk(shelf) {
        Some(walk) => walk,
        None => return 12,
    };
    if i >= walk.records.len() {
        return 13;
    }
    if out.len() < PLACE {
        return 15;
    }
    let record = &walk.records[i];
    put(out, &[record.start as u64, record.len() as u64]);
    DONE
}

#[cfg(test)]
mod tests {
    use super::*;
    use crate::examples;

    fn counted(shelf: &[u8], room: usize) -> (u32, Vec<u8>) {
        let mut out = vec![0x77; room];
        (count(shelf, &mut out), out)
    }

    fn placed(shelf: &[u8], i: usize, room: usize) -> (u32, Vec<u8>) {
        let mut out = vec![0x77; room];
        (part(shelf, i, &mut out), out)
    }

    /// P, a record that says nothing, one of kind 0 with a byte, the end record, and a byte behind it.
    fn shelf() -> Vec<u8> {
        [&examples::p()[..], &[0, 0, 0, 0, 1, 0], &[1, 0, 0, 0, 0, 0, 9], &[0; 6], &[9]].concat()
    }

    #[test]
    fn counts_by_hand() {
        assert_eq!(counted(&shelf(), 8), (0, vec![3, 0, 0, 0, 0, 0, 0, 0]));
        assert_eq!(counted(&shelf(), 10), (0, vec![3, 0, 0, 0, 0, 0, 0, 0, 0x77, 0x77]));
        assert_eq!(counted(&shelf(), 7), (15, vec![0x77; 7]));
        assert_eq!(counted(&[0; 6], 8), (0, vec![0; 8]));
        for room in [0, 7, 8] {
            assert_eq!(counted(&[0; 5], room), (12, vec![0x77; room]));
            assert_eq!(counted(&shelf()[..70], room), (12, vec![0x77; room]));
        }
    }

    #[test]
    fn places_by_hand() {
        let of = |i: usize| placed(&shelf(), i, PLACE).1.chunks(8).map(|bytes| bytes[0]).collect::<Vec<u8>>();
        assert_eq!(of(0), [0, 52]);
        assert_eq!(of(1), [52, 6]);
        assert_eq!(of(2), [58, 7]);
        assert_eq!(placed(&shelf(), 1, 17).1[..], [&[52, 0, 0, 0, 0, 0, 0, 0, 6][..], &[0; 7], &[0x77]].concat());
        for i in [3, 4, 1 << 32, usize::MAX] {
            assert_eq!(placed(&shelf(), i, 0), (13, Vec::new()));
            assert_eq!(placed(&shelf(), i, 16), (13, vec![0x77; 16]));
        }
        assert_eq!(placed(&shelf(), 2, 15), (15, vec![0x77; 15]));
        assert_eq!(placed(&shelf()[..70], 0, 15), (12, vec![0x77; 15]));
        assert_eq!(placed(&[], usize::MAX, 0), (12, Vec::new()));
    }

    /// The place and the length tell where Part's bytes lie.
    #[test]
    fn places_are_those_of_part() {
        let bytes = shelf();
        for i in 0..3 {
            let out = placed(&bytes, i, PLACE).1;
            let (place, length) = (out[0] as usize, out[8] as usize);
            assert_eq!(&bytes[place..place + length], shelf::part(&bytes, i));
        }
    }
}
