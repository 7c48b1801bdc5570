//! The five calls on a shelf's raw bytes.
//! Document 01, "The shelf", "Refusals out of the state", "Order".

use crate::answer::Answer;
use crate::bench::Call;
use crate::check::{self, Verdict};
use crate::join::{self, JoinAnswer};
use crate::record::{self, u16_at, u32_at, Part};
use std::ops::Range;

/// What a walk over the shelf found: where each record lies, and where the end record begins.
pub struct Walk {
    pub records: Vec<Range<usize>>,
    pub end: usize,
}

/// "The shelf", walking; none where refusal 12 applies.
pub fn walk(shelf: &[u8]) -> Option<Walk> {
    let mut records = Vec::new();
    let mut at: usize = 0;
    loop {
        if at + 6 > shelf.len() {
            return None;
        }
        let length = u32_at(shelf, at) as usize;
        let kind = u16_at(shelf, at + 4);
        if kind == 0 && length == 0 {
            return Some(Walk { records, end: at });
        }
        records.push(at..at + 6 + length);
        at = at + 6 + length;
    }
}

/// Clear. A short shelf is its one refusal; it does not walk.
pub fn clear(shelf: &mut [u8]) -> Answer {
    if shelf.len() < 6 {
        return Answer::Refused(12);
    }
    for i in 0..6 {
        shelf[i] = 0;
    }
    Answer::Cleared
}

/// "The shelf", Load and Hookup: writes a record where the end record was, and an end record behind it. Refusal 15 where
/// the two do not fit.
fn append(shelf: &mut [u8], walk: &Walk, record: &[u8]) -> Answer {
    if walk.end + record.len() + 6 > shelf.len() {
        return Answer::Refused(15);
    }
    for i in 0..record.len() {
        shelf[walk.end + i] = record[i];
    }
    for i in 0..6 {
        shelf[walk.end + record.len() + i] = 0;
    }
    Answer::Part(walk.records.len())
}

/// Load. "Order": the shelf first (12), then the record (Check), then the room (15).
pub fn load(shelf: &mut [u8], record: &[u8]) -> Answer {
    let walk = match walk(shelf) {
        Some(walk) => walk,
        None => return Answer::Refused(12),
    };
    match check::check(record) {
        Verdict::Refused(number) => return Answer::Refused(number),
        Verdict::Breaks(found) => return Answer::Breaks(found),
        Verdict::Pass => {}
    }
    append(shelf, &walk, record)
}

/// The part of a record on the shelf; none where refusal 14 applies.
fn passing_part(bytes: &[u8]) -> Option<Part> {
    if check::check(bytes) != Verdict::Pass {
        return None;
    }
    record::read(bytes).ok()
}

/// Hookup. "Order": the shelf (12), both numbers (13), both records (14), the pair (9 to 11), the room (15).
pub fn hookup(shelf: &mut [u8], i: usize, j: usize) -> Answer {
    let walk = match walk(shelf) {
        Some(walk) => walk,
        None => return Answer::Refused(12),
    };
    if i >= walk.records.len() {
        return Answer::Refused(13);
    }
    if j >= walk.records.len() {
        return Answer::Refused(13);
    }
    let a = match passing_part(&shelf[walk.records[i].clone()]) {
        Some(part) => part,
        None => return Answer::Refused(14),
    };
    let b = match passing_part(&shelf[walk.records[j].clone()]) {
        Some(part) => part,
        None => return Answer::Refused(14),
    };
    match join::refusal_of_pair(&a, &b) {
        Some(JoinAnswer::Clash(identifier)) => return Answer::Clash(identifier),
        Some(JoinAnswer::Refused(number)) => return Answer::Refused(number),
        Some(_) => unreachable!(),
        None => {}
    }
    append(shelf, &walk, &join::joined_record(&a, &b))
}

/// A call of a list of calls.
pub fn call(shelf: &mut [u8], call: &Call) -> Answer {
    match call {
        Call::Clear => clear(shelf),
        Call::Load(record) => load(shelf, record),
        Call::Hookup(i, j) => hookup(shelf, *i, *j),
    }
}

/// Count. None stands for refusal 12.
pub fn count(shelf: &[u8]) -> Option<usize> {
    match walk(shelf) {
        Some(walk) => Some(walk.records.len()),
        None => None,
    }
}

/// Part. Empty stands for refusals 12 and 13.
pub fn part(shelf: &[u8], i: usize) -> &[u8] {
    match walk(shelf) {
        Some(walk) if i < walk.records.len() => &shelf[walk.records[i].clone()],
        _ => &shelf[0..0],
    }
}

#[cfg(test)]
mod tests {
    use super::*;
    use crate::examples;

    #[test]
    fn examples_of_shelf_length() {
        let z = examples::z();
        let mut shelf = vec![0xAA; 17];
        assert_eq!(clear(&mut shelf), Answer::Cleared);
        assert_eq!(load(&mut shelf, &z), Answer::Part(0));
        assert_eq!(&shelf[..11], &z[..]);
        assert_eq!(&shelf[11..], &[0; 6]);

        let mut shelf = vec![0xAA; 16];
        assert_eq!(clear(&mut shelf), Answer::Cleared);
        let before = shelf.clone();
        assert_eq!(load(&mut shelf, &z), Answer::Refused(15));
        assert_eq!(shelf, before);
    }

    #[test]
    fn short_shelves() {
        let mut five = vec![0; 5];
        assert_eq!(clear(&mut five), Answer::Refused(12));
        assert_eq!(load(&mut five, &[]), Answer::Refused(12));
        assert_eq!(load(&mut five, &examples::p_mislabelled()), Answer::Refused(12));
        assert_eq!(hookup(&mut five, 0, 0), Answer::Refused(12));
        assert_eq!(count(&five), None);
        assert!(part(&five, 0).is_empty());
        let mut six = vec![9; 6];
        assert_eq!(count(&six), None);
        assert_eq!(clear(&mut six), Answer::Cleared);
        assert_eq!(count(&six), Some(0));
        assert_eq!(load(&mut six, &[]), Answer::Refused(1));
        assert_eq!(load(&mut six, &examples::p_mislabelled()), Answer::Refused(16));
        assert_eq!(load(&mut six, &examples::p_with_classes_0_1()), answer_of_p_0_1());
        assert_eq!(load(&mut six, &examples::z()), Answer::Refused(15));
        assert_eq!(hookup(&mut six, 0, 0), Answer::Refused(13));
        assert_eq!(six, vec![0; 6]);
    }

    /// Parts of one observer and of two stand side by side; they do not join.
    #[test]
    fn lists_on_the_shelf() {
        let mut shelf = vec![0x55; 300];
        clear(&mut shelf);
        assert_eq!(load(&mut shelf, &examples::p_for_two()), Answer::Part(0));
        assert_eq!(load(&mut shelf, &examples::q_for_two()), Answer::Part(1));
        assert_eq!(load(&mut shelf, &examples::q()), Answer::Part(2));
        assert_eq!(load(&mut shelf, &examples::p_for_two_with(&[(11, 0)])), Answer::Refused(20));
        assert_eq!(hookup(&mut shelf, 0, 2), Answer::Refused(9));
        assert_eq!(hookup(&mut shelf, 2, 0), Answer::Refused(9));
        assert_eq!(hookup(&mut shelf, 0, 1), Answer::Part(3));
        assert_eq!(part(&shelf, 3), &examples::p_for_two_with(&[(22, 2)])[..]);
        assert_eq!(count(&shelf), Some(4));
    }

    /// P for two observers, changed on the shelf: another kind, another count, equal observers, a bad level, a column not
    /// numbered by first appearance, a break for the first observer, a break for the second alone.
    #[test]
    fn refusal_14_for_a_list_on_the_shelf() {
        let mut shelf = vec![0x55; 300];
        clear(&mut shelf);
        load(&mut shelf, &examples::p_for_two());
        load(&mut shelf, &examples::q_for_two());
        for (at, byte) in [(4, 4), (6, 3), (11, 0x00), (11, 0x01), (14, 1), (13, 1), (19, 0x80)] {
            let mut changed = shelf.clone();
            changed[at] = byte;
            let before = changed.clone();
            for (i, j) in [(0, 1), (1, 0), (0, 0)] {
                assert_eq!(hookup(&mut changed, i, j), Answer::Refused(14), "byte {}", at);
            }
            assert_eq!(hookup(&mut changed, 0, 2), Answer::Refused(13));
            assert_eq!(changed, before);
        }
        assert_eq!(hookup(&mut shelf, 0, 1), Answer::Part(2));
    }

    /// Request l: limited parts stand beside others and are hooked up.
    #[test]
    fn limited_parts_on_the_shelf() {
        let mut shelf = vec![0x55; 300];
        clear(&mut shelf);
        assert_eq!(load(&mut shelf, &examples::guard()), Answer::Part(0));
        assert_eq!(load(&mut shelf, &examples::z()), Answer::Part(1));
        assert_eq!(load(&mut shelf, &examples::z_for_two()), Answer::Part(2));
        assert_eq!(load(&mut shelf, &examples::guard_with(&[(13, 2)])), Answer::Refused(21));
        assert_eq!(hookup(&mut shelf, 0, 1), Answer::Part(3));
        assert_eq!(hookup(&mut shelf, 0, 2), Answer::Refused(9));
        assert_eq!(hookup(&mut shelf, 2, 0), Answer::Refused(9));
        assert_eq!(hookup(&mut shelf, 0, 3), Answer::Clash(1));
        assert_eq!(part(&shelf, 3), &examples::guard()[..]);
        // Changed on the shelf: a fine class too high, and one fine class for both states.
        for byte in [2, 0] {
            let mut changed = shelf.clone();
            changed[13] = byte;
            assert_eq!(hookup(&mut changed, 0, 1), Answer::Refused(14));
            assert_eq!(hookup(&mut changed, 1, 0), Answer::Refused(14));
        }
    }

    fn answer_of_p_0_1() -> Answer {
        match check::check(&examples::p_with_classes_0_1()) {
            Verdict::Breaks(found) => Answer::Breaks(found),
            _ => panic!(),
        }
    }

    /// A walk passes over any record, whatever its kind, and ends at length 0 with kind 0 only.
    #[test]
    fn walking_over_foreign_records() {
        let mut shelf = vec![1, 0, 0, 0, 0, 0, 0xEE, 0, 0, 0, 0, 7, 0, 0, 0, 0, 0, 0, 0];
        assert_eq!(count(&shelf), Some(2));
        assert_eq!(part(&shelf, 0), &[1, 0, 0, 0, 0, 0, 0xEE]);
        assert_eq!(part(&shelf, 1), &[0, 0, 0, 0, 7, 0]);
        assert!(part(&shelf, 2).is_empty());
        assert_eq!(hookup(&mut shelf, 0, 2), Answer::Refused(13));
        assert_eq!(hookup(&mut shelf, 0, 1), Answer::Refused(14));
        // The end record is cut off.
        assert_eq!(count(&shelf[..18]), None);
        // A length that leads out of the shelf.
        let mut far = vec![0; 20];
        far[3] = 0xFF;
        assert_eq!(count(&far), None);
    }

    #[test]
    fn refusal_14_for_a_broken_record_on_the_shelf() {
        let p = examples::p();
        let mut shelf = vec![0x55; 300];
        clear(&mut shelf);
        assert_eq!(load(&mut shelf, &p), Answer::Part(0));
        assert_eq!(load(&mut shelf, &examples::q()), Answer::Part(1));
        shelf[11] = 1;
        let before = shelf.clone();
        assert_eq!(hookup(&mut shelf, 0, 1), Answer::Refused(14));
        assert_eq!(hookup(&mut shelf, 1, 0), Answer::Refused(14));
        assert_eq!(hookup(&mut shelf, 0, 2), Answer::Refused(13));
        assert_eq!(shelf, before);
        shelf[11] = 0;
        shelf[19] = 0x01;
        assert_eq!(hookup(&mut shelf, 0, 1), Answer::Refused(14));
        shelf[19] = 0;
        assert_eq!(hookup(&mut shelf, 0, 1), Answer::Part(2));
        assert_eq!(part(&shelf, 2), &examples::p_with_event_2_internal()[..]);
        assert_eq!(hookup(&mut shelf, 0, 0), Answer::Clash(1));
    }
}
