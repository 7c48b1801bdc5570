//! Makes shelves of any bytes: records that pass, records that fail and bytes that a walk takes for records, with an end
//! record or without one.

use super::breaks::{breaking, Wanted};
use super::damages::{damage, set_length};
use super::kinds::{any_of_kinds, passing_of_kind};
use super::limited::breaking_limited_by;
use super::lists::{any_count, breaking_list_at};
use crate::check::{self, Verdict};
use crate::record::{self, kind_can_get, push_u16, push_u32, Part, FORMS, HEADER, ORDER};
use crate::rng::Rng;

/// Why a record on a shelf does not pass: its refusal, or the rule that it breaks.
#[derive(Clone, Copy, PartialEq, Eq, Debug)]
pub enum Failure {
    Refused(u32),
    Breaks(u32),
}

impl Failure {
    /// None where the record passes.
    pub fn of(verdict: Verdict) -> Option<Failure> {
        match verdict {
            Verdict::Pass => None,
            Verdict::Refused(number) => Some(Failure::Refused(number)),
            Verdict::Breaks(found) => Some(Failure::Breaks(found.rule)),
        }
    }
}

/// Every failure that a record of this kind can have on a shelf. 1 and 2 cannot come: what a walk takes for a record has six
/// bytes at least, and as many behind them as it says. 3 is for the other kinds.
pub fn failures_of(kind: u16) -> Vec<Failure> {
    let can_get = |number: &u32| *number > 3 && kind_can_get(kind, *number);
    let refused = ORDER.into_iter().filter(can_get).map(Failure::Refused);
    refused.chain((1..=5).map(Failure::Breaks)).collect()
}

/// How often a maker tries for a record that fails as it is meant to.
const MOST_TRIES: usize = 40;

/// A record of this kind, small, that is meant to fail so.
pub fn failing(rng: &mut Rng, kind: u16, failure: Failure) -> Vec<u8> {
    let mut bytes = Vec::new();
    for _ in 0..MOST_TRIES {
        bytes = match failure {
            Failure::Refused(number) => refused(rng, kind, number),
            Failure::Breaks(rule) => match broken(rng, kind, rule) {
                Some(part) => record::write(&part),
                None => continue,
            },
        };
        if Failure::of(check::check(&bytes)) == Some(failure) {
            break;
        }
    }
    bytes
}

fn refused(rng: &mut Rng, kind: u16, number: u32) -> Vec<u8> {
    let (n, m) = (rng.range(2, 4), rng.range(1, 4));
    let mut bytes = record::write(&passing_of_kind(rng, kind, n, m));
    damage(rng, &mut bytes, number);
    bytes
}

fn broken(rng: &mut Rng, kind: u16, rule: u32) -> Option<Part> {
    let (n, m) = (rng.range(3, 4), rng.range(3, 4));
    match kind {
        1 => {
            let wanted = Wanted::anywhere(rng, rule);
            breaking(rng, wanted, n, m)
        }
        2 => {
            let count = any_count(rng);
            let i = rng.below(count);
            breaking_list_at(rng, rule, i, count)
        }
        _ => breaking_limited_by(rng, rule, n, m),
    }
}

/// A record of a kind that is not described: kind 0, 4 or another one, with a body that another kind could have, or any. As
/// kind 0 it has a body in any case, since it would be the end record without.
pub fn undescribed(rng: &mut Rng) -> Vec<u8> {
    let kind = rng.pick(&[0, 0, 4, 255, 256, 257, 65_535]);
    let mut bytes = if rng.chance(1, 2) { record::write(&any_of_kinds(rng)) } else { foreign(rng, 1) };
    if kind == 0 && bytes.len() == HEADER {
        bytes.push(rng.byte());
        set_length(&mut bytes, 1);
    }
    bytes[4..HEADER].copy_from_slice(&u16::to_le_bytes(kind));
    bytes
}

/// A record of this kind with any bytes, often none, few or zeros.
pub fn foreign(rng: &mut Rng, kind: u16) -> Vec<u8> {
    let fewest = usize::from(kind == 0);
    let length = match rng.below(6) {
        0 | 1 => fewest,
        2 => rng.range(fewest, 5),
        3 => rng.range(200, 300),
        _ => rng.range(6, 40),
    };
    let mut bytes = Vec::new();
    push_u32(&mut bytes, length as u32);
    push_u16(&mut bytes, kind);
    if rng.chance(1, 3) {
        bytes.resize(HEADER + length, rng.pick(&[0, 0, 1, 0xFF]));
    } else {
        bytes.extend(rng.bytes(length));
    }
    bytes
}

/// A record that is a header alone, of any kind but 0.
pub fn bare(rng: &mut Rng) -> Vec<u8> {
    let mut bytes = vec![0; 4];
    push_u16(&mut bytes, rng.pick(&[1, 2, 3, 4, 255, 256, 512, 65_280, 65_535]));
    bytes
}

/// Anything that a walk takes for a record: one that passes, one that fails, any bytes.
pub fn any_on_shelf(rng: &mut Rng) -> Vec<u8> {
    let kind = rng.pick(&FORMS).kind;
    match rng.below(9) {
        0..=2 => record::write(&any_of_kinds(rng)),
        3 | 4 => {
            let failure = rng.pick(&failures_of(kind));
            failing(rng, kind, failure)
        }
        5 => undescribed(rng),
        6 => foreign(rng, kind),
        7 => bare(rng),
        _ => foreign(rng, 0),
    }
}

/// A number of such records.
pub fn any_records(rng: &mut Rng, count: usize) -> Vec<Vec<u8>> {
    (0..count).map(|_| any_on_shelf(rng)).collect()
}

/// These records, an end record, and some bytes behind it.
pub fn shelf_of(records: &[Vec<u8>], behind: &[u8]) -> Vec<u8> {
    [&records.concat()[..], &[0; HEADER], behind].concat()
}

/// Bytes that may stand behind an end record: none, zeros, any, or records.
pub fn behind_the_end(rng: &mut Rng) -> Vec<u8> {
    match rng.below(5) {
        0 => Vec::new(),
        1 => vec![0; rng.range(1, 30)],
        2 => {
            let count = rng.range(1, 2);
            shelf_of(&any_records(rng, count), &[])
        }
        _ => {
            let count = rng.range(1, 200);
            rng.bytes(count)
        }
    }
}

/// How it comes that a walk finds no end record.
#[derive(Clone, Copy, PartialEq, Eq, Debug)]
pub enum NoEnd {
    /// The shelf has no byte.
    Nothing,
    /// It has one to five bytes.
    UnderSix,
    /// The first record runs past the shelf.
    FirstRunsPast,
    /// A later one does.
    LaterRunsPast,
    /// One to five bytes are left behind the last record.
    FewLeft,
    /// No byte is.
    NoneLeft,
}

pub const NO_ENDS: [NoEnd; 6] =
    [NoEnd::Nothing, NoEnd::UnderSix, NoEnd::FirstRunsPast, NoEnd::LaterRunsPast, NoEnd::FewLeft, NoEnd::NoneLeft];

/// A shelf without an end record, in this way. Where records come first, there is one of these at least.
pub fn without_end(rng: &mut Rng, records: &[Vec<u8>], no_end: NoEnd) -> Vec<u8> {
    let mut shelf = match no_end {
        NoEnd::Nothing | NoEnd::UnderSix | NoEnd::FirstRunsPast => Vec::new(),
        NoEnd::LaterRunsPast | NoEnd::FewLeft | NoEnd::NoneLeft => records.concat(),
    };
    match no_end {
        NoEnd::Nothing | NoEnd::NoneLeft => {}
        NoEnd::UnderSix | NoEnd::FewLeft => {
            let count = rng.range(1, HEADER - 1);
            let left = if rng.chance(1, 2) { vec![0; count] } else { rng.bytes(count) };
            shelf.extend(left);
        }
        NoEnd::FirstRunsPast | NoEnd::LaterRunsPast => shelf.extend(runs_past(rng)),
    }
    shelf
}

/// The beginning of a record that says more bytes than there are: one more, some more, or so many that its whole length
/// would be 2^32 or just above.
fn runs_past(rng: &mut Rng) -> Vec<u8> {
    let count = rng.range(0, 40);
    let body = if rng.chance(2, 3) { vec![0; count] } else { rng.bytes(count) };
    let length = match rng.below(6) {
        0 => count as u32 + 1,
        1 => count as u32 + 1 + rng.below(300) as u32,
        2 => 1 << rng.range(16, 31),
        _ => u32::MAX - rng.pick(&[0, 0, 0, 1, 2, 5]),
    };
    let mut bytes = Vec::new();
    push_u32(&mut bytes, length);
    push_u16(&mut bytes, rng.pick(&[0, 1, 1, 2, 3, 4, 65_535]));
    bytes.extend(body);
    bytes
}

/// Bytes of any kind as a shelf: random ones, or one byte over and over.
pub fn any_bytes(rng: &mut Rng) -> Vec<u8> {
    let count = rng.below(60);
    if rng.chance(1, 2) {
        vec![rng.pick(&[0, 0, 1, 0x55, 0xAA, 0xFF]); count]
    } else {
        // Small numbers make short records, so that a walk gets somewhere.
        (0..count)
            .map(|_| if rng.chance(1, 30) { rng.byte() } else { rng.pick(&[0, 0, 0, 0, 0, 0, 0, 1, 2]) })
            .collect()
    }
}

/// So many records of a few sorts.
pub fn many_records(rng: &mut Rng, count: usize) -> Vec<Vec<u8>> {
    let sorts = any_records(rng, 8);
    (0..count).map(|_| sorts[rng.below(sorts.len())].clone()).collect()
}

/// A record of 65,536 bytes or more, longer than any that passes.
pub fn long(rng: &mut Rng) -> Vec<u8> {
    let length = 65_536 + rng.below(3000);
    let mut bytes = Vec::new();
    push_u32(&mut bytes, length as u32);
    push_u16(&mut bytes, rng.pick(&[0, 1, 4]));
    bytes.resize(HEADER + length, rng.byte());
    bytes
}

#[cfg(test)]
mod tests {
    use super::*;
    use crate::shelf::walk;

    #[test]
    fn records_fail_as_meant() {
        let mut rng = Rng::new(121);
        for form in FORMS {
            for failure in failures_of(form.kind) {
                let as_meant = (0..40)
                    .map(|_| failing(&mut rng, form.kind, failure))
                    .filter(|bytes| Failure::of(check::check(bytes)) == Some(failure) && is_one_record(bytes))
                    .count();
                assert!(as_meant >= 39, "kind {}, {:?}: {}", form.kind, failure, as_meant);
            }
        }
        for _ in 0..200 {
            assert_eq!(check::check(&undescribed(&mut rng)), Verdict::Refused(3));
        }
    }

    /// Does a walk take these bytes for one record?
    fn is_one_record(bytes: &[u8]) -> bool {
        let shelf = shelf_of(&[bytes.to_vec()], &[]);
        walk(&shelf).is_some_and(|walk| walk.records == vec![0..bytes.len()])
    }

    #[test]
    fn anything_on_a_shelf_is_walked_over() {
        let mut rng = Rng::new(122);
        for _ in 0..500 {
            let records = any_records(&mut rng, 3);
            let behind = behind_the_end(&mut rng);
            let shelf = shelf_of(&records, &behind);
            let walk = walk(&shelf).unwrap();
            let found: Vec<Vec<u8>> = walk.records.into_iter().map(|record| shelf[record].to_vec()).collect();
            assert_eq!(found, records);
            assert!(records.iter().all(|bytes| is_one_record(bytes)));
            // 1 and 2 cannot come for a record that was walked over.
            for bytes in &records {
                let failure = Failure::of(check::check(bytes));
                assert!(failure != Some(Failure::Refused(1)) && failure != Some(Failure::Refused(2)));
            }
        }
    }

    #[test]
    fn shelves_without_end() {
        let mut rng = Rng::new(123);
        for round in 0..600 {
            let records = any_records(&mut rng, 2);
            assert!(walk(&without_end(&mut rng, &records, NO_ENDS[round % 6])).is_none());
        }
        let ended = (0..400).filter(|_| walk(&any_bytes(&mut rng)).is_some()).count();
        assert!((80..320).contains(&ended), "{}", ended);
    }
}
