//! Wrong readings of a shelf's count and of a part's place, to count the inputs on which they would show. Nothing here
//! decides an answer.

use crate::inventory::{COUNT, DONE, PLACE};
use crate::judge::Judge;
use crate::record::{is_described, u16_at, KIND_AT};
use crate::wrong_walk::{self, Found, Way, WAYS};
use std::ops::Range;

/// What a call leaves behind: its number and the buffer.
pub type Left = (u32, Vec<u8>);

/// What both calls ask of a shelf and of a buffer.
#[derive(Clone, Copy)]
struct Common {
    way: Way,
    /// The refusals in their order.
    order: &'static [u32],
    /// How many bytes the buffer must have.
    room: usize,
    /// How numbers are laid out, and whether zeros go behind them.
    bytes: fn(u64) -> Vec<u8>,
    clears_rest: bool,
}

const RIGHT_COMMON: Common = Common {
    way: wrong_walk::RIGHT,
    order: &[12, 13, 15],
    room: 0,
    bytes: |number| number.to_le_bytes().to_vec(),
    clears_rest: false,
};

impl Common {
    /// The first of the refusals that applies, by the shelf, the number and the buffer.
    fn refusal(&self, no_end: bool, missing: bool, room: usize) -> Option<u32> {
        self.order.iter().copied().find(|number| match number {
            12 => no_end,
            13 => missing,
            _ => room < self.room,
        })
    }

    /// The numbers at the buffer's start, as far as it goes.
    fn put(&self, numbers: &[u64], before: &[u8]) -> Left {
        let bytes: Vec<u8> = numbers.iter().flat_map(|&number| (self.bytes)(number)).collect();
        let mut out = before.to_vec();
        let length = bytes.len().min(out.len());
        out[..length].copy_from_slice(&bytes[..length]);
        if self.clears_rest {
            out[length..].fill(0);
        }
        (DONE, out)
    }
}

/// A reading of the count.
#[derive(Clone, Copy)]
pub struct CountReading {
    pub name: &'static str,
    common: Common,
    /// How many records there are, or a refusal.
    number: fn(&mut Judge, &[u8], &Found) -> Result<usize, u32>,
}

const RIGHT_COUNT: CountReading = CountReading {
    name: "right",
    common: Common { room: COUNT, ..RIGHT_COMMON },
    number: |_, _, found| Ok(found.walk.records.len()),
};

const COUNTS: [CountReading; 13] = [
    CountReading { name: "15 before 12", common: Common { order: &[15, 12], ..RIGHT_COUNT.common }, ..RIGHT_COUNT },
    CountReading { name: "no 12", common: Common { order: &[15], ..RIGHT_COUNT.common }, ..RIGHT_COUNT },
    CountReading { name: "room for four bytes", common: Common { room: 4, ..RIGHT_COUNT.common }, ..RIGHT_COUNT },
    CountReading {
        name: "room for a byte more",
        common: Common { room: COUNT + 1, ..RIGHT_COUNT.common },
        ..RIGHT_COUNT
    },
    CountReading { name: "room for two numbers", common: Common { room: PLACE, ..RIGHT_COUNT.common }, ..RIGHT_COUNT },
    CountReading { name: "four bytes", common: Common { bytes: four_bytes, ..RIGHT_COUNT.common }, ..RIGHT_COUNT },
    CountReading {
        name: "highest byte first",
        common: Common { bytes: highest_first, ..RIGHT_COUNT.common },
        ..RIGHT_COUNT
    },
    CountReading { name: "zeros behind it", common: Common { clears_rest: true, ..RIGHT_COUNT.common }, ..RIGHT_COUNT },
    CountReading {
        name: "the end record counts",
        number: |_, _, found| Ok(found.walk.records.len() + 1),
        ..RIGHT_COUNT
    },
    CountReading {
        name: "the number of the last part",
        number: |_, _, found| Ok(found.walk.records.len().saturating_sub(1)),
        ..RIGHT_COUNT
    },
    CountReading {
        name: "records that pass alone",
        number: |judge, shelf, found| Ok(passing(judge, shelf, found)),
        ..RIGHT_COUNT
    },
    CountReading {
        name: "14 where one does not pass",
        number: |judge, shelf, found| match found.walk.records.len() {
            count if passing(judge, shelf, found) == count => Ok(count),
            _ => Err(14),
        },
        ..RIGHT_COUNT
    },
    CountReading { name: "the bytes up to the end record", number: |_, _, found| Ok(found.walk.end), ..RIGHT_COUNT },
];

/// How many records pass.
fn passing(judge: &mut Judge, shelf: &[u8], found: &Found) -> usize {
    found.walk.records.iter().filter(|record| judge.passes(&shelf[(*record).clone()])).count()
}

fn four_bytes(number: u64) -> Vec<u8> {
    (number as u32).to_le_bytes().to_vec()
}

fn highest_first(number: u64) -> Vec<u8> {
    number.to_be_bytes().to_vec()
}

impl CountReading {
    /// The count by this reading.
    pub fn count(&self, judge: &mut Judge, shelf: &[u8], before: &[u8]) -> Left {
        let found = self.common.way.walk(shelf);
        if let Some(number) = self.common.refusal(!found.ended, false, before.len()) {
            return (number, before.to_vec());
        }
        match (self.number)(judge, shelf, &found) {
            Ok(number) => self.common.put(&[number as u64], before),
            Err(number) => (number, before.to_vec()),
        }
    }
}

/// A reading of a part's place.
#[derive(Clone, Copy)]
pub struct PartReading {
    pub name: &'static str,
    common: Common,
    /// The number that is meant by the one given.
    number: fn(usize) -> usize,
    /// Is it missing among so many?
    missing: fn(usize, usize) -> bool,
    /// Is 12 given, where the walk met so many records and no end?
    no_end: fn(usize, usize) -> bool,
    /// A refusal of the record.
    unfit: fn(&mut Judge, &[u8]) -> Option<u32>,
    /// The two numbers that tell its place.
    place: fn(&Range<usize>) -> [usize; 2],
}

const RIGHT_PART: PartReading = PartReading {
    name: "right",
    common: Common { room: PLACE, ..RIGHT_COMMON },
    number: |i| i,
    missing: |i, count| i >= count,
    no_end: |_, _| true,
    unfit: |_, _| None,
    place: |record| [record.start, record.len()],
};

const PARTS: [PartReading; 25] = [
    PartReading { name: "13 before 12", common: Common { order: &[13, 12, 15], ..RIGHT_PART.common }, ..RIGHT_PART },
    PartReading { name: "15 before 13", common: Common { order: &[12, 15, 13], ..RIGHT_PART.common }, ..RIGHT_PART },
    PartReading { name: "15 before 12", common: Common { order: &[15, 12, 13], ..RIGHT_PART.common }, ..RIGHT_PART },
    PartReading { name: "12 behind the part is passed over", no_end: |i, met| i >= met, ..RIGHT_PART },
    PartReading { name: "room for a number", common: Common { room: COUNT, ..RIGHT_PART.common }, ..RIGHT_PART },
    PartReading { name: "room for a byte less", common: Common { room: PLACE - 1, ..RIGHT_PART.common }, ..RIGHT_PART },
    PartReading { name: "room for a byte more", common: Common { room: PLACE + 1, ..RIGHT_PART.common }, ..RIGHT_PART },
    PartReading { name: "four bytes", common: Common { bytes: four_bytes, ..RIGHT_PART.common }, ..RIGHT_PART },
    PartReading {
        name: "highest byte first",
        common: Common { bytes: highest_first, ..RIGHT_PART.common },
        ..RIGHT_PART
    },
    PartReading { name: "zeros behind it", common: Common { clears_rest: true, ..RIGHT_PART.common }, ..RIGHT_PART },
    PartReading { name: "13 from one number later on", missing: |i, count| i > count, ..RIGHT_PART },
    PartReading {
        name: "13 from one number earlier on",
        missing: |i, count| i.saturating_add(1) >= count,
        ..RIGHT_PART
    },
    PartReading { name: "numbers from 1 on", number: |i| i.wrapping_sub(1), ..RIGHT_PART },
    PartReading { name: "numbers of one byte", number: |i| i % 256, ..RIGHT_PART },
    PartReading { name: "numbers of four bytes", number: |i| i % (1 << 32), ..RIGHT_PART },
    PartReading {
        name: "14 where it does not pass",
        unfit: |judge, bytes| (!judge.passes(bytes)).then_some(14),
        ..RIGHT_PART
    },
    PartReading {
        name: "13 where it does not pass",
        unfit: |judge, bytes| (!judge.passes(bytes)).then_some(13),
        ..RIGHT_PART
    },
    PartReading {
        name: "13 for another kind",
        unfit: |_, bytes| (!is_described(u16_at(bytes, KIND_AT))).then_some(13),
        ..RIGHT_PART
    },
    PartReading { name: "the place behind the header", place: |record| [record.start + 6, record.len()], ..RIGHT_PART },
    PartReading {
        name: "the length without the header",
        place: |record| [record.start, record.len() - 6],
        ..RIGHT_PART
    },
    PartReading {
        name: "place and length of the body",
        place: |record| [record.start + 6, record.len() - 6],
        ..RIGHT_PART
    },
    PartReading { name: "length before place", place: |record| [record.len(), record.start], ..RIGHT_PART },
    PartReading { name: "where it begins and ends", place: |record| [record.start, record.end], ..RIGHT_PART },
    PartReading { name: "places from 1 on", place: |record| [record.start + 1, record.len()], ..RIGHT_PART },
    PartReading { name: "a length of two bytes", place: |record| [record.start, record.len() % 65_536], ..RIGHT_PART },
];

impl PartReading {
    /// The part's place by this reading.
    pub fn part(&self, judge: &mut Judge, shelf: &[u8], i: usize, before: &[u8]) -> Left {
        let found = self.common.way.walk(shelf);
        let i = (self.number)(i);
        let count = found.walk.records.len();
        let no_end = !found.ended && (self.no_end)(i, count);
        if let Some(number) = self.common.refusal(no_end, (self.missing)(i, count), before.len()) {
            return (number, before.to_vec());
        }
        let end = found.walk.end..found.walk.end + 6;
        let record = found.walk.records.get(i).unwrap_or(&end);
        match (self.unfit)(judge, &shelf[record.clone()]) {
            Some(number) => (number, before.to_vec()),
            None => self.common.put(&(self.place)(record).map(|number| number as u64), before),
        }
    }
}

/// Every wrong reading of the count, those of the walk apart; then those of the walk.
pub fn counts() -> Vec<CountReading> {
    COUNTS.to_vec()
}

pub fn count_walks() -> Vec<CountReading> {
    let of = |way: Way| CountReading { name: way.name, common: Common { way, ..RIGHT_COUNT.common }, ..RIGHT_COUNT };
    WAYS.into_iter().map(of).collect()
}

/// The same of a part's place.
pub fn parts() -> Vec<PartReading> {
    PARTS.to_vec()
}

pub fn part_walks() -> Vec<PartReading> {
    let of = |way: Way| PartReading { name: way.name, common: Common { way, ..RIGHT_PART.common }, ..RIGHT_PART };
    WAYS.into_iter().map(of).collect()
}

/// What a call finds: the shelf, the number of a part, the buffer. A count asks for no number.
#[derive(Clone, Copy)]
pub struct Asked<'a> {
    pub shelf: &'a [u8],
    pub i: usize,
    pub before: &'a [u8],
}

/// The readings by which a count would leave something else behind.
pub fn counts_that_differ(
    judge: &mut Judge,
    readings: &[CountReading],
    asked: Asked,
    right: &Left,
) -> Vec<&'static str> {
    let mut differs = |reading: &CountReading| reading.count(judge, asked.shelf, asked.before) != *right;
    assert!(!differs(&RIGHT_COUNT), "the reading that is not wrong differs");
    readings.iter().filter(|reading| differs(reading)).map(|reading| reading.name).collect()
}

/// The readings by which a part's place would.
pub fn parts_that_differ(judge: &mut Judge, readings: &[PartReading], asked: Asked, right: &Left) -> Vec<&'static str> {
    let mut differs = |reading: &PartReading| reading.part(judge, asked.shelf, asked.i, asked.before) != *right;
    assert!(!differs(&RIGHT_PART), "the reading that is not wrong differs");
    readings.iter().filter(|reading| differs(reading)).map(|reading| reading.name).collect()
}

#[cfg(test)]
mod tests {
    use super::*;
    use crate::examples;
    use crate::inventory;

    fn of_count(shelf: &[u8], room: usize) -> Vec<&'static str> {
        let before = vec![0x33; room];
        let mut out = before.clone();
        let number = inventory::count(shelf, &mut out);
        counts_that_differ(&mut Judge::default(), &counts(), Asked { shelf, i: 0, before: &before }, &(number, out))
    }

    fn of_part(shelf: &[u8], i: usize, room: usize) -> Vec<&'static str> {
        let before = vec![0x33; room];
        let mut out = before.clone();
        let number = inventory::part(shelf, i, &mut out);
        parts_that_differ(&mut Judge::default(), &parts(), Asked { shelf, i, before: &before }, &(number, out))
    }

    /// Z, a record that says nothing, and the end record.
    fn shelf() -> Vec<u8> {
        [&examples::z()[..], &[0, 0, 0, 0, 4, 0], &[0; 6]].concat()
    }

    #[test]
    fn counts_by_hand() {
        let numbers = ["the end record counts", "the number of the last part", "records that pass alone"];
        let all = of_count(&shelf(), 9);
        for name in numbers.iter().chain(&["14 where one does not pass", "zeros behind it", "four bytes"]) {
            assert!(all.contains(name), "{}", name);
        }
        assert!(of_count(&shelf(), 8).contains(&"room for a byte more"));
        assert_eq!(of_count(&shelf(), 7), ["room for four bytes"]);
        assert_eq!(of_count(&shelf()[..22], 0), ["15 before 12", "no 12"]);
        assert_eq!(of_count(&[0; 6], 20), ["four bytes", "zeros behind it", "the end record counts"]);
    }

    #[test]
    fn places_by_hand() {
        assert_eq!(of_part(&shelf(), 2, 16), ["13 from one number later on", "numbers from 1 on"]);
        assert_eq!(
            of_part(&shelf(), 2, 0),
            ["15 before 13", "15 before 12", "13 from one number later on", "numbers from 1 on"]
        );
        assert_eq!(of_part(&shelf(), 1 << 32, 16), ["numbers of one byte", "numbers of four bytes"]);
        assert_eq!(of_part(&shelf()[..22], 0, 16), ["12 behind the part is passed over"]);
        assert_eq!(of_part(&shelf()[..22], 9, 0), ["13 before 12", "15 before 12"]);
        let short = of_part(&shelf(), 0, 15);
        for name in ["room for a number", "room for a byte less", "numbers from 1 on"] {
            assert!(short.contains(&name), "{}", name);
        }
        let first = of_part(&shelf(), 0, 16);
        for name in ["the place behind the header", "the length without the header", "length before place"] {
            assert!(first.contains(&name), "{}", name);
        }
        let second = of_part(&shelf(), 1, 17);
        for name in ["14 where it does not pass", "13 for another kind", "where it begins and ends", "zeros behind it"]
        {
            assert!(second.contains(&name), "{}", name);
        }
        assert!(second.contains(&"13 from one number earlier on"));
        assert!(!first.contains(&"where it begins and ends"));
    }
}
