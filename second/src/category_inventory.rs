//! Categories of counts and of parts' places on shelves of any bytes, by the checker's own answers.

use crate::category::Names;
use crate::category_shelf::{failing_name, failing_names, met, no_end_name, no_end_of, wrong_name, wrong_walk_name};
use crate::inventory::{COUNT, DONE, PLACE};
use crate::judge::Judge;
use crate::make::{Failure, NO_ENDS};
use crate::record::{u16_at, FORMS, HEADER, KIND_AT};
use crate::wrong_inventory::{count_walks, counts, part_walks, parts};
use crate::wrong_walk::Found;

/// The greatest numbers of four and of eight bytes.
const MOST_OF_FOUR: usize = u32::MAX as usize;
const MOST: usize = usize::MAX;

fn no_end_names() -> Vec<String> {
    NO_ENDS.into_iter().map(|no_end| format!("refused 12, {}", no_end_name(no_end))).collect()
}

/// The names of records that a call passes over without checking them.
fn record_names() -> Vec<String> {
    let passing = FORMS.iter().map(|form| format!("record of kind {} that passes", form.kind));
    passing.chain(failing_names().into_iter().map(|failing| format!("record that fails, {}", failing))).collect()
}

fn record_name(judge: &mut Judge, bytes: &[u8]) -> String {
    match Failure::of(judge.verdict(bytes)) {
        None => format!("record of kind {} that passes", u16_at(bytes, KIND_AT)),
        Some(failure) => format!("record that fails, {}", failing_name(bytes, failure)),
    }
}

/// Every category of a count.
pub fn count_names() -> Vec<String> {
    let mut names = no_end_names();
    for name in [
        "refused 12, no room either",
        "refused 15, no buffer",
        "refused 15, one byte short",
        "refused 15, elsewhere",
        "0 records",
        "1 record",
        "2 records",
        "3 to 99 records",
        "100 to 999 records",
        "1000 records or more",
        "just enough room",
        "bytes behind the number",
        "end record at the shelf's end",
        "bytes behind the end record",
    ] {
        names.push(name.to_string());
    }
    names.extend(record_names());
    names.extend(counts().iter().map(|reading| wrong_name(reading.name)));
    names.extend(count_walks().iter().map(|reading| wrong_walk_name(reading.name)));
    names
}

/// The categories of a count by its number.
pub fn of_count(judge: &mut Judge, shelf: &[u8], room: usize, number: u32) -> Vec<String> {
    let mut names = Names::default();
    match number {
        12 => {
            names.add(true, &format!("refused 12, {}", no_end_name(no_end_of(shelf).unwrap())));
            names.add(room < COUNT, "refused 12, no room either");
        }
        15 => names.add(true, short_name(room, COUNT)),
        _ => names.0 = counted_names(judge, shelf, room),
    }
    names.0
}

fn short_name(room: usize, needed: usize) -> &'static str {
    match room {
        0 => "refused 15, no buffer",
        _ if room + 1 == needed => "refused 15, one byte short",
        _ => "refused 15, elsewhere",
    }
}

fn counted_names(judge: &mut Judge, shelf: &[u8], room: usize) -> Vec<String> {
    let mut names = Names::default();
    let found = met(shelf);
    let name = match found.walk.records.len() {
        0 => "0 records",
        1 => "1 record",
        2 => "2 records",
        3..=99 => "3 to 99 records",
        100..=999 => "100 to 999 records",
        _ => "1000 records or more",
    };
    names.add(true, name);
    names.add(room == COUNT, "just enough room");
    names.add(room > COUNT, "bytes behind the number");
    names.add(found.walk.end + HEADER == shelf.len(), "end record at the shelf's end");
    names.add(found.walk.end + HEADER < shelf.len(), "bytes behind the end record");
    let mut sorts: Vec<String> =
        found.walk.records.iter().map(|record| record_name(judge, &shelf[record.clone()])).collect();
    sorts.sort();
    sorts.dedup();
    names.0.extend(sorts);
    names.0
}

/// Every category of a part's place.
pub fn part_names() -> Vec<String> {
    let mut names = no_end_names();
    for name in [
        "refused 12, the part was met before",
        "refused 12, otherwise 13",
        "refused 12, no room either",
        "refused 13, i is the number of records",
        "refused 13, i is one more",
        "refused 13, i is 4294967295",
        "refused 13, i is 18446744073709551615",
        "refused 13, i is 4294967296 above a part's number",
        "refused 13, i is elsewhere",
        "refused 13, no record on the shelf",
        "refused 13, no room either",
        "refused 15, no buffer",
        "refused 15, one byte short",
        "refused 15, room for a number",
        "refused 15, elsewhere",
        "the one record",
        "the first record",
        "a record between",
        "the last record",
        "place 0",
        "place 256 to 65535",
        "place 65536 or above",
        "length 6",
        "length 256 to 65535",
        "length 65536 or above",
        "just enough room",
        "bytes behind the numbers",
    ] {
        names.push(name.to_string());
    }
    names.extend(record_names());
    names.extend(parts().iter().map(|reading| wrong_name(reading.name)));
    names.extend(part_walks().iter().map(|reading| wrong_walk_name(reading.name)));
    names
}

/// The categories of a part's place by the number that it answers with.
pub fn of_part(judge: &mut Judge, shelf: &[u8], i: usize, room: usize, number: u32) -> Vec<String> {
    let mut names = Names::default();
    let found = met(shelf);
    let count = found.walk.records.len();
    match number {
        12 => {
            names.add(true, &format!("refused 12, {}", no_end_name(no_end_of(shelf).unwrap())));
            names.add(i < count, "refused 12, the part was met before");
            names.add(i >= count, "refused 12, otherwise 13");
            names.add(room < PLACE, "refused 12, no room either");
        }
        13 => names.0 = missing_names(i, count, room),
        15 if room == COUNT => names.add(true, "refused 15, room for a number"),
        15 => names.add(true, short_name(room, PLACE)),
        DONE => names.0 = found_names(judge, shelf, &found, i, room),
        _ => unreachable!(),
    }
    names.0
}

fn missing_names(i: usize, count: usize, room: usize) -> Vec<String> {
    let mut names = Names::default();
    let name = match i {
        MOST => "refused 13, i is 18446744073709551615",
        MOST_OF_FOUR => "refused 13, i is 4294967295",
        _ if i == count => "refused 13, i is the number of records",
        _ if i == count + 1 => "refused 13, i is one more",
        _ if i > MOST_OF_FOUR && i - MOST_OF_FOUR - 1 < count => "refused 13, i is 4294967296 above a part's number",
        _ => "refused 13, i is elsewhere",
    };
    names.add(true, name);
    names.add(count == 0, "refused 13, no record on the shelf");
    names.add(room < PLACE, "refused 13, no room either");
    names.0
}

fn found_names(judge: &mut Judge, shelf: &[u8], found: &Found, i: usize, room: usize) -> Vec<String> {
    let mut names = Names::default();
    let count = found.walk.records.len();
    let record = &found.walk.records[i];
    let name = match i {
        0 if count == 1 => "the one record",
        0 => "the first record",
        _ if i + 1 == count => "the last record",
        _ => "a record between",
    };
    names.add(true, name);
    names.add(record.start == 0, "place 0");
    names.add((256..65_536).contains(&record.start), "place 256 to 65535");
    names.add(record.start >= 65_536, "place 65536 or above");
    names.add(record.len() == HEADER, "length 6");
    names.add((256..65_536).contains(&record.len()), "length 256 to 65535");
    names.add(record.len() >= 65_536, "length 65536 or above");
    names.add(room == PLACE, "just enough room");
    names.add(room > PLACE, "bytes behind the numbers");
    names.add(true, &record_name(judge, &shelf[record.clone()]));
    names.0
}

#[cfg(test)]
mod tests {
    use super::*;
    use crate::category::Tally;
    use crate::examples;
    use crate::inventory;

    /// P that breaks rule 2, nothing of kind 1, a byte of kind 0, the end record.
    fn shelf() -> Vec<u8> {
        [&examples::p_with_classes_0_1()[..], &[0, 0, 0, 0, 1, 0], &[1, 0, 0, 0, 0, 0, 7], &[0; 6]].concat()
    }

    #[test]
    fn names_are_different() {
        for names in [count_names(), part_names()] {
            let mut tally = Tally::new();
            for name in names {
                tally.need(&name, 1);
            }
        }
    }

    #[test]
    fn counts_by_hand() {
        let of = |shelf: &[u8], room: usize| {
            let number = inventory::count(shelf, &mut vec![0; room]);
            let found = of_count(&mut Judge::default(), shelf, room, number);
            assert!(found.iter().all(|name| count_names().contains(name)), "{:?}", found);
            found
        };
        assert_eq!(of(&[], 7), ["refused 12, shelf of 0 bytes", "refused 12, no room either"]);
        assert_eq!(of(&[0; 6], 7), ["refused 15, one byte short"]);
        assert_eq!(of(&[0; 6], 4), ["refused 15, elsewhere"]);
        assert_eq!(of(&[0; 7], 8), ["0 records", "just enough room", "bytes behind the end record"]);
        assert_eq!(
            of(&shelf(), 9),
            [
                "3 to 99 records",
                "bytes behind the number",
                "end record at the shelf's end",
                "record that fails, breaks rule 2, kind 1",
                "record that fails, refused 3, kind 0",
                "record that fails, refused 4, kind 1",
            ]
        );
    }

    #[test]
    fn places_by_hand() {
        let of = |shelf: &[u8], i: usize, room: usize| {
            let number = inventory::part(shelf, i, &mut vec![0; room]);
            let found = of_part(&mut Judge::default(), shelf, i, room, number);
            assert!(found.iter().all(|name| part_names().contains(name)), "{:?}", found);
            found
        };
        assert_eq!(
            of(&shelf()[..70], 2, 16),
            ["refused 12, 1 to 5 bytes behind the last record", "refused 12, the part was met before"]
        );
        assert_eq!(of(&shelf(), 3, 16), ["refused 13, i is the number of records"]);
        assert_eq!(of(&shelf(), 4, 15), ["refused 13, i is one more", "refused 13, no room either"]);
        assert_eq!(of(&shelf(), (1 << 32) + 2, 16), ["refused 13, i is 4294967296 above a part's number"]);
        assert_eq!(of(&shelf(), (1 << 32) + 3, 16), ["refused 13, i is elsewhere"]);
        assert_eq!(of(&[0; 6], 0, 16)[1], "refused 13, no record on the shelf");
        assert_eq!(of(&shelf(), 1, 8), ["refused 15, room for a number"]);
        assert_eq!(of(&shelf(), 1, 15), ["refused 15, one byte short"]);
        assert_eq!(
            of(&shelf(), 1, 16),
            ["a record between", "length 6", "just enough room", "record that fails, refused 4, kind 1"]
        );
        assert_eq!(of(&shelf(), 0, 17)[..2], ["the first record", "place 0"]);
        assert_eq!(of(&shelf(), 2, 17)[0], "the last record");
    }
}
