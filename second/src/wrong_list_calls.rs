//! Wrong readings of what the calls say of lists of observers, to count the inputs on which they would show. Nothing here
//! decides an answer. Document 02, request k.

use crate::check::{self, quiet_reaches, Break};
use crate::closure::{self, PIECE};
use crate::explain::sum_of_sizes;
use crate::join;
use crate::record::{Observer, Part};
use crate::wrong_count::when_reported;

/// How many states were taken up, for a part with this first break.
pub type Count = fn(&Part, Option<Break>) -> u64;

pub const COUNTS: [(&str, Count); 6] = [
    ("the first observer's at a break of a later one", |part, found| when_reported(found, counts(part)[0])),
    ("the last observer's where it passes", |part, found| match found {
        None => last_count(part),
        Some(_) => right_count(part, found),
    }),
    ("the last observer's at a break", |part, found| match found {
        None => right_count(part, found),
        Some(_) => when_reported(found, last_count(part)),
    }),
    ("of all observers together", |part, found| when_reported(found, counts(part).iter().sum())),
    ("the greatest", |part, found| when_reported(found, counts(part).into_iter().max().unwrap())),
    ("the least", |part, found| when_reported(found, counts(part).into_iter().min().unwrap())),
];

/// The sum of the quiet reaches' sizes for each observer of the list.
pub fn counts(part: &Part) -> Vec<u64> {
    part.views().into_iter().map(|view| sum_of_sizes(&quiet_reaches(view))).collect()
}

fn last_count(part: &Part) -> u64 {
    counts(part)[part.observers.len() - 1]
}

fn right_count(part: &Part, found: Option<Break>) -> u64 {
    when_reported(found, sum_of_sizes(&quiet_reaches(check::told(part, found))))
}

/// The level that is told, for a part with this first break.
pub type Level = fn(&Part, Option<Break>) -> u8;

pub const LEVELS: [(&str, Level); 6] = [
    ("the first observer's", |part, found| found.map_or(0, |_| part.levels()[0])),
    ("the last observer's", |part, found| found.map_or(0, |_| part.levels()[part.observers.len() - 1])),
    ("the observer's place in the list", |part, found| found.map_or(0, |broken| place_of(part, broken) as u8)),
    ("the event's", |part, found| found.map_or(0, |broken| level_of_event(part, broken))),
    ("none", |_, _| 0),
    ("the first observer's where it passes", |part, found| found.map_or(part.levels()[0], |broken| broken.observer)),
];

/// The place in the list of the observer that a break tells.
pub fn place_of(part: &Part, broken: Break) -> usize {
    part.levels().iter().position(|&level| level == broken.observer).unwrap()
}

fn level_of_event(part: &Part, broken: Break) -> u8 {
    part.events.iter().find(|event| event.identifier == broken.identifier).unwrap().level
}

/// The closures of a part for several observers.
pub type Blocks = fn(&Part) -> Vec<u8>;

pub const BLOCKS: [(&str, Blocks); 5] = [
    ("the other way round", |part| part.views().into_iter().rev().flat_map(closure::block).collect()),
    ("the first one for each observer", |part| closure::block(part.view(0)).repeat(part.observers.len())),
    ("the last one for each observer", |part| {
        closure::block(part.view(part.observers.len() - 1)).repeat(part.observers.len())
    }),
    ("the first one alone", |part| closure::block(part.view(0))),
    ("state by state", |part| {
        let blocks: Vec<Vec<u8>> = part.views().into_iter().map(closure::block).collect();
        let piece = |s: usize, i: usize| &blocks[i][PIECE * s..PIECE * (s + 1)];
        (0..part.state_count()).flat_map(|s| (0..blocks.len()).flat_map(move |i| piece(s, i).to_vec())).collect()
    }),
];

/// Whether 9 is given for two parts.
pub type Differ = fn(&Part, &Part) -> bool;

pub const DIFFER: [(&str, Differ); 10] = [
    ("a common front is enough", |a, b| !is_front(a, b) && !is_front(b, a)),
    ("A's list may go on", |a, b| !is_front(b, a)),
    ("B's list may go on", |a, b| !is_front(a, b)),
    ("the first observer alone", |a, b| a.levels()[0] != b.levels()[0]),
    ("the last observer alone", |a, b| a.levels().last() != b.levels().last()),
    ("the first observer and the number of them", |a, b| {
        a.levels()[0] != b.levels()[0] || a.observers.len() != b.observers.len()
    }),
    ("the number of observers alone", |a, b| a.observers.len() != b.observers.len()),
    ("one common observer is enough", |a, b| !a.levels().iter().any(|level| b.levels().contains(level))),
    ("A's observers among B's are enough", |a, b| !a.levels().iter().all(|level| b.levels().contains(level))),
    ("B's observers among A's are enough", |a, b| !b.levels().iter().all(|level| a.levels().contains(level))),
];

/// Does the list of the second part begin with that of the first?
pub fn is_front(a: &Part, b: &Part) -> bool {
    b.levels().starts_with(&a.levels())
}

/// The number of B's classes with which column i is joined.
pub type ClassCount = fn(&Part, &Part, usize) -> usize;

pub const CLASS_COUNTS: [(&str, ClassCount); 5] = [
    ("of the first column", |_, b, _| b.observers[0].class_count()),
    ("of the last column", |_, b, _| b.observers[b.observers.len() - 1].class_count()),
    ("of the next column", |_, b, i| b.observers[(i + 1) % b.observers.len()].class_count()),
    ("the greatest of all columns", |_, b, _| b.observers.iter().map(Observer::class_count).max().unwrap()),
    ("A's", |a, _, i| a.observers[i].class_count()),
];

/// The wrong numbers of classes that would show in a column of the joined part.
pub fn class_counts_that_differ(a: &Part, b: &Part) -> Vec<&'static str> {
    let joined = |i: usize, kb: usize| join::joined_classes(&a.observers[i].classes, &b.observers[i].classes, kb);
    let shows = |count: ClassCount| {
        (0..a.observers.len()).any(|i| joined(i, count(a, b, i)) != joined(i, b.observers[i].class_count()))
    };
    CLASS_COUNTS.iter().filter(|(_, count)| shows(*count)).map(|(name, _)| *name).collect()
}

#[cfg(test)]
mod tests {
    use super::*;
    use crate::examples;
    use crate::record::{self, Event, Kind};

    /// T's output is quiet to the first observer, with a count of 4, and not to the second, with a count of 3.
    #[test]
    fn counts_by_hand() {
        let counted = |first, second| {
            let part = examples::t_for_two(first, second);
            COUNTS.map(|(_, count)| count(&part, check::first_break(&part)))
        };
        assert_eq!(counted([0, 0, 0], [0, 0, 1]), [4, 3, 3, 7, 4, 3]);
        assert_eq!(counted([0, 0, 0], [0, 1, 2]), [4, 3, 4, 7, 4, 3]);
        assert_eq!(counted([0, 0, 1], [0, 0, 1]), [4, 4, 3, 7, 4, 3]);
        let mut part = examples::t_for_two([0, 0, 0], [0, 0, 1]);
        part.events.push(Event { identifier: 9, kind: Kind::Input, level: 0 });
        part.steps.push(vec![vec![false; 3]; 3]);
        assert_eq!(COUNTS.map(|(_, count)| count(&part, check::first_break(&part))), [0; 6]);
    }

    /// T breaks rule 4 for the first observer, rule 5 for the second, or none. Its output has level 0x80.
    #[test]
    fn levels_by_hand() {
        let told = |first, second| {
            let mut part = examples::t_for_two(first, second);
            part.events[0].level = 0x80;
            part.observers[0].level = 0x41;
            part.observers[1].level = 0x81;
            LEVELS.map(|(_, level)| level(&part, check::first_break(&part)))
        };
        assert_eq!(told([0, 0, 1], [0, 0, 1]), [0x41, 0x81, 0, 0x80, 0, 0x41]);
        assert_eq!(told([0, 0, 0], [0, 0, 1]), [0x41, 0x81, 1, 0x80, 0, 0x81]);
        assert_eq!(told([0, 0, 0], [0, 1, 2]), [0, 0, 0, 0, 0, 0x41]);
    }

    #[test]
    fn blocks_by_hand() {
        let part = examples::t_for_two([0, 0, 0], [0, 1, 2]);
        let first = closure::block(part.view(0));
        let second = closure::block(part.view(1));
        let turn_about: Vec<u8> =
            first.chunks(PIECE).zip(second.chunks(PIECE)).flat_map(|(x, y)| [x, y].concat()).collect();
        let blocks = BLOCKS.map(|(_, blocks)| blocks(&part));
        assert_eq!(
            blocks,
            [
                [&second[..], &first].concat(),
                [&first[..], &first].concat(),
                [&second[..], &second].concat(),
                first,
                turn_about
            ]
        );
    }

    fn z(levels: &[u8]) -> Part {
        record::fields(&examples::z_for(levels))
    }

    /// Whether each wrong reading of 9 gives it.
    #[test]
    fn lists_that_differ_by_hand() {
        let given = |a: &[u8], b: &[u8]| DIFFER.map(|(_, differ)| differ(&z(a), &z(b)));
        // A common front, A longer, B longer; the first, the last, the first and how many, how many; one common; A's, B's.
        assert_eq!(given(&[0, 0x40], &[0, 0x40]), [false; 10]);
        assert_eq!(given(&[0, 0x40], &[0]), [false, false, true, false, true, true, true, false, true, false]);
        assert_eq!(given(&[0], &[0, 0x40]), [false, true, false, false, true, true, true, false, false, true]);
        assert_eq!(given(&[0, 0x40], &[0, 0x80]), [true, true, true, false, true, false, false, false, true, true]);
        assert_eq!(given(&[0, 0x40], &[0x40, 0x80]), [true, true, true, true, true, true, false, false, true, true]);
        assert_eq!(
            given(&[0, 0x40], &[0x00, 0x20, 0x40]),
            [true, true, true, false, false, true, true, false, false, true]
        );
        assert_eq!(given(&[0, 0x40], &[0x41, 0x80, 0x81]), [true; 10]);
    }

    /// B has two classes in its first column and three in its second.
    #[test]
    fn numbers_of_classes_by_hand() {
        let part = |first: &[u8], second: &[u8]| {
            let observers =
                [(0x00, first), (0x40, second)].map(|(level, classes)| Observer::new(level, classes.to_vec()));
            Part::for_observers(observers.to_vec(), 0, Vec::new())
        };
        let b = part(&[0, 0, 1], &[0, 1, 2]);
        assert_eq!(
            class_counts_that_differ(&part(&[0, 1], &[0, 1]), &b),
            ["of the first column", "of the last column", "of the next column", "the greatest of all columns", "A's"]
        );
        // Where A has one class, the number does not show.
        assert_eq!(class_counts_that_differ(&part(&[0, 0], &[0, 0]), &b), [""; 0]);
        assert_eq!(
            class_counts_that_differ(&part(&[0, 1], &[0, 0]), &b),
            ["of the last column", "of the next column", "the greatest of all columns"]
        );
    }
}
