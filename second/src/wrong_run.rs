//! Wrong readings of the calls on a shelf of any bytes and of their run, to count the inputs on which they would show.
//! Nothing here decides an answer.

use crate::answer::Answer;
use crate::bench::Call;
use crate::check::Verdict;
use crate::judge::Judge;
use crate::record::{push_u32, u16_at, HEADER, KIND_AT};
use crate::run::{answer_bytes, numbers, ANSWER, MALFORMED, NO_ROOM, RAN};
use crate::script::{next_operation, Next, Operation};
use crate::shelf;
use crate::wrong_walk::{self, Found, Way, WAYS};

/// The reasons that a call is refused for, to be put in order.
#[derive(Clone, Copy, PartialEq, Eq)]
enum Test {
    /// 12.
    Shelf,
    /// 14 for any record on the shelf.
    Others,
    /// Check's answer about a record to be loaded.
    Record,
    /// 13.
    Numbers,
    /// 14 for the records that are named.
    Records,
    /// 9, 10 and 11.
    Pair,
    /// 15.
    Room,
}

/// A reading of the calls and of their run.
#[derive(Clone, Copy)]
pub struct Reading {
    pub name: &'static str,
    way: Way,
    clear: fn(&mut [u8]) -> Answer,
    load: &'static [Test],
    hookup: &'static [Test],
    /// The numbers that are meant by those in the script.
    named: fn(usize, usize) -> (usize, usize),
    /// Is one of two numbers missing among so many?
    missing: fn(usize, usize, usize) -> bool,
    /// The records that 14 is tested for, by the two numbers and how many there are.
    tested: fn(usize, usize, usize) -> Vec<usize>,
    /// The answer for a record on the shelf, where there is one.
    unfit: fn(&[u8], Verdict) -> Option<Answer>,
    /// Does a record of that length fit, by where it goes and the shelf's length?
    fits: fn(usize, usize, usize) -> bool,
    /// Whether a call with this answer writes its record.
    writes: fn(Answer) -> bool,
    /// The bytes behind a record that was written.
    behind: fn(&mut [u8]),
    /// The number of a new part, by how many there are.
    new_number: fn(usize) -> usize,
    whole: Whole,
}

/// A reading of the run as a whole.
#[derive(Clone, Copy)]
struct Whole {
    /// What an operation is that is no whole call.
    other: Other,
    /// The bytes that so many answers take.
    needed: fn(usize) -> usize,
    /// Whether 15 comes before 99.
    room_first: bool,
    /// Whether calls are made where the whole is refused: those before what is malformed, those that have room.
    makes_some: bool,
    /// The number of a script that is refused for its calls, by the shelf too.
    refused: fn(&[Call], &[u8]) -> Option<u32>,
    /// Does the run stop behind a call with this answer?
    stops: fn(Answer) -> bool,
    /// The bytes of an answer, and how far it is from one to the next.
    bytes: fn(Answer, &[u8]) -> Vec<u8>,
    apart: usize,
    /// Whether zeros go behind the last answer.
    clears_rest: bool,
    /// Whether each call is made on the shelf as it was at first.
    apart_from_others: bool,
}

#[derive(Clone, Copy, PartialEq, Eq)]
enum Other {
    Malformed,
    PassedOver,
    CountsPassedOver,
    CutPassedOver,
}

const RIGHT: Reading = Reading {
    name: "right",
    way: wrong_walk::RIGHT,
    clear: shelf::clear,
    load: &[Test::Shelf, Test::Record, Test::Room],
    hookup: &[Test::Shelf, Test::Numbers, Test::Records, Test::Pair, Test::Room],
    named: |i, j| (i, j),
    missing: |i, j, count| i >= count || j >= count,
    tested: |i, j, _| vec![i, j],
    unfit: |_, verdict| unfit(verdict),
    fits: |end, length, all| end + length + HEADER <= all,
    writes: |answer| matches!(answer, Answer::Part(_)),
    behind: |rest| put(rest, &[0; HEADER]),
    new_number: |count| count,
    whole: RIGHT_WHOLE,
};

const RIGHT_WHOLE: Whole = Whole {
    other: Other::Malformed,
    needed: |calls| ANSWER * calls,
    room_first: false,
    makes_some: false,
    refused: |_, _| None,
    stops: |_| false,
    bytes: |answer, _| answer_bytes(answer),
    apart: ANSWER,
    clears_rest: false,
    apart_from_others: false,
};

/// Wrong readings of the calls.
const CALLS: [Reading; 46] = [
    Reading { name: "Clear walks", clear: clear_if_ended, ..RIGHT },
    Reading { name: "Clear makes all bytes zero", clear: |shelf| clear_by(shelf, HEADER, usize::MAX), ..RIGHT },
    Reading { name: "Clear of a short shelf is done", clear: |shelf| clear_by(shelf, 0, HEADER), ..RIGHT },
    Reading { name: "Clear asks for a byte more", clear: |shelf| clear_by(shelf, HEADER + 1, HEADER), ..RIGHT },
    Reading { name: "Clear writes four bytes", clear: |shelf| clear_by(shelf, HEADER, 4), ..RIGHT },
    Reading { name: "Load: its record before 12", load: &[Test::Record, Test::Shelf, Test::Room], ..RIGHT },
    Reading { name: "Load: 15 before its record", load: &[Test::Shelf, Test::Room, Test::Record], ..RIGHT },
    Reading {
        name: "Load tests the records that are there",
        load: &[Test::Shelf, Test::Others, Test::Record, Test::Room],
        ..RIGHT
    },
    Reading { name: "Load does not test its record", load: &[Test::Shelf, Test::Room], ..RIGHT },
    Reading {
        name: "Hookup: 13 before 12",
        hookup: &[Test::Numbers, Test::Shelf, Test::Records, Test::Pair, Test::Room],
        ..RIGHT
    },
    Reading {
        name: "Hookup: 12 behind 14",
        hookup: &[Test::Numbers, Test::Records, Test::Shelf, Test::Pair, Test::Room],
        ..RIGHT
    },
    Reading {
        name: "Hookup: 14 before 13",
        hookup: &[Test::Shelf, Test::Records, Test::Numbers, Test::Pair, Test::Room],
        ..RIGHT
    },
    Reading {
        name: "Hookup: 14 behind 9, 10 and 11",
        hookup: &[Test::Shelf, Test::Numbers, Test::Pair, Test::Records, Test::Room],
        ..RIGHT
    },
    Reading {
        name: "Hookup: 15 before 14",
        hookup: &[Test::Shelf, Test::Numbers, Test::Room, Test::Records, Test::Pair],
        ..RIGHT
    },
    Reading {
        name: "Hookup: 15 before 9, 10 and 11",
        hookup: &[Test::Shelf, Test::Numbers, Test::Records, Test::Room, Test::Pair],
        ..RIGHT
    },
    Reading { name: "Hookup: no 14", hookup: &[Test::Shelf, Test::Numbers, Test::Pair, Test::Room], ..RIGHT },
    Reading { name: "Hookup tests every record", tested: |_, _, count| (0..count).collect(), ..RIGHT },
    Reading { name: "Hookup tests all up to i and j", tested: |i, j, _| (0..=i.max(j)).collect(), ..RIGHT },
    Reading { name: "Hookup does not test i's record", tested: |_, j, _| vec![j], ..RIGHT },
    Reading { name: "Hookup does not test j's record", tested: |i, _, _| vec![i], ..RIGHT },
    Reading { name: "Hookup tests the first record alone", tested: |_, _, _| vec![0], ..RIGHT },
    Reading { name: "13 from one number later on", missing: |i, j, count| i > count || j > count, ..RIGHT },
    Reading { name: "13 for i alone", missing: |i, _, count| i >= count, ..RIGHT },
    Reading { name: "13 for j alone", missing: |_, j, count| j >= count, ..RIGHT },
    Reading { name: "13 for i and j together alone", missing: |i, j, count| i >= count && j >= count, ..RIGHT },
    Reading { name: "13 for i = j", missing: |i, j, count| i == j || i >= count || j >= count, ..RIGHT },
    Reading { name: "numbers from 1 on", named: |i, j| (i.wrapping_sub(1), j.wrapping_sub(1)), ..RIGHT },
    Reading { name: "numbers of one byte", named: |i, j| (i % 256, j % 256), ..RIGHT },
    Reading { name: "numbers of two bytes", named: |i, j| (i % 65_536, j % 65_536), ..RIGHT },
    Reading { name: "i and j exchanged", named: |i, j| (j, i), ..RIGHT },
    Reading { name: "i twice", named: |i, _| (i, i), ..RIGHT },
    Reading { name: "j twice", named: |_, j| (j, j), ..RIGHT },
    Reading {
        name: "a record that breaks a rule is fit",
        unfit: |_, verdict| is_refused(verdict).then_some(Answer::Refused(14)),
        ..RIGHT
    },
    Reading {
        name: "a record's own refusal for 14",
        unfit: |_, verdict| match verdict {
            Verdict::Refused(number) => Some(Answer::Refused(number)),
            verdict => unfit(verdict),
        },
        ..RIGHT
    },
    Reading {
        name: "a record's own break for 14",
        unfit: |_, verdict| match verdict {
            Verdict::Breaks(found) => Some(Answer::Breaks(found)),
            verdict => unfit(verdict),
        },
        ..RIGHT
    },
    Reading {
        name: "13 for a refused record",
        unfit: |_, verdict| if is_refused(verdict) { Some(Answer::Refused(13)) } else { unfit(verdict) },
        ..RIGHT
    },
    Reading { name: "kind 2 is unfit", unfit: |bytes, verdict| unfit_as(bytes, verdict, 2), ..RIGHT },
    Reading { name: "kind 3 is unfit", unfit: |bytes, verdict| unfit_as(bytes, verdict, 3), ..RIGHT },
    Reading { name: "room without the end record", fits: |end, length, all| end + length <= all, ..RIGHT },
    Reading { name: "room for a byte more", fits: |end, length, all| end + length + HEADER < all, ..RIGHT },
    Reading { name: "room beside the old end record", fits: |end, length, all| end + length + 12 <= all, ..RIGHT },
    Reading {
        name: "a record that breaks a rule is written",
        writes: |answer| matches!(answer, Answer::Part(_) | Answer::Breaks(_)),
        ..RIGHT
    },
    Reading {
        name: "a call refused with 15 writes what fits",
        writes: |answer| matches!(answer, Answer::Part(_) | Answer::Refused(15)),
        ..RIGHT
    },
    Reading { name: "no end record behind the new one", behind: |_| {}, ..RIGHT },
    Reading { name: "zeros behind the end record", behind: |rest| rest.fill(0), ..RIGHT },
    Reading { name: "a new part's number is that of all", new_number: |count| count + 1, ..RIGHT },
];

/// Wrong readings of the whole.
const WHOLES: [(&str, Whole); 31] = [
    ("15 before 99", Whole { room_first: true, ..RIGHT_WHOLE }),
    ("other operations are passed over", Whole { other: Other::PassedOver, ..RIGHT_WHOLE }),
    ("Count and Part are passed over", Whole { other: Other::CountsPassedOver, ..RIGHT_WHOLE }),
    ("a cut operation is passed over", Whole { other: Other::CutPassedOver, ..RIGHT_WHOLE }),
    ("calls are made that come before 99 or have room", Whole { makes_some: true, ..RIGHT_WHOLE }),
    ("room for no answer", Whole { needed: |_| 0, ..RIGHT_WHOLE }),
    ("room for one answer alone", Whole { needed: |calls| ANSWER * calls.min(1), ..RIGHT_WHOLE }),
    ("room for an answer more", Whole { needed: |calls| ANSWER * (calls + 1), ..RIGHT_WHOLE }),
    ("room for an answer's byte more", Whole { needed: |calls| ANSWER * calls + 1, ..RIGHT_WHOLE }),
    ("room for an answer's byte less", Whole { needed: |calls| (ANSWER * calls).saturating_sub(1), ..RIGHT_WHOLE }),
    ("an empty script is malformed", Whole { refused: |calls, _| calls.is_empty().then_some(99), ..RIGHT_WHOLE }),
    ("an empty script has no room", Whole { refused: |calls, _| calls.is_empty().then_some(15), ..RIGHT_WHOLE }),
    ("the first call is a clear", Whole { refused: |calls, _| starts_otherwise(calls), ..RIGHT_WHOLE }),
    ("12 for the whole", Whole { refused: |_, shelf| shelf::walk(shelf).is_none().then_some(12), ..RIGHT_WHOLE }),
    ("12 for the whole of a short shelf", Whole { refused: |_, shelf| is_short(shelf), ..RIGHT_WHOLE }),
    ("stops at a refused call", Whole { stops: |answer| numbers(answer)[0] > 0, ..RIGHT_WHOLE }),
    ("stops at 12", Whole { stops: |answer| answer == Answer::Refused(12), ..RIGHT_WHOLE }),
    ("stops at a break", Whole { stops: |answer| matches!(answer, Answer::Breaks(_)), ..RIGHT_WHOLE }),
    ("answers of four bytes", Whole { bytes: |answer, _| of_four_bytes(answer), apart: 32, ..RIGHT_WHOLE }),
    ("highest byte first", Whole { bytes: |answer, _| highest_first(answer), ..RIGHT_WHOLE }),
    ("zeros do not fill up", Whole { bytes: without_fill, ..RIGHT_WHOLE }),
    ("all answers at the start", Whole { apart: 0, ..RIGHT_WHOLE }),
    ("zeros behind the last answer", Whole { clears_rest: true, ..RIGHT_WHOLE }),
    ("each call on the shelf as it was", Whole { apart_from_others: true, ..RIGHT_WHOLE }),
    ("refusal 10 like the others", Whole { bytes: |answer, _| answer_bytes(without_clash(answer)), ..RIGHT_WHOLE }),
    ("number before tag", Whole { bytes: |answer, _| by_places(answer, [1, 0, 2, 3, 4, 5, 6, 7]), ..RIGHT_WHOLE }),
    ("event before rule", Whole { bytes: |answer, _| by_places(answer, [0, 2, 1, 3, 4, 5, 6, 7]), ..RIGHT_WHOLE }),
    ("t before s", Whole { bytes: |answer, _| by_places(answer, [0, 1, 2, 4, 3, 5, 6, 7]), ..RIGHT_WHOLE }),
    ("u before t", Whole { bytes: |answer, _| by_places(answer, [0, 1, 2, 3, 5, 4, 6, 7]), ..RIGHT_WHOLE }),
    ("no observer", Whole { bytes: |answer, _| by_places(answer, [0, 1, 2, 3, 4, 5, 7, 7]), ..RIGHT_WHOLE }),
    ("the observer last", Whole { bytes: |answer, _| by_places(answer, [0, 1, 2, 3, 4, 5, 7, 6]), ..RIGHT_WHOLE }),
];

/// Every wrong reading, those of the walk apart.
pub fn readings() -> Vec<Reading> {
    let wholes = WHOLES.into_iter().map(|(name, whole)| Reading { name, whole, ..RIGHT });
    CALLS.into_iter().chain(wholes).collect()
}

/// Wrong readings of the walk.
pub fn walks() -> Vec<Reading> {
    WAYS.into_iter().map(|way| Reading { name: way.name, way, ..RIGHT }).collect()
}

/// What a run leaves behind.
#[derive(Clone, PartialEq, Eq, Debug)]
pub struct Outcome {
    pub number: u32,
    pub shelf: Vec<u8>,
    pub answers: Vec<u8>,
}

/// The readings by which a run would leave something else behind. `before` is what the run finds; its number is of no
/// account.
pub fn that_differ(
    judge: &mut Judge,
    readings: &[Reading],
    script: &[u8],
    before: &Outcome,
    right: &Outcome,
) -> Vec<&'static str> {
    assert_eq!(RIGHT.run(judge, script, before), *right, "the reading that is not wrong");
    let mut names = Vec::new();
    for reading in readings {
        if reading.run(judge, script, before) != *right {
            names.push(reading.name);
        }
    }
    names
}

impl Reading {
    /// A script by this reading.
    pub fn run(&self, judge: &mut Judge, script: &[u8], before: &Outcome) -> Outcome {
        let Outcome { mut shelf, mut answers, .. } = before.clone();
        let whole = &self.whole;
        let (mut calls, malformed) = self.calls_of(script);
        let short = answers.len() < (whole.needed)(calls.len());
        let number = match (whole.refused)(&calls, &shelf) {
            Some(number) => number,
            None if short && (whole.room_first || !malformed) => NO_ROOM,
            None if malformed => MALFORMED,
            None => RAN,
        };
        if number != RAN {
            let room = answers.len() / ANSWER;
            calls.truncate(if whole.makes_some { room } else { 0 });
        }
        let made = self.make(judge, &calls, &mut shelf, &mut answers);
        if whole.clears_rest && number == RAN {
            fill_from(&mut answers, ANSWER * made);
        }
        Outcome { number, shelf, answers }
    }

    /// Makes the calls; how many were made.
    fn make(&self, judge: &mut Judge, calls: &[Call], shelf: &mut [u8], answers: &mut [u8]) -> usize {
        let first = shelf.to_vec();
        for (k, call) in calls.iter().enumerate() {
            if self.whole.apart_from_others {
                shelf.copy_from_slice(&first);
            }
            let answer = self.call(judge, shelf, call);
            let rest = answers.len().min(self.whole.apart * k);
            let bytes = (self.whole.bytes)(answer, &answers[rest..]);
            put(&mut answers[rest..], &bytes);
            if (self.whole.stops)(answer) {
                return k + 1;
            }
        }
        calls.len()
    }

    /// The calls of a script, and whether it is malformed behind them.
    fn calls_of(&self, script: &[u8]) -> (Vec<Call>, bool) {
        let other = self.whole.other;
        let mut calls = Vec::new();
        let mut at = 0;
        loop {
            at = match next_operation(script, at) {
                Next::Operation(Operation::Call(call), behind) => {
                    calls.push(call);
                    behind
                }
                Next::Operation(_, behind) if matches!(other, Other::PassedOver | Other::CountsPassedOver) => behind,
                Next::Unknown if other == Other::PassedOver => at + 1,
                Next::Truncated if matches!(other, Other::PassedOver | Other::CutPassedOver) => return (calls, false),
                Next::End => return (calls, false),
                _ => return (calls, true),
            }
        }
    }

    fn call(&self, judge: &mut Judge, shelf: &mut [u8], call: &Call) -> Answer {
        match call {
            Call::Clear => (self.clear)(shelf),
            Call::Load(_) => self.add(judge, shelf, call, self.load),
            Call::Hookup(i, j) => {
                let (i, j) = (self.named)(*i, *j);
                self.add(judge, shelf, &Call::Hookup(i, j), self.hookup)
            }
        }
    }

    /// Load or Hookup, by its tests in their order.
    fn add(&self, judge: &mut Judge, shelf: &mut [u8], call: &Call, tests: &[Test]) -> Answer {
        let found = self.way.walk(shelf);
        let refused = tests.iter().find_map(|&test| self.refusal(judge, shelf, &found, call, test));
        let record = new_record(judge, shelf, &found, call);
        let answer = match (refused, &record) {
            (Some(refused), _) => refused,
            (None, Err(refused)) => *refused,
            (None, Ok(_)) => Answer::Part((self.new_number)(found.walk.records.len())),
        };
        if let (true, Ok(record)) = ((self.writes)(answer), record) {
            let rest = &mut shelf[found.walk.end..];
            put(rest, &record);
            let behind = rest.len().min(record.len());
            (self.behind)(&mut rest[behind..]);
        }
        answer
    }

    fn refusal(&self, judge: &mut Judge, shelf: &[u8], found: &Found, call: &Call, test: Test) -> Option<Answer> {
        let count = found.walk.records.len();
        match (test, call) {
            (Test::Shelf, _) => (!found.ended).then_some(Answer::Refused(12)),
            (Test::Others, _) => self.unfit_among(judge, shelf, found, &(0..count).collect::<Vec<usize>>()),
            (Test::Record, Call::Load(record)) => match judge.verdict(record) {
                Verdict::Pass => None,
                Verdict::Refused(number) => Some(Answer::Refused(number)),
                Verdict::Breaks(found) => Some(Answer::Breaks(found)),
            },
            (Test::Numbers, Call::Hookup(i, j)) => (self.missing)(*i, *j, count).then_some(Answer::Refused(13)),
            (Test::Records, Call::Hookup(i, j)) => self.unfit_among(judge, shelf, found, &(self.tested)(*i, *j, count)),
            (Test::Pair, Call::Hookup(_, _)) => match new_record(judge, shelf, found, call) {
                Err(answer @ (Answer::Clash(_) | Answer::Refused(9 | 11))) => Some(answer),
                _ => None,
            },
            (Test::Room, _) => {
                let length = new_record(judge, shelf, found, call).map_or(SHORTEST, |record| record.len());
                (!(self.fits)(found.walk.end, length, shelf.len())).then_some(Answer::Refused(15))
            }
            _ => unreachable!(),
        }
    }

    /// The answer for the first of these records that does not pass. Numbers without a record are passed over.
    fn unfit_among(&self, judge: &mut Judge, shelf: &[u8], found: &Found, numbers: &[usize]) -> Option<Answer> {
        numbers.iter().filter_map(|&k| found.walk.records.get(k)).find_map(|record| {
            let bytes = &shelf[record.clone()];
            (self.unfit)(bytes, judge.verdict(bytes))
        })
    }
}

/// The bytes of the shortest record.
pub const SHORTEST: usize = 11;

/// The record that a call would add. A number without a record stands for the end record.
fn new_record(judge: &mut Judge, shelf: &[u8], found: &Found, call: &Call) -> Result<Vec<u8>, Answer> {
    let bytes_of = |k: usize| match found.walk.records.get(k) {
        Some(record) => &shelf[record.clone()],
        None => &shelf[found.walk.end..shelf.len().min(found.walk.end + HEADER)],
    };
    match call {
        Call::Clear => unreachable!(),
        Call::Load(record) => Ok(record.clone()),
        Call::Hookup(i, j) => judge.joined(bytes_of(*i), bytes_of(*j)),
    }
}

/// As many of these bytes as there is room for.
fn put(rest: &mut [u8], bytes: &[u8]) {
    let length = rest.len().min(bytes.len());
    rest[..length].copy_from_slice(&bytes[..length]);
}

fn fill_from(bytes: &mut [u8], from: usize) {
    let from = from.min(bytes.len());
    bytes[from..].fill(0);
}

/// Zeros to the front, so many at most, where the shelf has that many bytes.
fn clear_by(shelf: &mut [u8], fewest: usize, most: usize) -> Answer {
    if shelf.len() < fewest {
        return Answer::Refused(12);
    }
    fill_to(shelf, most);
    Answer::Cleared
}

fn fill_to(bytes: &mut [u8], to: usize) {
    let to = to.min(bytes.len());
    bytes[..to].fill(0);
}

fn clear_if_ended(shelf: &mut [u8]) -> Answer {
    match shelf::walk(shelf) {
        Some(_) => shelf::clear(shelf),
        None => Answer::Refused(12),
    }
}

fn is_refused(verdict: Verdict) -> bool {
    matches!(verdict, Verdict::Refused(_))
}

/// 14, where it is due.
fn unfit(verdict: Verdict) -> Option<Answer> {
    (verdict != Verdict::Pass).then_some(Answer::Refused(14))
}

/// 14 also where the record is of this kind.
fn unfit_as(bytes: &[u8], verdict: Verdict, kind: u16) -> Option<Answer> {
    if u16_at(bytes, KIND_AT) == kind {
        Some(Answer::Refused(14))
    } else {
        unfit(verdict)
    }
}

fn starts_otherwise(calls: &[Call]) -> Option<u32> {
    calls.first().is_some_and(|call| *call != Call::Clear).then_some(MALFORMED)
}

fn is_short(shelf: &[u8]) -> Option<u32> {
    (shelf.len() < HEADER).then_some(12)
}

fn of_four_bytes(answer: Answer) -> Vec<u8> {
    let mut bytes = Vec::new();
    for number in numbers(answer) {
        push_u32(&mut bytes, number as u32);
    }
    bytes
}

fn highest_first(answer: Answer) -> Vec<u8> {
    numbers(answer).into_iter().flat_map(u64::to_be_bytes).collect()
}

/// Each number from the place of another.
fn by_places(answer: Answer, places: [usize; 8]) -> Vec<u8> {
    let told = numbers(answer);
    places.into_iter().flat_map(|place| told[place].to_le_bytes()).collect()
}

/// The tag and the number alone, where the answer is no break; the rest as it was.
fn without_fill(answer: Answer, before: &[u8]) -> Vec<u8> {
    let bytes = answer_bytes(answer);
    match answer {
        Answer::Breaks(_) => bytes,
        _ => [&bytes[..16], &before[16.min(before.len())..ANSWER.min(before.len())]].concat(),
    }
}

fn without_clash(answer: Answer) -> Answer {
    match answer {
        Answer::Clash(_) => Answer::Refused(10),
        answer => answer,
    }
}

#[cfg(test)]
mod tests {
    use super::*;
    use crate::examples;
    use crate::make::Script;
    use crate::record;
    use crate::run;

    /// The readings, those of the walk apart, that differ for these calls on a shelf, with room for so many bytes.
    fn differing(calls: &[Call], shelf: &[u8], room: usize) -> Vec<&'static str> {
        differing_on(&Script::with(calls).bytes, shelf, room)
    }

    fn differing_on(script: &[u8], shelf: &[u8], room: usize) -> Vec<&'static str> {
        let before = Outcome { number: RAN, shelf: shelf.to_vec(), answers: vec![0x33; room] };
        let mut right = before.clone();
        right.number = run::run(script, &mut right.shelf, &mut right.answers).number;
        that_differ(&mut Judge::default(), &readings(), script, &before, &right)
    }

    fn has(names: &[&str], wanted: &[&str]) {
        for name in wanted {
            assert!(names.contains(name), "{} is not among {:?}", name, names);
        }
    }

    #[test]
    fn names_are_different() {
        let mut names: Vec<&str> = readings().iter().chain(&walks()).map(|reading| reading.name).collect();
        names.sort();
        let count = names.len();
        names.dedup();
        assert_eq!(names.len(), count);
    }

    #[test]
    fn clears_by_hand() {
        assert_eq!(
            differing(&[Call::Clear], &[9; 6], 64),
            [
                "Clear walks",
                "Clear asks for a byte more",
                "Clear writes four bytes",
                "room for an answer more",
                "room for an answer's byte more",
                "12 for the whole",
                "answers of four bytes",
                "zeros do not fill up",
            ]
        );
        let all = differing(&[Call::Clear], &[9; 7], 200);
        has(&all, &["Clear makes all bytes zero", "zeros behind the last answer"]);
        has(&differing(&[Call::Clear], &[9; 5], 64), &["Clear of a short shelf is done", "highest byte first"]);
    }

    /// P with classes 0 1 breaks rule 2; Q and Z pass.
    #[test]
    fn hookups_by_hand() {
        let broken = examples::p_with_classes_0_1();
        let refused = examples::p_mislabelled();
        let (q, z) = (examples::q(), examples::z());
        let shelf = [&broken[..], &q, &z, &refused, &[0; 6], &[9; 90]].concat();
        let of = |i, j| differing(&[Call::Hookup(i, j)], &shelf, 64);
        let first = of(0, 1);
        has(&first, &["Hookup: no 14", "a record that breaks a rule is fit", "a record's own break for 14"]);
        has(&first, &["Hookup does not test i's record", "numbers from 1 on"]);
        assert!(!first.contains(&"Hookup tests every record"));
        has(&of(1, 0), &["Hookup does not test j's record"]);
        has(&of(0, 4), &["Hookup: 14 before 13"]);
        has(&of(1, 4), &["i twice"]);
        has(&of(4, 1), &["j twice"]);
        has(&of(4, 0), &["Hookup: 14 before 13", "13 from one number later on", "13 for j alone"]);
        has(&of(1, 4), &["13 for i alone", "13 for i and j together alone"]);
        has(&of(1, 256), &["numbers of one byte"]);
        has(&of(65_537, 2), &["numbers of one byte", "numbers of two bytes"]);
        has(&of(3, 1), &["a record's own refusal for 14", "13 for a refused record"]);
        has(&of(0, 0), &["Hookup: 14 behind 9, 10 and 11", "13 for i = j"]);
        let joined = of(1, 2);
        has(
            &joined,
            &["Hookup tests every record", "Hookup tests all up to i and j", "no end record behind the new one"],
        );
        has(&joined, &["zeros behind the end record", "a new part's number is that of all"]);
        has(&joined, &["Hookup tests the first record alone"]);
        let full = &shelf[..shelf.len() - 90];
        has(&differing(&[Call::Hookup(0, 1)], full, 64), &["Hookup: 15 before 14"]);
        has(&differing(&[Call::Hookup(1, 1)], full, 64), &["Hookup: 15 before 9, 10 and 11"]);
        has(&differing(&[Call::Hookup(0, 0)], &shelf[..100], 64), &["Hookup: 12 behind 14"]);
        has(&differing(&[Call::Hookup(9, 0)], &shelf[..100], 64), &["Hookup: 13 before 12", "Hookup: 12 behind 14"]);
    }

    #[test]
    fn loads_by_hand() {
        let broken = examples::p_with_classes_0_1();
        let shelf = [&broken[..], &[0; 6], &[9; 11]].concat();
        let of = |record: &[u8], shelf: &[u8]| differing(&[Call::Load(record.to_vec())], shelf, 64);
        let z = examples::z();
        has(&of(&z, &shelf), &["Load tests the records that are there", "room for a byte more"]);
        has(&of(&z, &shelf), &["room beside the old end record"]);
        has(&of(&z, &shelf[..shelf.len() - 1]), &["room without the end record"]);
        has(&of(&z, &shelf[..shelf.len() - 1]), &["a call refused with 15 writes what fits"]);
        has(&of(&broken, &shelf), &["Load: 15 before its record", "a record that breaks a rule is written"]);
        has(&of(&broken, &shelf[..52]), &["Load: its record before 12"]);
        has(&of(&[], &shelf), &["Load does not test its record"]);
        let list = record::write(&examples::t_for_two([0, 0, 0], [0, 0, 1]));
        has(&of(&list, &shelf), &["no observer", "the observer last", "event before rule", "t before s", "u before t"]);
    }

    #[test]
    fn wholes_by_hand() {
        let shelf = [0; 30];
        has(
            &differing_on(&[0, 3], &shelf, 64),
            &["Count and Part are passed over", "other operations are passed over"],
        );
        has(&differing_on(&[0, 7], &shelf, 64), &["other operations are passed over"]);
        has(&differing_on(&[0, 2, 0], &shelf, 64), &["a cut operation is passed over"]);
        has(&differing_on(&[0, 2, 0], &[9; 8], 64), &["calls are made that come before 99 or have room"]);
        has(&differing_on(&[0, 3], &shelf, 63), &["15 before 99"]);
        has(&differing_on(&[0, 0], &[9; 8], 127), &["room for an answer's byte less", "room for one answer alone"]);
        has(&differing_on(&[0, 0], &[9; 8], 127), &["room for no answer"]);
        has(&differing_on(&[], &[], 0), &["an empty script is malformed", "an empty script has no room"]);
        has(&differing_on(&[], &[], 0), &["12 for the whole", "12 for the whole of a short shelf"]);
        let z = Call::Load(examples::z());
        let twice = differing(&[z.clone(), z.clone()], &[9; 40], 128);
        has(&twice, &["the first call is a clear", "stops at a refused call", "stops at 12", "answers of four bytes"]);
        has(&differing(&[Call::Clear, z.clone(), z], &[9; 40], 192), &["each call on the shelf as it was"]);
        let p = Call::Load(examples::p_with_classes_0_1());
        has(&differing(&[p.clone(), p], &[0; 6], 128), &["stops at a break"]);
        let clash = [Call::Load(examples::p()), Call::Hookup(0, 0)];
        has(&differing(&clash, &[0; 60], 128), &["refusal 10 like the others", "number before tag"]);
        has(&differing(&clash, &[0; 60], 128), &["all answers at the start"]);
    }
}
