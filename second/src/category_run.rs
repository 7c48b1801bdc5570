//! Categories of scripts for hookup_run, of their calls, and of the shelves that they find, by the checker's own answers.

use crate::answer::Answer;
use crate::bench::Call;
use crate::category::Names;
use crate::category_shelf::{
    failing_name, failing_names, met, no_end_names, no_end_of, no_end_refused, wrong_name, wrong_walk_name,
};
use crate::join;
use crate::judge::Judge;
use crate::make::{Failure, NoEnd};
use crate::record::{self, u16_at, FORMS, HEADER, KIND_AT, ORDER};
use crate::run::{Made, Run, ANSWER, MALFORMED, NO_ROOM};
use crate::script::{next_operation, Next, Operation};
use crate::shelf;
use crate::wrong_run::{readings, walks, SHORTEST};

/// The ways in which a script is malformed.
const MALFORMED_BY: [&str; 7] = [
    "Count",
    "Part",
    "an unknown operation",
    "Load without its length",
    "Load without its record",
    "Hookup cut off",
    "Part cut off",
];

/// The kinds of two records that are joined.
const JOINED_KINDS: [(u16, u16); 5] = [(1, 1), (2, 2), (3, 3), (1, 3), (3, 1)];

/// Every category.
pub fn names() -> Vec<String> {
    let mut names = whole_names();
    names.extend(clear_and_load_names());
    names.extend(hookup_names());
    for reading in readings() {
        names.push(wrong_name(reading.name));
    }
    for reading in walks() {
        names.push(wrong_walk_name(reading.name));
    }
    names
}

fn whole_names() -> Vec<String> {
    let mut names = Vec::new();
    for by in MALFORMED_BY {
        for place in ["at first", "behind calls", "answers too short too"] {
            names.push(format!("99 by {}, {}", by, place));
        }
    }
    for name in [
        "15, no buffer",
        "15, one byte short",
        "15, an answer short",
        "15, elsewhere",
        "empty script, no buffer",
        "empty script, some buffer",
        "empty script, no end record",
        "answers fill the buffer",
        "bytes behind the last answer",
        "one call",
        "several calls",
        "first call a clear",
        "first call a load",
        "first call a hookup",
        "clear behind other calls",
        "call behind a refused one",
        "end record at the shelf's end",
        "bytes behind the end record",
        "shelf of one byte over and over",
        "100 records or more",
        "65536 bytes or more",
    ] {
        names.push(name.to_string());
    }
    names
}

fn clear_and_load_names() -> Vec<String> {
    let mut names = Vec::new();
    for name in ["clear, no end record", "clear, no part on the shelf", "clear, parts on the shelf"] {
        names.push(name.to_string());
    }
    for no_end in [NoEnd::Nothing, NoEnd::UnderSix] {
        names.push(no_end_refused("clear", no_end));
    }
    names.extend(no_end_names("load"));
    for number in ORDER {
        names.push(format!("load refused {}", number));
    }
    for form in FORMS {
        names.push(format!("load, kind {}", form.kind));
        for rule in 1..=5 {
            names.push(format!("load breaks rule {}, kind {}", rule, form.kind));
        }
    }
    for name in [
        "load refused 12, the record fails too",
        "load refused 12, the record passes",
        "load refused for its record, no room either",
        "load breaks, no room either",
        "load breaks at a later observer",
        "load refused 15",
        "load refused 15, one byte short",
        "load, just enough room",
        "load beside a record that fails",
    ] {
        names.push(name.to_string());
    }
    names.extend([0, 1, 2, 3, 100].map(|number| number_name("load", number)));
    names
}

/// The name of a call that gives a part this number.
fn number_name(call: &str, number: usize) -> String {
    match number {
        0..=2 => format!("{}, part {}", call, number),
        3..=99 => format!("{}, part 3 to 99", call),
        _ => format!("{}, part 100 or above", call),
    }
}

fn hookup_names() -> Vec<String> {
    let mut names = no_end_names("hookup");
    for failing in failing_names() {
        for whose in ["i", "j"] {
            names.push(unfit_name(whose, &failing));
        }
    }
    for (a, b) in JOINED_KINDS {
        names.push(kinds_name(a, b));
    }
    names.extend([1, 2, 3, 100].map(|number| number_name("hookup", number)));
    names.extend(HOOKUPS.map(str::to_string));
    names
}

/// The categories of a hookup that have no number or kind in their name.
const HOOKUPS: [&str; 34] = [
    "hookup refused 12, i and j were met before",
    "hookup refused 13 for i",
    "hookup refused 13 for j",
    "hookup refused 13 for i and j",
    "hookup refused 13, i is the number of records",
    "hookup refused 13, j is the number of records",
    "hookup refused 13, i is 4294967295",
    "hookup refused 13, j is 4294967295",
    "hookup refused 13, i = j",
    "hookup refused 13, no room either",
    "hookup refused 13 for i, j's record fails",
    "hookup refused 13 for j, i's record fails",
    "hookup refused 14 for i and j",
    "hookup refused 14, i = j",
    "hookup refused 14, otherwise 9",
    "hookup refused 14, otherwise 10",
    "hookup refused 14, otherwise 11",
    "hookup refused 14, otherwise 15",
    "hookup refused 14 for a refused record, no room either",
    "hookup refused 9",
    "hookup refused 9, no room either",
    "hookup refused 10",
    "hookup refused 10, identifier 0",
    "hookup refused 10, identifier 65535",
    "hookup refused 10, no room either",
    "hookup refused 11 by states",
    "hookup refused 11 by entries",
    "hookup refused 11, no room either",
    "hookup refused 15",
    "hookup refused 15, one byte short",
    "hookup, just enough room",
    "hookup, i = j",
    "hookup beside a record that fails",
    "hookup, i above j",
];

fn unfit_name(whose: &str, failing: &str) -> String {
    format!("hookup refused 14 for {}, {}", whose, failing)
}

fn kinds_name(a: u16, b: u16) -> String {
    format!("hookup, kind {} with kind {}", a, b)
}

/// The categories of a run on this shelf, with a buffer of so many bytes.
pub fn of_run(judge: &mut Judge, script: &[u8], shelf: &[u8], room: usize, run: &Run) -> Vec<String> {
    let mut names = Names::default();
    match run.number {
        MALFORMED => names.0 = malformed_names(script, room),
        NO_ROOM => {
            let needed = ANSWER * calls_before_trouble(script).0;
            let name = match room {
                0 => "15, no buffer",
                _ if room + 1 == needed => "15, one byte short",
                _ if room + ANSWER == needed => "15, an answer short",
                _ => "15, elsewhere",
            };
            names.add(true, name);
        }
        _ => {
            names.0 = ran_names(run, shelf, room);
            for made in &run.made {
                names.0.extend(call_names(judge, made));
            }
        }
    }
    names.0
}

/// How many calls come before the script's end or before what is malformed, and where that is.
fn calls_before_trouble(script: &[u8]) -> (usize, usize) {
    let (mut calls, mut at) = (0, 0);
    while let Next::Operation(Operation::Call(_), behind) = next_operation(script, at) {
        calls += 1;
        at = behind;
    }
    (calls, at)
}

fn malformed_names(script: &[u8], room: usize) -> Vec<String> {
    let (calls, at) = calls_before_trouble(script);
    let left = script.len() - at;
    let by = match (next_operation(script, at), script[at]) {
        (Next::Operation(Operation::Count, _), _) => "Count",
        (Next::Operation(_, _), _) => "Part",
        (Next::Unknown, _) => "an unknown operation",
        (_, 1) if left < 5 => "Load without its length",
        (_, 1) => "Load without its record",
        (_, 2) => "Hookup cut off",
        (_, _) => "Part cut off",
    };
    let mut names = Names::default();
    names.add(calls == 0, &format!("99 by {}, at first", by));
    names.add(calls > 0, &format!("99 by {}, behind calls", by));
    names.add(room < ANSWER * calls, &format!("99 by {}, answers too short too", by));
    names.0
}

fn is_refused(answer: Answer) -> bool {
    !matches!(answer, Answer::Cleared | Answer::Part(_))
}

/// The categories of a run whose calls are made.
fn ran_names(run: &Run, shelf: &[u8], room: usize) -> Vec<String> {
    let mut names = Names::default();
    let found = met(shelf);
    if run.made.is_empty() {
        names.add(room == 0, "empty script, no buffer");
        names.add(room > 0, "empty script, some buffer");
        names.add(!found.ended, "empty script, no end record");
        return names.0;
    }
    let needed = ANSWER * run.made.len();
    names.add(room == needed, "answers fill the buffer");
    names.add(room > needed, "bytes behind the last answer");
    names.add(run.made.len() == 1, "one call");
    names.add(run.made.len() > 1, "several calls");
    names.add(true, first_call_name(&run.made[0].call));
    names.add(run.made[1..].iter().any(|made| made.call == Call::Clear), "clear behind other calls");
    names.add(run.made[..run.made.len() - 1].iter().any(|made| is_refused(made.answer)), "call behind a refused one");
    names.add(found.ended && found.walk.end + HEADER == shelf.len(), "end record at the shelf's end");
    names.add(found.ended && found.walk.end + HEADER < shelf.len(), "bytes behind the end record");
    let alike = shelf.len() >= HEADER && shelf.iter().all(|byte| *byte == shelf[0]);
    names.add(alike, "shelf of one byte over and over");
    names.add(found.walk.records.len() >= 100, "100 records or more");
    names.add(shelf.len() >= 65_536, "65536 bytes or more");
    names.0
}

fn first_call_name(call: &Call) -> &'static str {
    match call {
        Call::Clear => "first call a clear",
        Call::Load(_) => "first call a load",
        Call::Hookup(_, _) => "first call a hookup",
    }
}

/// The categories of one call.
fn call_names(judge: &mut Judge, made: &Made) -> Vec<String> {
    if made.answer == Answer::Refused(12) {
        return no_end_call_names(judge, made);
    }
    match &made.call {
        Call::Clear => clear_names(made),
        Call::Load(record) => load_names(judge, record, made),
        Call::Hookup(i, j) => Hookup::of(made, *i, *j).names(judge),
    }
}

fn clear_names(made: &Made) -> Vec<String> {
    let found = met(&made.before);
    let mut names = Names::default();
    names.add(!found.ended, "clear, no end record");
    names.add(found.ended && found.walk.records.is_empty(), "clear, no part on the shelf");
    names.add(found.ended && !found.walk.records.is_empty(), "clear, parts on the shelf");
    names.0
}

/// Of a call that is refused with 12.
fn no_end_call_names(judge: &mut Judge, made: &Made) -> Vec<String> {
    let mut names = Names::default();
    let no_end = no_end_of(&made.before).unwrap();
    match &made.call {
        Call::Clear => names.add(true, &no_end_refused("clear", no_end)),
        Call::Load(record) => {
            names.add(true, &no_end_refused("load", no_end));
            let passes = judge.passes(record);
            names.add(passes, "load refused 12, the record passes");
            names.add(!passes, "load refused 12, the record fails too");
        }
        Call::Hookup(i, j) => {
            names.add(true, &no_end_refused("hookup", no_end));
            let count = met(&made.before).walk.records.len();
            names.add(*i < count && *j < count, "hookup refused 12, i and j were met before");
        }
    }
    names.0
}

/// The bytes left for a record.
fn room_of(before: &[u8]) -> usize {
    before.len() - shelf::walk(before).unwrap().end - HEADER
}

/// Does one of the records on the shelf fail?
fn has_failing(judge: &mut Judge, before: &[u8]) -> bool {
    shelf::walk(before).unwrap().records.into_iter().any(|record| !judge.passes(&before[record]))
}

fn load_names(judge: &mut Judge, record: &[u8], made: &Made) -> Vec<String> {
    let mut names = Names::default();
    let room = room_of(&made.before);
    let kind = if record.len() < HEADER { 0 } else { u16_at(record, KIND_AT) };
    match made.answer {
        Answer::Part(number) => {
            names.add(true, &format!("load, kind {}", kind));
            names.add(room == record.len(), "load, just enough room");
            names.add(has_failing(judge, &made.before), "load beside a record that fails");
            names.add(true, &number_name("load", number));
        }
        Answer::Refused(15) => {
            names.add(true, "load refused 15");
            names.add(room + 1 == record.len(), "load refused 15, one byte short");
        }
        Answer::Refused(number) => {
            names.add(true, &format!("load refused {}", number));
            names.add(room < SHORTEST, "load refused for its record, no room either");
        }
        Answer::Breaks(found) => {
            names.add(true, &format!("load breaks rule {}, kind {}", found.rule, kind));
            names.add(room < record.len(), "load breaks, no room either");
            let levels = record::read(record).unwrap().levels();
            names.add(levels[0] != found.observer, "load breaks at a later observer");
        }
        Answer::Cleared | Answer::Clash(_) => unreachable!(),
    }
    names.0
}

/// A hookup on a shelf with an end record.
struct Hookup<'a> {
    i: usize,
    j: usize,
    answer: Answer,
    records: Vec<&'a [u8]>,
    room: usize,
}

impl Hookup<'_> {
    fn of(made: &Made, i: usize, j: usize) -> Hookup<'_> {
        let walk = shelf::walk(&made.before).unwrap();
        let records = walk.records.into_iter().map(|record| &made.before[record]).collect();
        Hookup { i, j, answer: made.answer, records, room: room_of(&made.before) }
    }

    fn names(&self, judge: &mut Judge) -> Vec<String> {
        match self.answer {
            Answer::Refused(13) => self.missing_names(judge),
            Answer::Refused(14) => self.unfit_names(judge),
            _ => self.pair_names(judge),
        }
    }

    /// How the record of a number fails; none where it passes or is missing.
    fn failure(&self, judge: &mut Judge, number: usize) -> Option<Failure> {
        self.records.get(number).and_then(|bytes| Failure::of(judge.verdict(bytes)))
    }

    fn missing_names(&self, judge: &mut Judge) -> Vec<String> {
        let mut names = Names::default();
        let (i, j, count) = (self.i, self.j, self.records.len());
        let name = match (i >= count, j >= count) {
            (true, true) => "hookup refused 13 for i and j",
            (true, false) => "hookup refused 13 for i",
            _ => "hookup refused 13 for j",
        };
        names.add(true, name);
        names.add(i == count, "hookup refused 13, i is the number of records");
        names.add(j == count, "hookup refused 13, j is the number of records");
        names.add(i == u32::MAX as usize, "hookup refused 13, i is 4294967295");
        names.add(j == u32::MAX as usize, "hookup refused 13, j is 4294967295");
        names.add(i == j, "hookup refused 13, i = j");
        names.add(self.room < SHORTEST, "hookup refused 13, no room either");
        names.add(self.failure(judge, j).is_some(), "hookup refused 13 for i, j's record fails");
        names.add(self.failure(judge, i).is_some(), "hookup refused 13 for j, i's record fails");
        names.0
    }

    fn unfit_names(&self, judge: &mut Judge) -> Vec<String> {
        let mut names = Names::default();
        let (a, b) = (self.records[self.i], self.records[self.j]);
        let failures = (self.failure(judge, self.i), self.failure(judge, self.j));
        match failures {
            (Some(failure), _) => names.add(true, &unfit_name("i", &failing_name(a, failure))),
            (None, Some(failure)) => names.add(true, &unfit_name("j", &failing_name(b, failure))),
            (None, None) => unreachable!(),
        }
        names.add(failures.0.is_some() && failures.1.is_some(), "hookup refused 14 for i and j");
        names.add(self.i == self.j, "hookup refused 14, i = j");
        let otherwise = match judge.joined(a, b) {
            Ok(joined) => (joined.len() > self.room).then_some("otherwise 15"),
            Err(Answer::Refused(9)) => Some("otherwise 9"),
            Err(Answer::Clash(_)) => Some("otherwise 10"),
            Err(Answer::Refused(11)) => Some("otherwise 11"),
            Err(_) => {
                names.add(self.room < SHORTEST, "hookup refused 14 for a refused record, no room either");
                None
            }
        };
        if let Some(otherwise) = otherwise {
            names.add(true, &format!("hookup refused 14, {}", otherwise));
        }
        names.0
    }

    /// Of two records that pass.
    fn pair_names(&self, judge: &mut Judge) -> Vec<String> {
        let mut names = Names::default();
        let (a, b) = (self.records[self.i], self.records[self.j]);
        let no_room = self.room < SHORTEST;
        match self.answer {
            Answer::Clash(identifier) => {
                names.add(true, "hookup refused 10");
                names.add(identifier == 0, "hookup refused 10, identifier 0");
                names.add(identifier == 65_535, "hookup refused 10, identifier 65535");
                names.add(no_room, "hookup refused 10, no room either");
            }
            Answer::Refused(15) => {
                names.add(true, "hookup refused 15");
                names.add(self.room + 1 == joined_length(judge, a, b), "hookup refused 15, one byte short");
            }
            Answer::Refused(11) => {
                let by_states = join::too_many_states(&record::read(a).unwrap(), &record::read(b).unwrap());
                names.add(by_states, "hookup refused 11 by states");
                names.add(!by_states, "hookup refused 11 by entries");
                names.add(no_room, "hookup refused 11, no room either");
            }
            Answer::Refused(_) => {
                names.add(true, "hookup refused 9");
                names.add(no_room, "hookup refused 9, no room either");
            }
            Answer::Part(number) => self.joined_names(judge, number, &mut names),
            Answer::Cleared | Answer::Breaks(_) => unreachable!(),
        }
        names.0
    }

    fn joined_names(&self, judge: &mut Judge, number: usize, names: &mut Names) {
        let (a, b) = (self.records[self.i], self.records[self.j]);
        names.add(true, &kinds_name(u16_at(a, KIND_AT), u16_at(b, KIND_AT)));
        names.add(true, &number_name("hookup", number));
        names.add(self.room == joined_length(judge, a, b), "hookup, just enough room");
        names.add(self.i == self.j, "hookup, i = j");
        names.add(self.i > self.j, "hookup, i above j");
        let others_fail = self.records.iter().any(|bytes| !judge.passes(bytes));
        names.add(others_fail, "hookup beside a record that fails");
    }
}

fn joined_length(judge: &mut Judge, a: &[u8], b: &[u8]) -> usize {
    judge.joined(a, b).unwrap().len()
}

#[cfg(test)]
mod tests {
    use super::*;
    use crate::category::Tally;
    use crate::examples;
    use crate::make::Script;
    use crate::run;

    /// The categories of these calls on a shelf, with just enough room for their answers, those of the whole apart.
    fn of_calls(shelf: &[u8], calls: &[Call]) -> Vec<String> {
        let mut names = of_script(&Script::with(calls).bytes, shelf, ANSWER * calls.len());
        names.retain(|name| !whole_names().contains(name));
        names
    }

    fn of_script(script: &[u8], shelf: &[u8], room: usize) -> Vec<String> {
        let run = run::run(script, &mut shelf.to_vec(), &mut vec![0; room]);
        let found = of_run(&mut Judge::default(), script, shelf, room, &run);
        assert!(found.iter().all(|name| names().contains(name)), "{:?}", found);
        found
    }

    #[test]
    fn names_are_different() {
        let mut tally = Tally::new();
        for name in names() {
            tally.need(&name, 1);
        }
    }

    #[test]
    fn wholes_by_hand() {
        assert_eq!(of_script(&[3], &[], 0), ["99 by Count, at first"]);
        assert_eq!(of_script(&[4, 0, 0, 0, 0], &[], 0), ["99 by Part, at first"]);
        assert_eq!(of_script(&[0, 9], &[], 64), ["99 by an unknown operation, behind calls"]);
        assert_eq!(
            of_script(&[0, 1, 0, 0, 0], &[], 63),
            ["99 by Load without its length, behind calls", "99 by Load without its length, answers too short too"]
        );
        assert_eq!(of_script(&[1, 9, 0, 0, 0], &[], 0), ["99 by Load without its record, at first"]);
        assert_eq!(of_script(&[2, 9, 0, 0, 0], &[], 0), ["99 by Hookup cut off, at first"]);
        assert_eq!(of_script(&[4], &[], 0), ["99 by Part cut off, at first"]);
        assert_eq!(of_script(&[0, 0], &[], 0), ["15, no buffer"]);
        assert_eq!(of_script(&[0, 0], &[], 127), ["15, one byte short"]);
        assert_eq!(of_script(&[0, 0], &[], 64), ["15, an answer short"]);
        assert_eq!(of_script(&[0, 0], &[], 65), ["15, elsewhere"]);
        assert_eq!(of_script(&[], &[], 0), ["empty script, no buffer", "empty script, no end record"]);
        assert_eq!(of_script(&[], &[0; 6], 9), ["empty script, some buffer"]);
        assert_eq!(
            of_script(&[0, 1, 0, 0, 0, 0, 0], &[0; 7], 193),
            [
                "bytes behind the last answer",
                "several calls",
                "first call a clear",
                "clear behind other calls",
                "call behind a refused one",
                "bytes behind the end record",
                "shelf of one byte over and over",
                "clear, no part on the shelf",
                "load refused 1",
                "load refused for its record, no room either",
                "clear, no part on the shelf",
            ]
        );
    }

    #[test]
    fn loads_and_clears_by_hand() {
        let z = examples::z();
        let broken = examples::p_with_classes_0_1();
        let load = |record: &[u8]| Call::Load(record.to_vec());
        assert_eq!(of_calls(&[9; 5], &[Call::Clear]), ["clear refused 12, shelf of 1 to 5 bytes"]);
        assert_eq!(
            of_calls(&z[..10], &[load(&z), load(&[]), Call::Clear]),
            [
                "load refused 12, the first record runs past the shelf",
                "load refused 12, the record passes",
                "load refused 12, the first record runs past the shelf",
                "load refused 12, the record fails too",
                "clear, no end record",
            ]
        );
        let shelf = [&broken[..], &[0; 6], &[9; 11]].concat();
        assert_eq!(
            of_calls(&shelf, &[load(&broken), load(&z), load(&z), Call::Clear]),
            [
                "load breaks rule 2, kind 1",
                "load breaks, no room either",
                "load, kind 1",
                "load, just enough room",
                "load beside a record that fails",
                "load, part 1",
                "load refused 15",
                "clear, parts on the shelf",
            ]
        );
        let list = record::write(&examples::t_for_two([0, 0, 0], [0, 0, 1]));
        assert_eq!(
            of_calls(&[0; 90], &[load(&list)]),
            ["load breaks rule 5, kind 2", "load breaks at a later observer"]
        );
    }

    /// P that breaks rule 2, Q, P mislabelled, the guard.
    #[test]
    fn hookups_by_hand() {
        let records = [examples::p_with_classes_0_1(), examples::q(), examples::p_mislabelled(), examples::guard()];
        let shelf = [&records.concat()[..], &[0; 6], &[9; 60]].concat();
        let full = &shelf[..shelf.len() - 60];
        let of = |i, j| of_calls(&shelf, &[Call::Hookup(i, j)]);
        assert_eq!(of(0, 1), ["hookup refused 14 for i, breaks rule 2, kind 1"]);
        assert_eq!(of(1, 2), ["hookup refused 14 for j, refused 16, kind 1"]);
        assert_eq!(
            of(0, 0),
            [
                "hookup refused 14 for i, breaks rule 2, kind 1",
                "hookup refused 14 for i and j",
                "hookup refused 14, i = j",
                "hookup refused 14, otherwise 10",
            ]
        );
        assert_eq!(
            of_calls(full, &[Call::Hookup(0, 1)]),
            ["hookup refused 14 for i, breaks rule 2, kind 1", "hookup refused 14, otherwise 15"]
        );
        assert_eq!(
            of_calls(full, &[Call::Hookup(1, 2)]),
            ["hookup refused 14 for j, refused 16, kind 1", "hookup refused 14 for a refused record, no room either"]
        );
    }

    #[test]
    fn hookups_out_of_range_by_hand() {
        let records = [examples::p_with_classes_0_1(), examples::q(), examples::p_mislabelled(), examples::guard()];
        let shelf = [&records.concat()[..], &[0; 6], &[9; 60]].concat();
        let full = &shelf[..shelf.len() - 60];
        let of = |i, j| of_calls(&shelf, &[Call::Hookup(i, j)]);
        assert_eq!(
            of(4, 0),
            [
                "hookup refused 13 for i",
                "hookup refused 13, i is the number of records",
                "hookup refused 13 for i, j's record fails",
            ]
        );
        assert_eq!(of(1, u32::MAX as usize), ["hookup refused 13 for j", "hookup refused 13, j is 4294967295"]);
        assert_eq!(of_calls(full, &[Call::Hookup(3, 3)]), ["hookup refused 10", "hookup refused 10, no room either"]);
        assert_eq!(of(1, 1), ["hookup refused 10"]);
        let cut = &shelf[..records[0].len() + records[1].len() + 3];
        assert_eq!(
            of_calls(cut, &[Call::Hookup(1, 0)]),
            ["hookup refused 12, 1 to 5 bytes behind the last record", "hookup refused 12, i and j were met before"]
        );
    }

    #[test]
    fn joins_by_hand() {
        let records = [examples::p_with_classes_0_1(), examples::p(), examples::q(), examples::guard(), examples::z()];
        let shelf = |room: usize| [&records.concat()[..], &[0; 6], &vec![9; room]].concat();
        let of = |i, j, room| of_calls(&shelf(room), &[Call::Hookup(i, j)]);
        let beside = "hookup beside a record that fails";
        assert_eq!(of(1, 2, 53), ["hookup, kind 1 with kind 1", "hookup, part 3 to 99", beside]);
        assert_eq!(
            of(3, 4, 54),
            ["hookup, kind 3 with kind 1", "hookup, part 3 to 99", "hookup, just enough room", beside]
        );
        assert_eq!(of(4, 3, 55)[2], "hookup, i above j");
        assert_eq!(of(2, 1, 51), ["hookup refused 15", "hookup refused 15, one byte short"]);
        assert_eq!(of(4, 4, 20)[2], "hookup, i = j");
    }
}
