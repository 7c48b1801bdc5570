//! The same of runs, Count and Part, on shelves of any bytes.

use super::*;
use crate::inputs::scripts::Script;

/// Bytes behind a shelf and behind its answers that are not lent.
const MARGIN: usize = 16;

/// Bytes that Count writes, Part writes, and a run writes for each call.
const NUMBER: usize = 8;
const PLACE: usize = 16;
const ANSWER: usize = 64;

impl Score {
    /// The timed runs and shelves: also against the answers they are made for.
    pub(super) fn timed_shelves(&mut self, inputs: &Inputs) {
        for run in &inputs.runs {
            let (answer, calls) = self.run(&run.name, &run.script, &run.shelf, run.room);
            self.made_for(&run.name, run.answer, answer);
            if calls != run.calls {
                self.fault(format!("{}: made for {:?}, {} {calls:?}", run.name, run.calls, self.versions[0].name));
            }
        }
        for stock in &inputs.counts {
            let answer = self.count(&stock.name, &stock.shelf, ROOM);
            self.made_for(&stock.name, stock.answer, answer);
        }
        for stock in &inputs.parts {
            let answer = self.part(&stock.name, &stock.shelf, stock.i, ROOM);
            self.made_for(&stock.name, stock.answer, answer);
        }
    }

    /// A run with so many bytes for its answers: every byte of shelf and answers. Gives the answer and those of the calls.
    fn run(&mut self, name: &str, script: &[u8], shelf: &[u8], room: usize) -> (u32, Vec<u32>) {
        let behind = shelf.len() + MARGIN;
        let mut before = shelf.to_vec();
        before.extend((0..2 * MARGIN + room).map(|i| (i * 7 + 3) as u8));
        let (answer, bytes) = self.bytes(&format!("run of {name}"), &before, |version, bytes| {
            let (front, back) = bytes.split_at_mut(behind);
            (version.run)(script, &mut front[..shelf.len()], &mut back[..room])
        });
        *self.runs.entry(answer).or_default() += 1;
        let calls = if answer == 0 { self.calls(script, &bytes[behind..]) } else { vec![] };
        (answer, calls)
    }

    /// The answers of the calls of a script that was run, counted by call.
    fn calls(&mut self, script: &[u8], answers: &[u8]) -> Vec<u32> {
        let (mut at, mut numbers) = (0, Vec::new());
        for answer in answers.chunks(ANSWER) {
            let Some(first) = script.get(at) else {
                break;
            };
            let number = answer[8] as u32 + 256 * answer[9] as u32;
            let number = *[0, number, 10, 100 + number].get(answer[0] as usize).unwrap_or(&u32::MAX);
            let (counts, size) = match first {
                0 => (&mut self.clears, 1),
                1 => (&mut self.loads, 5 + u32::from_le_bytes(script[at + 1..][..4].try_into().unwrap()) as usize),
                _ => (&mut self.hookups, 9),
            };
            *counts.entry(number).or_default() += 1;
            numbers.push(number);
            at += size;
        }
        numbers
    }

    fn count(&mut self, name: &str, shelf: &[u8], room: usize) -> u32 {
        let answer = self.output(&format!("count of {name}"), room, |version, out| (version.count)(shelf, out));
        *self.counts.entry(answer).or_default() += 1;
        answer
    }

    fn part(&mut self, name: &str, shelf: &[u8], i: usize, room: usize) -> u32 {
        let answer = self.output(&format!("part {i} of {name}"), room, |version, out| (version.part)(shelf, i, out));
        *self.parts.entry(answer).or_default() += 1;
        answer
    }

    /// Random scripts on random shelves, with parts of a kind.
    pub fn random_shelves(&mut self, seed: u64, rounds: usize, kind: u8) {
        let dice = &mut Dice(seed);
        for round in 0..rounds {
            let records = records(dice, kind);
            let (shelf, count) = shelf(dice, &records);
            let (script, malformed) = script(dice, &records, count);
            let len = ANSWER * script.0.len();
            let short = len > 0 && dice.one_in(8);
            let room = if short { [len - 1, dice.below(len)][dice.below(2)] } else { len + [0, dice.below(100)][dice.below(2)] };
            let name = format!("random shelf {round}");
            let (answer, _) = self.run(&name, &script.bytes(), &shelf, room);
            let due = [[0, 15][short as usize], 99][malformed as usize];
            self.made_for(&name, due, answer);
            self.count(&name, &shelf, self::room(dice, NUMBER));
            let i = if dice.one_in(20) { usize::MAX } else { dice.below(count + 2) };
            self.part(&name, &shelf, i, self::room(dice, PLACE));
        }
    }
}

/// Two parts that often join, one of one state, one mislabelled, one damaged, and noise behind a header.
pub fn records(dice: &mut Dice, kind: u8) -> Vec<Vec<u8>> {
    let (a, b) = couple(dice, kind);
    let mut mislabelled = a.clone();
    mislabel(dice, &mut mislabelled);
    let mut damaged = b.record();
    damage(dice, &mut damaged);
    let noise = vec![0; 4].into_iter().chain((0..2 + dice.below(12)).map(|_| dice.below(3) as u8)).collect();
    let mut records = vec![a.record(), b.record(), one_state(&a).record(), mislabelled.record(), damaged, noise];
    // Most lengths fit, so that the walk goes on.
    for record in &mut records[4..] {
        if record.len() >= 6 && !dice.one_in(8) {
            let body = record.len() as u32 - 6;
            record[..4].copy_from_slice(&body.to_le_bytes());
        }
    }
    records
}

/// One of the records, more often one of the first.
fn pick<'a>(dice: &mut Dice, records: &'a [Vec<u8>]) -> &'a [u8] {
    &records[[0, 0, 0, 1, 1, 1, 2, 3, 4, 5][dice.below(10)]]
}

/// A shelf and how many records are laid on it, often the two that may join first: with an end record or without one, with much room, with little
/// or none; now and then too short for an end record.
fn shelf(dice: &mut Dice, records: &[Vec<u8>]) -> (Vec<u8>, usize) {
    if dice.one_in(20) {
        return ((0..dice.below(8)).map(|_| dice.below(2) as u8).collect(), 0);
    }
    let paired = dice.one_in(2);
    let mut shelf: Vec<u8> = if paired { records[..2].concat() } else { vec![] };
    let further = dice.below(4);
    (0..further).for_each(|_| shelf.extend(pick(dice, records)));
    if !dice.one_in(12) {
        shelf.extend([0; 6]);
    }
    let spare = [0, dice.below(40), dice.below(400), 17_000, 40_000, 60_000][dice.below(6)];
    shelf.extend(vec![0xaa; spare]);
    if dice.one_in(12) {
        shelf.truncate(dice.below(shelf.len() + 1));
    }
    (shelf, further + if paired { 2 } else { 0 })
}

/// A script for a shelf of so many records, and whether it is malformed.
pub fn script(dice: &mut Dice, records: &[Vec<u8>], mut count: usize) -> (Script, bool) {
    let mut script = Script::default();
    for _ in 0..dice.below(10) {
        script = match dice.below(16) {
            0 => {
                count = 0;
                script.clear()
            }
            1..6 => {
                count += 1;
                script.load(pick(dice, records))
            }
            6 => script.hookup(dice.next() as u32, dice.below(3) as u32),
            7 => script.hookup(0, dice.next() as u32),
            8..12 => script.hookup(0, 1),
            _ => script.hookup(dice.below(count.max(1)) as u32, dice.below(count + 1) as u32),
        };
    }
    let malformed = dice.one_in(8);
    if malformed {
        let record = pick(dice, records);
        script = malform(dice, script, record);
    }
    (script, malformed)
}

/// The script with an unknown operation, or with one of Count and Part, at some place; or with a call at its end that is cut off.
fn malform(dice: &mut Dice, mut script: Script, record: &[u8]) -> Script {
    let at = dice.below(script.0.len() + 1);
    match dice.below(4) {
        0 => script.0.insert(at, vec![3 + dice.below(253) as u8]),
        1 => script.0.insert(at, [vec![3], vec![4, 0, 0, 0, 0]][dice.below(2)].clone()),
        kind => {
            let cut = if kind == 2 { Script::default().load(record) } else { Script::default().hookup(0, 0) };
            let mut bytes = cut.bytes();
            bytes.truncate(1 + dice.below(bytes.len() - 1));
            script.0.push(bytes);
        }
    }
    script
}
