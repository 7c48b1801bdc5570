//! The shelf: all versions against answers and bytes worked out by hand, and a run against Check and Join of the library.

use super::*;
use crate::agree::shelves::{records, script};
use crate::inputs::scripts::Script;

/// What stands on a shelf before a run, and behind what is written.
const OLD: u8 = 0xaa;

const END: [u8; 6] = [0; 6];

/// One state without events, 11 bytes.
fn one() -> Vec<u8> {
    with(&[&[0]], &[LOW], &[]).record()
}

/// The paper's P for one observer, 52 bytes: input 1 toggles, output 2 stays.
fn paper(kind: u8) -> Vec<u8> {
    with(&[&[0, 0]], &[LOW], &[(INPUT, HIGH, &[2, 1]), (kind, LOW, &[1, 2])]).record()
}

/// One state that takes output 2 of P, 23 bytes.
fn taker() -> Vec<u8> {
    let mut table = with(&[&[0]], &[LOW], &[(INPUT, LOW, &[1])]);
    table.events[0].id = 2;
    table.record()
}

/// The bytes, with room behind them.
fn shelf(parts: &[&[u8]], room: usize) -> Vec<u8> {
    let mut shelf = parts.concat();
    shelf.extend(vec![OLD; room]);
    shelf
}

/// The eight numbers of an answer that has two.
fn two(tag: u64, number: u64) -> [u64; 8] {
    [tag, number, 0, 0, 0, 0, 0, 0]
}

/// The answer of a run, those of its calls, and the shelf behind it. Bytes behind the answers must stay.
fn ran(version: &Version, script: &[u8], shelf: &[u8], room: usize) -> (u32, Vec<u64>, Vec<u8>) {
    let mut shelf = shelf.to_vec();
    let (answer, out) = output(room, |out| (version.run)(script, &mut shelf, out));
    assert!(out[room..].iter().all(|&byte| byte == 7), "{}", version.name);
    (answer, out[..room].chunks_exact(8).map(|word| u64::from_le_bytes(word.try_into().unwrap())).collect(), shelf)
}

/// Each version gives these answers to the calls, and leaves this shelf.
fn runs(script: Script, before: &[u8], answers: &[[u64; 8]], after: &[u8]) {
    for version in &VERSIONS {
        let made = ran(version, &script.bytes(), before, 64 * answers.len());
        assert_eq!(made, (0, answers.concat(), after.to_vec()), "{}", version.name);
    }
}

/// Each version gives this answer to a call, and leaves the shelf as it is.
fn stops(script: Script, before: &[u8], answer: [u64; 8]) {
    runs(script, before, &[answer], before);
}

fn calls() -> Script {
    Script::default()
}

#[test]
fn bytes_of_runs() {
    let (p, q) = (paper(OUTPUT), taker());
    assert_eq!([p.len(), q.len(), one().len()], [52, 23, 11]);
    let script = calls().clear().load(&p).load(&q).hookup(0, 1);
    let after = shelf(&[&p, &q, &paper(INTERNAL), &END], 17);
    let answers = [0, 0, 1, 2].map(|number| two(0, number));
    runs(script, &[OLD; 150], &answers, &after);
    // The same in two runs, the second on the shelf of the first.
    let between = shelf(&[&p, &q, &END], 69);
    runs(calls().clear().load(&p).load(&q), &[OLD; 150], &answers[..3], &between);
    runs(calls().hookup(0, 1), &between, &answers[3..], &after);
    // What is joined can be joined, with itself too.
    let parts = [&one()[..]; 4].concat();
    let script = calls().clear().load(&one()).hookup(0, 0).hookup(1, 1).hookup(2, 0);
    runs(script, &[OLD; 50], &[0, 0, 1, 2, 3].map(|number| two(0, number)), &[&parts[..], &END].concat());
    // No byte is left, or one too few.
    runs(calls().clear().load(&one()), &[OLD; 17], &[two(0, 0), two(0, 0)], &[&one()[..], &END].concat());
    runs(calls().clear().load(&one()), &[OLD; 16], &[two(0, 0), two(1, 15)], &shelf(&[&END], 10));
}

#[test]
fn loads_in_their_order() {
    let p = paper(OUTPUT);
    let broken = with(&[&[0, 1]], &[LOW], &[(INPUT, HIGH, &[2, 1])]).record();
    // 12 hides all; Clear asks for six bytes alone.
    for before in [vec![], vec![0; 5], vec![OLD; 60], p.clone(), shelf(&[&p], 5)] {
        stops(calls().load(&[]), &before, two(1, 12));
        stops(calls().load(&broken), &before, two(1, 12));
        stops(calls().hookup(0, 9), &before, two(1, 12));
    }
    stops(calls().clear(), &[0; 5], two(1, 12));
    runs(calls().clear(), &[OLD; 7], &[two(0, 0)], &shelf(&[&END], 1));
    // The record's refusals and breaks hide 15.
    stops(calls().load(&p[..5]), &END, two(1, 1));
    stops(calls().load(&p[..51]), &END, two(1, 2));
    stops(calls().load(&broken), &END, [3, 2, 1, 0, 1, 0, 0, 0]);
    stops(calls().load(&p), &shelf(&[&END], 51), two(1, 15));
    runs(calls().load(&p), &shelf(&[&END], 52), &[two(0, 0)], &shelf(&[&p, &END], 0));
    // The break of the second of two observers, with its level.
    let second = with(&[&[0, 1, 2], &[0, 0, 1]], &[LOW, TOP], &[(OUTPUT, HIGH, &[4, 0, 0])]).record();
    stops(calls().load(&second), &END, [3, 5, 1, 0, 2, 1, TOP as u64, 0]);
}

#[test]
fn hookups_in_their_order() {
    let (p, q) = (paper(OUTPUT), taker());
    // A record that Check refuses, a header without a body, one that breaks a rule, for another observer.
    let unfit = [vec![1, 0, 0, 0, 0, 0, 9], vec![0, 0, 0, 0, 1, 0], with(&[&[0, 1]], &[TOP], &[(INPUT, 0xc0, &[2, 1])]).record()];
    for record in &unfit {
        let before = shelf(&[&q, record, &END], 100);
        for (i, j, refusal) in [(0, 2, 13), (2, 0, 13), (1, 2, 13), (2, 1, 13), (0, 1, 14), (1, 0, 14), (1, 1, 14), (0, u32::MAX, 13)] {
            stops(calls().hookup(i, j), &before, two(1, refusal));
        }
    }
    // 9 hides 10, 10 hides 11, 11 hides 15. The smallest identifier that clashes is told.
    let other = Table { observer: TOP, ..with(&[&[0, 0]], &[LOW], &[(INPUT, HIGH, &[2, 1])]) }.record();
    let many: Vec<u8> = vec![0; 64];
    let large = |id| {
        let mut table = with(&[&many], &[LOW], &[(OUTPUT, HIGH, &[1; 64])]);
        table.events[0].id = id;
        table.record()
    };
    let before = shelf(&[&p, &other, &large(1), &large(3), &END], 0);
    for (i, j, answer) in
        [(0, 1, two(1, 9)), (0, 0, two(2, 1)), (2, 2, two(2, 1)), (3, 3, two(2, 3)), (2, 0, two(1, 11)), (3, 2, two(1, 11))]
    {
        stops(calls().hookup(i, j), &before, answer);
    }
    let full = |room| shelf(&[&p, &q, &END], room);
    stops(calls().hookup(0, 1), &full(51), two(1, 15));
    runs(calls().hookup(0, 1), &full(52), &[two(0, 2)], &[&p[..], &q, &paper(INTERNAL), &END].concat());
    // A refused call stops none behind it.
    let script = calls().hookup(0, 2).load(&p[..5]).load(&one()).hookup(2, 2).clear().hookup(0, 0);
    let answers = [two(1, 13), two(1, 1), two(0, 2), two(0, 3), two(0, 0), two(1, 13)];
    let after = [&END, &p[6..], &q, &one(), &one(), &END].concat();
    runs(script, &full(22), &answers, &after);
}

#[test]
fn refused_runs() {
    let script = calls().clear().load(&one()).hookup(0, 0).bytes();
    let cut = (1..script.len()).filter(|end| ![1, 17].contains(end)).map(|end| script[..end].to_vec());
    let strange = [
        vec![3],
        vec![4, 0, 0, 0, 0],
        vec![5],
        vec![255],
        vec![0, 3, 0],
        vec![1, 0, 0, 0],
        [1, 12, 0, 0, 0].into_iter().chain(one()).collect(),
    ];
    for version in &VERSIONS {
        for malformed in cut.clone().chain(strange.clone()) {
            for room in [0, 63, 1_000] {
                let made = ran(version, &malformed, &[OLD; 50], room);
                assert_eq!(made, (99, vec![u64::from_le_bytes([7; 8]); room / 8], vec![OLD; 50]), "{} {malformed:?}", version.name);
            }
        }
        for room in [0, 64, 191] {
            let made = ran(version, &script, &[OLD; 50], room);
            assert_eq!(made, (15, vec![u64::from_le_bytes([7; 8]); room / 8], vec![OLD; 50]), "{}", version.name);
        }
        assert_eq!(ran(version, &[], &[OLD; 50], 0), (0, vec![], vec![OLD; 50]), "{}", version.name);
    }
}

#[test]
fn counts_and_places() {
    // Whatever the walk takes for a record counts: a header without a body, an unknown kind, kind 0 with a body.
    let strange = [vec![0, 0, 0, 0, 1, 0], vec![0, 0, 0, 0, 0, 1], vec![2, 0, 0, 0, 0, 0, 0, 0], one(), vec![1, 0, 0, 0, 255, 255, 0]];
    let full = shelf(&[&strange.concat(), &END], 3);
    let places = [(0, 6), (6, 6), (12, 8), (20, 11), (31, 7)];
    for version in &VERSIONS {
        let count = |shelf: &[u8], room| output(room, |out| (version.count)(shelf, out));
        let part = |shelf: &[u8], i, room| output(room, |out| (version.part)(shelf, i, out));
        let written = |numbers: &[u64]| {
            [&numbers.iter().flat_map(|number| number.to_le_bytes()).collect::<Vec<u8>>(), &[7; 40_000][8 * numbers.len()..]].concat()
        };
        let kept = |answer: u32| (answer, vec![7; 40_000]);
        assert_eq!(count(&full, 8), (0, written(&[5])), "{}", version.name);
        assert_eq!(count(&END, 9), (0, written(&[0])), "{}", version.name);
        assert_eq!(count(&full, 7), kept(15), "{}", version.name);
        for (i, (place, length)) in places.into_iter().enumerate() {
            assert_eq!(part(&full, i, 16), (0, written(&[place, length])), "{}", version.name);
            assert_eq!(part(&full, i, 15), kept(15), "{}", version.name);
        }
        for i in [5, 6, usize::MAX] {
            assert_eq!(part(&full, i, 0), kept(13), "{}", version.name);
        }
        // No end record: short, cut off, behind a record that runs past the shelf.
        for shelf in [&[][..], &[0; 5], &full[..43], &[1, 0, 0, 0, 1, 0], &[255; 300]] {
            assert_eq!(count(shelf, 0), kept(12), "{}", version.name);
            assert_eq!(part(shelf, 0, 0), kept(12), "{}", version.name);
        }
    }
}

#[test]
fn all_agree_on_shelves() {
    for kind in 1..=3 {
        let mut score = Score::of(&VERSIONS);
        score.random_shelves(10 + kind as u64, 2_000, kind);
        assert_eq!(score.differences, 0);
        let comes = |counts: &std::collections::BTreeMap<u32, usize>, answers: &[u32]| {
            answers.iter().for_each(|answer| assert!(counts.contains_key(answer), "{answer} in {counts:?}"))
        };
        comes(&score.runs, &[0, 15, 99]);
        comes(&score.clears, &[0, 12]);
        comes(&score.loads, &[0, 2, 3, 4, 5, 6, 7, 8, 12, 15, 16, 101, 102, 103, 104, 105]);
        comes(&score.hookups, &[0, 9, 10, 11, 12, 13, 14, 15]);
        comes(&score.counts, &[0, 12, 15]);
        comes(&score.parts, &[0, 12, 13, 15]);
    }
}

/// What a call on a list of records gives, by Check and Join of the library; the list is changed as the shelf of so many bytes is.
fn made(call: &[u8], list: &mut Vec<Vec<u8>>, capacity: usize) -> (u64, u64) {
    let library = &VERSIONS[0];
    let number = |at: usize| u32::from_le_bytes(call[at..][..4].try_into().unwrap()) as usize;
    let record = match call[0] {
        0 => {
            list.clear();
            return (0, 0);
        }
        1 => match (library.check)(&call[5..]) {
            0 => call[5..].to_vec(),
            rule if rule > 100 => return (3, rule as u64 - 100),
            refusal => return (1, refusal as u64),
        },
        _ => {
            let (Some(a), Some(b)) = (list.get(number(1)), list.get(number(5))) else {
                return (1, 13);
            };
            let (answer, mut out) = output(40_000, |out| (library.join)(a, b, out));
            match answer {
                0 => out.truncate(6 + u32::from_le_bytes(out[..4].try_into().unwrap()) as usize),
                10 => return (2, 0),
                refusal => return (1, refusal as u64),
            }
            out
        }
    };
    if list.concat().len() + record.len() + 6 > capacity {
        return (1, 15);
    }
    list.push(record);
    (0, list.len() as u64 - 1)
}

/// From a Clear on a run is what Check and Join make of a list of records.
#[test]
fn as_the_library_call_by_call() {
    let dice = &mut Dice(20);
    let (mut joined, mut loaded) = (0, 0);
    for round in 0..2_000_u32 {
        let records = records(dice, 1 + (round % 3) as u8);
        let (random, malformed) = script(dice, &records, 0);
        if malformed {
            continue;
        }
        let script = Script([vec![vec![0]], random.0].concat());
        let capacity = [60, 400, 20_000, 60_000][dice.below(4)];
        let mut list = Vec::new();
        let due: Vec<(u64, u64)> = script.0.iter().map(|call| made(call, &mut list, capacity)).collect();
        let numbers = |call: u8| script.0.iter().zip(&due).filter(|(bytes, due)| bytes[0] == call && due.0 == 0).count();
        loaded += numbers(1);
        joined += numbers(2);
        for version in &VERSIONS {
            let (answer, numbers, after) = ran(version, &script.bytes(), &vec![OLD; capacity], 64 * due.len());
            let told: Vec<(u64, u64)> = numbers.chunks(8).map(|n| (n[0], if n[0] == 2 { 0 } else { n[1] })).collect();
            assert_eq!((answer, &told), (0, &due), "{} round {round}", version.name);
            let laid = [list.concat(), END.to_vec()].concat();
            assert!(after.starts_with(&laid), "{} round {round}", version.name);
        }
    }
    println!("{loaded} loaded, {joined} joined");
    assert!(loaded > 1_000 && joined > 100, "{loaded} {joined}");
}
