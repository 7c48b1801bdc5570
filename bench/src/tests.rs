//! Records with several observers and limited parts: all versions against answers worked out by hand, and against the library's answers for each
//! observer alone and for parts without fine classes.

mod shelves;

use crate::agree::{couple, largest, one_state, Score};
use crate::closure::PIECE;
use crate::dice::Dice;
use crate::inputs::{Event, Table, HIGH, INPUT, INTERNAL, LOW, OUTPUT};
use crate::{Version, VERSIONS};

/// Rank 2, compartment 0.
const TOP: u8 = 0x81;

/// The answer, and the buffer that had 7s before.
fn output(room: usize, mut call: impl FnMut(&mut [u8]) -> u32) -> (u32, Vec<u8>) {
    let mut out = vec![7; 40_000];
    let answer = call(&mut out[..room]);
    (answer, out)
}

/// The answer, and where it is a pass or a break the eight numbers.
fn explained(version: &Version, record: &[u8]) -> (u32, Vec<u64>) {
    let (answer, out) = output(64, |out| (version.explain)(record, out));
    assert_eq!(answer, (version.check)(record), "{}", version.name);
    if answer != 0 && answer <= 100 {
        assert!(out.iter().all(|&byte| byte == 7), "{}", version.name);
        return (answer, vec![]);
    }
    (answer, out[..64].chunks(8).map(|word| u64::from_le_bytes(word.try_into().unwrap())).collect())
}

fn refused(record: &[u8], number: u32) {
    for version in &VERSIONS {
        assert_eq!(explained(version, record).0, number, "{}", version.name);
        for (answer, out) in
            [output(40_000, |out| (version.closure)(record, out)), output(40_000, |out| (version.join)(record, record, out))]
        {
            assert_eq!(answer, number, "{}", version.name);
            assert!(out.iter().all(|&byte| byte == 7), "{}", version.name);
        }
    }
}

fn told(table: &Table, answer: u32, numbers: [u64; 8]) {
    for version in &VERSIONS {
        assert_eq!(explained(version, &table.record()), (answer, numbers.to_vec()), "{}", version.name);
    }
}

fn with(classes: &[&[u8]], observers: &[u8], events: &[(u8, u8, &[u64])]) -> Table {
    let mut table = Table::new(classes[0].to_vec());
    table.observer = observers[0];
    table.further = observers[1..].iter().zip(&classes[1..]).map(|(&observer, classes)| (observer, classes.to_vec())).collect();
    for (id, &(kind, level, rows)) in (1..).zip(events) {
        table.events.push(Event { id, kind, level, rows: rows.to_vec() });
    }
    table
}

/// A part with one observer, who sees the level 0, and with fine classes.
fn limited(classes: &[u8], fine: &[u8], events: &[(u8, u8, &[u64])]) -> Table {
    Table { fine: Some(fine.to_vec()), ..with(&[classes], &[LOW], events) }
}

/// All versions agree on random records of this kind, and every answer comes, with this refusal among them.
fn agree(seed: u64, kind: u8, refusal: u32, spoilt: &[&str]) -> Score {
    let mut score = Score::of(&VERSIONS);
    score.random(seed, 600, kind);
    assert_eq!(score.differences, 0);
    for answer in [0, 1, 2, 3, 4, 5, refusal, 6, 7, 8, 16, 101, 102, 103, 104, 105] {
        assert!(score.checks.contains_key(&answer), "{answer} in {:?}", score.checks);
    }
    for answer in [0, 9, 10, 11, 15, refusal, 1000 + refusal] {
        assert!(score.joins.contains_key(&answer), "{answer} in {:?}", score.joins);
    }
    for answer in [0, 15, refusal] {
        assert!(score.closures.contains_key(&answer), "{answer} in {:?}", score.closures);
    }
    for &which in spoilt {
        assert!(score.spoilt.contains_key(which), "{which} in {:?}", score.spoilt);
    }
    println!("checks {:?}\njoins {:?}\nclosures {:?}\nspoilt {:?}", score.checks, score.joins, score.closures, score.spoilt);
    score
}

#[test]
fn all_agree_on_lists() {
    let spoilt = ["count 0", "count 1", "count 5", "equal observers", "falling observers", "another count", "column 1", "column 4"];
    let score = agree(3, 2, 20, &spoilt);
    assert!(score.mislabelled.contains_key("second observer"), "{:?}", score.mislabelled);
}

#[test]
fn all_agree_on_limited_parts() {
    agree(6, 3, 21, &["class skipped", "fine class skipped", "fine class across two", "without fine classes"]);
}

/// Several observers find what the library finds for each alone.
#[test]
fn as_the_library_for_each_alone() {
    let library = &VERSIONS[0];
    let dice = &mut Dice(4);
    let (mut late, mut passes, mut joined) = (0, 0, 0);
    for round in 0..1_000 {
        let (a, b) = if round % 100 == 0 { (largest(dice, 2), largest(dice, 2)) } else { couple(dice, 2) };
        let (x, y) = (a.record(), b.record());
        let views = a.alone();
        let each: Vec<_> = views.iter().map(|record| explained(library, record)).collect();
        let first = each.iter().position(|told| told.0 != 0);
        let due = &each[first.unwrap_or(0)];
        late += (first > Some(0)) as usize;
        passes += first.is_none() as usize;
        let blocks: Vec<u8> =
            views.iter().flat_map(|record| output(40_000, |out| (library.closure)(record, out)).1[..PIECE * a.n()].to_vec()).collect();
        for version in &VERSIONS {
            assert_eq!(&explained(version, &x), due, "{} round {round}", version.name);
            let (answer, out) = output(blocks.len(), |out| (version.closure)(&x, out));
            assert_eq!(answer, 0);
            assert!(out[..blocks.len()] == blocks && out[blocks.len()..].iter().all(|&byte| byte == 7), "{} round {round}", version.name);
            assert_eq!(output(blocks.len() - 1, |out| (version.closure)(&x, out)), (15, vec![7; 40_000]));
        }

        let others = b.alone();
        let lists = [&a, &b].map(|table| table.views().iter().map(|view| view.0).collect::<Vec<u8>>());
        let broken = |views: &[Vec<u8>]| views.iter().map(|record| (library.check)(record)).find(|&number| number != 0);
        let due = match (broken(&views), broken(&others)) {
            (Some(number), _) => Err(number),
            (_, Some(number)) => Err(1000 + number),
            _ if lists[0] != lists[1] => Err(9),
            _ => {
                let pairs: Vec<_> = views.iter().zip(&others).map(|(a, b)| output(40_000, |out| (library.join)(a, b, out))).collect();
                if pairs[0].0 != 0 {
                    Err(pairs[0].0)
                } else {
                    let (head, n) = (&pairs[0].1, a.n() * b.n());
                    let length = 6 + u32::from_le_bytes(head[..4].try_into().unwrap()) as usize;
                    let mut bytes = vec![2, 0, lists[0].len() as u8, head[7], head[8], head[9]];
                    bytes.extend(&lists[0]);
                    pairs.iter().for_each(|pair| bytes.extend(&pair.1[10..10 + n]));
                    bytes.extend(&head[10 + n..length]);
                    Ok([&(bytes.len() as u32 - 2).to_le_bytes()[..], &bytes].concat())
                }
            }
        };
        joined += due.is_ok() as usize;
        for version in &VERSIONS {
            let (answer, out) = output(40_000, |out| (version.join)(&x, &y, out));
            match &due {
                Err(number) => assert_eq!((answer, out), (*number, vec![7; 40_000]), "{} round {round}", version.name),
                Ok(bytes) => {
                    assert_eq!(answer, 0, "{} round {round}", version.name);
                    assert!(
                        out[..bytes.len()] == bytes[..] && out[bytes.len()..].iter().all(|&byte| byte == 7),
                        "{} round {round}",
                        version.name
                    );
                    assert_eq!(output(bytes.len() - 1, |out| (version.join)(&x, &y, out)), (15, vec![7; 40_000]));
                }
            }
        }
    }
    println!("of 1000: {passes} pass, {late} break for a later observer first, {joined} join");
    assert!(late > 20 && passes > 200 && joined > 50, "{late} {passes} {joined}");
}

/// A limited part gives the closures of the part without its fine classes, and where these are the classes also its answers. A joined part
/// passes, with the limits of both as factors of its own.
#[test]
fn as_the_library_without_fine_classes() {
    let library = &VERSIONS[0];
    let dice = &mut Dice(7);
    let (mut passes, mut only, mut joined, mut both) = (0, 0, 0, 0);
    for round in 0..1_000 {
        let (a, b) = couple(dice, 3);
        let one = Table { fine: None, ..a.clone() };
        let same = Table { fine: Some(a.classes.clone()), ..a.clone() };
        let due = explained(library, &one.record());
        let closures = output(40_000, |out| (library.closure)(&one.record(), out));
        passes += (due.0 == 0) as usize;
        only += (due.0 > 100 && (library.check)(&a.record()) == 0) as usize;
        for version in &VERSIONS {
            assert_eq!(explained(version, &same.record()), due, "{} round {round}", version.name);
            assert_eq!(output(40_000, |out| (version.closure)(&a.record(), out)), closures, "{} round {round}", version.name);
        }

        let (answer, out) = output(40_000, |out| (library.join)(&a.record(), &b.record(), out));
        if answer != 0 || out[4] != 3 {
            continue;
        }
        let length = 6 + u32::from_le_bytes(out[..4].try_into().unwrap()) as usize;
        let limits = [&a, &b].map(|table| explained(library, &table.record()).1[7]);
        joined += 1;
        both += (limits[0] > 1 && limits[1] > 1) as usize;
        for version in &VERSIONS {
            let (answer, numbers) = explained(version, &out[..length]);
            assert_eq!((answer, numbers[7]), (0, limits[0] * limits[1]), "{} round {round}", version.name);
        }
    }
    println!("of 1000: {passes} pass without fine classes, {only} only with them, {joined} join, {both} of two with limits above 1");
    assert!(passes > 200 && only > 100 && joined > 100 && both > 20, "{passes} {only} {joined} {both}");
}

/// The largest record of a kind, and one of as many bytes that joins with one state to itself.
fn largest_joins(seed: u64, kind: u8, length: usize, part: &Table) {
    assert_eq!(largest(&mut Dice(seed), kind).record().len(), length);
    for version in &VERSIONS {
        let (answer, out) = output(length, |out| (version.join)(&part.record(), &one_state(part).record(), out));
        assert_eq!((answer, &out[..length]), (0, &part.record()[..]));
    }
}

#[test]
fn largest_records() {
    let events = [(OUTPUT, LOW, &[u64::MAX; 64][..]); 32];
    largest_joins(5, 2, 16_782, &with(&[&[0; 64][..]; 4], &[0, 0x40, 0x80, 0xc1], &events));
    let fine: Vec<u8> = (0..64).collect();
    largest_joins(8, 3, 16_650, &limited(&[0; 64], &fine, &events));
}

/// The paper's P for two observers: input 1 toggles, output 2 stays.
fn toggle(first: &[u8], second: &[u8]) -> Table {
    with(&[first, second], &[LOW, TOP], &[(INPUT, HIGH, &[2, 1]), (OUTPUT, LOW, &[1, 2])])
}

#[test]
fn bytes_of_kind_2() {
    let mut wanted = vec![50, 0, 0, 0, 2, 0, 2, 2, 0, 2, 0x00, TOP, 0, 0, 0, 1, 1, 0, 0, 0x40, 2, 0, 1, 0];
    wanted.extend([2, 1, 1, 2].map(u64::to_le_bytes).concat());
    assert_eq!(toggle(&[0, 0], &[0, 1]).record(), wanted);
}

#[test]
fn breaks_by_observer_first() {
    // Rule 3 of the second observer: event 1 is low for it, and leads from the two states of its class to the same class.
    told(&toggle(&[0, 0], &[0, 0]), 0, [0, 0, 0, 0, 0, 2, 0, 1]);
    told(&toggle(&[0, 0], &[0, 1]), 0, [0, 0, 0, 0, 0, 2, 0, 1]);
    // High for the first alone.
    told(&toggle(&[0, 1], &[0, 0]), 102, [2, 1, 0, 1, 0, 0, 0x00, 0]);
    // High for both: the second breaks rule 2, the first none.
    let mut high = toggle(&[0, 0], &[0, 1]);
    high.events[0].level = 0x82;
    told(&high, 102, [2, 1, 0, 1, 0, 0, TOP as u64, 0]);
    // The first breaks rule 5, the second rule 2: by observer before rule.
    high.events[1].rows[1] = 0;
    told(&high, 105, [5, 2, 0, 0, 1, 2, 0x00, 0]);
    // Rule 1 is the first observer's.
    high.events[0].rows[1] = 0;
    told(&high, 101, [1, 1, 1, 0, 0, 0, 0x00, 0]);
    // The paper's T: rule 4 where event 1 is silent, rule 5 where it is seen. The count is that of the observer told.
    let three = |first: &[u8], second: &[u8]| with(&[first, second], &[LOW, TOP], &[(OUTPUT, HIGH, &[4, 0, 0])]);
    told(&three(&[0, 0, 1], &[0, 0, 1]), 104, [4, 1, 0, 2, 1, 4, 0x00, 0]);
    told(&three(&[0, 1, 2], &[0, 0, 1]), 105, [5, 1, 0, 2, 1, 3, TOP as u64, 0]);
    told(&three(&[0, 1, 2], &[0, 1, 2]), 0, [0, 0, 0, 0, 0, 4, 0, 1]);
    // Internal events are silent for both.
    let hidden = with(&[&[0, 1, 2], &[0, 0, 1]], &[LOW, TOP], &[(INTERNAL, LOW, &[4, 0, 0])]);
    told(&hidden, 104, [4, 1, 0, 2, 1, 4, TOP as u64, 0]);
    // The fourth of four.
    let four = with(&[&[0, 1], &[0, 1], &[0, 1], &[0, 0]], &[0x00, 0x40, 0x80, 0xff], &[(OUTPUT, LOW, &[1, 0])]);
    told(&four, 105, [5, 1, 0, 0, 1, 2, 0xff, 0]);
}

#[test]
fn refusals_in_their_order() {
    let good = toggle(&[0, 0], &[0, 1]).record();
    let changed = |changes: &[(usize, u8)]| {
        let mut record = good.clone();
        changes.iter().for_each(|&(place, byte)| record[place] = byte);
        record
    };
    refused(&good[..5], 1);
    refused(&good[..good.len() - 1], 2);
    for kind in [0, 4, 255] {
        refused(&changed(&[(4, kind), (7, 0)]), 3);
    }
    refused(&changed(&[(5, 1)]), 3);
    // 4 hides a wrong count, 5 too; the raw count makes the length.
    refused(&changed(&[(6, 9), (7, 0)]), 4);
    refused(&changed(&[(6, 9), (7, 65)]), 4);
    refused(&changed(&[(6, 9), (8, 2)]), 4);
    refused(&changed(&[(6, 9), (9, 33)]), 4);
    refused(&[3, 0, 0, 0, 2, 0, 2, 1, 0], 4);
    for count in [0, 1, 3, 4, 5, 255] {
        refused(&changed(&[(6, count), (10, 0xff)]), 5);
    }
    // 20 hides 6, 7, 16 and 8.
    let table = toggle(&[0, 0], &[0, 1]);
    for count in [0, 1, 5, 255] {
        let views: Vec<(u8, &[u8])> = (0..count).map(|observer| (observer, &[1, 0][..])).collect();
        refused(&table.record_for(&views), 20);
    }
    let all = [(12, 1), (18, 3), (19, 5), (24, 5)];
    refused(&changed(&[&[(11, 0)][..], &all].concat()), 20);
    refused(&changed(&[&[(10, 0x82)][..], &all].concat()), 20);
    // 6 in each column, 7, 16 of each observer and each event, 8.
    refused(&changed(&all), 6);
    refused(&changed(&[&[(12, 0), (15, 2)][..], &all[1..]].concat()), 6);
    refused(&changed(&all[1..]), 7);
    refused(&changed(&[(16, 2), (19, 5)]), 7);
    refused(&changed(&[(19, 5), (24, 5)]), 16);
    refused(&changed(&[(23, 63), (24, 5)]), 16);
    refused(&changed(&[(10, 1), (24, 5)]), 16);
    refused(&changed(&[(11, 63), (24, 5)]), 16);
    refused(&changed(&[(24, 5)]), 8);
}

#[test]
fn joins_by_lists() {
    let part = |observers: &[u8]| with(&vec![&[0][..]; observers.len()], observers, &[]).record();
    let lists: [&[u8]; 6] = [&[0x00], &[TOP], &[0x00, TOP], &[0x00, 0x82], &[0x40, TOP], &[0x00, TOP, 0xff]];
    for version in &VERSIONS {
        for a in lists {
            for b in lists {
                let (answer, out) = output(40_000, |out| (version.join)(&part(a), &part(b), out));
                if a == b {
                    assert_eq!((answer, &out[..part(a).len()]), (0, &part(a)[..]));
                } else {
                    assert_eq!(answer, 9);
                }
            }
        }
        // Each column with B's number of classes in it: 1 in the first, 2 in the second.
        let stays = |first: &[u8], second: &[u8]| with(&[first, second], &[LOW, TOP], &[]).record();
        let (answer, out) = output(40_000, |out| (version.join)(&stays(&[0, 1], &[0, 1]), &stays(&[0, 0], &[0, 1]), out));
        assert_eq!((answer, &out[..20]), (0, &[14, 0, 0, 0, 2, 0, 2, 4, 0, 0, 0x00, TOP, 0, 0, 1, 1, 0, 1, 2, 3][..]));
    }
}

#[test]
fn closures_by_observer() {
    // Event 1 is silent for the first observer alone.
    let record = with(&[&[0, 0], &[0, 0]], &[LOW, TOP], &[(OUTPUT, HIGH, &[2, 0])]).record();
    for version in &VERSIONS {
        let (answer, out) = output(4 * PIECE, |out| (version.closure)(&record, out));
        assert_eq!(answer, 0);
        let pieces: Vec<(u8, &[u8], &[u8])> = out.chunks(PIECE).take(4).map(|piece| (piece[0], &piece[8..10], &piece[72..74])).collect();
        assert_eq!(pieces, [(3, &[0, 1][..], &[0, 1][..]), (2, &[1, 0], &[0, 0]), (1, &[0, 0], &[0, 0]), (2, &[1, 0], &[0, 0])]);
        assert_eq!(output(4 * PIECE - 1, |out| (version.closure)(&record, out)), (15, vec![7; 40_000]));
    }
}

/// Event 1, a high input, leads to state 1; event 2, a low output, stays in state 0.
const ONCE: [(u8, u8, &[u64]); 2] = [(INPUT, HIGH, &[2, 2]), (OUTPUT, LOW, &[1, 0])];

#[test]
fn bytes_of_kind_3() {
    let mut wanted = vec![48, 0, 0, 0, 3, 0, 0x00, 2, 0, 2, 0, 0, 0, 1, 1, 0, 0, 0x40, 2, 0, 1, 0];
    wanted.extend([2, 2, 1, 0].map(u64::to_le_bytes).concat());
    assert_eq!(limited(&[0, 0], &[0, 1], &ONCE).record(), wanted);
}

#[test]
fn early_rules_by_classes() {
    // Rule 2: event 1 leads to another fine class, then to another class.
    told(&limited(&[0, 0], &[0, 1], &ONCE), 0, [0, 0, 0, 0, 0, 2, 0, 2]);
    told(&limited(&[0, 1], &[0, 1], &ONCE), 102, [2, 1, 0, 1, 0, 0, 0x00, 0]);
    // Rule 3 takes u from the class of s: state 1, of another fine class.
    told(&limited(&[0, 0, 1], &[0, 1, 2], &[(INPUT, LOW, &[1, 4, 4])]), 103, [3, 1, 0, 0, 1, 0, 0x00, 0]);
    // It asks for the class of t, not for its fine class.
    told(&limited(&[0, 0], &[0, 1], &[(INPUT, LOW, &[1, 2])]), 0, [0, 0, 0, 0, 0, 2, 0, 2]);
    // Rule 1 needs no class.
    told(&limited(&[0, 0], &[0, 1], &[(INPUT, LOW, &[1, 0])]), 101, [1, 1, 1, 0, 0, 0, 0x00, 0]);
}

#[test]
fn late_rules_by_fine_classes() {
    // Rule 4 takes u from the fine class of s.
    let three = |fine: &[u8]| limited(&[0, 0, 1], fine, &[(OUTPUT, HIGH, &[4, 0, 0])]);
    told(&three(&[0, 1, 2]), 0, [0, 0, 0, 0, 0, 4, 0, 2]);
    told(&three(&[0, 0, 1]), 104, [4, 1, 0, 2, 1, 4, 0x00, 0]);
    told(&limited(&[0, 0, 0, 1], &[0, 0, 1, 2], &[(OUTPUT, HIGH, &[8, 0, 0, 0])]), 104, [4, 1, 0, 3, 1, 5, 0x00, 0]);
    // It asks for the class of t: states 2 and 3 have one, but each its fine class. From 2 a silent step leads on, to class 2, and that is no step
    // of state 0, so that state 1 need not follow; until it is one.
    let five =
        |rows: &[u64], outputs: &[u64]| limited(&[0, 0, 1, 1, 2], &[0, 0, 1, 2, 3], &[(INTERNAL, LOW, rows), (OUTPUT, LOW, outputs)]);
    told(&five(&[4, 8, 16, 0, 0], &[0; 5]), 0, [0, 0, 0, 0, 0, 9, 0, 2]);
    told(&five(&[20, 8, 16, 0, 0], &[0; 5]), 104, [4, 1, 0, 4, 1, 9, 0x00, 0]);
    // Rule 5 likewise. From state 0 event 2 leads to 3, from state 1 after a silent step; 2, of the class of 3 and not of its fine class, cannot follow
    // where 3 stays. From 0 it also leads to class 2 behind silent steps, which 1 need not do, until it does so without them.
    told(&five(&[4, 8, 16, 0, 0], &[8, 0, 0, 8, 16]), 0, [0, 0, 0, 0, 0, 9, 0, 2]);
    told(&five(&[4, 8, 16, 0, 0], &[24, 0, 0, 8, 16]), 105, [5, 2, 0, 4, 1, 9, 0x00, 0]);
    // Nor need it where the silent step comes after the event.
    told(&five(&[0, 0, 16, 0, 0], &[4, 8, 0, 0, 0]), 0, [0, 0, 0, 0, 0, 6, 0, 2]);
}

#[test]
fn rule_5_without_silent_events() {
    let outputs = |classes: &[u8], fine: &[u8], rows: &[u64]| limited(classes, fine, &[(OUTPUT, LOW, rows)]);
    // The fine class of s: each its own, one for both, and one beside another.
    told(&outputs(&[0, 0], &[0, 1], &[1, 0]), 0, [0, 0, 0, 0, 0, 2, 0, 2]);
    told(&outputs(&[0, 0], &[0, 0], &[1, 0]), 105, [5, 1, 0, 0, 1, 2, 0x00, 0]);
    told(&outputs(&[0, 0, 0], &[0, 0, 1], &[1, 1, 0]), 0, [0, 0, 0, 0, 0, 3, 0, 2]);
    // The first u of the fine class, not of the class.
    told(&outputs(&[0, 0, 0], &[0, 1, 1], &[0, 2, 0]), 105, [5, 1, 1, 1, 2, 3, 0x00, 0]);
    // The class of t, not its fine class.
    told(&outputs(&[0, 0, 1, 1], &[0, 0, 1, 2], &[4, 8, 0, 0]), 0, [0, 0, 0, 0, 0, 4, 0, 2]);
}

#[test]
fn limits() {
    // The most fine classes in one class: three, neither in the first nor in the last.
    told(&limited(&[0, 1, 1, 1, 2, 2], &[0, 1, 2, 3, 4, 5], &[]), 0, [0, 0, 0, 0, 0, 6, 0, 3]);
    told(&limited(&[0, 0, 1, 1], &[0, 0, 1, 1], &[]), 0, [0, 0, 0, 0, 0, 4, 0, 1]);
    let fine: Vec<u8> = (0..64).collect();
    told(&limited(&[0; 64], &fine, &[]), 0, [0, 0, 0, 0, 0, 64, 0, 64]);
}

#[test]
fn refusals_of_limited_parts_in_their_order() {
    let good = limited(&[0, 0], &[0, 1], &ONCE).record();
    let changed = |changes: &[(usize, u8)]| {
        let mut record = good.clone();
        changes.iter().for_each(|&(place, byte)| record[place] = byte);
        record
    };
    for (place, byte) in [(7, 0), (7, 65), (8, 2), (9, 33)] {
        refused(&changed(&[(place, byte), (12, 1)]), 4);
    }
    refused(&[3, 0, 0, 0, 3, 0, 0, 1, 0], 4);
    // The length is that of the kind, with wrong classes and without.
    refused(&changed(&[(4, 1), (10, 1)]), 5);
    let mut one = toggle(&[0, 1], &[]);
    one.further.clear();
    let mut short = one.record();
    short[4] = 3;
    refused(&short, 5);
    let mut long = changed(&[(0, 49), (10, 1)]);
    long.push(0);
    refused(&long, 5);
    // 6 for the classes hides 21, and this 7, 16 and 8.
    let all = [(12, 1), (16, 3), (17, 5), (22, 5)];
    refused(&changed(&[&[(10, 1)][..], &all].concat()), 6);
    refused(&changed(&[&[(11, 2)][..], &all].concat()), 6);
    refused(&changed(&all), 21);
    refused(&changed(&[&[(13, 2)][..], &all[1..]].concat()), 21);
    // Numbered, but across two classes: of states 0 and 1.
    refused(&changed(&[&[(11, 1), (13, 0)][..], &all[1..]].concat()), 21);
    refused(&changed(&all[1..]), 7);
    refused(&changed(&all[2..]), 16);
    refused(&changed(&[(6, 1), (22, 5)]), 16);
    refused(&changed(&[(6, 1), (12, 1)]), 21);
    refused(&changed(&all[3..]), 8);
    // A fine class that comes again after another one, across two classes.
    refused(&limited(&[0, 1, 1], &[0, 1, 0], &[]).record(), 21);
    refused(&limited(&[0, 0, 1], &[0, 1, 0], &[]).record(), 21);
}

#[test]
fn joins_of_limited_parts() {
    let (a, b) = (limited(&[0, 0], &[0, 1], &[]), limited(&[0, 0, 1], &[0, 1, 2], &[]));
    let one = |table: &Table| Table { fine: None, ..table.clone() };
    // B has two classes and three fine ones; without these, its classes.
    let cases = [
        (&a, &b, [0, 0, 1, 0, 0, 1, 0, 1, 2, 3, 4, 5]),
        (&a, &one(&b), [0, 0, 1, 0, 0, 1, 0, 0, 1, 2, 2, 3]),
        (&one(&a), &b, [0, 0, 1, 0, 0, 1, 0, 1, 2, 0, 1, 2]),
    ];
    let list = with(&[&[0], &[0]], &[LOW, TOP], &[]).record();
    let other = Table { observer: TOP, ..b.clone() }.record();
    for version in &VERSIONS {
        for (a, b, columns) in &cases {
            let (answer, out) = output(22, |out| (version.join)(&a.record(), &b.record(), out));
            let wanted = [&[16, 0, 0, 0, 3, 0, 0x00, 6, 0, 0][..], columns].concat();
            assert_eq!((answer, &out[..22]), (0, &wanted[..]), "{}", version.name);
            assert_eq!(output(21, |out| (version.join)(&a.record(), &b.record(), out)), (15, vec![7; 40_000]), "{}", version.name);
        }
        for (a, b) in [(&a.record(), &list), (&list, &a.record()), (&a.record(), &other), (&other, &one(&a).record())] {
            assert_eq!(output(40_000, |out| (version.join)(a, b, out)), (9, vec![7; 40_000]), "{}", version.name);
        }
    }
}
