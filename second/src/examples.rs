//! The examples of document 01, "Examples", as bytes; P with a level that request d refuses, P and T with internal events
//! for request i, P, Q, T and Z for several observers, for request k, and T, Z and a guard that leaks, for request l.

use crate::record::{self, Event, Kind, Observer, Part};

/// P, byte by byte.
pub fn p() -> Vec<u8> {
    let mut bytes = vec![
        0x2E, 0x00, 0x00, 0x00, 0x01, 0x00, 0x00, 0x02, 0x00, 0x02, 0x00, 0x00, 0x01, 0x00, 0x00, 0x40, 0x02, 0x00,
        0x01, 0x00,
    ];
    for row in [2u8, 1, 1, 2] {
        bytes.extend_from_slice(&[row, 0, 0, 0, 0, 0, 0, 0]);
    }
    bytes
}

/// P with some bytes changed, each given with its offset.
pub fn p_with(changes: &[(usize, u8)]) -> Vec<u8> {
    let mut bytes = p();
    for &(at, byte) in changes {
        bytes[at] = byte;
    }
    bytes
}

pub fn p_with_classes_0_1() -> Vec<u8> {
    p_with(&[(11, 1)])
}

pub fn p_event_1_stepless_in_1() -> Vec<u8> {
    p_with(&[(28, 0)])
}

pub fn p_event_2_stepless_in_1() -> Vec<u8> {
    p_with(&[(44, 0)])
}

/// P with event 2 internal, which is P joined with Q.
pub fn p_with_event_2_internal() -> Vec<u8> {
    p_with(&[(18, 2)])
}

/// The same with event 2 stepless in state 1: nobody sees that it is missing.
pub fn p_mute_with_event_2_internal() -> Vec<u8> {
    p_with(&[(18, 2), (44, 0)])
}

/// P with 0x01 as the level of event 2, for request d.
pub fn p_mislabelled() -> Vec<u8> {
    p_with(&[(19, 0x01)])
}

fn t(kind: Kind, level: u8) -> Part {
    let events = vec![Event { identifier: 1, kind, level }];
    let mut part = Part::without_steps(0, 0, vec![0, 0, 1], events);
    part.steps[0][0][2] = true;
    part
}

pub fn t_high_output() -> Vec<u8> {
    record::write(&t(Kind::Output, 0x40))
}

/// T with event 1 internal and of the observer's own level.
pub fn t_low_internal() -> Vec<u8> {
    record::write(&t(Kind::Internal, 0))
}

pub fn t_low_input() -> Vec<u8> {
    let mut part = t(Kind::Input, 0);
    part.steps[0][1][1] = true;
    part.steps[0][2][2] = true;
    record::write(&part)
}

pub fn q() -> Vec<u8> {
    let events = vec![Event { identifier: 2, kind: Kind::Input, level: 0 }];
    let mut part = Part::without_steps(0, 0, vec![0], events);
    part.steps[0][0][0] = true;
    record::write(&part)
}

/// Z, byte by byte.
pub fn z() -> Vec<u8> {
    vec![5, 0, 0, 0, 1, 0, 0, 1, 0, 0, 0]
}

/// A part of n states in one class, without events, for observer 0.
pub fn without_events(n: usize) -> Vec<u8> {
    record::write(&Part::without_steps(0, 0, vec![0; n], Vec::new()))
}

/// A part of one state with `count` low outputs from identifier `first` on, for observer 0.
pub fn outputs(first: u16, count: usize) -> Vec<u8> {
    let mut events = Vec::new();
    for i in 0..count {
        events.push(Event { identifier: first + i as u16, kind: Kind::Output, level: 0 });
    }
    let mut part = Part::without_steps(0, 0, vec![0], events);
    for e in 0..count {
        part.steps[e][0][0] = true;
    }
    record::write(&part)
}

/// P for the observers 0x00 and 0x40, byte by byte: to the second one input 1 is low, and its classes are 0 1.
pub fn p_for_two() -> Vec<u8> {
    let mut bytes = vec![
        0x32, 0x00, 0x00, 0x00, 0x02, 0x00, 0x02, 0x02, 0x00, 0x02, 0x00, 0x40, 0x00, 0x00, 0x00, 0x01, 0x01, 0x00,
        0x00, 0x40, 0x02, 0x00, 0x01, 0x00,
    ];
    for row in [2u8, 1, 1, 2] {
        bytes.extend_from_slice(&[row, 0, 0, 0, 0, 0, 0, 0]);
    }
    bytes
}

/// The same with some bytes changed, each given with its offset.
pub fn p_for_two_with(changes: &[(usize, u8)]) -> Vec<u8> {
    let mut bytes = p_for_two();
    for &(at, byte) in changes {
        bytes[at] = byte;
    }
    bytes
}

/// Z for the observers 0x00 and 0x40, byte by byte.
pub fn z_for_two() -> Vec<u8> {
    vec![8, 0, 0, 0, 2, 0, 2, 1, 0, 0, 0x00, 0x40, 0, 0]
}

/// Z for any list of observers.
pub fn z_for(levels: &[u8]) -> Vec<u8> {
    record::write(&for_levels(&record::fields(&z()), levels))
}

/// Q for the observers 0x00 and 0x40.
pub fn q_for_two() -> Vec<u8> {
    record::write(&for_levels(&record::fields(&q()), &[0x00, 0x40]))
}

/// The part for observers of these levels, with one grouping for all of them.
fn for_levels(part: &Part, levels: &[u8]) -> Part {
    let classes = &part.observers[0].classes;
    let observers = levels.iter().map(|&level| Observer::new(level, classes.clone())).collect();
    Part { observers, ..part.clone() }
}

/// T with event 1 an output of level 0x40, for the observers 0x00, to whom it is high, and 0x40, to whom it is low.
pub fn t_for_two(first: [u8; 3], second: [u8; 3]) -> Part {
    let mut part = t(Kind::Output, 0x40);
    part.observers = vec![Observer::new(0x00, first.to_vec()), Observer::new(0x40, second.to_vec())];
    part
}

/// Three states for the observers 0x00 and 0x40. Output 1, of level 0x40, leads from 1 to 0; input 2, high for both, leads
/// from 1 to 2 and stays elsewhere. The first observer's classes are 0 1 1: rule 4 is broken. The second one's are 0 0 1:
/// rule 2 is broken.
pub fn lower_rule_at_the_second() -> Part {
    let events = vec![
        Event { identifier: 1, kind: Kind::Output, level: 0x40 },
        Event { identifier: 2, kind: Kind::Input, level: 0x80 },
    ];
    let observers = vec![Observer::new(0x00, vec![0, 1, 1]), Observer::new(0x40, vec![0, 0, 1])];
    let mut part = Part::for_observers(observers, 0, events);
    part.steps[0][1][0] = true;
    part.steps[1][0][0] = true;
    part.steps[1][1][2] = true;
    part.steps[1][2][2] = true;
    part
}

/// A limited part, byte by byte: a guard of two states in one coarse class and two fine ones. The high input 1 leads to
/// state 1, and the low output 2 is possible in state 0 alone: it passes, and the output tells that the input has not come.
pub fn guard() -> Vec<u8> {
    let mut bytes = vec![
        0x30, 0x00, 0x00, 0x00, 0x03, 0x00, 0x00, 0x02, 0x00, 0x02, 0x00, 0x00, 0x00, 0x01, 0x01, 0x00, 0x00, 0x40,
        0x02, 0x00, 0x01, 0x00,
    ];
    for row in [2u8, 2, 1, 0] {
        bytes.extend_from_slice(&[row, 0, 0, 0, 0, 0, 0, 0]);
    }
    bytes
}

/// The same with some bytes changed, each given with its offset.
pub fn guard_with(changes: &[(usize, u8)]) -> Vec<u8> {
    let mut bytes = guard();
    for &(at, byte) in changes {
        bytes[at] = byte;
    }
    bytes
}

/// Z as a limited part, byte by byte.
pub fn z_limited() -> Vec<u8> {
    vec![6, 0, 0, 0, 3, 0, 0, 1, 0, 0, 0, 0]
}

/// The part with a fine column.
pub fn with_fine(part: &Part, fine: &[u8]) -> Part {
    let mut limited = part.clone();
    limited.observers[0].fine = Some(fine.to_vec());
    limited
}

/// T with event 1 a high output, and with a fine column.
pub fn t_limited(fine: [u8; 3]) -> Vec<u8> {
    record::write(&with_fine(&t(Kind::Output, 0x40), &fine))
}

/// Source document 001, the first counterexample: a machine that counts high events until `stop` and then says
/// whether their number was odd. Its `stop` is an output; it hears high inputs 1 and 11 and sends high output 10.
pub fn parity_with_stop_as_output() -> Part {
    parity(Kind::Output, &[1, 11], 10, 21)
}

/// The same with `stop` as an input; it hears high inputs 2 and 10 and sends high output 11.
pub fn parity_with_stop_as_input() -> Part {
    parity(Kind::Input, &[2, 10], 11, 23)
}

/// States: 0 even so far, 1 odd so far, 2 stopped even, 3 stopped odd, 4 done. `stop` is event 20; `even` is the
/// given identifier and `odd` the next one.
fn parity(stop: Kind, heard: &[u16], sent: u16, even: u16) -> Part {
    let mut events = Vec::new();
    for &identifier in heard {
        events.push(Event { identifier, kind: Kind::Input, level: 0x40 });
    }
    events.push(Event { identifier: sent, kind: Kind::Output, level: 0x40 });
    events.push(Event { identifier: 20, kind: stop, level: 0 });
    events.push(Event { identifier: even, kind: Kind::Output, level: 0 });
    events.push(Event { identifier: even + 1, kind: Kind::Output, level: 0 });
    events.sort_by_key(|event| event.identifier);
    let mut part = Part::without_steps(0, 0, vec![0, 0, 1, 2, 3], events);
    for e in 0..part.event_count() {
        let identifier = part.events[e].identifier;
        if identifier == 20 {
            part.steps[e][0][2] = true;
            part.steps[e][1][3] = true;
        } else if identifier == even {
            part.steps[e][2][4] = true;
        } else if identifier == even + 1 {
            part.steps[e][3][4] = true;
        } else {
            part.steps[e][0][1] = true;
            part.steps[e][1][0] = true;
        }
        if part.is_input(e) {
            for s in 2..5 {
                part.steps[e][s][s] = true;
            }
        }
    }
    part
}
