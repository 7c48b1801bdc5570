//! Random parts for the tests. The same seed gives the same parts.

use crate::level::Level;
use crate::part::{by_first_appearance, Event, Kind, Observer, Part, MAX_EVENTS, MAX_OBSERVERS, MAX_STATES};

pub struct Rng(u64);

impl Rng {
    pub fn new(seed: u64) -> Rng {
        Rng(seed.wrapping_mul(0x9E37_79B9_7F4A_7C15) | 1)
    }

    /// xorshift64*
    pub fn next(&mut self) -> u64 {
        self.0 ^= self.0 >> 12;
        self.0 ^= self.0 << 25;
        self.0 ^= self.0 >> 27;
        self.0.wrapping_mul(0x2545_F491_4F6C_DD1D)
    }

    /// A number from 0 to `bound` - 1.
    pub fn below(&mut self, bound: usize) -> usize {
        ((self.next() >> 11) % bound as u64) as usize
    }

    pub fn pick<T: Copy>(&mut self, items: &[T]) -> T {
        items[self.below(items.len())]
    }
}

/// The row with all n states.
fn all(n: usize) -> u64 {
    u64::MAX >> (64 - n)
}

/// Often a limit, often few.
fn size(rng: &mut Rng, least: usize, most: usize) -> usize {
    match rng.below(8) {
        0 => least,
        1 => most,
        2 => least + rng.below(most - least + 1),
        _ => least + rng.below(6),
    }
}

/// m rising identifiers; 0 and 65535 come up often.
fn identifiers(rng: &mut Rng, m: usize) -> Vec<u16> {
    let mut found = std::collections::BTreeSet::new();
    while found.len() < m {
        let any = rng.next() as u16;
        let near = rng.below(64) as u16;
        found.insert(rng.pick(&[0, u16::MAX, any, near]));
    }
    found.into_iter().collect()
}

/// No step, one, some, or all.
fn row(rng: &mut Rng, n: usize) -> u64 {
    match rng.below(5) {
        0 => 0,
        1 => all(n),
        2 => all(n) & rng.next() & rng.next(),
        _ => 1 << rng.below(n),
    }
}

/// Any level that is not mislabelled; each rank comes up as often as the others.
fn level(rng: &mut Rng) -> Level {
    let any = Level(rng.next() as u8);
    if any.is_mislabelled() {
        Level::of_rank(0)
    } else {
        any
    }
}

fn event(rng: &mut Rng, identifier: u16, n: usize) -> Event {
    let rows = (0..n).map(|_| row(rng, n)).collect();
    Event { identifier, kind: rng.pick(&Kind::ALL), level: level(rng), rows }
}

/// So many observers of n states, of different levels that rise by byte.
fn observers(rng: &mut Rng, count: usize, n: usize) -> Vec<Observer> {
    let mut levels = std::collections::BTreeSet::new();
    while levels.len() < count {
        levels.insert(level(rng).0);
    }
    levels.into_iter().map(|byte| Observer { level: Level(byte), classes: classes(rng, n), fine: None }).collect()
}

/// One class, few or many.
fn classes(rng: &mut Rng, n: usize) -> Vec<u8> {
    let class_bound = rng.pick(&[1, 2, 3, n]);
    let numbers: Vec<usize> = (0..n).map(|_| rng.below(class_bound)).collect();
    by_first_appearance(&numbers)
}

/// Classes in which there are one fine class, few or many; none of them in two.
fn fine_classes(rng: &mut Rng, classes: &[u8]) -> Vec<u8> {
    let most = rng.pick(&[1, 2, 3, classes.len()]);
    let numbers: Vec<usize> = classes.iter().map(|&class| class as usize * most + rng.below(most)).collect();
    by_first_appearance(&numbers)
}

/// Any part with so many observers.
fn part_of(rng: &mut Rng, observer_count: usize) -> Part {
    let n = size(rng, 1, MAX_STATES);
    let m = size(rng, 0, MAX_EVENTS);
    let events = identifiers(rng, m).into_iter().map(|identifier| event(rng, identifier, n)).collect();
    Part { states: n, start: rng.below(n), events, observers: observers(rng, observer_count, n) }
}

/// Any part that a record of kind 1 can hold.
pub fn part(rng: &mut Rng) -> Part {
    part_of(rng, 1)
}

/// Any part that a record of kind 2 can hold.
pub fn several(rng: &mut Rng) -> Part {
    let count = 2 + rng.below(MAX_OBSERVERS - 1);
    part_of(rng, count)
}

/// Any part that a record of kind 3 can hold.
pub fn limited(rng: &mut Rng) -> Part {
    let mut part = part(rng);
    let observer = &mut part.observers[0];
    observer.fine = Some(fine_classes(rng, &observer.classes));
    part
}

/// A part of any kind.
pub fn any(rng: &mut Rng) -> Part {
    match rng.below(3) {
        0 => part(rng),
        1 => several(rng),
        _ => limited(rng),
    }
}

/// n states, each its own class, and m events that lead from every state to every state.
pub fn full(n: usize, m: usize) -> Part {
    let mut events = Vec::new();
    for e in 0..m {
        let identifier = if e == 0 { 0 } else { u16::MAX - (m - 1 - e) as u16 };
        events.push(Event { identifier, kind: Kind::ALL[e % 3], level: Level(0xFF), rows: vec![all(n); n] });
    }
    let observer = Observer { level: Level(0xFF), classes: (0..n as u8).collect(), fine: None };
    Part { states: n, start: n - 1, events, observers: vec![observer] }
}

/// The full part, seen by so many observers.
pub fn full_for(n: usize, m: usize, observer_count: usize) -> Part {
    let mut part = full(n, m);
    let level = |i: usize| Level(0xFF - (observer_count - 1 - i) as u8);
    part.observers = (0..observer_count).map(|i| Observer { level: level(i), ..part.observers[0].clone() }).collect();
    part
}

/// The full part as a limited one: all states are in one class, and each is its own fine class.
pub fn full_limited(n: usize, m: usize) -> Part {
    let mut part = full(n, m);
    let observer = &mut part.observers[0];
    observer.fine = Some(std::mem::replace(&mut observer.classes, vec![0; n]));
    part
}

/// Changes one to three of the fields' bytes, or cuts the end off, or adds to it.
pub fn damage(rng: &mut Rng, bytes: &mut Vec<u8>) {
    match rng.below(12) {
        0 => bytes.truncate(rng.below(8)),
        1 => bytes.push(0),
        2 => {
            bytes.truncate(6 + rng.below(4));
            bytes[0] = bytes.len() as u8 - 6;
            bytes[1] = 0;
        }
        _ => {
            for _ in 0..=rng.below(3) {
                let at =
                    if rng.below(2) == 0 { rng.below(bytes.len()) } else { 4 + rng.below(bytes.len().min(24) - 4) };
                bytes[at] = rng.pick(&[0, 1, 2, 3, 255]);
            }
        }
    }
}
