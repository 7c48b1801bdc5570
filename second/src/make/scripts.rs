//! Makes lists of calls, and scripts for `replay` and hookup_run.

use super::damages::bad_record;
use super::kinds::{any_of_kinds, bus_of_limited};
use super::limited::any_limited;
use super::lists::{any_list, bus_of_lists};
use super::pairs::bus;
use super::passing::any_passing;
use crate::bench::{self, Call};
use crate::examples;
use crate::join;
use crate::record::{self, push_u32, Part};
use crate::rng::Rng;

/// Makes a number of parts of one bus, with so many states at most.
type Bus = fn(&mut Rng, usize, usize) -> Vec<Part>;

/// A random list of calls on parts of one bus.
pub fn calls(rng: &mut Rng, count: usize) -> Vec<Call> {
    calls_on(rng, count, bus)
}

/// The same on parts for several observers.
pub fn calls_on_lists(rng: &mut Rng, count: usize) -> Vec<Call> {
    calls_on(rng, count, bus_of_lists)
}

/// The same on limited parts and some others.
pub fn calls_on_limited(rng: &mut Rng, count: usize) -> Vec<Call> {
    calls_on(rng, count, bus_of_limited)
}

fn calls_on(rng: &mut Rng, count: usize, bus: Bus) -> Vec<Call> {
    let parts = rng.range(2, 5);
    let pool = bus(rng, parts, 4);
    let mut calls = Vec::new();
    for _ in 0..count {
        calls.push(match rng.below(10) {
            0 => {
                if rng.chance(1, 3) {
                    Call::Clear
                } else {
                    Call::Load(bad_record(rng))
                }
            }
            1..=4 => Call::Load(record::write(&pool[rng.below(pool.len())])),
            5 => Call::Load(examples::z()),
            _ => Call::Hookup(rng.below(6), rng.below(6)),
        });
    }
    calls
}

/// A script for `replay`, or the calls alone for hookup_run.
#[derive(Clone, Default)]
pub struct Script {
    pub bytes: Vec<u8>,
}

impl Script {
    /// Without a capacity.
    pub fn of_calls() -> Script {
        Script::default()
    }

    /// The same with these calls.
    pub fn with(calls: &[Call]) -> Script {
        let mut script = Script::of_calls();
        for call in calls {
            script.call(call);
        }
        script
    }

    pub fn new(capacity: usize) -> Script {
        let mut bytes = Vec::new();
        push_u32(&mut bytes, capacity as u32);
        Script { bytes }
    }

    pub fn clear(&mut self) {
        self.bytes.push(0);
    }

    pub fn load(&mut self, record: &[u8]) {
        self.bytes.push(1);
        push_u32(&mut self.bytes, record.len() as u32);
        self.bytes.extend_from_slice(record);
    }

    pub fn hookup(&mut self, i: u32, j: u32) {
        self.bytes.push(2);
        push_u32(&mut self.bytes, i);
        push_u32(&mut self.bytes, j);
    }

    pub fn count(&mut self) {
        self.bytes.push(3);
    }

    pub fn part(&mut self, i: u32) {
        self.bytes.push(4);
        push_u32(&mut self.bytes, i);
    }

    pub fn call(&mut self, call: &Call) {
        match call {
            Call::Clear => self.clear(),
            Call::Load(record) => self.load(record),
            Call::Hookup(i, j) => self.hookup(*i as u32, *j as u32),
        }
    }
}

/// A session on parts of one bus: loads, hookups of racks, counts, parts, now and then a clear.
pub fn session(rng: &mut Rng, capacity: usize, operations: usize) -> Script {
    session_on(rng, capacity, operations, bus, any_passing)
}

/// The same on parts for several observers.
pub fn session_on_lists(rng: &mut Rng, capacity: usize, operations: usize) -> Script {
    session_on(rng, capacity, operations, bus_of_lists, any_list)
}

/// The same on limited parts and some others.
pub fn session_on_limited(rng: &mut Rng, capacity: usize, operations: usize) -> Script {
    session_on(rng, capacity, operations, bus_of_limited, any_limited)
}

fn session_on(rng: &mut Rng, capacity: usize, operations: usize, bus: Bus, other: fn(&mut Rng) -> Part) -> Script {
    let mut script = Script::new(capacity);
    if rng.chance(1, 4) {
        script.count();
        script.part(0);
        script.load(&examples::z());
        script.hookup(0, 0);
    }
    script.clear();
    let parts = rng.range(2, 6);
    let pool = bus(rng, parts, 4);
    for part in &pool {
        script.load(&record::write(part));
    }
    let mut held = pool.len();
    for _ in 0..operations {
        match rng.below(20) {
            0 => script.load(&bad_record(rng)),
            1 => {
                script.load(&record::write(&other(rng)));
                held += 1;
            }
            2 => script.count(),
            3 | 4 => script.part(rng.below(held + 2) as u32),
            5 => script.hookup(rng.below(held + 2) as u32, rng.pick(&[held as u32 + 9, u32::MAX, 1 << 31])),
            6 => script.hookup(rng.pick(&[held as u32 + 9, u32::MAX, 1 << 31]), rng.below(held + 2) as u32),
            7 => {
                if rng.chance(1, 6) {
                    script.clear();
                    held = pool.len();
                    for part in &pool {
                        script.load(&record::write(part));
                    }
                } else {
                    let n = rng.range(1, 9);
                    script.load(&examples::without_events(n));
                    held += 1;
                }
            }
            8 => {
                let i = rng.below(held) as u32;
                script.hookup(i, i);
            }
            _ => {
                script.hookup(rng.below(held) as u32, rng.below(held) as u32);
                if rng.chance(1, 2) {
                    held += 1;
                }
            }
        }
    }
    script
}

/// A part's number for a shelf of so many records: good, just out of range, far out of range, or good if the higher bytes
/// were left out.
pub fn any_number(rng: &mut Rng, records: usize) -> u32 {
    match rng.below(10) {
        0 => records as u32,
        1 => records as u32 + rng.below(3) as u32,
        2 => rng.pick(&[u32::MAX, u32::MAX, 1 << 31]),
        3 => rng.pick(&[1 << 8, 1 << 16]) + rng.below(records.max(1)) as u32,
        _ => rng.below(records.max(1)) as u32,
    }
}

/// Calls on a shelf of so many records: hookups of any two of them, loads of good and bad records, now and then a clear.
pub fn any_calls(rng: &mut Rng, records: usize, count: usize) -> Vec<Call> {
    let call = |rng: &mut Rng| match rng.below(9) {
        0 => Call::Clear,
        1 => Call::Load(bad_record(rng)),
        2 => Call::Load(record::write(&any_of_kinds(rng))),
        3 => Call::Load(examples::z()),
        _ => Call::Hookup(any_number(rng, records) as usize, any_number(rng, records) as usize),
    };
    (0..count).map(|_| call(rng)).collect()
}

/// The bytes of each operation that makes a script malformed: Count, Part and an unknown one, then each that can be cut off.
pub fn malformed(rng: &mut Rng) -> Vec<Vec<u8>> {
    let cut =
        |rng: &mut Rng, operation: &[u8], fewest: usize| operation[..rng.range(fewest, operation.len() - 1)].to_vec();
    let mut far = vec![1];
    push_u32(&mut far, rng.pick(&[1, 12, 1 << 20, u32::MAX]));
    vec![
        vec![3],
        vec![4, rng.byte(), 0, 0, 0],
        vec![rng.pick(&[5, 6, 127, 128, 255])],
        cut(rng, &[1, 0, 0, 0, 0], 1),
        far,
        cut(rng, &[1, 5, 0, 0, 0, 1, 0, 1, 0, 0], 5),
        cut(rng, &[2, 0, 0, 0, 0, 0, 0, 0, 0], 1),
        cut(rng, &[4, 0, 0, 0, 0], 1),
    ]
}

/// The capacity that a list of calls needs so that nothing is refused with 15, on a bench of that capacity.
pub fn capacity_needed(calls: &[Call]) -> usize {
    let (bench, _) = bench::run(1 << 24, calls);
    bench.bytes().len()
}

/// Loads of A and B and their hookup, with the bytes that all three records and the end record take.
pub fn hookup_calls(a: &Part, b: &Part) -> (Vec<Call>, usize) {
    let record_a = record::write(a);
    let record_b = record::write(b);
    let joined = join::joined_record(a, b);
    let total = record_a.len() + record_b.len() + joined.len() + 6;
    (vec![Call::Load(record_a), Call::Load(record_b), Call::Hookup(0, 1)], total)
}
