//! Wrong readings of refusal 16, to count the inputs on which they would show. Nothing here decides an answer.

use crate::record::{applies, at_or_below, event_levels, first_refusal, is_mislabelled, observer_levels, rank, Layout};

/// When 16 is tested among the refusals of its order's end, where it looks, and which levels it takes for bad.
#[derive(Clone, Copy)]
pub struct Reading {
    pub name: &'static str,
    order: [u32; 5],
    looks_at_observer: bool,
    looks_at: fn(&[u8], usize) -> bool,
    is_bad: fn(u8) -> bool,
}

const RIGHT: Reading = Reading {
    name: "right",
    order: [6, 21, 7, 16, 8],
    looks_at_observer: true,
    looks_at: |_, _| true,
    is_bad: is_mislabelled,
};

pub const READINGS: [Reading; 21] = [
    Reading { name: "behind 8", order: [6, 21, 7, 8, 16], ..RIGHT },
    Reading { name: "before 7", order: [6, 21, 16, 7, 8], ..RIGHT },
    Reading { name: "before 21", order: [6, 16, 21, 7, 8], ..RIGHT },
    Reading { name: "before 6", order: [16, 6, 21, 7, 8], ..RIGHT },
    Reading { name: "observer not looked at", looks_at_observer: false, ..RIGHT },
    Reading { name: "events not looked at", looks_at: |_, _| false, ..RIGHT },
    Reading { name: "first event not looked at", looks_at: |_, e| e > 0, ..RIGHT },
    Reading { name: "last event not looked at", looks_at: |bytes, e| e + 1 < event_count(bytes), ..RIGHT },
    Reading { name: "first event alone", looks_at: |_, e| e == 0, ..RIGHT },
    Reading { name: "last event alone", looks_at: |bytes, e| e + 1 == event_count(bytes), ..RIGHT },
    Reading { name: "low events alone", looks_at: is_low, ..RIGHT },
    Reading { name: "high events alone", looks_at: |bytes, e| !is_low(bytes, e), ..RIGHT },
    Reading { name: "inputs not looked at", looks_at: |bytes, e| kind(bytes, e) != 0, ..RIGHT },
    Reading { name: "outputs not looked at", looks_at: |bytes, e| kind(bytes, e) != 1, ..RIGHT },
    Reading { name: "internal events not looked at", looks_at: |bytes, e| kind(bytes, e) != 2, ..RIGHT },
    Reading { name: "no level is bad", is_bad: |_| false, ..RIGHT },
    Reading { name: "rank 1 taken for rank 0", is_bad: |level| rank(level) < 2 && level % 64 > 0, ..RIGHT },
    Reading { name: "any rank taken for rank 0", is_bad: |level| level % 64 > 0, ..RIGHT },
    Reading { name: "rank 0 bad without compartments", is_bad: |level| rank(level) == 0, ..RIGHT },
    Reading { name: "compartment 0 alone", is_bad: |level| rank(level) == 0 && level % 2 > 0, ..RIGHT },
    Reading { name: "compartment 5 not looked at", is_bad: |level| rank(level) == 0 && level % 32 > 0, ..RIGHT },
];

impl Reading {
    fn refuses(&self, bytes: &[u8]) -> bool {
        let levels = event_levels(bytes);
        let observer_is_bad = self.looks_at_observer && observer_levels(bytes).into_iter().any(self.is_bad);
        observer_is_bad || (0..levels.len()).any(|e| (self.looks_at)(bytes, e) && (self.is_bad)(levels[e]))
    }

    /// The first refusal by this reading, given those that apply besides 16.
    fn first_refusal(&self, bytes: &[u8], others: &[u32]) -> Option<u32> {
        self.order.into_iter().find(|&number| if number == 16 { self.refuses(bytes) } else { others.contains(&number) })
    }
}

/// The refusals behind 5 and 20 that apply, besides 16.
fn others(bytes: &[u8]) -> Vec<u32> {
    [6, 21, 7, 8].into_iter().filter(|&number| applies(number, bytes)).collect()
}

/// The wrong readings by which a record would get another answer.
pub fn readings_that_differ(bytes: &[u8]) -> Vec<&'static str> {
    let right = first_refusal(bytes);
    if matches!(right, Some(1..=5 | 20)) {
        return Vec::new();
    }
    let others = others(bytes);
    let differ = |reading: &&Reading| reading.first_refusal(bytes, &others) != right;
    READINGS.iter().filter(differ).map(|reading| reading.name).collect()
}

fn event_count(bytes: &[u8]) -> usize {
    Layout::of(bytes).m
}

fn kind(bytes: &[u8], e: usize) -> u8 {
    bytes[Layout::of(bytes).entry_at(e) + 2]
}

/// For the first observer.
fn is_low(bytes: &[u8], e: usize) -> bool {
    at_or_below(event_levels(bytes)[e], observer_levels(bytes)[0])
}

#[cfg(test)]
mod tests {
    use super::*;
    use crate::examples;

    /// P with some bytes changed. Byte 6 is its observer, 15 and 19 are the levels of its input and its output, 11 is a
    /// class, 14 a kind, and the last byte has a stray bit.
    fn differing(changes: &[(usize, u8)]) -> Vec<&'static str> {
        let bytes = examples::p_with(changes);
        assert_eq!(RIGHT.first_refusal(&bytes, &others(&bytes)), first_refusal(&bytes));
        readings_that_differ(&bytes)
    }

    #[test]
    fn readings_by_hand() {
        assert_eq!(differing(&[]), ["rank 0 bad without compartments"]);
        assert_eq!(
            differing(&[(6, 0x80), (15, 0x41), (19, 0x40)]),
            ["rank 1 taken for rank 0", "any rank taken for rank 0"]
        );
        assert_eq!(differing(&[(6, 0x01)]), ["observer not looked at", "no level is bad"]);
        assert_eq!(
            differing(&[(15, 0x02)]),
            [
                "events not looked at",
                "first event not looked at",
                "last event alone",
                "low events alone",
                "inputs not looked at",
                "no level is bad",
                "compartment 0 alone",
            ]
        );
        assert_eq!(
            differing(&[(6, 0x61), (19, 0x20)]),
            [
                "events not looked at",
                "last event not looked at",
                "first event alone",
                "high events alone",
                "outputs not looked at",
                "no level is bad",
                "compartment 0 alone",
                "compartment 5 not looked at",
            ]
        );
        assert_eq!(differing(&[(6, 0x01), (15, 0x03), (51, 0x80)]), ["behind 8", "no level is bad"]);
        assert_eq!(differing(&[(6, 0x01), (14, 3)]), ["before 7", "before 21", "before 6"]);
        assert_eq!(differing(&[(6, 0x01), (11, 2)]), ["before 6"]);
        assert_eq!(readings_that_differ(&examples::guard_with(&[(6, 0x01), (13, 2)])), ["before 21", "before 6"]);
        assert_eq!(readings_that_differ(&examples::p_with(&[(6, 0x01), (9, 33)])), [""; 0]);
    }
}
