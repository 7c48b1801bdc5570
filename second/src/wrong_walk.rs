//! Wrong readings of the walk over a shelf, to count the inputs on which they would show. Nothing here decides an answer.

use crate::record::{is_described, u16_at, u32_at, HEADER};
use crate::shelf::Walk;

/// What a walk takes six bytes or more for.
#[derive(Clone, Copy, PartialEq, Eq)]
enum Met {
    Record,
    PassedOver,
    End,
    NoEnd,
}

/// A reading of the walk.
#[derive(Clone, Copy)]
pub struct Way {
    pub name: &'static str,
    /// L, by the six bytes of a header.
    length: fn(&[u8]) -> usize,
    /// How many bytes are skipped.
    skipped: fn(usize) -> usize,
    /// What six bytes are, by L and the kind.
    met: fn(usize, u16) -> Met,
    /// What a record is that runs past the shelf.
    past: Met,
    /// Whether the bytes behind the last record, of which there are fewer than six, are an end.
    left: fn(&[u8]) -> bool,
    /// How many bytes must be there for an end record.
    fewest: usize,
}

pub const RIGHT: Way = Way {
    name: "right",
    length: |header| u32_at(header, 0) as usize,
    skipped: |length| HEADER + length,
    met: |length, kind| if length == 0 && kind == 0 { Met::End } else { Met::Record },
    past: Met::NoEnd,
    left: |_| false,
    fewest: HEADER,
};

pub const WAYS: [Way; 19] = [
    Way { name: "kind 0 alone ends it", met: |_, kind| ends_if(kind == 0), ..RIGHT },
    Way { name: "length 0 alone ends it", met: |length, _| ends_if(length == 0), ..RIGHT },
    Way {
        name: "the low byte of the kind alone is looked at",
        met: |length, kind| ends_if(length == 0 && kind % 256 == 0),
        ..RIGHT
    },
    Way { name: "the length has one byte", length: |header| header[0] as usize, ..RIGHT },
    Way { name: "the length has two bytes", length: |header| u16_at(header, 0) as usize, ..RIGHT },
    Way { name: "the length has its highest byte first", length: highest_first, ..RIGHT },
    Way { name: "the header is in the length", skipped: |length| length.max(HEADER), ..RIGHT },
    Way { name: "the header alone is skipped", skipped: |_| HEADER, ..RIGHT },
    Way { name: "2^32 bytes are none", skipped: |length| (HEADER + length) % (1 << 32), ..RIGHT },
    Way { name: "a record that runs past the shelf is the end", past: Met::End, ..RIGHT },
    Way { name: "a record may run past the shelf", past: Met::Record, left: |_| true, ..RIGHT },
    Way { name: "the end record may be cut off", left: |left| !left.is_empty() && is_zero(left), ..RIGHT },
    Way { name: "the shelf's end is an end", left: |left| left.is_empty(), ..RIGHT },
    Way { name: "fewer than six bytes are an end", left: |_| true, ..RIGHT },
    Way { name: "a byte stands behind the end record", fewest: HEADER + 1, ..RIGHT },
    Way {
        name: "kind 0 does not count",
        met: |length, kind| match (length, kind) {
            (0, 0) => Met::End,
            (_, 0) => Met::PassedOver,
            _ => Met::Record,
        },
        ..RIGHT
    },
    Way { name: "other kinds do not count", met: |length, kind| of_others(length, kind, Met::PassedOver), ..RIGHT },
    Way { name: "other kinds end it", met: |length, kind| of_others(length, kind, Met::End), ..RIGHT },
    Way { name: "other kinds leave it without end", met: |length, kind| of_others(length, kind, Met::NoEnd), ..RIGHT },
];

fn ends_if(ends: bool) -> Met {
    if ends {
        Met::End
    } else {
        Met::Record
    }
}

fn highest_first(header: &[u8]) -> usize {
    header[..4].iter().fold(0, |length, &byte| 256 * length + byte as usize)
}

fn is_zero(bytes: &[u8]) -> bool {
    bytes.iter().all(|&byte| byte == 0)
}

/// The end record, a record of a kind that is described, or what others are taken for.
fn of_others(length: usize, kind: u16, others: Met) -> Met {
    if length == 0 && kind == 0 {
        Met::End
    } else if is_described(kind) {
        Met::Record
    } else {
        others
    }
}

/// What a walk met: its records, where it stopped, and whether an end is there.
pub struct Found {
    pub walk: Walk,
    pub ended: bool,
}

impl Way {
    /// The walk by this reading. Without an end it stops where the trouble is.
    pub fn walk(&self, shelf: &[u8]) -> Found {
        let mut records = Vec::new();
        let mut at = 0;
        let ended = loop {
            let left = &shelf[at..];
            if left.len() < self.fewest {
                break (self.left)(left);
            }
            let length = (self.length)(left);
            let met = (self.met)(length, u16_at(left, 4));
            if met == Met::End || met == Met::NoEnd {
                break met == Met::End;
            }
            let mut behind = at + (self.skipped)(length);
            if behind > shelf.len() {
                if self.past != Met::Record {
                    break self.past == Met::End;
                }
                behind = shelf.len();
            }
            if behind == at {
                break false;
            }
            if met == Met::Record {
                records.push(at..behind);
            }
            at = behind;
        };
        Found { walk: Walk { records, end: at }, ended }
    }
}

#[cfg(test)]
mod tests {
    use super::*;
    use crate::make;
    use crate::rng::Rng;
    use crate::shelf;

    #[test]
    fn the_right_way_is_that_of_the_shelf() {
        let mut rng = Rng::new(131);
        for round in 0..1200 {
            let records = make::any_records(&mut rng, 2);
            let bytes = match round % 3 {
                0 => make::any_bytes(&mut rng),
                1 => make::shelf_of(&records, &make::behind_the_end(&mut rng)),
                _ => make::without_end(&mut rng, &records, make::NO_ENDS[round / 3 % 6]),
            };
            let found = RIGHT.walk(&bytes);
            match shelf::walk(&bytes) {
                Some(walk) => {
                    assert!(found.ended);
                    assert_eq!((found.walk.records, found.walk.end), (walk.records, walk.end));
                }
                None => assert!(!found.ended),
            }
        }
    }

    /// What each way makes of a shelf: how many records and whether it ends.
    fn by(name: &str, shelf: &[u8]) -> (usize, bool) {
        let found = WAYS.iter().find(|way| way.name == name).unwrap().walk(shelf);
        (found.walk.records.len(), found.ended)
    }

    #[test]
    fn ways_by_hand() {
        // One byte of kind 0, none of kind 1, the end record.
        let shelf = [1, 0, 0, 0, 0, 0, 9, 0, 0, 0, 0, 1, 0, 0, 0, 0, 0, 0, 0];
        assert_eq!(by("kind 0 alone ends it", &shelf), (0, true));
        assert_eq!(by("length 0 alone ends it", &shelf), (1, true));
        assert_eq!(by("the low byte of the kind alone is looked at", &shelf), (2, true));
        assert_eq!(by("the low byte of the kind alone is looked at", &[0, 0, 0, 0, 0, 1]), (0, true));
        assert_eq!(by("the length has one byte", &shelf), (2, true));
        assert_eq!(by("the length has one byte", &[0, 1, 0, 0, 1, 0, 0, 0, 0, 0, 0, 0]), (1, true));
        assert_eq!(by("the length has two bytes", &[0, 0, 1, 0, 1, 0, 0, 0, 0, 0, 0, 0]), (1, true));
        assert_eq!(by("the length has its highest byte first", &shelf), (0, false));
        assert_eq!(by("the header is in the length", &[6, 0, 0, 0, 1, 0, 0, 0, 0, 0, 0, 0]), (1, true));
        assert_eq!(by("the header alone is skipped", &[9, 0, 0, 0, 1, 0, 0, 0, 0, 0, 0, 0]), (1, true));
        assert_eq!(by("2^32 bytes are none", &[255, 255, 255, 255, 1, 0, 0, 0, 0, 0, 0]), (1, true));
        assert_eq!(by("2^32 bytes are none", &[250, 255, 255, 255, 1, 0]), (0, false));
        assert_eq!(by("a record that runs past the shelf is the end", &[1, 0, 0, 0, 1, 0]), (0, true));
        assert_eq!(by("a record may run past the shelf", &[1, 0, 0, 0, 1, 0]), (1, true));
        assert_eq!(by("the end record may be cut off", &shelf[..18]), (2, true));
        assert_eq!(by("the end record may be cut off", &shelf[..13]), (2, false));
        assert_eq!(by("the shelf's end is an end", &shelf[..13]), (2, true));
        assert_eq!(by("the shelf's end is an end", &shelf[..14]), (2, false));
        assert_eq!(by("fewer than six bytes are an end", &[9]), (0, true));
        assert_eq!(by("a byte stands behind the end record", &shelf), (2, false));
        assert_eq!(by("kind 0 does not count", &shelf), (1, true));
        assert_eq!(by("other kinds do not count", &[0, 0, 0, 0, 4, 0, 0, 0, 0, 0, 0, 0]), (0, true));
        assert_eq!(by("other kinds end it", &[0, 0, 0, 0, 1, 0, 0, 0, 0, 0, 4, 0]), (1, true));
        assert_eq!(by("other kinds leave it without end", &shelf), (0, false));
    }
}
