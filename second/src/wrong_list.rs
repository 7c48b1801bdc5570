//! Wrong readings of records that list observers, to count the inputs on which they would show. Nothing here decides an
//! answer. Document 02, request k.

use crate::check::{self, break_for, Break};
use crate::record::{
    applies, at_or_below, column, event_levels, fields, is_mislabelled, is_misnumbered, observer_levels, rank, u32_at,
    Layout, Observer, Part, FEWEST_LISTED, FIRST_AT, MOST_LISTED,
};
use std::cell::OnceCell;

/// Where a record of kind 2 has its levels and classes, which refusals come behind 4 and when, what 5 and 20 ask, which
/// columns 6 and which observers 16 looks at, and the first break. No places and no first break are the right ones.
#[derive(Clone, Copy)]
pub struct Reading {
    pub name: &'static str,
    places: Option<Places>,
    order: [u32; 6],
    wrong_size: fn(&[u8]) -> bool,
    bad_count: fn(u8) -> bool,
    bad_order: fn(&[u8]) -> bool,
    looks_at_column: fn(usize, usize) -> bool,
    looks_at_observer: fn(usize, usize) -> bool,
    first_break: Option<FirstBreak>,
}

/// The places of the levels, one for each observer, and of the classes, column by column; counted from where the list
/// begins, for so many observers and states.
type Places = fn(usize, usize) -> Vec<usize>;

type FirstBreak = fn(&Part) -> Option<Break>;

const RIGHT: Reading = Reading {
    name: "right",
    places: None,
    order: [5, 20, 6, 7, 16, 8],
    wrong_size: |bytes| applies(5, bytes),
    bad_count: |count| !(2..=4).contains(&count),
    bad_order: |levels| levels.windows(2).any(|pair| pair[0] >= pair[1]),
    looks_at_column: |_, _| true,
    looks_at_observer: |_, _| true,
    first_break: None,
};

pub const READINGS: [Reading; 35] = [
    Reading {
        name: "equal observers accepted",
        bad_order: |levels| levels.windows(2).any(|pair| pair[0] > pair[1]),
        ..RIGHT
    },
    Reading { name: "any order accepted, no two alike", bad_order: has_two_alike, ..RIGHT },
    Reading { name: "any order accepted", bad_order: |_| false, ..RIGHT },
    Reading {
        name: "the first two observers alone in order",
        bad_order: |levels| levels.windows(2).take(1).any(|pair| pair[0] >= pair[1]),
        ..RIGHT
    },
    Reading {
        name: "each observer above the first is enough",
        bad_order: |levels| levels.iter().skip(1).any(|&level| level <= levels[0]),
        ..RIGHT
    },
    Reading {
        name: "observers rise by the order of levels",
        bad_order: |levels| levels.windows(2).any(|pair| pair[0] == pair[1] || !at_or_below(pair[0], pair[1])),
        ..RIGHT
    },
    Reading {
        name: "observers rise by rank",
        bad_order: |levels| levels.windows(2).any(|pair| rank(pair[0]) >= rank(pair[1])),
        ..RIGHT
    },
    Reading {
        name: "observers rise as signed bytes",
        bad_order: |levels| levels.windows(2).any(|pair| pair[0] as i8 >= pair[1] as i8),
        ..RIGHT
    },
    Reading { name: "count 0 accepted", bad_count: |count| !matches!(count, 0 | 2..=4), ..RIGHT },
    Reading { name: "count 1 accepted", bad_count: |count| !(1..=4).contains(&count), ..RIGHT },
    Reading { name: "count 5 accepted", bad_count: |count| !(2..=5).contains(&count), ..RIGHT },
    Reading { name: "any count accepted", bad_count: |_| false, ..RIGHT },
    Reading { name: "20 before 5", order: [20, 5, 6, 7, 16, 8], ..RIGHT },
    Reading { name: "20 behind 6", order: [5, 6, 20, 7, 16, 8], ..RIGHT },
    Reading { name: "20 behind 8", order: [5, 6, 7, 16, 8, 20], ..RIGHT },
    Reading { name: "5 with the count cut to 2 to 4", wrong_size: wrong_size_by_cut_count, ..RIGHT },
    Reading { name: "6 in the first column alone", looks_at_column: |i, _| i == 0, ..RIGHT },
    Reading { name: "6 not in the first column", looks_at_column: |i, _| i > 0, ..RIGHT },
    Reading { name: "6 not in the last column", looks_at_column: |i, count| i + 1 < count, ..RIGHT },
    Reading { name: "16 in the first observer alone", looks_at_observer: |i, _| i == 0, ..RIGHT },
    Reading { name: "16 not in the first observer", looks_at_observer: |i, _| i > 0, ..RIGHT },
    Reading { name: "16 in the last observer alone", looks_at_observer: |i, count| i + 1 == count, ..RIGHT },
    Reading { name: "16 not in the last observer", looks_at_observer: |i, count| i + 1 < count, ..RIGHT },
    Reading { name: "16 in no observer", looks_at_observer: |_, _| false, ..RIGHT },
    Reading { name: "columns before the levels", places: Some(columns_first), ..RIGHT },
    Reading { name: "each level with its column", places: Some(each_with_its_column), ..RIGHT },
    Reading { name: "columns state by state", places: Some(state_by_state), ..RIGHT },
    Reading { name: "columns the other way round", places: Some(other_way_round), ..RIGHT },
    Reading { name: "the first observer alone", first_break: Some(|part| breaks(part)[0]), ..RIGHT },
    Reading {
        name: "the last observer alone",
        first_break: Some(|part| breaks(part)[part.observers.len() - 1]),
        ..RIGHT
    },
    Reading {
        name: "the last observer first",
        first_break: Some(|part| breaks(part).into_iter().rev().find_map(|found| found)),
        ..RIGHT
    },
    Reading {
        name: "one observer is enough",
        first_break: Some(|part| breaks(part).into_iter().min_by_key(|found| found.is_some()).unwrap()),
        ..RIGHT
    },
    Reading {
        name: "the rule before the observer",
        first_break: Some(|part| breaks(part).into_iter().flatten().min_by_key(|found| found.rule)),
        ..RIGHT
    },
    Reading { name: "the first column for each observer", first_break: Some(with_first_column), ..RIGHT },
    Reading { name: "the first level with each column", first_break: Some(with_first_level), ..RIGHT },
];

fn columns_first(count: usize, n: usize) -> Vec<usize> {
    (count * n..count * (n + 1)).chain(0..count * n).collect()
}

fn each_with_its_column(count: usize, n: usize) -> Vec<usize> {
    let levels = (0..count).map(|i| i * (1 + n));
    levels.chain((0..count * n).map(|place| place + place / n + 1)).collect()
}

fn state_by_state(count: usize, n: usize) -> Vec<usize> {
    (0..count).chain((0..count * n).map(|place| count + place % n * count + place / n)).collect()
}

fn other_way_round(count: usize, n: usize) -> Vec<usize> {
    (0..count).chain((0..count).rev().flat_map(|i| count + i * n..count + (i + 1) * n)).collect()
}

/// The break for each observer of the list.
fn breaks(part: &Part) -> Vec<Option<Break>> {
    part.views().into_iter().map(break_for).collect()
}

fn has_two_alike(levels: &[u8]) -> bool {
    (0..levels.len()).any(|i| levels[..i].contains(&levels[i]))
}

fn wrong_size_by_cut_count(bytes: &[u8]) -> bool {
    let layout = Layout::of(bytes);
    let cut = Layout { observers: layout.observers.clamp(FEWEST_LISTED, MOST_LISTED), ..layout };
    u32_at(bytes, 0) as usize != cut.body_length()
}

fn with_first_column(part: &Part) -> Option<Break> {
    let classes = part.observers[0].classes.clone();
    let observers = part.levels().into_iter().map(|level| Observer::new(level, classes.clone())).collect();
    check::first_break(&Part { observers, ..part.clone() })
}

fn with_first_level(part: &Part) -> Option<Break> {
    let level = part.observers[0].level;
    let observers = part.observers.iter().map(|observer| Observer { level, ..observer.clone() }).collect();
    check::first_break(&Part { observers, ..part.clone() })
}

impl Reading {
    /// Where the size does not fit, the list may lie outside the record, and the count alone is asked.
    fn refuses_list(&self, bytes: &[u8]) -> bool {
        (self.bad_count)(bytes[FIRST_AT]) || (!applies(5, bytes) && (self.bad_order)(&observer_levels(bytes)))
    }

    fn refuses(&self, number: u32, bytes: &[u8]) -> bool {
        let count = bytes[FIRST_AT] as usize;
        match number {
            5 => (self.wrong_size)(bytes),
            20 => self.refuses_list(bytes),
            6 => (0..count).any(|i| (self.looks_at_column)(i, count) && is_misnumbered(column(bytes, i))),
            16 => {
                let levels = observer_levels(bytes);
                (0..count).any(|i| (self.looks_at_observer)(i, count) && is_mislabelled(levels[i]))
                    || event_levels(bytes).into_iter().any(is_mislabelled)
            }
            number => applies(number, bytes),
        }
    }

    fn refusal(&self, bytes: &[u8]) -> Option<u32> {
        self.order.into_iter().find(|&number| self.refuses(number, bytes))
    }

    /// The number for C by this reading, for a record of kind 2 that refusals 1 to 4 leave alone. Most readings judge the
    /// rules alike, so that number is worked out once.
    fn number(&self, bytes: &[u8], by_rules: &OnceCell<u32>) -> u32 {
        if let Some(places) = self.places {
            let bytes = rearranged(bytes, places);
            return self.refusal(&bytes).unwrap_or_else(|| number_by(check::first_break, &bytes));
        }
        self.refusal(bytes).unwrap_or_else(|| match self.first_break {
            Some(first_break) => number_by(first_break, bytes),
            None => *by_rules.get_or_init(|| number_by(check::first_break, bytes)),
        })
    }

    /// Whether the part passes by this reading of the rules.
    pub fn passes(&self, part: &Part) -> bool {
        self.first_break.unwrap_or(check::first_break)(part).is_none()
    }
}

/// The reading of that name.
pub fn reading(name: &str) -> Reading {
    *READINGS.iter().find(|reading| reading.name == name).unwrap()
}

/// The record with its levels and classes where the right reading has them. One whose size or count is wrong stays as it
/// is.
fn rearranged(bytes: &[u8], places: Places) -> Vec<u8> {
    let layout = Layout::of(bytes);
    let mut rearranged = bytes.to_vec();
    if !applies(5, bytes) && (FEWEST_LISTED..=MOST_LISTED).contains(&layout.observers) {
        let list = layout.observer_at(0);
        for (i, place) in places(layout.observers, layout.n).into_iter().enumerate() {
            rearranged[list + i] = bytes[list + place];
        }
    }
    rearranged
}

/// The number of a record by its first break alone. Without observers nothing breaks.
fn number_by(first_break: FirstBreak, bytes: &[u8]) -> u32 {
    let part = fields(bytes);
    if part.observers.is_empty() {
        return 0;
    }
    check::number_of_break(first_break(&part))
}

/// The wrong readings by which a record of kind 2 would get another number, given the right one.
pub fn readings_that_differ(bytes: &[u8], right: u32) -> Vec<&'static str> {
    if (1..=4).contains(&right) {
        return Vec::new();
    }
    let by_rules = OnceCell::new();
    READINGS.iter().filter(|reading| reading.number(bytes, &by_rules) != right).map(|reading| reading.name).collect()
}

#[cfg(test)]
mod tests {
    use super::*;
    use crate::examples;
    use crate::make;
    use crate::record;
    use crate::rng::Rng;

    /// The wrong readings that differ.
    fn differing(bytes: &[u8]) -> Vec<&'static str> {
        let right = check::number(check::check(bytes));
        if !(1..=4).contains(&right) {
            assert_eq!(RIGHT.number(bytes, &OnceCell::new()), right);
        }
        readings_that_differ(bytes, right)
    }

    /// The same but for those of the places, which differ on most records.
    fn differing_elsewhere(bytes: &[u8]) -> Vec<&'static str> {
        let mut names = differing(bytes);
        names.retain(|name| !PLACES.contains(name));
        names
    }

    const PLACES: [&str; 4] = [
        "columns before the levels",
        "each level with its column",
        "columns state by state",
        "columns the other way round",
    ];

    /// P for two observers with some bytes changed: 10 and 11 are its observers, 12 and 13, 14 and 15 its columns.
    fn of_p(changes: &[(usize, u8)]) -> Vec<&'static str> {
        differing_elsewhere(&examples::p_for_two_with(changes))
    }

    #[test]
    fn readings_of_order_by_hand() {
        // Equal observers, falling ones. To 0x40 the input is low, and the classes 0 1 of the second are as good as 0 0.
        assert_eq!(of_p(&[(10, 0x40)]), ["equal observers accepted", "any order accepted"]);
        assert_eq!(of_p(&[(10, 0x40), (11, 0)]), ["any order accepted, no two alike", "any order accepted"]);
        // Equal observers and a class too high.
        assert_eq!(
            of_p(&[(10, 0x40), (15, 2)]),
            ["equal observers accepted", "any order accepted", "20 behind 6", "20 behind 8"]
        );
        let of_z = |levels: &[u8]| differing_elsewhere(&examples::z_for(levels));
        assert_eq!(of_z(&[0x00, 0x40, 0x80, 0xC0]), ["observers rise as signed bytes"]);
        assert_eq!(of_z(&[0x40, 0x41]), ["observers rise by rank"]);
        assert_eq!(of_z(&[0x41, 0x80]), ["observers rise by the order of levels", "observers rise as signed bytes"]);
        // The last two of three fall, are equal; the last is equal to the first.
        let first_two = "the first two observers alone in order";
        let above_first = "each observer above the first is enough";
        let any_two = ["any order accepted, no two alike", "any order accepted"];
        assert_eq!(of_z(&[0x00, 0x80, 0x40]), [&any_two[..], &[first_two, above_first]].concat());
        assert_eq!(
            of_z(&[0x00, 0x80, 0x80]),
            ["equal observers accepted", "any order accepted", first_two, above_first]
        );
        assert_eq!(of_z(&[0x40, 0x80, 0x40]), ["any order accepted", first_two]);
    }

    #[test]
    fn readings_of_counts_by_hand() {
        // Z for one observer, for five and for none. Their lengths are not those of two and of four.
        let cut = "5 with the count cut to 2 to 4";
        assert_eq!(differing(&[6, 0, 0, 0, 2, 0, 1, 1, 0, 0, 0, 0]), ["count 1 accepted", "any count accepted", cut]);
        let five = [&[14, 0, 0, 0, 2, 0, 5, 1, 0, 0][..], &[0, 0x40, 0x41, 0x42, 0x43], &[0; 5]].concat();
        assert_eq!(differing(&five), ["count 5 accepted", "any count accepted", cut]);
        assert_eq!(differing(&[4, 0, 0, 0, 2, 0, 0, 1, 0, 0]), ["count 0 accepted", "any count accepted", cut]);
        // A count out of range and a length that does not fit it; one that fits four observers.
        assert_eq!(of_p(&[(6, 5)]), ["20 before 5"]);
        let four = [&[12, 0, 0, 0, 2, 0, 9, 1, 0, 0][..], &[0, 0x40, 0x41, 0x80], &[0; 4]].concat();
        assert_eq!(differing(&four), ["20 before 5", cut]);
        assert_eq!(of_p(&[(6, 3)]), [""; 0]);
    }

    #[test]
    fn readings_of_6_and_16_by_hand() {
        // A class too high in the first column, and in the second.
        assert_eq!(of_p(&[(13, 2)]), ["6 not in the first column"]);
        assert_eq!(of_p(&[(15, 2)]), ["6 in the first column alone", "6 not in the last column"]);
        // A bad level of the first observer, of the second, and of an event. 0x01 and 0x40 are incomparable; 0x00 and
        // 0x01 have one rank.
        assert_eq!(
            of_p(&[(10, 0x01)]),
            [
                "observers rise by the order of levels",
                "16 not in the first observer",
                "16 in the last observer alone",
                "16 in no observer"
            ]
        );
        assert_eq!(
            of_p(&[(11, 0x01)]),
            [
                "observers rise by rank",
                "16 in the first observer alone",
                "16 not in the last observer",
                "16 in no observer"
            ]
        );
        assert_eq!(of_p(&[(23, 0x01)]), [""; 0]);
    }

    /// Where each reading finds the levels and the columns of two observers and three states.
    #[test]
    fn readings_of_places_by_hand() {
        for (places, by_hand) in [
            (columns_first as Places, [6, 7, 0, 1, 2, 3, 4, 5]),
            (each_with_its_column, [0, 4, 1, 2, 3, 5, 6, 7]),
            (state_by_state, [0, 1, 2, 4, 6, 3, 5, 7]),
            (other_way_round, [0, 1, 5, 6, 7, 2, 3, 4]),
        ] {
            assert_eq!(places(2, 3), by_hand);
        }
        // P for two has classes 0 0 and 0 1, which read state by state are the same. Those of T for two, 0 0 0 and 0 1 2,
        // would be 0 0 1 and 0 0 2.
        let differs = |bytes: &[u8]| PLACES.map(|name| differing(bytes).contains(&name));
        assert_eq!(differs(&examples::p_for_two()), [true, true, false, true]);
        let t = record::write(&examples::t_for_two([0, 0, 0], [0, 1, 2]));
        assert_eq!(differs(&t), [true; 4]);
    }

    #[test]
    fn readings_of_rules_by_hand() {
        let of_t = |first, second| differing_elsewhere(&record::write(&examples::t_for_two(first, second)));
        // The second observer alone breaks rule 5. In one class it would break it too; with its column the first one
        // would break rule 4.
        assert_eq!(
            of_t([0, 0, 0], [0, 0, 1]),
            ["the first observer alone", "one observer is enough", "the first level with each column"]
        );
        // Both pass; with the first column the second one would break rule 5.
        assert_eq!(of_t([0, 0, 0], [0, 1, 2]), ["the first column for each observer"]);
        // Rule 4 at the first, rule 5 at the second.
        assert_eq!(of_t([0, 0, 1], [0, 0, 1]), ["the last observer alone", "the last observer first"]);
        // Rule 4 at the first, rule 2 at the second.
        assert_eq!(
            differing_elsewhere(&record::write(&examples::lower_rule_at_the_second())),
            ["the last observer alone", "the last observer first", "the rule before the observer"]
        );
    }

    /// The right one of the readings is the checker.
    #[test]
    fn the_right_reading() {
        let mut rng = Rng::new(91);
        for round in 0..600 {
            let part = if round % 2 == 0 { make::any_list(&mut rng) } else { make::breaking_list(&mut rng) };
            let mut bytes = record::write(&part);
            if round % 3 == 0 {
                let refusal = [5, 20, 6, 7, 16, 8][round / 3 % 6];
                make::damage(&mut rng, &mut bytes, refusal);
            }
            let right = check::number(check::check(&bytes));
            assert_eq!(RIGHT.number(&bytes, &OnceCell::new()), right);
        }
    }
}
