//! Categories of records by their levels: where refusal 16 comes, and where it does not. Every call that takes a record
//! has them.

use crate::category::place;
use crate::check;
use crate::record::{event_levels, fields, first_refusal, is_mislabelled, observer_levels, refusal_16, refusal_8};
use crate::wrong_label::{readings_that_differ, READINGS};
use std::ops::RangeInclusive;

/// The levels for refusal 16, the least of them and the greatest, and some that are near to them.
pub const BAD_LEVELS: RangeInclusive<u8> = 0x01..=0x3F;
const ENDS: [u8; 2] = [0x01, 0x3F];
pub const GOOD_LEVELS: [u8; 3] = [0x00, 0x40, 0x41];

/// Every category but those of each bad level.
pub fn names() -> Vec<String> {
    let mut names = Vec::new();
    for name in [
        "refused 6, mislabelled too",
        "refused 21, mislabelled too",
        "refused 7, mislabelled too",
        "refused 16, stray bit too",
        "refused 16, several levels",
        "refused 16, observer alone",
        "refused 16, observer, no events",
        "refused 16, only event alone",
        "refused 16, first event alone",
        "refused 16, middle event alone",
        "refused 16, last event alone",
        "refused 16, last of 32 events alone",
        "refused 16, otherwise passes",
    ] {
        names.push(name.to_string());
    }
    for rule in 1..=5 {
        names.push(format!("refused 16, otherwise breaks rule {}", rule));
    }
    for level in ENDS {
        names.push(format!("refused 16, observer {:#04x} alone", level));
        names.push(format!("refused 16, event {:#04x} alone", level));
    }
    for level in GOOD_LEVELS {
        names.push(format!("not refused, observer {:#04x}", level));
        names.push(format!("not refused, event {:#04x}", level));
    }
    for reading in READINGS {
        names.push(wrong_reading_name(reading.name));
    }
    names
}

/// Categories in which each bad level must come up.
pub const EACH_BAD_LEVEL: [&str; 2] =
    ["refused 16, each bad level as the observer's alone", "refused 16, each bad level as an event's alone"];

fn wrong_reading_name(name: &str) -> String {
    format!("wrong reading of 16 differs: {}", name)
}

/// The categories of a record's bytes.
pub fn of_record(bytes: &[u8]) -> Vec<String> {
    let mut names = match first_refusal(bytes) {
        None => good_names(bytes),
        Some(16) => refused_names(bytes),
        Some(number @ (6 | 21 | 7)) if refusal_16(bytes) => vec![format!("refused {}, mislabelled too", number)],
        Some(_) => Vec::new(),
    };
    names.extend(readings_that_differ(bytes).into_iter().map(wrong_reading_name));
    names
}

/// The category of each bad level that a record belongs to, with its level.
pub fn each_bad_level(bytes: &[u8]) -> Option<(&'static str, u8)> {
    if first_refusal(bytes) != Some(16) {
        return None;
    }
    match only_bad(bytes)? {
        Bad::Observer(i) => Some((EACH_BAD_LEVEL[0], observer_levels(bytes)[i])),
        Bad::Event(e) => Some((EACH_BAD_LEVEL[1], event_levels(bytes)[e])),
    }
}

/// Whose level is bad.
#[derive(Clone, Copy, PartialEq, Eq, Debug)]
enum Bad {
    Observer(usize),
    Event(usize),
}

/// Whose level is bad, where it is one alone.
fn only_bad(bytes: &[u8]) -> Option<Bad> {
    let mut bad = Vec::new();
    for (i, level) in observer_levels(bytes).into_iter().enumerate() {
        if is_mislabelled(level) {
            bad.push(Bad::Observer(i));
        }
    }
    for (e, level) in event_levels(bytes).into_iter().enumerate() {
        if is_mislabelled(level) {
            bad.push(Bad::Event(e));
        }
    }
    if bad.len() == 1 {
        Some(bad[0])
    } else {
        None
    }
}

fn good_names(bytes: &[u8]) -> Vec<String> {
    let levels = event_levels(bytes);
    let mut names = Vec::new();
    for level in GOOD_LEVELS {
        if observer_levels(bytes).contains(&level) {
            names.push(format!("not refused, observer {:#04x}", level));
        }
        if levels.contains(&level) {
            names.push(format!("not refused, event {:#04x}", level));
        }
    }
    names
}

fn refused_names(bytes: &[u8]) -> Vec<String> {
    let mut names = match only_bad(bytes) {
        None => vec!["several levels".to_string()],
        Some(Bad::Observer(i)) => observer_names(bytes, i),
        Some(Bad::Event(e)) => event_names(bytes, e),
    };
    names.push(otherwise_name(bytes));
    names.into_iter().map(|name| format!("refused 16, {}", name)).collect()
}

fn observer_names(bytes: &[u8], i: usize) -> Vec<String> {
    let level = observer_levels(bytes)[i];
    let mut names = vec!["observer alone".to_string()];
    if event_levels(bytes).is_empty() {
        names.push("observer, no events".to_string());
    }
    if ENDS.contains(&level) {
        names.push(format!("observer {:#04x} alone", level));
    }
    names
}

fn event_names(bytes: &[u8], e: usize) -> Vec<String> {
    let levels = event_levels(bytes);
    let m = levels.len();
    let mut names = Vec::new();
    if let Some(place) = place(e, m) {
        names.push(format!("{} event alone", place));
    }
    if m == 1 {
        names.push("only event alone".to_string());
    }
    if m == 32 && e == 31 {
        names.push("last of 32 events alone".to_string());
    }
    if ENDS.contains(&levels[e]) {
        names.push(format!("event {:#04x} alone", levels[e]));
    }
    names
}

/// What the answer would be without refusal 16.
fn otherwise_name(bytes: &[u8]) -> String {
    if refusal_8(bytes) {
        return "stray bit too".to_string();
    }
    match check::first_break(&fields(bytes)) {
        None => "otherwise passes".to_string(),
        Some(found) => format!("otherwise breaks rule {}", found.rule),
    }
}

#[cfg(test)]
mod tests {
    use super::*;
    use crate::examples;

    /// P with some bytes changed; its categories but for the wrong readings.
    fn names_of(changes: &[(usize, u8)]) -> Vec<String> {
        let mut found = of_record(&examples::p_with(changes));
        found.retain(|name| !name.starts_with("wrong"));
        found
    }

    #[test]
    fn categories_by_hand() {
        assert_eq!(names_of(&[]), ["not refused, observer 0x00", "not refused, event 0x00", "not refused, event 0x40"]);
        assert_eq!(
            names_of(&[(6, 0x01)]),
            ["refused 16, observer alone", "refused 16, observer 0x01 alone", "refused 16, otherwise passes"]
        );
        assert_eq!(
            names_of(&[(15, 0x3F), (11, 1)]),
            ["refused 16, event 0x3f alone", "refused 16, otherwise breaks rule 2"]
        );
        assert_eq!(
            names_of(&[(15, 2), (19, 2), (51, 0x80)]),
            ["refused 16, several levels", "refused 16, stray bit too"]
        );
        assert_eq!(names_of(&[(14, 3), (6, 1)]), ["refused 7, mislabelled too"]);
        assert_eq!(names_of(&[(11, 2), (6, 1)]), ["refused 6, mislabelled too"]);
        assert_eq!(names_of(&[(9, 33), (6, 1)]), [""; 0]);
        assert_eq!(names_of(&[(51, 0x80)]), [""; 0]);
    }

    #[test]
    fn one_bad_level_is_told() {
        let mut bytes = examples::p();
        assert_eq!(each_bad_level(&bytes), None);
        bytes[19] = 0x2A;
        assert_eq!(each_bad_level(&bytes), Some((EACH_BAD_LEVEL[1], 0x2A)));
        bytes[6] = 0x15;
        assert_eq!(each_bad_level(&bytes), None);
        bytes[19] = 0;
        assert_eq!(each_bad_level(&bytes), Some((EACH_BAD_LEVEL[0], 0x15)));
        bytes[14] = 3;
        assert_eq!(each_bad_level(&bytes), None);
    }
}
