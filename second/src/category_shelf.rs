//! What a shelf of any bytes is, for the categories of the calls on one: how it comes that a walk finds no end record, and
//! how records on it fail.

use crate::make::{failures_of, Failure, NoEnd, NO_ENDS};
use crate::record::{u16_at, FORMS, HEADER, KIND_AT};
use crate::wrong_walk::{self, Found};

/// What a walk meets, where it finds no end record too.
pub fn met(shelf: &[u8]) -> Found {
    wrong_walk::RIGHT.walk(shelf)
}

/// How it comes that a walk finds no end record; none where it finds one.
pub fn no_end_of(shelf: &[u8]) -> Option<NoEnd> {
    let found = met(shelf);
    let left = shelf.len() - found.walk.end;
    let none_before = found.walk.records.is_empty();
    if found.ended {
        return None;
    }
    Some(match (none_before, left) {
        (true, 0) => NoEnd::Nothing,
        (true, left) if left < HEADER => NoEnd::UnderSix,
        (true, _) => NoEnd::FirstRunsPast,
        (false, 0) => NoEnd::NoneLeft,
        (false, left) if left < HEADER => NoEnd::FewLeft,
        (false, _) => NoEnd::LaterRunsPast,
    })
}

pub fn no_end_name(no_end: NoEnd) -> &'static str {
    match no_end {
        NoEnd::Nothing => "shelf of 0 bytes",
        NoEnd::UnderSix => "shelf of 1 to 5 bytes",
        NoEnd::FirstRunsPast => "the first record runs past the shelf",
        NoEnd::LaterRunsPast => "a later record runs past the shelf",
        NoEnd::FewLeft => "1 to 5 bytes behind the last record",
        NoEnd::NoneLeft => "the last record ends with the shelf",
    }
}

/// The names of a call that is refused with 12, one for each way.
pub fn no_end_names(call: &str) -> Vec<String> {
    NO_ENDS.into_iter().map(|no_end| no_end_refused(call, no_end)).collect()
}

/// The name of a call on this shelf, which has no end record.
pub fn no_end_refused(call: &str, no_end: NoEnd) -> String {
    format!("{} refused 12, {}", call, no_end_name(no_end))
}

/// The names of wrong readings of a call, and of the walk.
pub fn wrong_name(reading: &str) -> String {
    format!("wrong reading differs: {}", reading)
}

pub fn wrong_walk_name(way: &str) -> String {
    format!("wrong walk differs: {}", way)
}

/// Every failure of a record on a shelf with its kind, in words.
pub fn failing_names() -> Vec<String> {
    let mut names = vec!["refused 3, kind 0".to_string(), "refused 3, another kind".to_string()];
    for form in FORMS {
        for failure in failures_of(form.kind) {
            names.push(of_kind(failure, form.kind));
        }
    }
    names
}

fn of_kind(failure: Failure, kind: u16) -> String {
    match failure {
        Failure::Refused(3) if kind == 0 => "refused 3, kind 0".to_string(),
        Failure::Refused(3) => "refused 3, another kind".to_string(),
        Failure::Refused(number) => format!("refused {}, kind {}", number, kind),
        Failure::Breaks(rule) => format!("breaks rule {}, kind {}", rule, kind),
    }
}

/// How a record on a shelf fails, in words.
pub fn failing_name(bytes: &[u8], failure: Failure) -> String {
    of_kind(failure, u16_at(bytes, KIND_AT))
}

#[cfg(test)]
mod tests {
    use super::*;
    use crate::examples;

    #[test]
    fn ways_by_hand() {
        let z = examples::z();
        let with = |left: &[u8]| no_end_of(&[&z[..], left].concat());
        assert_eq!(no_end_of(&[]), Some(NoEnd::Nothing));
        assert_eq!(no_end_of(&[0; 5]), Some(NoEnd::UnderSix));
        assert_eq!(no_end_of(&z[..10]), Some(NoEnd::FirstRunsPast));
        assert_eq!(with(&z[..10]), Some(NoEnd::LaterRunsPast));
        assert_eq!(with(&[0; 5]), Some(NoEnd::FewLeft));
        assert_eq!(with(&[]), Some(NoEnd::NoneLeft));
        assert_eq!(with(&[0; 6]), None);
        assert_eq!(no_end_of(&[0; 6]), None);
    }

    #[test]
    fn failures_by_hand() {
        assert_eq!(failing_name(&[1, 0, 0, 0, 0, 0, 7], Failure::Refused(3)), "refused 3, kind 0");
        assert_eq!(failing_name(&[0, 0, 0, 0, 0, 1], Failure::Refused(3)), "refused 3, another kind");
        assert_eq!(failing_name(&[0, 0, 0, 0, 1, 0], Failure::Refused(4)), "refused 4, kind 1");
        assert_eq!(failing_name(&examples::guard(), Failure::Breaks(4)), "breaks rule 4, kind 3");
        // Two for 3; 4, 5, 6, 7, 16 and 8 for each kind, 20 for one and 21 for another; five rules for each.
        assert_eq!(failing_names().len(), 2 + 3 * 6 + 2 + 3 * 5);
    }
}
