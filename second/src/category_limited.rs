//! Categories of records of kind 3, the limited parts. Every call that takes a record has them.

use crate::category::Names;
use crate::category_list::is_of_kind;
use crate::check::{self, Break, Verdict};
use crate::make::exchange_columns;
use crate::record::{applies, classes_of, crosses, fields, fine_of, is_misnumbered, read, Layout, Part, HEADER};
use crate::wrong_limited::{readings_that_differ, READINGS};
use std::ops::RangeInclusive;

/// The wrong readings are tried on parts of so many states at most; on larger ones they would take too long.
const MOST_STATES_MISREAD: usize = 24;

/// A category of large parts, of which fewer must come up: they take long.
pub const LARGEST: &str = "passes, kind 3, 64 states and 32 events";

/// Categories of breaks by what the coarse classes would tell, which are rare.
pub const PLACES: [&str; 3] = [
    "breaks rule 4, kind 3, elsewhere with u from the coarse class",
    "breaks rule 5, kind 3, elsewhere with u from the coarse class",
    "breaks rule 5, kind 3, rule 4 with u from the coarse class",
];

/// The least number of cases of a category, where most of them have that least number.
pub fn least_of(name: &str, least: usize) -> usize {
    if name == LARGEST {
        least.div_ceil(10)
    } else {
        least
    }
}

/// The limits that come up by themselves.
pub const LIMITS: RangeInclusive<usize> = 1..=8;

/// A limit in words.
pub fn limit_name(limit: usize) -> String {
    if LIMITS.contains(&limit) {
        format!("limit {}", limit)
    } else {
        "limit above 8".to_string()
    }
}

/// Every limit in words.
pub fn limit_names() -> Vec<String> {
    LIMITS.chain([9]).map(limit_name).collect()
}

/// Every category.
pub fn names() -> Vec<String> {
    let mut names = Vec::new();
    for number in [4, 5, 6, 7, 16, 8] {
        names.push(format!("refused {}, kind 3", number));
    }
    for name in [
        "refused 6, kind 3, the fine column misnumbered too",
        "refused 6, kind 3, a fine class across two coarse ones too",
        "refused 21, misnumbered alone",
        "refused 21, misnumbered at state 0",
        "refused 21, misnumbered at the last state alone",
        "refused 21, crossing alone",
        "refused 21, crossing, no neighbours",
        "refused 21, crossing at the first and the last state alone",
        "refused 21, one fine class across all coarse ones",
        "refused 21, misnumbered and crossing",
        "refused 21, fine classes numbered in each coarse class",
        "refused 21, passes with the columns exchanged",
        "refused 21, 64 states",
        "refused 21, misordered too",
        "refused 21, stray bit too",
        "refused 21, otherwise passes",
        "refused 21, otherwise breaks",
        "passes, kind 3, limit 64",
        "passes, kind 3, the columns alike",
        "passes, kind 3, a fine class for each state",
        "passes, kind 3, several coarse classes, of different numbers of fine ones",
        "passes, kind 3, the limit in the first coarse class alone",
        "passes, kind 3, the limit in the last coarse class alone",
        "passes, kind 3, a high input leaves its fine class",
        "passes, kind 3, 1 state",
        "passes, kind 3, 0 events",
        LARGEST,
    ]
    .into_iter()
    .chain(PLACES)
    {
        names.push(name.to_string());
    }
    for limit in limit_names() {
        names.push(format!("passes, kind 3, {}", limit));
    }
    for rule in 1..=5 {
        names.push(format!("breaks rule {}, kind 3", rule));
    }
    for rule in 4..=5 {
        names.push(format!("passes, kind 3, breaks rule {} with u from the coarse class", rule));
        names.push(format!("breaks rule {}, kind 3, limit above 1, also with u from the coarse class", rule));
    }
    for reading in READINGS {
        names.push(wrong_reading_name(reading.name));
    }
    names
}

fn wrong_reading_name(name: &str) -> String {
    format!("wrong reading of limited parts differs: {}", name)
}

/// Is this a record of kind 3?
pub fn is_limited(bytes: &[u8]) -> bool {
    is_of_kind(bytes, 3)
}

/// The categories of a record's bytes, given Check's verdict.
pub fn of_record(bytes: &[u8], verdict: Verdict) -> Vec<String> {
    if !is_limited(bytes) {
        return Vec::new();
    }
    let mut names = match verdict {
        Verdict::Refused(number) => refused_names(bytes, number),
        Verdict::Pass => pass_names(&read(bytes).unwrap()),
        Verdict::Breaks(found) => break_names(&read(bytes).unwrap(), found),
    };
    let is_small = bytes.len() >= HEADER + 4 && Layout::of(bytes).n <= MOST_STATES_MISREAD;
    if is_small {
        names.extend(readings_that_differ(bytes, check::number(verdict)).into_iter().map(wrong_reading_name));
    }
    names
}

fn refused_names(bytes: &[u8], number: u32) -> Vec<String> {
    let mut names = Names::default();
    match number {
        1..=3 => {}
        21 => return misrefined_names(bytes),
        number => names.add(true, &format!("refused {}, kind 3", number)),
    }
    if number == 6 {
        let (coarse, fine) = columns(bytes);
        names.add(is_misnumbered(fine), "refused 6, kind 3, the fine column misnumbered too");
        names.add(crosses(coarse, fine), "refused 6, kind 3, a fine class across two coarse ones too");
    }
    names.0
}

/// The coarse column and the fine one.
fn columns(bytes: &[u8]) -> (&[u8], &[u8]) {
    (classes_of(bytes, 0), fine_of(bytes, 0).unwrap())
}

/// Refusal 21.
fn misrefined_names(bytes: &[u8]) -> Vec<String> {
    let (coarse, fine) = columns(bytes);
    let n = coarse.len();
    let (misnumbered, crossing) = (is_misnumbered(fine), crosses(coarse, fine));
    let mut names = Names::default();
    names.add(misnumbered && !crossing, "refused 21, misnumbered alone");
    names.add(fine[0] != 0, "refused 21, misnumbered at state 0");
    let at_last = n > 1 && misnumbered && !is_misnumbered(&fine[..n - 1]);
    names.add(at_last, "refused 21, misnumbered at the last state alone");
    names.add(crossing && !misnumbered, "refused 21, crossing alone");
    names.add(crossing && misnumbered, "refused 21, misnumbered and crossing");
    if crossing && !misnumbered {
        names.0.extend(crossing_names(coarse, fine));
    }
    names.add(passes_exchanged(bytes), "refused 21, passes with the columns exchanged");
    names.add(n == 64, "refused 21, 64 states");
    names.add(applies(7, bytes), "refused 21, misordered too");
    names.add(applies(8, bytes), "refused 21, stray bit too");
    if n <= MOST_STATES_MISREAD && ![7, 16, 8].into_iter().any(|number| applies(number, bytes)) {
        let passes = check::passes(&fields(bytes));
        names.add(passes, "refused 21, otherwise passes");
        names.add(!passes, "refused 21, otherwise breaks");
    }
    names.0
}

/// By the states of one fine class that have different coarse ones, in a column that is numbered as it should be.
fn crossing_names(coarse: &[u8], fine: &[u8]) -> Vec<String> {
    let n = coarse.len();
    let mut names = Names::default();
    let neighbours = (1..n).any(|s| crosses(&coarse[s - 1..=s], &fine[s - 1..=s]));
    let without_ends = crosses(&coarse[1..], &fine[1..]) || crosses(&coarse[..n - 1], &fine[..n - 1]);
    names.add(!neighbours, "refused 21, crossing, no neighbours");
    names.add(n > 2 && !without_ends, "refused 21, crossing at the first and the last state alone");
    names.add(fine.iter().all(|&class| class == 0), "refused 21, one fine class across all coarse ones");
    let in_class = |class: u8| (0..n).filter(|&s| coarse[s] == class).map(|s| fine[s]).collect::<Vec<u8>>();
    let begins_anew = coarse.iter().all(|&class| !is_misnumbered(&in_class(class)));
    names.add(begins_anew, "refused 21, fine classes numbered in each coarse class");
    names.0
}

/// Would the record pass with its columns the other way round?
fn passes_exchanged(bytes: &[u8]) -> bool {
    let mut exchanged = bytes.to_vec();
    exchange_columns(&mut exchanged);
    check::check(&exchanged) == Verdict::Pass
}

fn pass_names(part: &Part) -> Vec<String> {
    let (n, m) = (part.state_count(), part.event_count());
    let observer = &part.observers[0];
    let limit = part.limit();
    let counts: Vec<usize> = (0..observer.class_count()).map(|class| observer.fine_classes_in(class as u8)).collect();
    let with_limit: Vec<usize> = (0..counts.len()).filter(|&class| counts[class] == limit).collect();
    let several = counts.len() > 1;
    let mut names = Names(vec![format!("passes, kind 3, {}", limit_name(limit))]);
    names.add(limit == 64, "passes, kind 3, limit 64");
    names.add(observer.classes == observer.fine_classes(), "passes, kind 3, the columns alike");
    names.add(observer.fine_class_count() == n, "passes, kind 3, a fine class for each state");
    let name = "passes, kind 3, several coarse classes, of different numbers of fine ones";
    names.add(counts.iter().any(|&count| count != limit), name);
    names.add(several && with_limit == [0], "passes, kind 3, the limit in the first coarse class alone");
    let name = "passes, kind 3, the limit in the last coarse class alone";
    names.add(several && with_limit == [counts.len() - 1], name);
    names.add(high_input_leaves(part), "passes, kind 3, a high input leaves its fine class");
    names.add(n == 1, "passes, kind 3, 1 state");
    names.add(m == 0, "passes, kind 3, 0 events");
    names.add(n == 64 && m == 32, LARGEST);
    if let Some(found) = check::first_break(&part.as_kind_1()) {
        names.add(true, &format!("passes, kind 3, breaks rule {} with u from the coarse class", found.rule));
    }
    names.0
}

fn high_input_leaves(part: &Part) -> bool {
    let view = part.view(0);
    let n = part.state_count();
    let leaves = |e: usize| (0..n).any(|s| (0..n).any(|t| view.leads(e, s, t) && !view.same_fine_class(s, t)));
    (0..part.event_count()).any(|e| view.is_input(e) && view.is_high(e) && leaves(e))
}

fn break_names(part: &Part, found: Break) -> Vec<String> {
    let rule = found.rule;
    let mut names = Names(vec![format!("breaks rule {}, kind 3", rule)]);
    if rule < 4 {
        return names.0;
    }
    let coarse = check::first_break(&part.as_kind_1()).unwrap();
    let elsewhere = coarse.rule == rule && coarse != found;
    names.add(elsewhere, &format!("breaks rule {}, kind 3, elsewhere with u from the coarse class", rule));
    let alike = coarse == found && part.limit() > 1;
    names.add(alike, &format!("breaks rule {}, kind 3, limit above 1, also with u from the coarse class", rule));
    let other_rule = rule == 5 && coarse.rule == 4;
    names.add(other_rule, "breaks rule 5, kind 3, rule 4 with u from the coarse class");
    names.0
}

#[cfg(test)]
mod tests {
    use super::*;
    use crate::examples;
    use crate::record::{write, Event, Kind};

    /// The categories of a record but for the wrong readings.
    fn names_of(bytes: &[u8]) -> Vec<String> {
        let mut found = of_record(bytes, check::check(bytes));
        assert!(found.iter().all(|name| names().contains(name)), "{:?}", found);
        found.retain(|name| !name.starts_with("wrong"));
        found
    }

    /// The guard with some bytes changed: 10 and 11 are its coarse column, 12 and 13 its fine one.
    fn of_guard(changes: &[(usize, u8)]) -> Vec<String> {
        names_of(&examples::guard_with(changes))
    }

    #[test]
    fn refusals_by_hand() {
        assert_eq!(of_guard(&[(9, 33)]), ["refused 4, kind 3"]);
        assert_eq!(of_guard(&[(9, 1)]), ["refused 5, kind 3"]);
        assert_eq!(of_guard(&[(11, 2)]), ["refused 6, kind 3"]);
        assert_eq!(
            of_guard(&[(11, 2), (13, 2)]),
            ["refused 6, kind 3", "refused 6, kind 3, the fine column misnumbered too"]
        );
        assert_eq!(
            of_guard(&[(11, 2), (13, 0)]),
            ["refused 6, kind 3", "refused 6, kind 3, a fine class across two coarse ones too"]
        );
        assert_eq!(
            of_guard(&[(13, 2)]),
            [
                "refused 21, misnumbered alone",
                "refused 21, misnumbered at the last state alone",
                "refused 21, otherwise passes",
            ]
        );
        assert_eq!(
            of_guard(&[(12, 1), (16, 3)]),
            ["refused 21, misnumbered alone", "refused 21, misnumbered at state 0", "refused 21, misordered too"]
        );
        assert_eq!(
            of_guard(&[(11, 1), (13, 0), (17, 1), (22, 6)]),
            [
                "refused 21, crossing alone",
                "refused 21, one fine class across all coarse ones",
                "refused 21, fine classes numbered in each coarse class",
                "refused 21, stray bit too",
            ]
        );
        // The high input leaves its coarse class.
        assert_eq!(
            of_guard(&[(11, 1), (13, 0)])[3..],
            ["refused 21, passes with the columns exchanged", "refused 21, otherwise breaks"]
        );
        assert_eq!(of_guard(&[(20, 3)]), ["refused 7, kind 3"]);
        assert_eq!(of_guard(&[(6, 1)]), ["refused 16, kind 3"]);
        assert_eq!(of_guard(&[(53, 0x80)]), ["refused 8, kind 3"]);
        assert_eq!(of_guard(&[(0, 0)]), [""; 0]);
        assert_eq!(names_of(&examples::guard()[..5]), [""; 0]);
        assert_eq!(names_of(&examples::p()), [""; 0]);
    }

    /// T has the coarse classes 0 0 1.
    #[test]
    fn crossings_by_hand() {
        let numbered = "refused 21, fine classes numbered in each coarse class";
        assert_eq!(
            names_of(&examples::t_limited([0, 1, 0])),
            [
                "refused 21, crossing alone",
                "refused 21, crossing, no neighbours",
                "refused 21, crossing at the first and the last state alone",
                numbered,
                "refused 21, otherwise passes",
            ]
        );
        assert_eq!(
            names_of(&examples::t_limited([0, 1, 1])),
            ["refused 21, crossing alone", "refused 21, otherwise passes"]
        );
        assert_eq!(
            names_of(&examples::t_limited([1, 0, 1])),
            [
                "refused 21, misnumbered at state 0",
                "refused 21, misnumbered and crossing",
                "refused 21, otherwise passes"
            ]
        );
    }

    #[test]
    fn verdicts_by_hand() {
        assert_eq!(
            of_guard(&[]),
            [
                "passes, kind 3, limit 2",
                "passes, kind 3, a fine class for each state",
                "passes, kind 3, a high input leaves its fine class",
                "passes, kind 3, breaks rule 5 with u from the coarse class",
            ]
        );
        assert_eq!(of_guard(&[(13, 0)]), ["breaks rule 5, kind 3"]);
        assert_eq!(
            names_of(&examples::t_limited([0, 1, 2])),
            [
                "passes, kind 3, limit 2",
                "passes, kind 3, a fine class for each state",
                "passes, kind 3, several coarse classes, of different numbers of fine ones",
                "passes, kind 3, the limit in the first coarse class alone",
                "passes, kind 3, breaks rule 4 with u from the coarse class",
            ]
        );
        assert_eq!(names_of(&examples::t_limited([0, 0, 1])), ["breaks rule 4, kind 3"]);
        assert_eq!(
            names_of(&examples::z_limited()),
            [
                "passes, kind 3, limit 1",
                "passes, kind 3, the columns alike",
                "passes, kind 3, a fine class for each state",
                "passes, kind 3, 1 state",
                "passes, kind 3, 0 events",
            ]
        );
    }

    /// Four states in one coarse class; a low output stays in 0 and 2. The fine classes are 0 1 2 2.
    #[test]
    fn breaks_by_hand() {
        let events = vec![Event { identifier: 7, kind: Kind::Output, level: 0 }];
        let mut part = examples::with_fine(&Part::without_steps(0, 0, vec![0; 4], events), &[0, 1, 2, 2]);
        part.steps[0][0][0] = true;
        part.steps[0][2][2] = true;
        let names = |part: &Part| names_of(&write(part));
        assert_eq!(
            names(&part),
            ["breaks rule 5, kind 3", "breaks rule 5, kind 3, elsewhere with u from the coarse class"]
        );
        part.observers[0].fine = Some(vec![0, 0, 1, 1]);
        assert_eq!(
            names(&part),
            ["breaks rule 5, kind 3", "breaks rule 5, kind 3, limit above 1, also with u from the coarse class"]
        );
    }
}
