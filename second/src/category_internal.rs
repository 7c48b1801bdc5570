//! Categories of records by their internal events, which are quiet at every level. Every call that judges a record has
//! them.

use crate::check::{self, Break, Verdict};
use crate::record::{self, Part, View};
use crate::wrong_closure::steps_by;
use crate::wrong_internal::{as_outputs, readings_that_differ, READINGS};

/// The wrong readings are tried on parts of so many states at most; on larger ones they would take too long.
const MOST_STATES_MISREAD: usize = 24;

const BOTH_PASS: &str = "internal events made outputs, both pass";
const ALONE_PASSES: &str = "internal events made outputs, the record alone passes";
const BOTH_BREAK: &str = "internal events made outputs, both break";

/// Every category.
pub fn names() -> Vec<String> {
    let mut names = Vec::new();
    for name in [
        BOTH_PASS,
        ALONE_PASSES,
        BOTH_BREAK,
        "passes, breaks rule 4 with internal events made outputs",
        "passes, breaks rule 5 at an internal event made an output",
        "passes, breaks rule 5 at another output with internal events made outputs",
        "breaks rule 4 at a high internal event",
        "breaks rule 4 at a low internal event",
        "breaks rule 4 at a low internal event of the observer's own level",
        "breaks rule 4 at a low internal event of another level",
        "breaks rule 4 at a low internal event, rule 5 with internal events made outputs",
        "breaks rule 4, a low internal event adds to a quiet reach",
        "breaks rule 5, a low internal event adds to a quiet reach",
    ] {
        names.push(name.to_string());
    }
    for reading in READINGS {
        names.push(wrong_reading_name(reading.name));
    }
    names
}

fn wrong_reading_name(name: &str) -> String {
    format!("wrong reading of internal events differs: {}", name)
}

/// A part judged as it is, and with each internal event made an output.
pub struct Judged {
    pub part: Part,
    pub found: Option<Break>,
    pub found_as_outputs: Option<Break>,
}

/// A well-formed record with an internal event, and Check's verdict on it.
pub fn judged(bytes: &[u8], verdict: Verdict) -> Option<Judged> {
    if matches!(verdict, Verdict::Refused(_)) {
        return None;
    }
    let found = check::found_by(verdict);
    let part = record::read(bytes).unwrap();
    if !(0..part.event_count()).any(|e| part.is_internal(e)) {
        return None;
    }
    let found_as_outputs = check::first_break(&as_outputs(&part));
    Some(Judged { part, found, found_as_outputs })
}

impl Judged {
    /// Request i takes no pass away: what passes with internal events made outputs passes as it is.
    pub fn still_passes(&self) -> bool {
        self.found.is_none() || self.found_as_outputs.is_some()
    }

    /// The categories of the record. Without a low internal event that has a step document 01 reads it no differently,
    /// and it belongs to none.
    pub fn names(&self) -> Vec<String> {
        if self.part.views().into_iter().all(|view| low_internal_events(view).is_empty()) {
            return Vec::new();
        }
        let mut names: Vec<String> = match (self.found, self.found_as_outputs) {
            (None, None) => vec![BOTH_PASS.to_string()],
            (None, Some(broken)) => vec![ALONE_PASSES.to_string(), self.pass_name(broken)],
            (Some(found), _) => self.break_names(found),
        };
        if self.part.state_count() <= MOST_STATES_MISREAD {
            names.extend(readings_that_differ(&self.part, self.found).into_iter().map(wrong_reading_name));
        }
        names
    }

    fn pass_name(&self, broken: Break) -> String {
        let name = if broken.rule == 4 {
            "passes, breaks rule 4 with internal events made outputs"
        } else if self.part.is_internal(event_of(&self.part, broken)) {
            "passes, breaks rule 5 at an internal event made an output"
        } else {
            "passes, breaks rule 5 at another output with internal events made outputs"
        };
        name.to_string()
    }

    fn break_names(&self, found: Break) -> Vec<String> {
        let view = check::told(&self.part, Some(found));
        let e = event_of(&self.part, found);
        let mut names = vec![BOTH_BREAK.to_string()];
        let mut add = |applies: bool, name: &str| {
            if applies {
                names.push(format!("breaks rule {}{}", found.rule, name));
            }
        };
        if view.is_internal(e) {
            let is_own_level = view.events[e].level == view.level();
            let rule_as_outputs = self.found_as_outputs.map(|broken| broken.rule);
            add(view.is_high(e), " at a high internal event");
            add(view.is_low(e), " at a low internal event");
            add(view.is_low(e) && is_own_level, " at a low internal event of the observer's own level");
            add(view.is_low(e) && !is_own_level, " at a low internal event of another level");
            let name = " at a low internal event, rule 5 with internal events made outputs";
            add(view.is_low(e) && rule_as_outputs == Some(5), name);
        }
        let adds = |reaches: &[Vec<bool>]| add_to_a_reach(view, reaches, &low_internal_events(view));
        let name = ", a low internal event adds to a quiet reach";
        add(found.rule >= 4 && adds(&check::quiet_reaches(view)), name);
        names
    }
}

pub fn has_step(part: &Part, e: usize) -> bool {
    part.steps[e].iter().any(|row| row.contains(&true))
}

/// The internal events of a low level that have a step.
pub fn low_internal_events(view: View) -> Vec<usize> {
    (0..view.event_count()).filter(|&e| view.is_internal(e) && view.is_low(e) && has_step(&view, e)).collect()
}

/// The quiet steps but those of these events.
pub fn quiet_steps_without(view: View, events: &[usize]) -> Vec<Vec<bool>> {
    steps_by(view, |view, e| view.is_quiet(e) && !events.contains(&e))
}

/// Is some quiet reach smaller without the steps of these events?
pub fn add_to_a_reach(view: View, reaches: &[Vec<bool>], events: &[usize]) -> bool {
    let table = quiet_steps_without(view, events);
    (0..view.state_count()).any(|s| check::reach(&table, s) != reaches[s])
}

/// The event that a break names.
fn event_of(part: &Part, found: Break) -> usize {
    part.events.iter().position(|event| event.identifier == found.identifier).unwrap()
}

#[cfg(test)]
mod tests {
    use super::*;
    use crate::examples;

    /// The categories of a record but for the wrong readings.
    fn names_of(bytes: &[u8]) -> Vec<String> {
        let judged = judged(bytes, check::check(bytes)).unwrap();
        assert!(judged.still_passes());
        let mut found = judged.names();
        found.retain(|name| !name.starts_with("wrong"));
        found
    }

    #[test]
    fn categories_by_hand() {
        assert_eq!(names_of(&examples::p_with_event_2_internal()), [BOTH_PASS]);
        assert_eq!(
            names_of(&examples::p_mute_with_event_2_internal()),
            [ALONE_PASSES, "passes, breaks rule 5 at an internal event made an output"]
        );
        assert_eq!(
            names_of(&examples::t_low_internal()),
            [
                BOTH_BREAK,
                "breaks rule 4 at a low internal event",
                "breaks rule 4 at a low internal event of the observer's own level",
                "breaks rule 4 at a low internal event, rule 5 with internal events made outputs",
                "breaks rule 4, a low internal event adds to a quiet reach",
            ]
        );
        // An internal event without a step, and a high one.
        assert_eq!(names_of(&examples::p_with(&[(18, 2), (36, 0), (44, 0)])), [""; 0]);
        assert_eq!(names_of(&examples::p_with(&[(18, 2), (19, 0x40)])), [""; 0]);
        // No internal event, and a refused record.
        for changes in [&[][..], &[(18, 2), (51, 0x80)]] {
            let bytes = examples::p_with(changes);
            assert!(judged(&bytes, check::check(&bytes)).is_none());
        }
    }
}
