//! Wrong readings of internal events, to count the inputs on which they would show. Nothing here decides a verdict.
//! Document 02, request i.

use crate::check::{self, Break};
use crate::record::{Kind, Part, View};
use crate::wrong_closure::steps_by;

/// Which internal events are quiet, and the rule that each falls under, if there is one.
#[derive(Clone, Copy)]
pub struct Reading {
    pub name: &'static str,
    is_quiet: fn(View, usize) -> bool,
    rule: fn(View, usize) -> Option<u32>,
}

const RIGHT: Reading = Reading { name: "right", is_quiet: |_, _| true, rule: |_, _| Some(4) };

/// The first one is document 01's, which request i replaces.
pub const READINGS: [Reading; 11] = [
    Reading { name: "like outputs", is_quiet: |view, e| view.is_high(e), rule: rule_of_output },
    Reading { name: "all quiet, low ones under rule 5", rule: rule_of_output, ..RIGHT },
    Reading { name: "all under rule 4, low ones not quiet", is_quiet: |view, e| view.is_high(e), ..RIGHT },
    Reading { name: "all quiet, low ones under no rule", rule: rule_4_if_high, ..RIGHT },
    Reading {
        name: "low ones neither quiet nor under a rule",
        is_quiet: |view, e| view.is_high(e),
        rule: rule_4_if_high,
    },
    Reading { name: "all under rule 4, high ones not quiet", is_quiet: |view, e| view.is_low(e), ..RIGHT },
    Reading { name: "all under rule 4, none quiet", is_quiet: |_, _| false, ..RIGHT },
    Reading { name: "all quiet, none under a rule", rule: |_, _| None, ..RIGHT },
    Reading { name: "all quiet, all under rule 5", rule: |_, _| Some(5), ..RIGHT },
    Reading { name: "none quiet, none under a rule", is_quiet: |_, _| false, rule: |_, _| None },
    Reading {
        name: "those of the observer's own level like outputs",
        is_quiet: |view, e| !is_own_level(view, e),
        rule: |view, e| Some(if is_own_level(view, e) { 5 } else { 4 }),
    },
];

fn rule_of_output(view: View, e: usize) -> Option<u32> {
    Some(if view.is_low(e) { 5 } else { 4 })
}

fn rule_4_if_high(view: View, e: usize) -> Option<u32> {
    if view.is_high(e) {
        Some(4)
    } else {
        None
    }
}

fn is_own_level(view: View, e: usize) -> bool {
    view.events[e].level == view.level()
}

impl Reading {
    fn counts_as_quiet(&self, view: View, e: usize) -> bool {
        if view.is_internal(e) {
            (self.is_quiet)(view, e)
        } else {
            view.is_quiet(e)
        }
    }

    /// The rule that an output or internal event falls under.
    fn rule_for(&self, view: View, e: usize) -> Option<u32> {
        if view.is_internal(e) {
            (self.rule)(view, e)
        } else if view.is_output(e) {
            rule_of_output(view, e)
        } else {
            None
        }
    }

    /// The first break by this reading, for one observer.
    fn break_for(&self, view: View) -> Option<Break> {
        let table = steps_by(view, |view, e| self.counts_as_quiet(view, e));
        let reaches: Vec<Vec<bool>> = (0..view.state_count()).map(|s| check::reach(&table, s)).collect();
        let under = |rule: u32| (0..view.event_count()).filter(move |&e| self.rule_for(view, e) == Some(rule));
        check::first_break_of_inputs(view)
            .or_else(|| under(4).find_map(|e| check::rule_4_for(view, &reaches, e)))
            .or_else(|| under(5).find_map(|e| check::rule_5_for(view, &reaches, e)))
    }

    /// The first break by this reading.
    pub fn first_break(&self, part: &Part) -> Option<Break> {
        part.views().into_iter().find_map(|view| self.break_for(view))
    }

    pub fn passes(&self, part: &Part) -> bool {
        self.first_break(part).is_none()
    }
}

/// The reading of that name.
pub fn reading(name: &str) -> Reading {
    *READINGS.iter().find(|reading| reading.name == name).unwrap()
}

/// The wrong readings by which a part would pass where it breaks, break where it passes, or break another rule.
pub fn readings_that_differ(part: &Part, found: Option<Break>) -> Vec<&'static str> {
    if matches!(found, Some(Break { rule: 1..=3, observer, .. }) if observer == part.observers[0].level) {
        return Vec::new();
    }
    let rule = |found: Option<Break>| found.map(|found| found.rule);
    let differ = |reading: &&Reading| rule(reading.first_break(part)) != rule(found);
    READINGS.iter().filter(differ).map(|reading| reading.name).collect()
}

/// The part with each internal event made an output. The right reading of it is document 01's of the part itself, which
/// knows no difference between the two kinds: for the rules, and for the low events of a trace.
pub fn as_outputs(part: &Part) -> Part {
    let mut changed = part.clone();
    for event in &mut changed.events {
        if event.kind == Kind::Internal {
            event.kind = Kind::Output;
        }
    }
    changed
}

#[cfg(test)]
mod tests {
    use super::*;
    use crate::check::{first_break, passes};
    use crate::examples;
    use crate::make;
    use crate::record;
    use crate::rng::Rng;

    fn differing(bytes: &[u8]) -> Vec<&'static str> {
        let part = record::read(bytes).unwrap();
        readings_that_differ(&part, first_break(&part))
    }

    #[test]
    fn readings_by_hand() {
        // Event 2 is internal and of the observer's own level, and state 1 has no step of it.
        assert_eq!(
            differing(&examples::p_mute_with_event_2_internal()),
            [
                "like outputs",
                "all quiet, low ones under rule 5",
                "all quiet, all under rule 5",
                "those of the observer's own level like outputs",
            ]
        );
        // It stays in both states: quiet or not, under rule 4 or 5, all is well.
        assert_eq!(differing(&examples::p_with_event_2_internal()), [""; 0]);
        // Event 1 leads from 0 into another class, and 1 has no step.
        assert_eq!(
            differing(&examples::t_low_internal()),
            [
                "like outputs",
                "all quiet, low ones under rule 5",
                "all quiet, low ones under no rule",
                "low ones neither quiet nor under a rule",
                "all quiet, none under a rule",
                "all quiet, all under rule 5",
                "none quiet, none under a rule",
                "those of the observer's own level like outputs",
            ]
        );
    }

    /// The first reading and internal events made outputs come to the same break.
    #[test]
    fn document_01_reads_them_as_outputs() {
        let mut rng = Rng::new(81);
        let like_outputs = reading("like outputs");
        for round in 0..600 {
            let part = match round % 3 {
                0 => make::any_passing(&mut rng),
                1 => make::small_random_table(&mut rng),
                _ => make::passing_with_quiet_steps(&mut rng),
            };
            assert_eq!(like_outputs.first_break(&part), first_break(&as_outputs(&part)));
            assert_eq!(RIGHT.first_break(&part), first_break(&part));
        }
    }

    /// What passes by document 01's reading passes by the right one.
    #[test]
    fn no_pass_is_taken_away() {
        let mut rng = Rng::new(82);
        let (mut both, mut alone, mut neither) = (0, 0, 0);
        for round in 0..3000 {
            let part = match round % 3 {
                0 => make::any_passing(&mut rng),
                1 => make::small_random_table(&mut rng),
                _ => {
                    let part = make::small_passing(&mut rng);
                    make::changed_steps(&mut rng, &part)
                }
            };
            match (passes(&as_outputs(&part)), passes(&part)) {
                (true, true) => both += 1,
                (false, true) => alone += 1,
                (false, false) => neither += 1,
                (true, false) => panic!("{:?}", part),
            }
        }
        assert!(both > 200 && alone > 200 && neither > 200, "{} {} {}", both, alone, neither);
    }
}
