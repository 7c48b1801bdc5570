//! Wrong readings of limited parts, to count the inputs on which they would show. Nothing here decides an answer.
//! Document 02, request l.

use crate::check::{quiet_event_quiet, quiet_reaches};
use crate::record::{applies, classes_of, crosses, fields, fine_of, is_misnumbered, Layout, Part, View};

/// One of the two columns of a limited part.
#[derive(Clone, Copy)]
enum Column {
    Coarse,
    Fine,
}

use Column::{Coarse, Fine};

/// The column that u shares with s, and the one in which t is asked for.
#[derive(Clone, Copy)]
struct Asked {
    of_s: Column,
    of_t: Column,
}

/// How a record of kind 3 is laid out, which refusals come behind 5 and when, what 6 and 21 ask of the coarse column and
/// the fine one, and the columns of the rules.
#[derive(Clone, Copy)]
pub struct Reading {
    pub name: &'static str,
    places: Option<Places>,
    order: [u32; 5],
    misnumbered: Refuses,
    misrefined: Refuses,
    rule_2: Column,
    rule_3: Asked,
    rule_4: Asked,
    rule_5: Asked,
}

/// Where the bytes of the coarse column are and then those of the fine one, counted from the first byte of both, for so
/// many states.
type Places = fn(usize) -> Vec<usize>;

type Refuses = fn(&[u8], &[u8]) -> bool;

const COARSE: Asked = Asked { of_s: Coarse, of_t: Coarse };
const FINE: Asked = Asked { of_s: Fine, of_t: Fine };
const FINE_TO_COARSE: Asked = Asked { of_s: Fine, of_t: Coarse };
const COARSE_TO_FINE: Asked = Asked { of_s: Coarse, of_t: Fine };

const RIGHT: Reading = Reading {
    name: "right",
    places: None,
    order: [6, 21, 7, 16, 8],
    misnumbered: |coarse, _| is_misnumbered(coarse),
    misrefined: |coarse, fine| is_misnumbered(fine) || crosses(coarse, fine),
    rule_2: Coarse,
    rule_3: COARSE,
    rule_4: FINE_TO_COARSE,
    rule_5: FINE_TO_COARSE,
};

pub const READINGS: [Reading; 25] = [
    Reading { name: "u from the coarse class in rules 4 and 5", rule_4: COARSE, rule_5: COARSE, ..RIGHT },
    Reading { name: "u from the coarse class in rule 4", rule_4: COARSE, ..RIGHT },
    Reading { name: "u from the coarse class in rule 5", rule_5: COARSE, ..RIGHT },
    Reading { name: "the fine class of t in rule 4", rule_4: FINE, ..RIGHT },
    Reading { name: "the fine class of t in rule 5", rule_5: FINE, ..RIGHT },
    Reading { name: "the columns of rules 4 and 5 exchanged", rule_4: COARSE_TO_FINE, rule_5: COARSE_TO_FINE, ..RIGHT },
    Reading { name: "the fine class in rule 2", rule_2: Fine, ..RIGHT },
    Reading { name: "u from the fine class in rule 3", rule_3: FINE_TO_COARSE, ..RIGHT },
    Reading { name: "the fine class of t in rule 3", rule_3: COARSE_TO_FINE, ..RIGHT },
    Reading { name: "fine classes in rule 3", rule_3: FINE, ..RIGHT },
    Reading { name: "fine classes alone", rule_2: Fine, rule_3: FINE, rule_4: FINE, rule_5: FINE, ..RIGHT },
    Reading { name: "the fine column first", places: Some(|n| (n..2 * n).chain(0..n).collect()), ..RIGHT },
    Reading { name: "columns state by state", places: Some(state_by_state), ..RIGHT },
    Reading { name: "any numbers in the fine column", misrefined: crosses, ..RIGHT },
    Reading { name: "fine classes across coarse ones", misrefined: |_, fine| is_misnumbered(fine), ..RIGHT },
    Reading { name: "any fine column", misrefined: |_, _| false, ..RIGHT },
    Reading { name: "fine classes across coarse ones but for neighbours", misrefined: neighbours_alone, ..RIGHT },
    Reading { name: "coarse classes across fine ones refused", misrefined: the_other_way_round, ..RIGHT },
    Reading { name: "fine classes numbered in each coarse class", misrefined: misnumbered_in_a_class, ..RIGHT },
    Reading { name: "a fine column like the coarse one refused", misrefined: misrefined_or_alike, ..RIGHT },
    Reading {
        name: "6 in the fine column too",
        misnumbered: |coarse, fine| is_misnumbered(coarse) || is_misnumbered(fine),
        ..RIGHT
    },
    Reading { name: "21 before 6", order: [21, 6, 7, 16, 8], ..RIGHT },
    Reading { name: "21 behind 7", order: [6, 7, 21, 16, 8], ..RIGHT },
    Reading { name: "21 behind 16", order: [6, 7, 16, 21, 8], ..RIGHT },
    Reading { name: "21 behind 8", order: [6, 7, 16, 8, 21], ..RIGHT },
];

fn state_by_state(n: usize) -> Vec<usize> {
    (0..2 * n).map(|place| place % n * 2 + place / n).collect()
}

fn neighbours_alone(coarse: &[u8], fine: &[u8]) -> bool {
    is_misnumbered(fine) || (1..fine.len()).any(|s| crosses(&coarse[s - 1..=s], &fine[s - 1..=s]))
}

fn the_other_way_round(coarse: &[u8], fine: &[u8]) -> bool {
    is_misnumbered(fine) || crosses(fine, coarse)
}

fn misrefined_or_alike(coarse: &[u8], fine: &[u8]) -> bool {
    (RIGHT.misrefined)(coarse, fine) || coarse == fine
}

/// The fine classes of each coarse class begin with 0.
fn misnumbered_in_a_class(coarse: &[u8], fine: &[u8]) -> bool {
    coarse.iter().any(|&class| {
        let in_class: Vec<u8> = (0..fine.len()).filter(|&s| coarse[s] == class).map(|s| fine[s]).collect();
        is_misnumbered(&in_class)
    })
}

/// Does some step of the event have no answer, with a set of states for each u?
fn is_unanswered(view: View, asked: Asked, e: usize, sets: &[Vec<bool>]) -> bool {
    let n = view.state_count();
    let is_answered = |u: usize, t: usize| (0..n).any(|v| sets[u][v] && alike(view, asked.of_t, v, t));
    (0..n).any(|s| {
        (0..n).any(|t| view.leads(e, s, t) && (0..n).any(|u| alike(view, asked.of_s, u, s) && !is_answered(u, t)))
    })
}

/// Have two states one class of that column?
fn alike(view: View, column: Column, s: usize, t: usize) -> bool {
    match column {
        Coarse => view.same_class(s, t),
        Fine => view.same_fine_class(s, t),
    }
}

impl Reading {
    /// The first rule that is broken.
    fn broken_rule(&self, view: View) -> Option<u32> {
        let n = view.state_count();
        let reaches = quiet_reaches(view);
        let is_broken = |rule: u32, e: usize| match rule {
            1 => view.is_input(e) && view.steps[e].iter().any(|row| !row.contains(&true)),
            2 => {
                let leaves = |s: usize, t: usize| view.leads(e, s, t) && !alike(view, self.rule_2, s, t);
                view.is_input(e) && view.is_high(e) && (0..n).any(|s| (0..n).any(|t| leaves(s, t)))
            }
            3 => view.is_input(e) && view.is_low(e) && is_unanswered(view, self.rule_3, e, &view.steps[e]),
            4 => view.is_quiet(e) && is_unanswered(view, self.rule_4, e, &reaches),
            _ => {
                let led_to = |u: usize| quiet_event_quiet(view, &reaches, e, u);
                let sets: Vec<Vec<bool>> = (0..n).map(led_to).collect();
                view.is_low_output(e) && is_unanswered(view, self.rule_5, e, &sets)
            }
        };
        (1..=5).find(|&rule| (0..view.event_count()).any(|e| is_broken(rule, e)))
    }

    fn refuses(&self, number: u32, bytes: &[u8]) -> bool {
        let (coarse, fine) = (classes_of(bytes, 0), fine_of(bytes, 0).unwrap());
        match number {
            6 => (self.misnumbered)(coarse, fine),
            21 => (self.misrefined)(coarse, fine),
            number => applies(number, bytes),
        }
    }

    /// The number for C by this reading, for a record of kind 3 that refusals 1 to 5 leave alone.
    fn number(&self, bytes: &[u8]) -> u32 {
        let bytes = match self.places {
            Some(places) => rearranged(bytes, places),
            None => bytes.to_vec(),
        };
        let refusal = self.order.into_iter().find(|&number| self.refuses(number, &bytes));
        refusal.unwrap_or_else(|| self.number_by_rules(&fields(&bytes)))
    }

    fn number_by_rules(&self, part: &Part) -> u32 {
        self.broken_rule(part.view(0)).map_or(0, |rule| 100 + rule)
    }
}

/// The record with its columns where the right reading has them.
fn rearranged(bytes: &[u8], places: Places) -> Vec<u8> {
    let layout = Layout::of(bytes);
    let columns = layout.class_at(0, 0);
    let mut rearranged = bytes.to_vec();
    for (i, place) in places(layout.n).into_iter().enumerate() {
        rearranged[columns + i] = bytes[columns + place];
    }
    rearranged
}

/// The wrong readings by which a record of kind 3 would get another number, given the right one.
pub fn readings_that_differ(bytes: &[u8], right: u32) -> Vec<&'static str> {
    if (1..=5).contains(&right) {
        return Vec::new();
    }
    READINGS.iter().filter(|reading| reading.number(bytes) != right).map(|reading| reading.name).collect()
}

#[cfg(test)]
mod tests {
    use super::*;
    use crate::check;
    use crate::examples;
    use crate::make;
    use crate::record;
    use crate::rng::Rng;

    fn differing(bytes: &[u8]) -> Vec<&'static str> {
        let right = check::number(check::check(bytes));
        if !(1..=5).contains(&right) {
            assert_eq!(RIGHT.number(bytes), right);
        }
        readings_that_differ(bytes, right)
    }

    /// The guard has its coarse column in the bytes 10 and 11 and its fine one in 12 and 13.
    #[test]
    fn readings_of_the_rules_by_hand() {
        // State 1 has no output. Its high input leads from fine class 0 to 1.
        let of_s = ["u from the coarse class in rules 4 and 5", "u from the coarse class in rule 5"];
        let exchanged = "the columns of rules 4 and 5 exchanged";
        assert_eq!(
            differing(&examples::guard()),
            [
                of_s[0],
                of_s[1],
                exchanged,
                "the fine class in rule 2",
                "fine classes alone",
                "the fine column first",
                "coarse classes across fine ones refused",
            ]
        );
        // With one fine class it breaks rule 5 as kind 1 would; that column is the coarse one.
        assert_eq!(differing(&examples::guard_with(&[(13, 0)])), ["a fine column like the coarse one refused"]);
        // T leads from 0 to 2 by a high output; 0 and 1 are in one coarse class.
        let of_s = ["u from the coarse class in rules 4 and 5", "u from the coarse class in rule 4"];
        assert_eq!(
            differing(&examples::t_limited([0, 1, 2])),
            [
                of_s[0],
                of_s[1],
                exchanged,
                "the fine column first",
                "columns state by state",
                "coarse classes across fine ones refused",
                "fine classes numbered in each coarse class",
            ]
        );
    }

    #[test]
    fn readings_of_refusals_by_hand() {
        let differs = |changes: &[(usize, u8)], name: &str| differing(&examples::guard_with(changes)).contains(&name);
        // A fine class too high, and one across two coarse classes.
        assert!(differs(&[(13, 2)], "any numbers in the fine column"));
        assert!(differs(&[(13, 2)], "6 in the fine column too"));
        assert!(!differs(&[(13, 2)], "fine classes across coarse ones"));
        assert!(differs(&[(11, 1), (13, 0)], "fine classes across coarse ones"));
        assert!(!differs(&[(11, 1), (13, 0)], "any numbers in the fine column"));
        assert!(!differs(&[(11, 1), (13, 0)], "fine classes across coarse ones but for neighbours"));
        assert!(differs(&[(11, 1), (13, 0)], "fine classes numbered in each coarse class"));
        // Refused for both columns, for the fine column and an event's kind, its level, a stray bit.
        assert!(differs(&[(11, 2), (13, 2)], "21 before 6"));
        assert!(differs(&[(13, 2), (16, 3)], "21 behind 7"));
        assert!(differs(&[(13, 2), (17, 1)], "21 behind 16"));
        assert!(differs(&[(13, 2), (22, 6)], "21 behind 8"));
        assert_eq!(
            differing(&examples::guard_with(&[(16, 3)])),
            ["the fine column first", "coarse classes across fine ones refused"]
        );
        // States 0 and 2 of T in one fine class: they are no neighbours.
        let crossed = differing(&examples::t_limited([0, 1, 0]));
        assert!(crossed.contains(&"fine classes across coarse ones but for neighbours"));
    }

    #[test]
    fn places_by_hand() {
        let places = |name: &str| READINGS.iter().find(|reading| reading.name == name).unwrap().places.unwrap()(3);
        assert_eq!(places("the fine column first"), [3, 4, 5, 0, 1, 2]);
        assert_eq!(places("columns state by state"), [0, 2, 4, 1, 3, 5]);
    }

    /// The right one of the readings is the checker.
    #[test]
    fn the_right_reading() {
        let mut rng = Rng::new(106);
        for round in 0..900 {
            let part = if round % 2 == 0 { make::any_limited(&mut rng) } else { make::breaking_limited(&mut rng) };
            let mut bytes = record::write(&part);
            if round % 3 == 0 {
                make::damage(&mut rng, &mut bytes, RIGHT.order[round / 3 % 5]);
            }
            assert_eq!(RIGHT.number(&bytes), check::number(check::check(&bytes)));
        }
    }
}
