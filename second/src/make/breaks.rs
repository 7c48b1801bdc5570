//! Makes parts that are meant to break a rule.

use super::groupings::{by_first_appearance, grouping, members_of};
use super::levels::{event, identifiers, observer, random_events, Role, QUIET_ROLES, ROLES};
use super::passing::{passing_with, LITTLE_QUIET, SOME_QUIET};
use crate::record::Part;
use crate::rng::Rng;

#[derive(Clone, Copy, PartialEq, Eq, Debug)]
pub enum Place {
    First,
    Middle,
    Last,
}

pub const PLACES: [Place; 3] = [Place::First, Place::Middle, Place::Last];

fn place_in(rng: &mut Rng, place: Place, count: usize) -> usize {
    match place {
        Place::First => 0,
        Place::Middle => rng.range(1, count - 2),
        Place::Last => count - 1,
    }
}

/// Where a break is wanted.
#[derive(Clone, Copy, Debug)]
pub struct Wanted {
    pub rule: u32,
    pub event: Place,
    pub s: Place,
    pub t: Place,
    pub u: Place,
}

impl Wanted {
    /// A break of this rule at any places.
    pub fn anywhere(rng: &mut Rng, rule: u32) -> Wanted {
        Wanted { rule, event: rng.pick(&PLACES), s: rng.pick(&PLACES), t: rng.pick(&PLACES), u: rng.pick(&PLACES) }
    }
}

/// A part of n states and m events (at least three of each) that is meant to break the wanted rule first, at the wanted
/// places: a passing part with one step more, or for rule 1 with one row less. None where the places exclude
/// each other.
pub fn breaking(rng: &mut Rng, wanted: Wanted, n: usize, m: usize) -> Option<Part> {
    let e = place_in(rng, wanted.event, m);
    let s = place_in(rng, wanted.s, n);
    let t = place_in(rng, wanted.t, n);
    let u = place_in(rng, wanted.u, n);
    if wanted.rule >= 3 && s == u {
        return None;
    }

    let observer = observer(rng);
    let mut roles = Vec::new();
    for _ in 0..m {
        roles.push(rng.pick(&ROLES));
    }
    roles[rng.below(m)] = rng.pick(&QUIET_ROLES);
    roles[e] = match wanted.rule {
        1 => rng.pick(&[Role::LowInput, Role::HighInput]),
        2 => Role::HighInput,
        3 => Role::LowInput,
        4 => rng.pick(&QUIET_ROLES),
        _ => Role::LowOutput,
    };
    let mut events = Vec::new();
    for (i, identifier) in identifiers(rng, m).into_iter().enumerate() {
        events.push(event(rng, observer, identifier, roles[i]));
    }

    let k = rng.range(2, n.min(5));
    let mut labels = Vec::new();
    for _ in 0..n {
        labels.push(rng.below(k));
    }
    let must_differ = wanted.rule == 2 || wanted.rule == 4;
    if wanted.rule >= 3 {
        labels[u] = labels[s];
    }
    if must_differ && labels[t] == labels[s] {
        if t == s || (wanted.rule == 4 && t == u) {
            return None;
        }
        labels[t] = (labels[s] + 1) % k;
    }
    let classes = by_first_appearance(&labels);
    let mut part = passing_with(rng, observer, &events, &classes, LITTLE_QUIET);
    let members = members_of(&classes);
    let class = classes[s] as usize;
    let target = classes[t] as usize;

    match wanted.rule {
        1 => part.steps[e][s] = vec![false; n],
        2 => part.steps[e][s][t] = true,
        3 => {
            let mut others = Vec::new();
            for other in 0..members.len() {
                if other != target {
                    others.push(other);
                }
            }
            if others.is_empty() {
                return None;
            }
            let kept = rng.pick(&others);
            for &v in &members[class] {
                part.steps[e][v] = vec![false; n];
                let to = rng.pick(&members[kept]);
                part.steps[e][v][to] = true;
                if v < u && v != s {
                    let to = rng.pick(&members[target]);
                    part.steps[e][v][to] = true;
                }
            }
            part.steps[e][s][t] = true;
        }
        _ => {
            if wanted.rule == 5 && rng.chance(2, 3) {
                part.steps[e] = vec![vec![false; n]; n];
            }
            part.steps[e][s][t] = true;
            let mut quiet_events = Vec::new();
            for q in 0..m {
                if part.view(0).is_quiet(q) {
                    quiet_events.push(q);
                }
            }
            for &v in &members[class] {
                if v < u && v != s && !quiet_events.is_empty() {
                    let q = rng.pick(&quiet_events);
                    part.steps[q][v][s] = true;
                }
            }
        }
    }
    Some(part)
}

/// A passing part with one to three steps changed at random.
pub fn changed_steps(rng: &mut Rng, part: &Part) -> Part {
    let mut changed = part.clone();
    if part.event_count() > 0 {
        for _ in 0..rng.range(1, 3) {
            let e = rng.below(part.event_count());
            let s = rng.below(part.state_count());
            let t = rng.below(part.state_count());
            changed.steps[e][s][t] = !changed.steps[e][s][t];
        }
    }
    changed
}

/// A part in which a step is missing or too many in a state that no trace reaches.
pub fn damaged_out_of_reach(rng: &mut Rng) -> Part {
    let observer = observer(rng);
    let m = rng.range(1, 4);
    let events = random_events(rng, observer, m);
    let inner = rng.range(1, 4);
    let n = inner + rng.range(1, 3);
    let k = rng.range(1, 3);
    let inner_classes = grouping(rng, inner, k);
    let reached = passing_with(rng, observer, &events, &inner_classes, SOME_QUIET);
    let mut classes = inner_classes.clone();
    for _ in inner..n {
        classes.push(rng.pick(&inner_classes));
    }
    let mut part = Part::without_steps(observer, reached.start, classes, events);
    for e in 0..m {
        for s in 0..inner {
            for t in 0..inner {
                part.steps[e][s][t] = reached.leads(e, s, t);
            }
        }
        for s in inner..n {
            let like = rng.below(inner);
            for t in 0..inner {
                part.steps[e][s][t] = reached.leads(e, like, t);
            }
            let t = rng.below(n);
            part.steps[e][s][t] = true;
        }
    }
    part
}

/// A small part with random rows and a random grouping; it nearly always breaks a rule.
pub fn small_random_table(rng: &mut Rng) -> Part {
    let observer = observer(rng);
    let n = rng.range(1, 4);
    let m = rng.range(1, 4);
    let events = random_events(rng, observer, m);
    let k = rng.range(1, n);
    let classes = grouping(rng, n, k);
    let mut part = Part::without_steps(observer, rng.below(n), classes, events);
    for e in 0..m {
        for s in 0..n {
            for t in 0..n {
                part.steps[e][s][t] = rng.chance(1, 2);
            }
        }
    }
    part
}

#[cfg(test)]
mod tests {
    use super::*;
    use crate::check;

    #[test]
    fn each_rule_can_be_broken_first() {
        let mut rng = Rng::new(54);
        for rule in 1..=5 {
            let mut as_meant = 0;
            for _ in 0..100 {
                let wanted = Wanted::anywhere(&mut rng, rule);
                if let Some(part) = breaking(&mut rng, wanted, 6, 4) {
                    if let Some(found) = check::first_break(&part) {
                        if found.rule == rule {
                            as_meant += 1;
                        }
                    }
                }
            }
            assert!(as_meant > 20, "rule {}: {}", rule, as_meant);
        }
    }
}
