//! Makes parts to join: pairs by a plan, a third part, parts of one bus.

use super::groupings::{any_grouping, grouping};
use super::levels::{any_level, event, identifiers, near_level, observer, ROLES};
use super::passing::{passing_with, vary, LITTLE_QUIET, SOME_QUIET};
use crate::record::{Event, Kind, Part};
use crate::rng::Rng;

#[derive(Clone, Copy, PartialEq, Eq, Debug)]
pub enum Clash {
    None,
    Kind,
    Level,
}

#[derive(Clone, Copy, Debug)]
pub struct PairPlan {
    pub na: usize,
    pub nb: usize,
    pub only_a: usize,
    pub only_b: usize,
    pub shared: usize,
    pub clash: Clash,
    pub observers_differ: bool,
}

const CLASHING: [(Kind, Kind); 7] = [
    (Kind::Input, Kind::Input),
    (Kind::Input, Kind::Internal),
    (Kind::Output, Kind::Output),
    (Kind::Output, Kind::Internal),
    (Kind::Internal, Kind::Input),
    (Kind::Internal, Kind::Output),
    (Kind::Internal, Kind::Internal),
];

/// Two passing parts by a plan. Each identifier belongs to A, to B or to both.
pub fn pair(rng: &mut Rng, plan: PairPlan) -> (Part, Part) {
    let observer_a = observer(rng);
    let mut observer_b = observer_a;
    while plan.observers_differ && observer_b == observer_a {
        observer_b = observer(rng);
    }

    let mut owners = Vec::new();
    for _ in 0..plan.only_a {
        owners.push(0);
    }
    for _ in 0..plan.only_b {
        owners.push(1);
    }
    for _ in 0..plan.shared {
        owners.push(2);
    }
    rng.shuffle(&mut owners);
    let clashes = if plan.shared > 0 { rng.range(1, plan.shared) } else { 0 };
    let mut shared_met = 0;
    let mut events_a = Vec::new();
    let mut events_b = Vec::new();
    for (i, identifier) in identifiers(rng, owners.len()).into_iter().enumerate() {
        let role = rng.pick(&ROLES);
        if owners[i] == 0 {
            events_a.push(event(rng, observer_a, identifier, role));
        } else if owners[i] == 1 {
            events_b.push(event(rng, observer_b, identifier, role));
        } else {
            let mut a = event(rng, observer_a, identifier, role);
            let mut b = a;
            if rng.chance(1, 2) {
                a.kind = Kind::Input;
                b.kind = Kind::Output;
            } else {
                a.kind = Kind::Output;
                b.kind = Kind::Input;
            }
            if shared_met < clashes {
                if plan.clash == Clash::Kind {
                    let (kind_a, kind_b) = rng.pick(&CLASHING);
                    a.kind = kind_a;
                    b.kind = kind_b;
                }
                while plan.clash == Clash::Level && a.level == b.level {
                    b.level = if rng.chance(1, 2) { any_level(rng) } else { near_level(rng, a.level) };
                }
            }
            shared_met += 1;
            events_a.push(a);
            events_b.push(b);
        }
    }

    let classes_a = any_grouping(rng, plan.na);
    let classes_b = any_grouping(rng, plan.nb);
    let a = passing_with(rng, observer_a, &events_a, &classes_a, SOME_QUIET);
    let b = passing_with(rng, observer_b, &events_b, &classes_b, SOME_QUIET);
    (a, b)
}

pub fn joinable_pair(rng: &mut Rng) -> (Part, Part) {
    let na = rng.range(1, 8);
    let nb = rng.range(1, 8);
    let plan = PairPlan {
        na,
        nb,
        only_a: rng.range(0, 4),
        only_b: rng.range(0, 4),
        shared: rng.range(0, 4),
        clash: Clash::None,
        observers_differ: false,
    };
    pair(rng, plan)
}

/// A pair whose joined part stays small enough for brute force.
pub fn small_joinable_pair(rng: &mut Rng) -> (Part, Part) {
    let plan = PairPlan {
        na: rng.range(1, 3),
        nb: rng.range(1, 3),
        only_a: rng.range(0, 2),
        only_b: rng.range(0, 2),
        shared: rng.range(0, 2),
        clash: Clash::None,
        observers_differ: false,
    };
    let (mut a, mut b) = pair(rng, plan);
    if rng.chance(1, 2) {
        vary(rng, &mut a, 8);
        vary(rng, &mut b, 8);
    }
    (a, b)
}

/// A passing part with the same events and a class for each state.
pub fn regrouped(rng: &mut Rng, part: &Part) -> Part {
    let mut classes = Vec::new();
    for s in 0..part.state_count() {
        classes.push(s as u8);
    }
    passing_with(rng, part.observers[0].level, &part.events, &classes, LITTLE_QUIET)
}

/// Gives an event another identifier; an event that already had it is dropped.
pub fn rename(part: &mut Part, from: u16, to: u16) {
    let mut moved = Vec::new();
    for e in 0..part.event_count() {
        let mut event = part.events[e];
        if event.identifier == to && from != to {
            continue;
        }
        if event.identifier == from {
            event.identifier = to;
        }
        moved.push((event, part.steps[e].clone()));
    }
    moved.sort_by_key(|(event, _)| event.identifier);
    part.events = moved.iter().map(|(event, _)| *event).collect();
    part.steps = moved.into_iter().map(|(_, rows)| rows).collect();
}

/// A passing part of one or two states to join with another: it hears or sends some of its outputs and inputs.
pub fn third_for(rng: &mut Rng, other: &Part) -> Part {
    let mut events = Vec::new();
    for known in &other.events {
        if rng.chance(1, 2) {
            let mut own = *known;
            own.kind = match known.kind {
                Kind::Input => Kind::Output,
                Kind::Output => Kind::Input,
                Kind::Internal => continue,
            };
            events.push(own);
        }
    }
    for identifier in identifiers(rng, 2) {
        if !other.events.iter().any(|known| known.identifier == identifier) {
            let role = rng.pick(&ROLES);
            events.push(event(rng, other.observers[0].level, identifier, role));
        }
    }
    events.sort_by_key(|event| event.identifier);
    let n = rng.range(1, 2);
    let classes = grouping(rng, n, 2);
    passing_with(rng, other.observers[0].level, &events, &classes, SOME_QUIET)
}

/// Parts that share a bus of identifiers: each has one sender and at most one receiver, now and then a clash.
pub fn bus(rng: &mut Rng, parts: usize, most_states: usize) -> Vec<Part> {
    let common = observer(rng);
    let mut lists: Vec<Vec<Event>> = vec![Vec::new(); parts];
    let count = rng.range(2, 9);
    for identifier in identifiers(rng, count) {
        let role = rng.pick(&ROLES);
        let mut drawn = event(rng, common, identifier, role);
        let sender = rng.below(parts);
        let receiver = rng.below(parts);
        if receiver != sender && rng.chance(2, 3) {
            drawn.kind = Kind::Output;
            lists[sender].push(drawn);
            drawn.kind = Kind::Input;
            if rng.chance(1, 12) {
                drawn.kind = rng.pick(&[Kind::Output, Kind::Internal]);
            }
            if rng.chance(1, 12) {
                drawn.level = near_level(rng, drawn.level);
            }
            lists[receiver].push(drawn);
        } else {
            lists[sender].push(drawn);
        }
    }
    let mut made = Vec::new();
    for list in &lists {
        let own = if rng.chance(1, 12) { observer(rng) } else { common };
        let n = rng.range(1, most_states);
        let k = rng.range(1, n.min(3));
        let classes = grouping(rng, n, k);
        made.push(passing_with(rng, own, list, &classes, SOME_QUIET));
    }
    made
}
