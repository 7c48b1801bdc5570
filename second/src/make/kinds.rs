//! Makes parts of each kind, and pairs of them.

use super::limited::{any_limited, limited, limited_of_size};
use super::lists::{any_count, any_list, list_of_size, listed};
use super::pairs::{bus, joinable_pair, pair, small_joinable_pair, third_for, PairPlan};
use super::passing::{any_passing, passing_of_size};
use crate::record::Part;
use crate::rng::Rng;

/// A small passing part of any kind.
pub fn any_of_kinds(rng: &mut Rng) -> Part {
    match rng.below(3) {
        0 => any_passing(rng),
        1 => any_list(rng),
        _ => any_limited(rng),
    }
}

/// A passing part of this kind and size.
pub fn passing_of_kind(rng: &mut Rng, kind: u16, n: usize, m: usize) -> Part {
    match kind {
        1 => passing_of_size(rng, n, m),
        2 => {
            let count = any_count(rng);
            list_of_size(rng, n, m, count)
        }
        _ => limited_of_size(rng, n, m),
    }
}

/// The kinds of two parts.
pub type Kinds = (u16, u16);

/// The kinds that a limited part meets, on both sides.
pub const KINDS_WITH_LIMITED: [Kinds; 5] = [(3, 3), (3, 1), (1, 3), (3, 2), (2, 3)];

/// Those that join.
pub const JOINABLE_WITH_LIMITED: [Kinds; 3] = [(3, 3), (3, 1), (1, 3)];

/// The table of a part of kind 1 as a part of this kind that passes, where one is found.
fn as_kind(rng: &mut Rng, part: &Part, kind: u16) -> Part {
    match kind {
        2 => listed(rng, part, 2).unwrap_or_else(|| part.clone()),
        3 => limited(rng, part),
        _ => part.clone(),
    }
}

/// Two passing parts of these kinds.
fn as_kinds(rng: &mut Rng, (a, b): (Part, Part), kinds: Kinds) -> (Part, Part) {
    (as_kind(rng, &a, kinds.0), as_kind(rng, &b, kinds.1))
}

/// Two passing parts of these kinds, by a plan.
pub fn pair_of_kinds(rng: &mut Rng, plan: PairPlan, kinds: Kinds) -> (Part, Part) {
    let made = pair(rng, plan);
    as_kinds(rng, made, kinds)
}

/// Two passing parts of these kinds that join, or would if kind 2 joined with others.
pub fn joinable_of_kinds(rng: &mut Rng, kinds: Kinds) -> (Part, Part) {
    let made = joinable_pair(rng);
    as_kinds(rng, made, kinds)
}

/// The same, small enough for brute force.
pub fn small_joinable_of_kinds(rng: &mut Rng, kinds: Kinds) -> (Part, Part) {
    let made = small_joinable_pair(rng);
    as_kinds(rng, made, kinds)
}

/// A passing part of kind 1 or 3, of one or two states, to join with another.
pub fn third_limited_for(rng: &mut Rng, other: &Part) -> Part {
    let part = third_for(rng, other);
    let kind = rng.pick(&[1, 3]);
    as_kind(rng, &part, kind)
}

/// Parts that share a bus of identifiers, most of them limited, some of kind 1 or 2.
pub fn bus_of_limited(rng: &mut Rng, parts: usize, most_states: usize) -> Vec<Part> {
    let made = bus(rng, parts, most_states);
    let kinds = [3, 3, 3, 3, 1, 1, 2];
    made.iter()
        .map(|part| {
            let kind = rng.pick(&kinds);
            as_kind(rng, part, kind)
        })
        .collect()
}

#[cfg(test)]
mod tests {
    use super::*;
    use crate::check;
    use crate::join;

    #[test]
    fn pairs_join_by_their_kinds() {
        let mut rng = Rng::new(104);
        for round in 0..200 {
            let kinds = KINDS_WITH_LIMITED[round % KINDS_WITH_LIMITED.len()];
            let (a, b) = joinable_of_kinds(&mut rng, kinds);
            assert!(check::passes(&a) && check::passes(&b));
            let joins = join::refusal_of_pair(&a, &b).is_none();
            assert_eq!(joins, a.observers.len() == b.observers.len(), "{:?}", kinds);
        }
    }
}
