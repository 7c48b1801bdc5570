//! Makes limited parts, which have a fine column, and damages that column.

use super::breaks::{breaking, changed_steps, Wanted};
use super::damages::misnumber;
use super::groupings::{any_grouping, by_first_appearance, grouping, members_of};
use super::levels::{observer, random_events};
use super::passing::{any_passing, passing_of_size, passing_with, small_passing, LITTLE_QUIET};
use crate::check;
use crate::record::{classes_of, crosses, fine_of, Layout, Part};
use crate::rng::Rng;

/// A grouping as fine as this one or finer, with so many classes at most in each of its classes.
pub fn refinement(rng: &mut Rng, classes: &[u8], most: usize) -> Vec<u8> {
    let labels: Vec<usize> = classes.iter().map(|&class| class as usize * most + rng.below(most)).collect();
    by_first_appearance(&labels)
}

/// The same grouping, a class for each state, or something between.
pub fn any_refinement(rng: &mut Rng, classes: &[u8]) -> Vec<u8> {
    match rng.below(8) {
        0 => classes.to_vec(),
        1 => (0..classes.len() as u8).collect(),
        _ => {
            let most = rng.range(2, 6);
            refinement(rng, classes, most)
        }
    }
}

/// How many leaks a passing part gets at most.
const MOST_LEAKS: usize = 6;

/// The part with a fine column, and with so many leaks at most.
fn with_fine(rng: &mut Rng, part: &Part, fine: Vec<u8>, most_leaks: usize) -> Part {
    let mut limited = part.clone();
    limited.observers[0].fine = Some(fine);
    for _ in 0..rng.range(0, most_leaks) {
        leak(rng, &mut limited);
    }
    limited
}

/// An output or internal event gets steps from all states of one fine class to one coarse class. A part that passes still
/// does; in kind 1 the other states of their coarse class, which there are, would have to answer for them.
fn leak(rng: &mut Rng, part: &mut Part) {
    let events: Vec<usize> = (0..part.event_count()).filter(|&e| !part.is_input(e)).collect();
    if events.is_empty() {
        return;
    }
    let e = rng.pick(&events);
    let coarse = members_of(&part.observers[0].classes);
    let mut fine = members_of(part.observers[0].fine_classes());
    fine.retain(|states| !coarse.contains(states));
    if fine.is_empty() {
        return;
    }
    let (from, to) = (&fine[rng.below(fine.len())], &coarse[rng.below(coarse.len())]);
    for &s in from {
        part.steps[e][s][rng.pick(to)] = true;
    }
}

/// A limited part by the table of a part of kind 1, which passes if that does.
pub fn limited(rng: &mut Rng, part: &Part) -> Part {
    let fine = any_refinement(rng, &part.observers[0].classes);
    with_fine(rng, part, fine, MOST_LEAKS)
}

/// A passing limited part of this size.
pub fn limited_of_size(rng: &mut Rng, n: usize, m: usize) -> Part {
    let part = passing_of_size(rng, n, m);
    limited(rng, &part)
}

/// A small passing limited part of any shape.
pub fn any_limited(rng: &mut Rng) -> Part {
    let part = any_passing(rng);
    limited(rng, &part)
}

/// The same, small enough for brute force.
pub fn small_limited(rng: &mut Rng) -> Part {
    let part = small_passing(rng);
    limited(rng, &part)
}

/// A passing limited part of this limit: one coarse class has so many fine ones, and up to four states are left for it and
/// another class.
pub fn limited_to(rng: &mut Rng, limit: usize, m: usize) -> Part {
    let others = rng.range(0, 4.min(64 - limit));
    let mut labels: Vec<usize> = (0..limit).collect();
    labels.extend((0..others).map(|_| rng.below(2 * limit)));
    rng.shuffle(&mut labels);
    let classes: Vec<usize> = labels.iter().map(|label| label / limit).collect();
    let observer = observer(rng);
    let events = random_events(rng, observer, m);
    let part = passing_with(rng, observer, &events, &by_first_appearance(&classes), LITTLE_QUIET);
    with_fine(rng, &part, by_first_appearance(&labels), MOST_LEAKS)
}

/// A limited part that is meant to break this rule: two states that break it are in one fine class, or were drawn so.
pub fn breaking_limited_by(rng: &mut Rng, rule: u32, n: usize, m: usize) -> Option<Part> {
    let wanted = Wanted::anywhere(rng, rule);
    let part = breaking(rng, wanted, n, m)?;
    let classes = &part.observers[0].classes;
    let mut labels: Vec<usize> = any_refinement(rng, classes).into_iter().map(usize::from).collect();
    if let (Some(found), true) = (check::first_break(&part), rng.chance(2, 3)) {
        if found.rule >= 3 {
            labels[found.u] = labels[found.s];
        }
    }
    Some(with_fine(rng, &part, by_first_appearance(&labels), 1))
}

/// A limited part with leaks, in which one state of a fine class then gets a step that the others of the class do not have:
/// it is meant to break rule 4 or 5 behind steps that break it in kind 1.
pub fn breaking_behind_leaks(rng: &mut Rng) -> Part {
    let n = rng.range(4, 7);
    let observer = observer(rng);
    let events = random_events(rng, observer, 4);
    let classes = grouping(rng, n, 2);
    let part = passing_with(rng, observer, &events, &classes, LITTLE_QUIET);
    let fine = refinement(rng, &classes, 2);
    let mut limited = with_fine(rng, &part, fine, MOST_LEAKS);
    let s = rng.below(n);
    let alone: Vec<usize> = (0..4).filter(|&e| !limited.is_input(e)).collect();
    if !alone.is_empty() {
        limited.steps[rng.pick(&alone)][s][rng.below(n)] = true;
    }
    limited
}

/// A limited part that is meant to break a rule: by its steps, or by its columns.
pub fn breaking_limited(rng: &mut Rng) -> Part {
    let rule = rng.range(1, 5) as u32;
    let (n, m) = (rng.range(3, 6), rng.range(3, 6));
    match rng.below(3) {
        0 => {
            let part = limited_of_size(rng, n, m);
            changed_steps(rng, &part)
        }
        1 => {
            let mut part = limited_of_size(rng, n, m);
            let classes = any_grouping(rng, n);
            part.observers[0].fine = Some(any_refinement(rng, &classes));
            part.observers[0].classes = classes;
            part
        }
        _ => breaking_limited_by(rng, rule, n, m).unwrap_or_else(|| limited_of_size(rng, n, m)),
    }
}

/// Damages the fine column of a record of kind 3 towards refusal 21: its numbers, or a fine class across two coarse ones,
/// or both. Another record stays as it is.
pub fn damage_fine(rng: &mut Rng, bytes: &mut [u8]) {
    if fine_of(bytes, 0).is_none() {
        return;
    }
    let crossed = rng.chance(1, 2) && cross(rng, bytes);
    if !crossed || rng.chance(1, 8) {
        misnumber(rng, bytes, 1);
    }
}

/// Gives a record of kind 3 a fine column that is numbered by first appearance, with a fine class across two coarse ones.
/// Where the way that is drawn leads to none, the record stays as it is.
pub fn cross(rng: &mut Rng, bytes: &mut [u8]) -> bool {
    let coarse = classes_of(bytes, 0).to_vec();
    let fine = fine_of(bytes, 0).unwrap();
    let n = coarse.len();
    let mut labels: Vec<usize> = fine.iter().map(|&class| class.into()).collect();
    match rng.below(6) {
        0 => labels = vec![0; n],
        1 => labels = in_each_class(&coarse, fine),
        2 => labels[n - 1] = labels[0],
        _ => labels[rng.below(n)] = labels[rng.below(n)],
    }
    let crossed = by_first_appearance(&labels);
    let crosses = crosses(&coarse, &crossed);
    if crosses {
        set_fine(bytes, &crossed);
    }
    crosses
}

/// The fine classes of each coarse class, numbered from 0 on.
fn in_each_class(coarse: &[u8], fine: &[u8]) -> Vec<usize> {
    let number = |s: usize| {
        let mut before: Vec<u8> = Vec::new();
        for t in (0..s).filter(|&t| coarse[t] == coarse[s]) {
            if !before.contains(&fine[t]) {
                before.push(fine[t]);
            }
        }
        before.iter().position(|&class| class == fine[s]).unwrap_or(before.len())
    };
    (0..fine.len()).map(number).collect()
}

/// A record of kind 3 with its columns the other way round.
pub fn exchange_columns(bytes: &mut [u8]) {
    let layout = Layout::of(bytes);
    bytes[layout.class_at(0, 0)..layout.class_at(2, 0)].rotate_left(layout.n);
}

/// Gives the record another fine column.
fn set_fine(bytes: &mut [u8], fine: &[u8]) {
    let at = Layout::of(bytes).class_at(1, 0);
    bytes[at..at + fine.len()].copy_from_slice(fine);
}

#[cfg(test)]
mod tests {
    use super::*;
    use crate::check::Verdict;
    use crate::record::{self, first_refusal};

    #[test]
    fn limited_parts_pass() {
        let mut rng = Rng::new(101);
        let mut leaks = 0;
        for round in 0..400 {
            let part = match round % 4 {
                0 => any_limited(&mut rng),
                1 => small_limited(&mut rng),
                2 => {
                    let (n, m) = (rng.range(1, 20), rng.range(0, 8));
                    limited_of_size(&mut rng, n, m)
                }
                _ => limited_to(&mut rng, round / 4 % 9 + 1, 4),
            };
            assert_eq!(check::check(&record::write(&part)), Verdict::Pass);
            leaks += usize::from(!check::passes(&part.as_kind_1()));
        }
        assert!(leaks > 60, "{}", leaks);
        let bytes = record::write(&limited_of_size(&mut rng, 64, 32));
        assert_eq!((bytes.len(), check::check(&bytes)), (16_650, Verdict::Pass));
    }

    #[test]
    fn limits_are_as_meant() {
        let mut rng = Rng::new(102);
        for limit in [1, 2, 3, 4, 5, 6, 7, 8, 9, 20, 63, 64] {
            for _ in 0..20 {
                let part = limited_to(&mut rng, limit, 2);
                assert_eq!(part.limit(), limit);
                assert!(check::passes(&part));
            }
        }
    }

    #[test]
    fn limited_parts_break_as_meant() {
        let mut rng = Rng::new(103);
        for rule in 1..=5 {
            let mut as_meant = 0;
            for _ in 0..100 {
                if let Some(part) = breaking_limited_by(&mut rng, rule, 5, 4) {
                    assert_eq!(first_refusal(&record::write(&part)), None);
                    as_meant += usize::from(check::first_break(&part).is_some_and(|found| found.rule == rule));
                }
            }
            assert!(as_meant > 20, "rule {}: {}", rule, as_meant);
        }
        let broken = (0..100).filter(|_| !check::passes(&breaking_limited(&mut rng))).count();
        assert!(broken > 30, "{}", broken);
    }

    #[test]
    fn damaged_fine_columns_are_refused() {
        let mut rng = Rng::new(105);
        for _ in 0..300 {
            let bytes = record::write(&any_limited(&mut rng));
            let mut damaged = bytes.clone();
            damage_fine(&mut rng, &mut damaged);
            assert_eq!(first_refusal(&damaged), Some(21));
            let mut crossed = bytes.clone();
            if cross(&mut rng, &mut crossed) {
                assert_eq!(first_refusal(&crossed), Some(21));
            } else {
                assert_eq!(crossed, bytes);
            }
            // A record without a fine column stays as it is.
            let one = record::write(&any_passing(&mut rng));
            let mut same = one.clone();
            damage_fine(&mut rng, &mut same);
            assert_eq!(same, one);
        }
    }
}
