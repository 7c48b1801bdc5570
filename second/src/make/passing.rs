//! Makes parts that pass the rules.

use super::groupings::{any_grouping, grouping, members_of};
use super::levels::{event, identifiers, observer, random_events, Role, QUIET_ROLES, ROLES};
use crate::check;
use crate::record::{Event, Part};
use crate::rng::Rng;

/// How many of ten classes get quiet steps inside, and quiet steps to other classes.
#[derive(Clone, Copy)]
pub struct Quiet {
    pub inside: usize,
    pub across: usize,
}

pub const SOME_QUIET: Quiet = Quiet { inside: 6, across: 4 };
pub const LITTLE_QUIET: Quiet = Quiet { inside: 2, across: 1 };

/// One or two class numbers.
fn some_classes(rng: &mut Rng, k: usize) -> Vec<usize> {
    let mut chosen = vec![rng.below(k)];
    if rng.chance(1, 3) {
        let other = rng.below(k);
        if !chosen.contains(&other) {
            chosen.push(other);
        }
    }
    chosen
}

/// A passing part with these events and this grouping. First each event gets its classes to lead to from each
/// class (the quotient); then each state gets steps to states of those classes. In a class with a leader all states
/// come to the leader by quiet steps, and only the leader needs the steps of low outputs and those to other classes.
pub fn passing_with(rng: &mut Rng, observer: u8, events: &[Event], classes: &[u8], quiet: Quiet) -> Part {
    let n = classes.len();
    let members = members_of(classes);
    let k = members.len();
    let start = rng.below(n);
    let mut part = Part::without_steps(observer, start, classes.to_vec(), events.to_vec());
    let mut quiet_events = Vec::new();
    for e in 0..part.event_count() {
        if part.view(0).is_quiet(e) {
            quiet_events.push(e);
        }
    }

    let mut leaders: Vec<Option<usize>> = Vec::new();
    for class in 0..k {
        if quiet_events.is_empty() || members[class].len() < 2 || !rng.chance(quiet.inside, 10) {
            leaders.push(None);
            continue;
        }
        let mut order = members[class].clone();
        rng.shuffle(&mut order);
        let leader = order[0];
        for i in 1..order.len() {
            let nearer = order[rng.below(i)];
            let e = rng.pick(&quiet_events);
            part.steps[e][order[i]][nearer] = true;
        }
        leaders.push(Some(leader));
    }

    // The class that quiet steps lead to from each class, if any.
    let mut across: Vec<Option<usize>> = vec![None; k];
    if !quiet_events.is_empty() {
        for class in 0..k {
            if !rng.chance(quiet.across, 10) {
                continue;
            }
            let target = rng.below(k);
            across[class] = Some(target);
            for &s in &members[class] {
                let needed = leaders[class].is_none() || leaders[class] == Some(s);
                if needed || rng.chance(1, 4) {
                    let e = rng.pick(&quiet_events);
                    let t = rng.pick(&members[target]);
                    part.steps[e][s][t] = true;
                }
            }
        }
    }

    for e in 0..part.event_count() {
        if part.is_input(e) && part.view(0).is_high(e) {
            for s in 0..n {
                for _ in 0..rng.range(1, 2) {
                    let t = rng.pick(&members[classes[s] as usize]);
                    part.steps[e][s][t] = true;
                }
            }
        }
        if part.is_input(e) && part.view(0).is_low(e) {
            for class in 0..k {
                for target in some_classes(rng, k) {
                    for &s in &members[class] {
                        for _ in 0..rng.range(1, 2) {
                            let t = rng.pick(&members[target]);
                            part.steps[e][s][t] = true;
                        }
                    }
                }
            }
        }
        if part.view(0).is_low_output(e) {
            for class in 0..k {
                if rng.chance(1, 3) {
                    continue;
                }
                for target in some_classes(rng, k) {
                    for &s in &members[class] {
                        let needed = leaders[class].is_none() || leaders[class] == Some(s);
                        if needed || rng.chance(1, 4) {
                            let t = rng.pick(&members[target]);
                            part.steps[e][s][t] = true;
                        }
                        // Where quiet steps go on to a further class, some states may go there at once.
                        if across[target].is_some() && rng.chance(1, 4) {
                            let t = rng.pick(&members[across[target].unwrap()]);
                            part.steps[e][s][t] = true;
                        }
                    }
                }
            }
        }
    }
    part
}

/// Changes single steps at random and keeps each change that leaves the part passing.
pub fn vary(rng: &mut Rng, part: &mut Part, tries: usize) {
    if part.event_count() == 0 {
        return;
    }
    for _ in 0..tries {
        let e = rng.below(part.event_count());
        let s = rng.below(part.state_count());
        let t = rng.below(part.state_count());
        part.steps[e][s][t] = !part.steps[e][s][t];
        if !check::passes(part) {
            part.steps[e][s][t] = !part.steps[e][s][t];
        }
    }
}

pub fn passing_of_size(rng: &mut Rng, n: usize, m: usize) -> Part {
    let observer = observer(rng);
    let events = random_events(rng, observer, m);
    let classes = any_grouping(rng, n);
    passing_with(rng, observer, &events, &classes, SOME_QUIET)
}

/// A small passing part of any shape.
pub fn any_passing(rng: &mut Rng) -> Part {
    let n = rng.range(1, 8);
    let m = rng.range(0, 6);
    let mut part = passing_of_size(rng, n, m);
    if rng.chance(1, 3) {
        vary(rng, &mut part, 10);
    }
    part
}

/// A passing part of 8 to 14 states and several classes whose quiet steps are meant to matter.
pub fn passing_with_quiet_steps(rng: &mut Rng) -> Part {
    let observer = observer(rng);
    let n = rng.range(8, 14);
    let mut roles = vec![rng.pick(&QUIET_ROLES), Role::LowOutput];
    for _ in 0..rng.range(1, 4) {
        roles.push(rng.pick(&ROLES));
    }
    rng.shuffle(&mut roles);
    let mut events = Vec::new();
    for (i, identifier) in identifiers(rng, roles.len()).into_iter().enumerate() {
        events.push(event(rng, observer, identifier, roles[i]));
    }
    let k = rng.range(2, 5);
    let classes = grouping(rng, n, k);
    let mut part = passing_with(rng, observer, &events, &classes, Quiet { inside: 8, across: 4 });
    if rng.chance(1, 4) {
        vary(rng, &mut part, 12);
    }
    part
}

/// A small passing part with a high input, a low output and a quiet event, for brute force.
pub fn small_passing(rng: &mut Rng) -> Part {
    let observer = observer(rng);
    let n = rng.range(2, 5);
    let mut roles = vec![Role::HighInput, Role::LowOutput, rng.pick(&QUIET_ROLES)];
    for _ in 0..rng.range(0, 2) {
        roles.push(rng.pick(&ROLES));
    }
    rng.shuffle(&mut roles);
    let mut events = Vec::new();
    for (i, identifier) in identifiers(rng, roles.len()).into_iter().enumerate() {
        events.push(event(rng, observer, identifier, roles[i]));
    }
    let k = rng.range(1, n);
    let classes = grouping(rng, n, k);
    let mut part = passing_with(rng, observer, &events, &classes, SOME_QUIET);
    if rng.chance(1, 2) {
        vary(rng, &mut part, 15);
    }
    part
}

/// A part with every step possible: one class, every row full.
pub fn full(rng: &mut Rng, n: usize, m: usize) -> Part {
    let observer = observer(rng);
    let events = random_events(rng, observer, m);
    let mut part = Part::without_steps(observer, rng.below(n), vec![0; n], events);
    for e in 0..m {
        part.steps[e] = vec![vec![true; n]; n];
    }
    part
}

#[cfg(test)]
mod tests {
    use super::*;
    use crate::check::Verdict;
    use crate::record;
    use crate::wrong;

    #[test]
    fn passing_parts_pass() {
        let mut rng = Rng::new(51);
        for _ in 0..300 {
            let part = any_passing(&mut rng);
            assert_eq!(check::check(&record::write(&part)), Verdict::Pass);
        }
        for (n, m) in [(1, 0), (1, 32), (64, 0), (64, 3), (8, 32)] {
            let part = passing_of_size(&mut rng, n, m);
            assert_eq!(check::check(&record::write(&part)), Verdict::Pass);
        }
        assert!(check::passes(&full(&mut rng, 16, 8)));
    }

    #[test]
    fn quiet_steps_matter_often() {
        let mut rng = Rng::new(52);
        let mut matter = 0;
        for _ in 0..200 {
            let part = passing_with_quiet_steps(&mut rng);
            assert!(check::passes(&part));
            if !wrong::passes_without_quiet_steps(part.view(0)) {
                matter += 1;
            }
        }
        assert!(matter > 100, "{}", matter);
    }
}
