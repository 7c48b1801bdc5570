//! Makes parts whose quiet steps form one long line.

use super::groupings::by_first_appearance;
use super::levels::{event, identifiers, observer, Role, QUIET_ROLES};
use crate::record::Part;
use crate::rng::Rng;

/// A passing part whose quiet steps form one line through all states, in random order, and which needs the whole line.
/// Either the one low output is possible at its end only, or the end has a class of its own.
pub fn line(rng: &mut Rng, n: usize) -> (Part, Vec<usize>) {
    let observer = observer(rng);
    let mut order = Vec::new();
    for s in 0..n {
        order.push(s);
    }
    rng.shuffle(&mut order);
    let first = order[0];
    let last = order[n - 1];
    let across = rng.chance(1, 2);
    let mut labels = vec![0; n];
    if across {
        labels[last] = 1;
    }
    let mut roles = vec![Role::LowOutput, rng.pick(&QUIET_ROLES), rng.pick(&QUIET_ROLES)];
    rng.shuffle(&mut roles);
    let mut events = Vec::new();
    for (i, identifier) in identifiers(rng, 3).into_iter().enumerate() {
        events.push(event(rng, observer, identifier, roles[i]));
    }
    let mut part = Part::without_steps(observer, rng.below(n), by_first_appearance(&labels), events);
    let mut quiet_events = Vec::new();
    let mut low = 0;
    for e in 0..3 {
        if part.view(0).is_quiet(e) {
            quiet_events.push(e);
        } else {
            low = e;
        }
    }
    for i in 0..n - 1 {
        let e = rng.pick(&quiet_events);
        part.steps[e][order[i]][order[i + 1]] = true;
    }
    if across {
        part.steps[low][first][last] = true;
        for &s in &order[..n - 1] {
            part.steps[low][s][first] = true;
        }
    } else {
        let t = rng.below(n);
        part.steps[low][last][t] = true;
    }
    (part, order)
}

/// The same with one link of the line missing.
pub fn cut_line(rng: &mut Rng, n: usize) -> Part {
    let (mut part, order) = line(rng, n);
    let i = rng.below(n - 1);
    for e in 0..part.event_count() {
        if part.view(0).is_quiet(e) {
            part.steps[e][order[i]][order[i + 1]] = false;
        }
    }
    part
}

#[cfg(test)]
mod tests {
    use super::*;
    use crate::check;
    use crate::wrong;

    #[test]
    fn lines_need_their_whole_length() {
        let mut rng = Rng::new(55);
        for n in [5, 33, 64] {
            for _ in 0..10 {
                let (part, _) = line(&mut rng, n);
                assert!(check::passes(&part));
                assert!(wrong::passes_with_few_quiet_steps(part.view(0), n - 1));
                assert!(!wrong::passes_with_few_quiet_steps(part.view(0), n - 2));
                assert!(!check::passes(&cut_line(&mut rng, n)));
            }
        }
    }
}
