//! Makes parts by the shape of their quiet steps.

use super::groupings::any_grouping;
use super::levels::{any_level, event, identifiers, near_level, observer, Role, QUIET_ROLES, ROLES};
use crate::record::Part;
use crate::rng::Rng;

#[derive(Clone, Copy, PartialEq, Eq, Debug)]
pub enum Shape {
    /// No step at all.
    Empty,
    /// From each state to the one below it.
    LineDown,
    /// From each state to the one above it.
    LineUp,
    /// One line through all states, in random order.
    Line,
    /// One circle through all states, in random order.
    Circle,
    /// From one state to all others.
    StarOut,
    /// From all others to one state.
    StarIn,
    /// From each state to each.
    Full,
    /// Random, about one step from each state.
    Few,
    /// Random, about two steps from each state.
    Some,
    /// Random, any share of all steps.
    Any,
}

pub const SHAPES: [Shape; 11] = [
    Shape::Empty,
    Shape::LineDown,
    Shape::LineUp,
    Shape::Line,
    Shape::Circle,
    Shape::StarOut,
    Shape::StarIn,
    Shape::Full,
    Shape::Few,
    Shape::Some,
    Shape::Any,
];

/// A table of single steps of that shape.
pub fn steps_of_shape(rng: &mut Rng, shape: Shape, n: usize) -> Vec<Vec<bool>> {
    let mut order: Vec<usize> = (0..n).collect();
    let centre = rng.below(n);
    match shape {
        Shape::Empty => vec![vec![false; n]; n],
        Shape::LineDown => {
            order.reverse();
            line_through(&order)
        }
        Shape::LineUp => line_through(&order),
        Shape::Line => {
            rng.shuffle(&mut order);
            line_through(&order)
        }
        Shape::Circle => {
            rng.shuffle(&mut order);
            let mut table = line_through(&order);
            table[order[n - 1]][order[0]] = true;
            table
        }
        Shape::StarOut => {
            let mut table = vec![vec![false; n]; n];
            table[centre] = vec![true; n];
            table
        }
        Shape::StarIn => {
            let mut table = vec![vec![false; n]; n];
            for s in 0..n {
                table[s][centre] = true;
            }
            table
        }
        Shape::Full => vec![vec![true; n]; n],
        Shape::Few => random_steps(rng, n, 1, n),
        Shape::Some => random_steps(rng, n, 2, n),
        Shape::Any => {
            let times = rng.below(10);
            random_steps(rng, n, times, 10)
        }
    }
}

fn line_through(order: &[usize]) -> Vec<Vec<bool>> {
    let n = order.len();
    let mut table = vec![vec![false; n]; n];
    for i in 1..n {
        table[order[i - 1]][order[i]] = true;
    }
    table
}

fn random_steps(rng: &mut Rng, n: usize, times: usize, of: usize) -> Vec<Vec<bool>> {
    let mut table = vec![vec![false; n]; n];
    for s in 0..n {
        for t in 0..n {
            table[s][t] = rng.chance(times, of);
        }
    }
    table
}

/// A part of n states and m events whose quiet steps have a shape, any grouping, and no thought of the rules. Each
/// quiet step goes to one quiet event or to several; all other events have shapes of their own, which must not count.
pub fn shaped(rng: &mut Rng, shape: Shape, n: usize, m: usize) -> Part {
    let table = steps_of_shape(rng, shape, n);
    with_quiet_steps(rng, &table, m)
}

/// The same with a given table of quiet steps.
pub fn with_quiet_steps(rng: &mut Rng, table: &[Vec<bool>], m: usize) -> Part {
    let n = table.len();
    let observer = observer(rng);
    let mut events = Vec::new();
    let must_be_quiet = if m > 0 { rng.below(m) } else { 0 };
    for (i, identifier) in identifiers(rng, m).into_iter().enumerate() {
        let wants_quiet = i == must_be_quiet || rng.chance(1, 3);
        let role = if wants_quiet { rng.pick(&QUIET_ROLES) } else { rng.pick(&ROLES) };
        events.push(event(rng, observer, identifier, role));
    }
    let start = rng.below(n);
    let classes = any_grouping(rng, n);
    let mut part = Part::without_steps(observer, start, classes, events);
    let mut quiet_events = Vec::new();
    for e in 0..m {
        if part.view(0).is_quiet(e) {
            quiet_events.push(e);
        } else {
            let other = rng.pick(&SHAPES);
            part.steps[e] = steps_of_shape(rng, other, n);
        }
    }
    if m > 0 {
        spread(rng, &mut part, table, &quiet_events);
    }
    part
}

/// Gives each step of the table to one of the events, now and then to a second one.
fn spread(rng: &mut Rng, part: &mut Part, table: &[Vec<bool>], events: &[usize]) {
    for s in 0..table.len() {
        for t in 0..table.len() {
            if table[s][t] {
                part.steps[rng.pick(events)][s][t] = true;
                if rng.chance(1, 8) {
                    part.steps[rng.pick(events)][s][t] = true;
                }
            }
        }
    }
}

/// A part with quiet steps of that shape that passes, in one class or with a class for each state. All other events
/// have a step from each state, and where classes differ high inputs stay.
pub fn passing_shaped(rng: &mut Rng, shape: Shape, n: usize, m: usize, one_class: bool) -> Part {
    let mut part = shaped(rng, shape, n, m);
    part.observers[0].classes = if one_class { vec![0; n] } else { (0..n as u8).collect() };
    for e in 0..m {
        if part.view(0).is_quiet(e) {
            continue;
        }
        let stays = part.is_input(e) && part.view(0).is_high(e) && !one_class;
        for s in 0..n {
            if stays {
                part.steps[e][s] = vec![false; n];
                part.steps[e][s][s] = true;
            } else if !part.steps[e][s].contains(&true) {
                let t = rng.below(n);
                part.steps[e][s][t] = true;
            }
        }
    }
    part
}

/// A part with quiet steps of that shape and low outputs in the place of inputs: only rules 4 and 5 can be broken.
pub fn shaped_without_inputs(rng: &mut Rng, shape: Shape, n: usize, m: usize) -> Part {
    let mut part = shaped(rng, shape, n, m);
    for e in 0..m {
        if part.is_input(e) {
            part.events[e] = event(rng, part.observers[0].level, part.events[e].identifier, Role::LowOutput);
        }
    }
    part
}

/// The same part with most of its quiet events made internal, of either level; its quiet steps stay as they are.
pub fn with_quiet_events_internal(rng: &mut Rng, part: &Part) -> Part {
    let mut changed = part.clone();
    for e in 0..part.event_count() {
        if part.view(0).is_quiet(e) && rng.chance(3, 4) {
            let role = rng.pick(&[Role::LowInternal, Role::HighInternal]);
            changed.events[e] = event(rng, part.observers[0].level, part.events[e].identifier, role);
        }
    }
    changed
}

/// The same part with another observer and levels near it: equal, or one rank or compartment away. Which outputs are
/// quiet changes with them.
pub fn with_near_levels(rng: &mut Rng, part: &Part) -> Part {
    let mut changed = part.clone();
    changed.observers[0].level = any_level(rng);
    for e in 0..part.event_count() {
        changed.events[e].level = match rng.below(4) {
            0 => changed.observers[0].level,
            1 => any_level(rng),
            _ => near_level(rng, changed.observers[0].level),
        };
    }
    changed
}

#[cfg(test)]
mod tests {
    use super::*;
    use crate::check;

    #[test]
    fn parts_have_their_quiet_steps() {
        let mut rng = Rng::new(56);
        for round in 0..300 {
            let n = rng.range(1, 12);
            let m = rng.range(1, 8);
            let table = steps_of_shape(&mut rng, SHAPES[round % SHAPES.len()], n);
            let part = with_quiet_steps(&mut rng, &table, m);
            assert_eq!(check::quiet_steps(part.view(0)), table);
        }
    }

    #[test]
    fn passing_parts_pass() {
        let mut rng = Rng::new(59);
        for round in 0..300 {
            let n = rng.range(1, 9);
            let m = rng.range(0, 6);
            let part = passing_shaped(&mut rng, SHAPES[round % SHAPES.len()], n, m, round % 2 == 0);
            assert!(check::passes(&part));
        }
    }

    #[test]
    fn without_inputs_rules_4_and_5_alone_are_broken() {
        let mut rng = Rng::new(60);
        let mut broken = [0; 6];
        for round in 0..1000 {
            let n = rng.range(1, 9);
            let m = rng.range(0, 6);
            let part = shaped_without_inputs(&mut rng, SHAPES[round % SHAPES.len()], n, m);
            if let Some(found) = check::first_break(&part) {
                broken[found.rule as usize] += 1;
            }
        }
        assert_eq!(broken[..4], [0; 4]);
        assert!(broken[4] > 50 && broken[5] > 50, "{:?}", broken);
    }

    #[test]
    fn quiet_steps_are_spread() {
        let mut rng = Rng::new(57);
        let mut spread = 0;
        for _ in 0..100 {
            let part = shaped(&mut rng, Shape::Line, 12, 6);
            let events =
                (0..6).filter(|&e| part.view(0).is_quiet(e) && part.steps[e].iter().any(|row| row.contains(&true)));
            if events.count() >= 3 {
                spread += 1;
            }
        }
        assert!(spread > 30, "{}", spread);
    }

    #[test]
    fn internal_events_take_the_same_steps() {
        let mut rng = Rng::new(67);
        for _ in 0..100 {
            let part = shaped(&mut rng, Shape::Some, 8, 5);
            let other = with_quiet_events_internal(&mut rng, &part);
            assert_eq!(check::quiet_steps(part.view(0)), check::quiet_steps(other.view(0)));
            assert_eq!(check::first_break(&part), check::first_break(&other));
        }
    }

    #[test]
    fn near_levels_change_what_is_quiet() {
        let mut rng = Rng::new(58);
        let mut changed = 0;
        for _ in 0..100 {
            let part = shaped(&mut rng, Shape::Some, 8, 5);
            let other = with_near_levels(&mut rng, &part);
            if check::quiet_steps(part.view(0)) != check::quiet_steps(other.view(0)) {
                changed += 1;
            }
        }
        assert!(changed > 50, "{}", changed);
    }
}
