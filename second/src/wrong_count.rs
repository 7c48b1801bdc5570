//! Wrong readings of how many states were taken up, to count the inputs on which they would show. Nothing here decides
//! an answer.

use crate::check::{break_for, quiet_reaches, quiet_steps, reach, Break};
use crate::closure::least_steps;
use crate::explain::sum_of_sizes;
use crate::record::View;
use crate::wrong_internal::as_outputs;

/// A count for the observer told, with these quiet reaches and this first break.
pub type Count = fn(View, &[Vec<bool>], Option<Break>) -> u64;

pub const COUNTS: [(&str, Count); 21] = [
    ("classes in the place of states", |view, reaches, found| when_reported(found, classes_reached(view, reaches))),
    ("without the state itself", |view, reaches, found| when_reported(found, sum_of_sizes(reaches) - size(view))),
    ("the start state's reach alone", |view, reaches, found| when_reported(found, sum_of_one(reaches, view.start))),
    ("the reach of u alone at a break", |_, reaches, found| match found {
        Some(broken) => when_reported(found, sum_of_one(reaches, broken.u)),
        None => sum_of_sizes(reaches),
    }),
    ("up to u at a break", |_, reaches, found| match found {
        Some(broken) => when_reported(found, sum_of_sizes(&reaches[..broken.u + 1])),
        None => sum_of_sizes(reaches),
    }),
    ("each state once", |view, _, found| when_reported(found, size(view))),
    ("n for each state", |view, _, found| when_reported(found, size(view) * size(view))),
    ("the first state of each class alone", |view, reaches, found| {
        when_reported(found, of_first_states(view, reaches))
    }),
    ("states that traces lead to alone", |view, reaches, found| when_reported(found, of_reached_states(view, reaches))),
    ("each state and its single steps", |view, _, found| when_reported(found, of_single_steps(view, true))),
    ("single steps, each counted", |view, _, found| when_reported(found, of_single_steps(view, false))),
    ("the sum of the distances", |view, _, found| when_reported(found, sum_of_distances(view))),
    ("not zero at a break of rule 1", |_, reaches, found| when_in(&[0, 1, 4, 5], found, sum_of_sizes(reaches))),
    ("not zero at a break of rule 2", |_, reaches, found| when_in(&[0, 2, 4, 5], found, sum_of_sizes(reaches))),
    ("not zero at a break of rule 3", |_, reaches, found| when_in(&[0, 3, 4, 5], found, sum_of_sizes(reaches))),
    ("zero at a break of rule 4", |_, reaches, found| when_in(&[0, 5], found, sum_of_sizes(reaches))),
    ("zero at a break of rule 5", |_, reaches, found| when_in(&[0, 4], found, sum_of_sizes(reaches))),
    ("zero at a pass", |_, reaches, found| when_in(&[4, 5], found, sum_of_sizes(reaches))),
    ("zero where no quiet step leads on", |view, reaches, found| match sum_of_sizes(reaches) {
        sum if sum == size(view) => 0,
        sum => when_reported(found, sum),
    }),
    ("zero where each state has its own class", |view, reaches, found| match view.class_count() {
        classes if classes == view.state_count() => 0,
        _ => when_reported(found, sum_of_sizes(reaches)),
    }),
    ("internal events like outputs", |view, _, _| of_document_01(view)),
];

/// A sum where one of these rules is broken first, 0 standing for a pass; otherwise zero.
fn when_in(rules: &[u32], found: Option<Break>, sum: u64) -> u64 {
    let rule = match found {
        Some(broken) => broken.rule,
        None => 0,
    };
    if rules.contains(&rule) {
        sum
    } else {
        0
    }
}

/// The right occasions.
pub fn when_reported(found: Option<Break>, sum: u64) -> u64 {
    when_in(&[0, 4, 5], found, sum)
}

fn size(view: View) -> u64 {
    view.state_count() as u64
}

fn sum_of_one(reaches: &[Vec<bool>], s: usize) -> u64 {
    sum_of_sizes(&reaches[s..s + 1])
}

/// In each quiet reach the classes are counted.
fn classes_reached(view: View, reaches: &[Vec<bool>]) -> u64 {
    let mut sum = 0;
    for reach in reaches {
        for class in 0..view.class_count() {
            if (0..reach.len()).any(|t| reach[t] && view.observer.classes[t] as usize == class) {
                sum += 1;
            }
        }
    }
    sum
}

/// One state stands for its class.
fn of_first_states(view: View, reaches: &[Vec<bool>]) -> u64 {
    let mut sum = 0;
    for s in 0..view.state_count() {
        if !(0..s).any(|before| view.same_class(before, s)) {
            sum += sum_of_one(reaches, s);
        }
    }
    sum
}

/// States that no trace leads to are left out.
fn of_reached_states(view: View, reaches: &[Vec<bool>]) -> u64 {
    let n = view.state_count();
    let mut table = vec![vec![false; n]; n];
    for s in 0..n {
        for t in 0..n {
            table[s][t] = (0..view.event_count()).any(|e| view.leads(e, s, t));
        }
    }
    let reached = reach(&table, view.start);
    (0..n).filter(|&s| reached[s]).map(|s| sum_of_one(reaches, s)).sum()
}

/// One quiet step at most is taken from each state, which is counted too or not.
fn of_single_steps(view: View, with_the_state: bool) -> u64 {
    let mut table = quiet_steps(view);
    for s in 0..view.state_count() {
        table[s][s] = table[s][s] || with_the_state;
    }
    sum_of_sizes(&table)
}

/// Document 01's reading of internal events, for the verdict and for the quiet reaches.
fn of_document_01(view: View) -> u64 {
    let changed = as_outputs(view.part);
    let changed = View { part: &changed, observer: view.observer };
    when_reported(break_for(changed), sum_of_sizes(&quiet_reaches(changed)))
}

/// The numbers of steps are added up.
fn sum_of_distances(view: View) -> u64 {
    let table = quiet_steps(view);
    let mut sum = 0;
    for s in 0..view.state_count() {
        for steps in least_steps(&table, s).iter().flatten() {
            sum += *steps as u64;
        }
    }
    sum
}

#[cfg(test)]
mod tests {
    use super::*;
    use crate::check::first_break;
    use crate::examples;
    use crate::record::{self, Part};

    fn counts(part: &Part) -> Vec<u64> {
        let reaches = quiet_reaches(part.view(0));
        COUNTS.iter().map(|(_, count)| count(part.view(0), &reaches, first_break(part))).collect()
    }

    /// T with a high output breaks rule 4 with u = 1; its quiet reaches are 0 and 2, 1, 2.
    #[test]
    fn wrong_counts_by_hand() {
        let mut part = record::read(&examples::t_high_output()).unwrap();
        assert_eq!(counts(&part), [4, 1, 2, 1, 3, 3, 9, 3, 3, 4, 1, 1, 4, 4, 4, 0, 4, 4, 4, 4, 4]);
        // With a class for each state it passes.
        part.observers[0].classes = vec![0, 1, 2];
        assert_eq!(counts(&part), [4, 1, 2, 4, 4, 3, 9, 4, 3, 4, 1, 1, 4, 4, 4, 4, 4, 0, 4, 0, 4]);
        // In one class it passes too.
        part.observers[0].classes = vec![0, 0, 0];
        assert_eq!(counts(&part)[0], 3);
        assert_eq!(counts(&part)[7], 2);
        let rule_3 = record::read(&examples::t_low_input()).unwrap();
        assert_eq!(counts(&rule_3), [0, 0, 0, 0, 0, 0, 0, 0, 0, 0, 0, 0, 0, 0, 3, 0, 0, 0, 0, 0, 0]);
        // A low internal event in the place of T's high output: to document 01 it is not quiet.
        let internal = record::read(&examples::t_low_internal()).unwrap();
        assert_eq!(counts(&internal)[5..], [3, 9, 3, 3, 4, 1, 1, 4, 4, 4, 0, 4, 4, 4, 4, 3]);
    }
}
