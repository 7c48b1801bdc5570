//! Makes groupings of states into classes.

use crate::rng::Rng;

/// Renumbers labels by first appearance.
pub fn by_first_appearance(labels: &[usize]) -> Vec<u8> {
    let mut met: Vec<usize> = Vec::new();
    let mut classes = Vec::new();
    for &label in labels {
        if !met.contains(&label) {
            met.push(label);
        }
        let mut number = 0;
        while met[number] != label {
            number += 1;
        }
        classes.push(number as u8);
    }
    classes
}

/// A grouping of n states into at most k classes.
pub fn grouping(rng: &mut Rng, n: usize, k: usize) -> Vec<u8> {
    let mut labels = Vec::new();
    for _ in 0..n {
        labels.push(rng.below(k));
    }
    by_first_appearance(&labels)
}

/// A grouping into a few classes, or many, or a class for each state.
pub fn any_grouping(rng: &mut Rng, n: usize) -> Vec<u8> {
    match rng.below(8) {
        0 => {
            let mut classes = Vec::new();
            for s in 0..n {
                classes.push(s as u8);
            }
            classes
        }
        1 => grouping(rng, n, n),
        _ => {
            let k = rng.range(1, n.min(6));
            grouping(rng, n, k)
        }
    }
}

/// The states of each class.
pub(super) fn members_of(classes: &[u8]) -> Vec<Vec<usize>> {
    let mut members: Vec<Vec<usize>> = Vec::new();
    for s in 0..classes.len() {
        let class = classes[s] as usize;
        while members.len() <= class {
            members.push(Vec::new());
        }
        members[class].push(s);
    }
    members
}
