//! Categories of explanations, closures, joins and hookups by lists of observers.

use crate::category_explain::break_of;
use crate::category_list::{counts, lists_observers};
use crate::closure::{self, ClosureAnswer, PIECE};
use crate::explain::{ExplainAnswer, Explanation};
use crate::join::{self, JoinAnswer};
use crate::record::{self, longest, Part, MOST_LISTED};
use crate::wrong_list_calls::{
    self, class_counts_that_differ, is_front, place_of, BLOCKS, CLASS_COUNTS, COUNTS, DIFFER, LEVELS,
};

/// The wrong readings are tried on parts of so many states at most; on larger ones they would take too long.
const MOST_STATES_MISREAD: usize = 24;

/// Every category of explanations.
pub fn explain_names() -> Vec<String> {
    let mut names = Vec::new();
    for i in 1..=MOST_LISTED {
        names.push(format!("explained, tells observer {} of several", i));
        names.push(own_count_name(i));
    }
    for verdict in ["passes", "breaks rule 4", "breaks rule 5"] {
        names.push(format!("explained, {}, the observers' counts differ", verdict));
    }
    names.push("explained, breaks rule 2 or 3, the first observer's count not zero".to_string());
    for (name, _) in COUNTS {
        names.push(format!("wrong count of several observers differs: {}", name));
    }
    for (name, _) in LEVELS {
        names.push(format!("wrong level told differs: {}", name));
    }
    names
}

/// A break tells this observer, and its count tells it from the others.
pub fn own_count_name(i: usize) -> String {
    format!("explained, tells observer {} of several, no other has its count", i)
}

/// The categories of one explanation.
pub fn of_explain(bytes: &[u8], answer: ExplainAnswer) -> Vec<String> {
    match answer {
        ExplainAnswer::Explained(explanation) if lists_observers(bytes) => {
            explained_names(&record::read(bytes).unwrap(), &explanation)
        }
        _ => Vec::new(),
    }
}

fn explained_names(part: &Part, explanation: &Explanation) -> Vec<String> {
    let found = break_of(explanation);
    let taken = wrong_list_calls::counts(part);
    let mut names = Vec::new();
    if let Some(broken) = found {
        let i = place_of(part, broken);
        names.push(format!("explained, tells observer {} of several", i + 1));
        if taken.iter().filter(|&&count| count == explanation.taken).count() == 1 && broken.rule >= 4 {
            names.push(own_count_name(i + 1));
        }
        if i > 0 && (2..=3).contains(&broken.rule) {
            names.push("explained, breaks rule 2 or 3, the first observer's count not zero".to_string());
        }
    }
    if taken.iter().any(|&count| count != taken[0]) {
        match explanation.rule {
            0 => names.push("explained, passes, the observers' counts differ".to_string()),
            4 | 5 => names.push(format!("explained, breaks rule {}, the observers' counts differ", explanation.rule)),
            _ => {}
        }
    }
    for (name, count) in COUNTS {
        if count(part, found) != explanation.taken {
            names.push(format!("wrong count of several observers differs: {}", name));
        }
    }
    for (name, level) in LEVELS {
        if level(part, found) as u64 != explanation.observer {
            names.push(format!("wrong level told differs: {}", name));
        }
    }
    names
}

/// Every category of closures.
pub fn closure_names() -> Vec<String> {
    let mut names = Vec::new();
    for count in counts() {
        names.push(format!("closed, {} observers", count));
        names.push(format!("closed, {} observers, no two blocks alike", count));
    }
    for name in [
        "closed, 4 observers and 64 states",
        "refused 15, several observers, room for the first block alone",
        "refused 15, several observers, room for all blocks but the last",
        "refused 15, several observers, one byte short",
    ] {
        names.push(name.to_string());
    }
    for (name, _) in BLOCKS {
        names.push(format!("wrong blocks differ: {}", name));
    }
    names
}

/// The categories of one call for closures.
pub fn of_closure(bytes: &[u8], room: usize, answer: ClosureAnswer) -> Vec<String> {
    if !lists_observers(bytes) {
        return Vec::new();
    }
    match answer {
        ClosureAnswer::Length(_) => closed_names(&record::read(bytes).unwrap()),
        ClosureAnswer::Refused(15) => no_room_names(&record::read(bytes).unwrap(), room),
        ClosureAnswer::Refused(_) => Vec::new(),
    }
}

fn closed_names(part: &Part) -> Vec<String> {
    let count = part.observers.len();
    let mut names = vec![format!("closed, {} observers", count)];
    if count == 4 && part.state_count() == 64 {
        names.push("closed, 4 observers and 64 states".to_string());
    }
    if part.state_count() <= MOST_STATES_MISREAD {
        let right = closure::closures(part);
        let blocks: Vec<&[u8]> = right.chunks(right.len() / count).collect();
        if (0..count).all(|i| !blocks[..i].contains(&blocks[i])) {
            names.push(format!("closed, {} observers, no two blocks alike", count));
        }
        for (name, wrong) in BLOCKS {
            if wrong(part) != right {
                names.push(format!("wrong blocks differ: {}", name));
            }
        }
    }
    names
}

fn no_room_names(part: &Part, room: usize) -> Vec<String> {
    let block = PIECE * part.state_count();
    let mut names = Vec::new();
    if room == block {
        names.push("refused 15, several observers, room for the first block alone".to_string());
    }
    if room + block == closure::length(part) {
        names.push("refused 15, several observers, room for all blocks but the last".to_string());
    }
    if room + 1 == closure::length(part) {
        names.push("refused 15, several observers, one byte short".to_string());
    }
    names
}

/// Every category of joins and of hookups.
pub fn pair_names() -> Vec<String> {
    let mut names = Vec::new();
    for name in [
        "9, A's list goes on behind B's",
        "9, B's list goes on behind A's",
        "9, as many observers, the first differs alone",
        "9, as many observers, the last differs alone",
        "9, as many observers, one between differs alone",
        "9, several observers, an event clashes too",
        "9, several observers, too large too",
        "9, A of kind 1 and B of kind 2",
        "9, A of kind 2 and B of kind 1",
        "9, A of kind 1 and B of kind 2, A's observer in B's list",
        "9, A of kind 2 and B of kind 1, B's observer in A's list",
        "10, several observers",
        "10, several observers, too large too",
        "11, several observers",
        "joined, several observers, numbers of B's classes differ",
        "joined, several observers, joined columns differ",
    ] {
        names.push(name.to_string());
    }
    for count in counts() {
        names.push(format!("joined, {} observers", count));
    }
    for (name, _) in DIFFER {
        names.push(format!("wrong reading of 9 differs: {}", name));
    }
    for (name, _) in CLASS_COUNTS {
        names.push(format!("wrong number of classes differs: {}", name));
    }
    names
}

/// Every category of joins.
pub fn join_names() -> Vec<String> {
    let mut names = pair_names();
    names.push(longest_name());
    for name in [
        "9, several observers, no room either",
        "10, several observers, no room either",
        "11, several observers, no room either",
        "refused 15, several observers",
        "refused 15, several observers, one byte short",
        "refused 15, several observers, room for one column",
    ] {
        names.push(name.to_string());
    }
    names
}

fn longest_name() -> String {
    format!("joined, {} bytes", longest())
}

/// The categories of one join, by its answer.
pub fn of_join(a: &[u8], b: &[u8], room: usize, answer: JoinAnswer) -> Vec<String> {
    if matches!(answer, JoinAnswer::Stopped(_, _)) || !(lists_observers(a) || lists_observers(b)) {
        return Vec::new();
    }
    let (a, b) = (record::read(a).unwrap(), record::read(b).unwrap());
    if answer != JoinAnswer::Refused(15) {
        let mut names = of_pair(&a, &b);
        match answer {
            JoinAnswer::Length(length) if length == longest() => names.push(longest_name()),
            JoinAnswer::Length(_) => {}
            refused if room == 0 => {
                names.push(format!("{}, several observers, no room either", join::number(refused)));
            }
            _ => {}
        }
        return names;
    }
    let mut names = vec!["refused 15, several observers".to_string()];
    let joined = join::joined_part(&a, &b);
    if room + 1 == record::write(&joined).len() {
        names.push("refused 15, several observers, one byte short".to_string());
    }
    if room == record::write(&joined.as_kind_1()).len() {
        names.push("refused 15, several observers, room for one column".to_string());
    }
    names
}

/// The categories of two passing parts that are joined or refused with 9, 10 or 11, one of them or both with several
/// observers.
pub fn of_pair(a: &Part, b: &Part) -> Vec<String> {
    if a.observers.len().max(b.observers.len()) == 1 {
        return Vec::new();
    }
    match join::refusal_of_pair(a, b) {
        Some(JoinAnswer::Refused(9)) => differ_names(a, b),
        Some(JoinAnswer::Refused(11)) => vec!["11, several observers".to_string()],
        Some(_) => clash_names(a, b),
        None => joined_names(a, b),
    }
}

fn are_too_large(a: &Part, b: &Part) -> bool {
    join::too_many_states(a, b) || join::too_many_entries(a, b)
}

fn clash_names(a: &Part, b: &Part) -> Vec<String> {
    let mut names = vec!["10, several observers".to_string()];
    if are_too_large(a, b) {
        names.push("10, several observers, too large too".to_string());
    }
    names
}

fn differ_names(a: &Part, b: &Part) -> Vec<String> {
    let mut names = Vec::new();
    let mut add = |applies: bool, name: &str| {
        if applies {
            names.push(name.to_string());
        }
    };
    let (x, y) = (a.levels(), b.levels());
    let different: Vec<usize> = (0..x.len().min(y.len())).filter(|&i| x[i] != y[i]).collect();
    let as_many = x.len() == y.len();
    add(is_front(b, a), "9, A's list goes on behind B's");
    add(is_front(a, b), "9, B's list goes on behind A's");
    add(as_many && different == [0], "9, as many observers, the first differs alone");
    add(as_many && different == [x.len() - 1], "9, as many observers, the last differs alone");
    let is_between = as_many && different.len() == 1 && 0 < different[0] && different[0] < x.len() - 1;
    add(is_between, "9, as many observers, one between differs alone");
    add(join::smallest_clash(a, b).is_some(), "9, several observers, an event clashes too");
    add(are_too_large(a, b), "9, several observers, too large too");
    add(x.len() == 1, "9, A of kind 1 and B of kind 2");
    add(y.len() == 1, "9, A of kind 2 and B of kind 1");
    add(x.len() == 1 && y.contains(&x[0]), "9, A of kind 1 and B of kind 2, A's observer in B's list");
    add(y.len() == 1 && x.contains(&y[0]), "9, A of kind 2 and B of kind 1, B's observer in A's list");
    for (name, differ) in DIFFER {
        add(!differ(a, b), &format!("wrong reading of 9 differs: {}", name));
    }
    names
}

fn joined_names(a: &Part, b: &Part) -> Vec<String> {
    let joined = join::joined_part(a, b);
    let first = b.observers[0].class_count();
    let mut names = vec![format!("joined, {} observers", a.observers.len())];
    if b.observers.iter().any(|observer| observer.class_count() != first) {
        names.push("joined, several observers, numbers of B's classes differ".to_string());
    }
    if joined.observers.iter().any(|observer| observer.classes != joined.observers[0].classes) {
        names.push("joined, several observers, joined columns differ".to_string());
    }
    let wrong = class_counts_that_differ(a, b);
    names.extend(wrong.into_iter().map(|name| format!("wrong number of classes differs: {}", name)));
    names
}

#[cfg(test)]
mod tests {
    use super::*;
    use crate::examples;
    use crate::explain;

    /// The names that are not about wrong readings.
    fn right(mut names: Vec<String>, all: Vec<String>) -> Vec<String> {
        assert!(names.iter().all(|name| all.contains(name)), "{:?}", names);
        names.retain(|name| !name.starts_with("wrong"));
        names
    }

    #[test]
    fn explanations_by_hand() {
        let of_t = |first, second| {
            let bytes = record::write(&examples::t_for_two(first, second));
            right(of_explain(&bytes, explain::explain(&bytes, &mut [0; 64])), explain_names())
        };
        assert_eq!(of_t([0, 0, 0], [0, 1, 2]), ["explained, passes, the observers' counts differ"]);
        assert_eq!(
            of_t([0, 0, 0], [0, 0, 1]),
            [
                "explained, tells observer 2 of several",
                "explained, tells observer 2 of several, no other has its count",
                "explained, breaks rule 5, the observers' counts differ"
            ]
        );
        let wrong = |first, second| {
            let bytes = record::write(&examples::t_for_two(first, second));
            let mut names = of_explain(&bytes, explain::explain(&bytes, &mut [0; 64]));
            names.retain(|name| name.starts_with("wrong"));
            names.into_iter().map(|name| name.rsplit(": ").next().unwrap().to_string()).collect::<Vec<_>>()
        };
        assert_eq!(
            wrong([0, 0, 0], [0, 0, 1]),
            [
                "the first observer's at a break of a later one",
                "of all observers together",
                "the greatest",
                "the first observer's",
                "the observer's place in the list",
                "none",
            ]
        );
        assert_eq!(
            wrong([0, 0, 0], [0, 1, 2]),
            ["the last observer's where it passes", "of all observers together", "the least"]
        );
    }

    #[test]
    fn closures_by_hand() {
        let bytes = record::write(&examples::t_for_two([0, 0, 0], [0, 1, 2]));
        let of_room = |room: usize| {
            let answer = closure::closure(&bytes, &mut vec![0; room]);
            right(of_closure(&bytes, room, answer), closure_names())
        };
        assert_eq!(of_room(816), ["closed, 2 observers", "closed, 2 observers, no two blocks alike"]);
        assert_eq!(of_room(815), ["refused 15, several observers, one byte short"]);
        assert_eq!(
            of_room(408),
            [
                "refused 15, several observers, room for the first block alone",
                "refused 15, several observers, room for all blocks but the last"
            ]
        );
    }

    #[test]
    fn joins_by_hand() {
        let of = |a: &[u8], b: &[u8], room: usize| {
            let answer = join::join(a, b, &mut vec![0; room]);
            right(of_join(a, b, room, answer), join_names())
        };
        let (z, two) = (examples::z(), examples::z_for_two());
        assert_eq!(of(&z, &z, 100), [""; 0]);
        assert_eq!(of(&two, &two, 100), ["joined, 2 observers"]);
        assert_eq!(
            of(&z, &two, 100),
            [
                "9, B's list goes on behind A's",
                "9, A of kind 1 and B of kind 2",
                "9, A of kind 1 and B of kind 2, A's observer in B's list"
            ]
        );
        assert_eq!(
            of(&two, &examples::z_for(&[0x40]), 100),
            ["9, A of kind 2 and B of kind 1", "9, A of kind 2 and B of kind 1, B's observer in A's list"]
        );
        assert_eq!(of(&examples::z_for(&[0x00, 0x40, 0x41]), &two, 100), ["9, A's list goes on behind B's"]);
        assert_eq!(of(&two, &examples::z_for(&[0x00, 0x41]), 100), ["9, as many observers, the last differs alone"]);
        assert_eq!(of(&two, &examples::z_for(&[0x40, 0x41]), 100), [""; 0]);
        assert_eq!(
            of(&examples::z_for(&[0x40, 0x41]), &examples::z_for(&[0x00, 0x41]), 9),
            ["9, as many observers, the first differs alone"]
        );
        assert_eq!(of(&examples::p_for_two(), &examples::p_for_two(), 100), ["10, several observers"]);
        // Z for two observers has 14 bytes, for one it has 11.
        assert_eq!(
            of(&two, &two, 13),
            ["refused 15, several observers", "refused 15, several observers, one byte short"]
        );
        assert_eq!(
            of(&two, &two, 11),
            ["refused 15, several observers", "refused 15, several observers, room for one column"]
        );
    }
}
