//! Categories of explanations, closures, joins and hookups of limited parts.

use crate::category::Names;
use crate::category_limited::{is_limited, limit_name, limit_names};
use crate::closure::{self, ClosureAnswer};
use crate::explain::{ExplainAnswer, Explanation};
use crate::join::{self, JoinAnswer};
use crate::make::{Kinds, JOINABLE_WITH_LIMITED, KINDS_WITH_LIMITED};
use crate::record::{self, form_of, longest_of, Part, FORMS};
use crate::wrong_limited_calls::{BLOCKS, DIFFER, JOINED, JOINED_LIMITS, LIMITS};

/// Every category of explanations.
pub fn explain_names() -> Vec<String> {
    let mut names = Vec::new();
    for limit in limit_names() {
        names.push(format!("explained, kind 3, {}", limit));
    }
    names.push("explained, kind 3, limit 64".to_string());
    for rule in 1..=5 {
        names.push(format!("explained, kind 3, breaks rule {}, limit above 1", rule));
    }
    names.push("explained, kind 3, count above n".to_string());
    for (name, _) in LIMITS {
        names.push(format!("wrong limit differs: {}", name));
    }
    names
}

/// The categories of one explanation.
pub fn of_explain(bytes: &[u8], answer: ExplainAnswer) -> Vec<String> {
    match answer {
        ExplainAnswer::Explained(explanation) if is_limited(bytes) => {
            explained_names(&record::read(bytes).unwrap(), &explanation)
        }
        _ => Vec::new(),
    }
}

fn explained_names(part: &Part, explanation: &Explanation) -> Vec<String> {
    let mut names = Names::default();
    names.add(explanation.taken > part.state_count() as u64, "explained, kind 3, count above n");
    if explanation.rule > 0 {
        let name = format!("explained, kind 3, breaks rule {}, limit above 1", explanation.rule);
        names.add(part.limit() > 1, &name);
        return names.0;
    }
    let limit = explanation.limit as usize;
    names.add(true, &format!("explained, kind 3, {}", limit_name(limit)));
    names.add(limit == 64, "explained, kind 3, limit 64");
    for (name, wrong) in LIMITS {
        names.add(wrong(part) != limit, &format!("wrong limit differs: {}", name));
    }
    names.0
}

/// Every category of closures.
pub fn closure_names() -> Vec<String> {
    let mut names: Vec<String> =
        ["closed, kind 3, limit above 1", "refused 15, kind 3, one byte short"].map(str::to_string).to_vec();
    for (name, _) in BLOCKS {
        names.push(format!("wrong blocks of a limited part differ: {}", name));
    }
    names
}

/// The categories of one call for closures.
pub fn of_closure(bytes: &[u8], room: usize, answer: ClosureAnswer) -> Vec<String> {
    let mut names = Names::default();
    if is_limited(bytes) && matches!(answer, ClosureAnswer::Length(_) | ClosureAnswer::Refused(15)) {
        let part = record::read(bytes).unwrap();
        let closed = answer != ClosureAnswer::Refused(15);
        names.add(closed && part.limit() > 1, "closed, kind 3, limit above 1");
        names.add(!closed && room + 1 == closure::length(&part), "refused 15, kind 3, one byte short");
        for (name, wrong) in BLOCKS {
            let differs = closed && wrong(&part) != closure::closures(&part);
            names.add(differs, &format!("wrong blocks of a limited part differ: {}", name));
        }
    }
    names.0
}

fn kinds_name((a, b): Kinds) -> String {
    format!("kind {} with kind {}", a, b)
}

/// The kinds of two parts.
fn kinds_of(a: &Part, b: &Part) -> Kinds {
    (form_of(a).kind, form_of(b).kind)
}

/// Every category of joins and of hookups.
pub fn pair_names() -> Vec<String> {
    let mut names = Vec::new();
    for kinds in KINDS_WITH_LIMITED {
        let name = kinds_name(kinds);
        names.push(format!("9, {}", name));
        if !JOINABLE_WITH_LIMITED.contains(&kinds) {
            names.push(format!("9, {}, the observer in the list", name));
            continue;
        }
        names.push(format!("10, {}", name));
        names.push(format!("11, {}", name));
        names.push(format!("joined, {}", name));
        names.push(format!("joined, {}, limit above 1", name));
    }
    for limit in limit_names() {
        names.push(format!("joined, kind 3, {}", limit));
    }
    names.push("joined, kind 3, both limits above 1".to_string());
    names.push("joined, kind 3, the columns alike".to_string());
    for (name, _) in DIFFER {
        names.push(format!("wrong reading of 9 with a limited part differs: {}", name));
    }
    for (name, _) in JOINED {
        names.push(format!("wrong joined columns differ: {}", name));
    }
    for (name, _) in JOINED_LIMITS {
        names.push(format!("wrong limit of a join differs: {}", name));
    }
    names
}

/// Every category of joins.
pub fn join_names() -> Vec<String> {
    let mut names = pair_names();
    names.push(longest_name());
    for name in [
        "9, kind 3, no room either",
        "10, kind 3, no room either",
        "11, kind 3, no room either",
        "refused 15, kind 3",
        "refused 15, kind 3, one byte short",
        "refused 15, kind 3, room without the fine column",
    ] {
        names.push(name.to_string());
    }
    names
}

fn longest_name() -> String {
    format!("joined, kind 3, {} bytes", longest_of(FORMS[2]))
}

/// The categories of one join, by its answer.
pub fn of_join(a: &[u8], b: &[u8], room: usize, answer: JoinAnswer) -> Vec<String> {
    if matches!(answer, JoinAnswer::Stopped(_, _)) || !(is_limited(a) || is_limited(b)) {
        return Vec::new();
    }
    let (a, b) = (record::read(a).unwrap(), record::read(b).unwrap());
    let mut names = Names::default();
    match answer {
        JoinAnswer::Refused(15) => {
            let joined = join::joined_part(&a, &b);
            names.add(true, "refused 15, kind 3");
            names.add(room + 1 == record::write(&joined).len(), "refused 15, kind 3, one byte short");
            let of_one = record::write(&joined.as_kind_1()).len();
            names.add(room == of_one, "refused 15, kind 3, room without the fine column");
            return names.0;
        }
        JoinAnswer::Length(length) => names.add(length == longest_of(FORMS[2]), &longest_name()),
        refused => names.add(room == 0, &format!("{}, kind 3, no room either", join::number(refused))),
    }
    names.0.extend(of_pair(&a, &b));
    names.0
}

/// The categories of two passing parts that are joined or refused with 9, 10 or 11, one of them or both limited.
pub fn of_pair(a: &Part, b: &Part) -> Vec<String> {
    if !a.is_limited() && !b.is_limited() {
        return Vec::new();
    }
    let kinds = kinds_name(kinds_of(a, b));
    let mut names = match join::refusal_of_pair(a, b) {
        Some(JoinAnswer::Refused(9)) => differ_names(a, b, &kinds),
        Some(JoinAnswer::Refused(number)) => vec![format!("{}, {}", number, kinds)],
        Some(_) => vec![format!("10, {}", kinds)],
        None => joined_names(a, b, &kinds),
    };
    for (name, differ) in DIFFER {
        if differ(a, b) != join::observers_differ(a, b) {
            names.push(format!("wrong reading of 9 with a limited part differs: {}", name));
        }
    }
    names
}

fn differ_names(a: &Part, b: &Part, kinds: &str) -> Vec<String> {
    let mut names = Names(vec![format!("9, {}", kinds)]);
    let is_listed = a.levels().iter().any(|level| b.levels().contains(level));
    names.add(is_listed, &format!("9, {}, the observer in the list", kinds));
    names.0
}

fn joined_names(a: &Part, b: &Part, kinds: &str) -> Vec<String> {
    let right = join::joined_observer(&a.observers[0], &b.observers[0]);
    let limit = right.limit();
    let mut names = Names(vec![format!("joined, {}", kinds), format!("joined, kind 3, {}", limit_name(limit))]);
    names.add(limit > 1, &format!("joined, {}, limit above 1", kinds));
    names.add(a.limit() > 1 && b.limit() > 1, "joined, kind 3, both limits above 1");
    names.add(right.classes == right.fine_classes(), "joined, kind 3, the columns alike");
    for (name, wrong) in JOINED {
        let differs = wrong(&a.observers[0], &b.observers[0]) != right;
        names.add(differs, &format!("wrong joined columns differ: {}", name));
    }
    for (name, wrong) in JOINED_LIMITS {
        names.add(wrong(a, b) != limit, &format!("wrong limit of a join differs: {}", name));
    }
    names.0
}

#[cfg(test)]
mod tests {
    use super::*;
    use crate::examples;
    use crate::explain;

    /// The names that are not about wrong readings.
    fn right(mut names: Vec<String>, all: Vec<String>) -> Vec<String> {
        assert!(names.iter().all(|name| all.contains(name)), "{:?}", names);
        names.retain(|name| !name.starts_with("wrong"));
        names
    }

    #[test]
    fn explanations_by_hand() {
        let of = |bytes: &[u8]| right(of_explain(bytes, explain::explain(bytes, &mut [0; 64])), explain_names());
        assert_eq!(of(&examples::guard()), ["explained, kind 3, limit 2"]);
        assert_eq!(of(&examples::z_limited()), ["explained, kind 3, limit 1"]);
        let above_n = "explained, kind 3, count above n";
        assert_eq!(of(&examples::t_limited([0, 1, 2])), [above_n, "explained, kind 3, limit 2"]);
        assert_eq!(of(&examples::t_limited([0, 0, 1])), [above_n]);
        // Input 1 has no step in state 0.
        assert_eq!(of(&examples::guard_with(&[(22, 0)])), ["explained, kind 3, breaks rule 1, limit above 1"]);
        assert_eq!(of(&examples::p()), [""; 0]);
    }

    #[test]
    fn closures_by_hand() {
        let bytes = examples::guard();
        let of_room = |room: usize| {
            let answer = closure::closure(&bytes, &mut vec![0; room]);
            right(of_closure(&bytes, room, answer), closure_names())
        };
        assert_eq!(of_room(272), ["closed, kind 3, limit above 1"]);
        assert_eq!(of_room(271), ["refused 15, kind 3, one byte short"]);
        assert_eq!(of_room(270), [""; 0]);
    }

    #[test]
    fn joins_by_hand() {
        let of = |a: &[u8], b: &[u8], room: usize| {
            let answer = join::join(a, b, &mut vec![0; room]);
            right(of_join(a, b, room, answer), join_names())
        };
        let (z, limited, two) = (examples::z(), examples::z_limited(), examples::z_for_two());
        assert_eq!(of(&z, &z, 100), [""; 0]);
        let alike = "joined, kind 3, the columns alike";
        let limit_1 = "joined, kind 3, limit 1";
        assert_eq!(of(&limited, &limited, 100), ["joined, kind 3 with kind 3", limit_1, alike]);
        assert_eq!(of(&limited, &z, 100), ["joined, kind 3 with kind 1", limit_1, alike]);
        assert_eq!(of(&z, &limited, 100), ["joined, kind 1 with kind 3", limit_1, alike]);
        assert_eq!(
            of(&limited, &two, 100),
            ["9, kind 3 with kind 2", "9, kind 3 with kind 2, the observer in the list"]
        );
        assert_eq!(
            of(&examples::z_for(&[0x40, 0x80]), &limited, 0),
            ["9, kind 3, no room either", "9, kind 2 with kind 3"]
        );
        assert_eq!(of(&examples::z_for(&[0x40]), &limited, 9), ["9, kind 1 with kind 3"]);
        assert_eq!(
            of(&examples::guard(), &z, 100),
            ["joined, kind 3 with kind 1", "joined, kind 3, limit 2", "joined, kind 3 with kind 1, limit above 1"]
        );
        assert_eq!(of(&examples::guard(), &examples::p(), 100), ["10, kind 3 with kind 1"]);
        // Z has 12 bytes as a limited part and 11 without its fine column.
        let no_room = "refused 15, kind 3";
        assert_eq!(
            of(&limited, &z, 11),
            [no_room, "refused 15, kind 3, one byte short", "refused 15, kind 3, room without the fine column"]
        );
    }
}
