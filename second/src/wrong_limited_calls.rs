//! Wrong readings of what the calls say of limited parts, to count the inputs on which they would show. Nothing here
//! decides an answer. Document 02, request l.

use crate::closure;
use crate::join::{joined_classes, joined_observer, observers_differ};
use crate::record::{Observer, Part};

/// The limit of a passing part.
pub type Limit = fn(&Part) -> usize;

pub const LIMITS: [(&str, Limit); 10] = [
    ("all fine classes", |part| part.observers[0].fine_class_count()),
    ("all coarse classes", |part| part.observers[0].class_count()),
    ("the states of the largest coarse class", |part| largest(&part.observers[0].classes)),
    ("the states of the largest fine class", |part| largest(part.observers[0].fine_classes())),
    ("the least number in a coarse class", |part| counts(part).into_iter().min().unwrap()),
    ("the first coarse class alone", |part| counts(part)[0]),
    ("the last coarse class alone", |part| counts(part)[counts(part).len() - 1]),
    ("the start's coarse class alone", |part| counts(part)[part.observers[0].classes[part.start] as usize]),
    ("how many more fine classes than coarse ones", |part| {
        part.observers[0].fine_class_count() - part.observers[0].class_count() + 1
    }),
    ("1", |_| 1),
];

/// How many states the largest class of a column has.
fn largest(column: &[u8]) -> usize {
    column.iter().map(|&class| column.iter().filter(|&&other| other == class).count()).max().unwrap()
}

/// How many fine classes each coarse class has.
fn counts(part: &Part) -> Vec<usize> {
    let observer = &part.observers[0];
    (0..observer.class_count()).map(|class| observer.fine_classes_in(class as u8)).collect()
}

/// The closures of a limited part.
pub type Blocks = fn(&Part) -> Vec<u8>;

pub const BLOCKS: [(&str, Blocks); 1] = [("a block for each column", |part| closure::block(part.view(0)).repeat(2))];

/// Whether 9 is given for two parts of which one is limited.
pub type Differ = fn(&Part, &Part) -> bool;

pub const DIFFER: [(&str, Differ); 4] = [
    ("the kinds too", |a, b| observers_differ(a, b) || a.is_limited() != b.is_limited()),
    ("a limited part's observer in a list is enough", |a, b| {
        !a.levels().iter().any(|level| b.levels().contains(level))
    }),
    ("not where one is limited", |_, _| false),
    ("the number of observers alone", |a, b| a.observers.len() != b.observers.len()),
];

/// The columns of a joined part.
pub type Joined = fn(&Observer, &Observer) -> Observer;

pub const JOINED: [(&str, Joined); 9] = [
    ("zeros for kind 1's fine column", |a, b| with_fine(a, b, &zeros(a), &zeros(b))),
    ("a fine class for each state of kind 1", |a, b| with_fine(a, b, &one_each(a), &one_each(b))),
    ("B's coarse classes counted for the fine column", |a, b| Observer {
        fine: Some(joined_classes(a.fine_classes(), b.fine_classes(), b.class_count())),
        ..joined_observer(a, b)
    }),
    ("A's fine classes counted for the fine column", |a, b| Observer {
        fine: Some(joined_classes(a.fine_classes(), b.fine_classes(), a.fine_class_count())),
        ..joined_observer(a, b)
    }),
    ("B's fine classes counted for the coarse column", |a, b| Observer {
        classes: joined_classes(&a.classes, &b.classes, b.fine_class_count()),
        ..joined_observer(a, b)
    }),
    ("the coarse column for the fine one", |a, b| Observer {
        fine: Some(joined_observer(a, b).classes),
        ..joined_observer(a, b)
    }),
    ("A's coarse column in the fine one", |a, b| with_fine(a, b, &a.classes, b.fine_classes())),
    ("B's coarse column in the fine one", |a, b| with_fine(a, b, a.fine_classes(), &b.classes)),
    ("no fine column", |a, b| Observer { fine: None, ..joined_observer(a, b) }),
];

/// The joined columns with these fine ones.
fn with_fine(a: &Observer, b: &Observer, fine_a: &[u8], fine_b: &[u8]) -> Observer {
    let of = |observer: &Observer, fine: &[u8]| Observer { fine: Some(fine.to_vec()), ..observer.clone() };
    joined_observer(&of(a, fine_a), &of(b, fine_b))
}

fn zeros(observer: &Observer) -> Vec<u8> {
    observer.fine.clone().unwrap_or(vec![0; observer.classes.len()])
}

fn one_each(observer: &Observer) -> Vec<u8> {
    observer.fine.clone().unwrap_or((0..observer.classes.len() as u8).collect())
}

/// The limit of a joined part.
pub type JoinedLimit = fn(&Part, &Part) -> usize;

pub const JOINED_LIMITS: [(&str, JoinedLimit); 7] = [
    ("the product of the numbers of coarse classes", |a, b| {
        a.observers[0].class_count() * b.observers[0].class_count()
    }),
    ("the product of the numbers of fine classes", |a, b| {
        a.observers[0].fine_class_count() * b.observers[0].fine_class_count()
    }),
    ("the sum of the limits", |a, b| a.limit() + b.limit()),
    ("the larger limit", |a, b| a.limit().max(b.limit())),
    ("A's limit", |a, _| a.limit()),
    ("B's limit", |_, b| b.limit()),
    ("1", |_, _| 1),
];

#[cfg(test)]
mod tests {
    use super::*;
    use crate::closure::PIECE;
    use crate::examples;
    use crate::record;

    fn limited(classes: &[u8], fine: &[u8]) -> Part {
        examples::with_fine(&Part::without_steps(0, 0, classes.to_vec(), Vec::new()), fine)
    }

    fn of_kind_1(classes: &[u8]) -> Part {
        Part::without_steps(0, 0, classes.to_vec(), Vec::new())
    }

    /// Coarse classes of one, three and two fine classes.
    #[test]
    fn limits_by_hand() {
        let mut part = limited(&[0, 1, 1, 1, 1, 2, 2, 0, 0], &[0, 1, 2, 3, 1, 4, 5, 0, 0]);
        part.start = 6;
        assert_eq!(part.limit(), 3);
        assert_eq!(LIMITS.map(|(_, limit)| limit(&part)), [6, 3, 4, 3, 1, 1, 2, 2, 4, 1]);
    }

    #[test]
    fn blocks_by_hand() {
        let part = record::read(&examples::guard()).unwrap();
        let blocks = BLOCKS.map(|(_, blocks)| blocks(&part));
        assert_eq!(blocks[0].len(), 4 * PIECE);
        assert_eq!(blocks[0][..2 * PIECE], closure::closures(&part));
    }

    #[test]
    fn nines_by_hand() {
        let given = |a: &Part, b: &Part| DIFFER.map(|(_, differ)| differ(a, b));
        let (z, limited) = (of_kind_1(&[0]), limited(&[0], &[0]));
        let two = record::read(&examples::z_for_two()).unwrap();
        assert_eq!(given(&limited, &z), [true, false, false, false]);
        assert_eq!(given(&two, &limited), [true, false, false, true]);
        let other = Part::without_steps(0x40, 0, vec![0], Vec::new());
        assert_eq!(given(&limited, &other), [true, true, false, false]);
        assert_eq!(given(&limited, &limited), [false; 4]);
    }

    /// A has one coarse class and two fine ones, B has two coarse classes and three fine ones, or none of its own.
    #[test]
    fn joined_columns_by_hand() {
        let a = limited(&[0, 0], &[0, 1]);
        let b = limited(&[0, 0, 1], &[0, 1, 2]);
        let joined = |a: &Part, b: &Part| {
            let observers = JOINED.map(|(_, joined)| joined(&a.observers[0], &b.observers[0]));
            observers.map(|observer| observer.fine.unwrap_or_default())
        };
        let right = vec![0, 1, 2, 3, 4, 5];
        assert_eq!(joined_observer(&a.observers[0], &b.observers[0]).fine, Some(right.clone()));
        assert_eq!(
            joined(&a, &b),
            [
                right.clone(),
                right.clone(),
                vec![0, 1, 2, 2, 3, 4],
                vec![0, 1, 2, 2, 3, 4],
                right.clone(),
                vec![0, 0, 1, 0, 0, 1],
                vec![0, 1, 2, 0, 1, 2],
                vec![0, 0, 1, 2, 2, 3],
                vec![]
            ]
        );
        let kind_1 = of_kind_1(&[0, 0, 1]);
        let right = vec![0, 0, 1, 2, 2, 3];
        assert_eq!(joined_observer(&a.observers[0], &kind_1.observers[0]).fine, Some(right.clone()));
        let wrong = joined(&a, &kind_1);
        assert_eq!(wrong[0], [0, 0, 0, 1, 1, 1]);
        assert_eq!(wrong[1], [0, 1, 2, 3, 4, 5]);
        assert_eq!(wrong[7], right);
        // The coarse column of B with A.
        let (_, of_fine) = JOINED[4];
        assert_eq!(joined_observer(&b.observers[0], &a.observers[0]).classes, [0, 0, 0, 0, 1, 1]);
        assert_eq!(of_fine(&b.observers[0], &a.observers[0]).classes, [0, 0, 0, 0, 2, 2]);
    }

    #[test]
    fn joined_limits_by_hand() {
        let a = limited(&[0, 0, 1], &[0, 1, 2]);
        let b = limited(&[0, 0, 0], &[0, 1, 2]);
        assert_eq!((a.limit(), b.limit()), (2, 3));
        assert_eq!(JOINED_LIMITS.map(|(_, limit)| limit(&a, &b)), [2, 9, 5, 3, 2, 3, 1]);
    }
}
