//! The same part with its states in another order.

use crate::part::{by_first_appearance, Event, Names, Observer, Part, Table};

/// For each state of A the state of B that has its name, where both have the same names.
pub fn by_names(a: &Names, b: &Names) -> Option<Vec<usize>> {
    if a.states.is_empty() || a.states.len() != b.states.len() {
        return None;
    }
    let in_b = |name: &String| b.states.iter().position(|other| other == name);
    a.states.iter().map(in_b).collect()
}

/// A column whose state i is state `from[i]` of this one.
fn column(classes: &[u8], from: &[usize]) -> Vec<u8> {
    let numbers: Vec<usize> = from.iter().map(|&s| classes[s] as usize).collect();
    by_first_appearance(&numbers)
}

fn observer(observer: &Observer, from: &[usize]) -> Observer {
    let fine = observer.fine.as_ref().map(|fine| column(fine, from));
    Observer { level: observer.level, classes: column(&observer.classes, from), fine }
}

fn row(row: u64, from: &[usize]) -> u64 {
    let leads = (0..from.len()).filter(|&t| row >> from[t] & 1 == 1);
    leads.fold(0, |row, t| row | 1 << t)
}

fn event(event: &Event, from: &[usize]) -> Event {
    let rows = from.iter().map(|&s| row(event.rows[s], from)).collect();
    Event { rows, ..*event }
}

/// The part whose state i is state `from[i]` of this one; each of its states stands once there.
pub fn part(part: &Part, from: &[usize]) -> Part {
    Part {
        states: part.states,
        start: from.iter().position(|&s| s == part.start).expect("each state stands in the numbering"),
        events: part.events.iter().map(|one| event(one, from)).collect(),
        observers: part.observers.iter().map(|one| observer(one, from)).collect(),
    }
}

/// The table whose state i is state `from[i]` of this one, with the names that the states have.
pub fn table(table: &Table, from: &[usize]) -> Table {
    let states = from.iter().filter_map(|&s| table.names.states.get(s).cloned()).collect();
    Table { part: part(&table.part, from), names: Names { states, events: table.names.events.clone() } }
}

#[cfg(test)]
mod tests {
    use super::*;
    use crate::random::{self, Rng};
    use crate::{reader, record};

    fn read(text: &str) -> Table {
        reader::read(text.as_bytes()).unwrap()
    }

    const STATES: &str = "states idle sent full";

    const A: &str = "part
observer rank 1 compartments none
states idle sent full
start sent
classes {idle full} {sent}
fine {idle} {full} {sent}
event 7 \"send\" input rank 2 compartments none
  idle -> sent full
  sent -> sent
event 9 internal rank 0 compartments none
  full -> idle
";

    /// A table with names in another order says the same by names; its record is another.
    #[test]
    fn the_order_of_the_names() {
        let a = read(A);
        for order in ["full idle sent", "sent full idle", "full sent idle", "idle full sent"] {
            let b = read(&A.replace(STATES, &format!("states {order}")));
            assert_ne!(b.part, a.part);
            let from = by_names(&a.names, &b.names).unwrap();
            assert_eq!(table(&b, &from), a);
        }
        assert_eq!(by_names(&a.names, &a.names), Some(vec![0, 1, 2]));
        let turned = read(&A.replace(STATES, "states full idle sent"));
        assert_eq!(by_names(&a.names, &turned.names), Some(vec![1, 2, 0]));
    }

    #[test]
    fn other_names() {
        let names =
            |words: &str| Names { states: words.split_whitespace().map(str::to_string).collect(), ..Names::default() };
        for (a, b) in [("", ""), ("x", ""), ("", "x"), ("x y", "x"), ("x", "x y"), ("x y", "x z")] {
            assert_eq!(by_names(&names(a), &names(b)), None, "{a} and {b}");
        }
    }

    /// A random order of n states.
    fn order(rng: &mut Rng, n: usize) -> Vec<usize> {
        let mut order: Vec<usize> = (0..n).collect();
        for i in 1..n {
            order.swap(i, rng.below(i + 1));
        }
        order
    }

    /// Steps and classes are those of the states that the numbers stand for, a record holds the part, and back again it
    /// is the same one.
    #[test]
    fn any_order_and_back() {
        let mut rng = Rng::new(11);
        for _ in 0..300 {
            let before = random::any(&mut rng);
            let from = order(&mut rng, before.states);
            let after = part(&before, &from);
            assert_eq!(from[after.start], before.start);
            for (s, t) in (0..before.states).flat_map(|s| (0..before.states).map(move |t| (s, t))) {
                let (old_s, old_t) = (from[s], from[t]);
                assert!(after
                    .events
                    .iter()
                    .zip(&before.events)
                    .all(|(new, old)| new.leads(s, t) == old.leads(old_s, old_t)));
                for (new, old) in after.observers.iter().zip(&before.observers) {
                    assert_eq!(new.same_class(s, t), old.same_class(old_s, old_t));
                    assert_eq!(new.same_fine_class(s, t), old.same_fine_class(old_s, old_t));
                }
            }
            assert_eq!(record::read(&record::write(&after)).as_ref(), Ok(&after));
            let back: Vec<usize> = (0..from.len()).map(|s| from.iter().position(|&old| old == s).unwrap()).collect();
            assert_eq!(part(&after, &back), before);
        }
    }
}
