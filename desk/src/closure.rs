//! The silent closures of a part in words. The proved library finds them; here they get names.

use crate::part::Table;
use crate::proved::Visit;
use crate::reader::find_state;
use crate::text::shown;

/// The state that a word of the command line stands for: its number, or its name.
pub fn state(table: &Table, word: &str) -> Result<usize, String> {
    let (count, names) = (table.part.states, &table.names.states);
    let or = if names.is_empty() { "" } else { " or its name" };
    find_state(word, count, names)
        .ok_or_else(|| format!("expected a state from 0 to {}{or}, found '{}'", count - 1, shown(word)))
}

/// `in 1 step: `; the states that need none stand without such words.
fn distance_words(distance: usize) -> String {
    match distance {
        0 => String::new(),
        1 => "in 1 step: ".to_string(),
        _ => format!("in {distance} steps: "),
    }
}

/// Visits by their distance: `1:busy; in 1 step: 3:x 4:y; in 2 steps: 2:z`.
fn visits_words(table: &Table, visits: &[Visit]) -> String {
    let at_one_distance = visits.chunk_by(|a, b| a.distance == b.distance);
    let words = |group: &[Visit]| {
        let states: Vec<String> = group.iter().map(|visit| table.state_words(visit.state)).collect();
        distance_words(group[0].distance) + &states.join(" ")
    };
    at_one_distance.map(words).collect::<Vec<String>>().join("; ")
}

/// A line for each state, or for one of them: where silent steps lead from it. Of several observers each has a line
/// with its level before its own.
pub fn lines(table: &Table, closures: &[Vec<Vec<Visit>>], only: Option<usize>) -> Vec<String> {
    let mut lines = Vec::new();
    for (observer, closures) in table.part.observers.iter().zip(closures) {
        if table.part.has_several_observers() {
            lines.push(format!("observer {}:", observer.level.text_and_byte()));
        }
        let shown = closures.iter().enumerate().filter(|(s, _)| only.unwrap_or(*s) == *s);
        lines
            .extend(shown.map(|(s, visits)| format!("from {}: {}", table.state_words(s), visits_words(table, visits))));
    }
    lines
}

#[cfg(test)]
mod tests {
    use super::*;
    use crate::source::Source;
    use crate::{proved, reader};

    /// From busy a silent step leads to x and to y, and from there one to z; the second observer sees the output 7.
    const TABLE: &str = "part
observer rank 0 compartments none
states idle busy z x y
start idle
classes {0 1 2 3 4}
observer rank 2 compartments none
classes {0 1 2 3 4}
event 7 output rank 2 compartments none
  busy -> x y
event 8 internal rank 0 compartments none
  x -> z
  y -> z busy
";

    fn read(text: &str) -> Table {
        reader::read(text.as_bytes()).unwrap()
    }

    fn of(table: &Table, only: Option<usize>) -> Vec<String> {
        let closures = proved::closures(&Source::of_table(table.clone()).record).unwrap();
        lines(table, &closures, only)
    }

    #[test]
    fn closures_by_distance() {
        let expected = [
            "observer rank 0 compartments none (0x00):",
            "from 0:idle: 0:idle",
            "from 1:busy: 1:busy; in 1 step: 3:x 4:y; in 2 steps: 2:z",
            "from 2:z: 2:z",
            "from 3:x: 3:x; in 1 step: 2:z",
            "from 4:y: 4:y; in 1 step: 1:busy 2:z; in 2 steps: 3:x",
            "observer rank 2 compartments none (0x80):",
            "from 0:idle: 0:idle",
            "from 1:busy: 1:busy",
            "from 2:z: 2:z",
            "from 3:x: 3:x; in 1 step: 2:z",
            "from 4:y: 4:y; in 1 step: 1:busy 2:z",
        ];
        assert_eq!(of(&read(TABLE), None), expected);
        assert_eq!(of(&read(TABLE), Some(4)), [expected[0], expected[5], expected[6], expected[11]]);
    }

    /// One observer has no line of its own, and a part without names numbers alone.
    #[test]
    fn one_observer_without_names() {
        let mut table = Table::unnamed(read(TABLE).part);
        table.part.observers.truncate(1);
        assert_eq!(of(&table, Some(1)), ["from 1: 1; in 1 step: 3 4; in 2 steps: 2"]);
        assert_eq!(of(&table, None).len(), 5);
    }

    #[test]
    fn states_by_number_and_name() {
        let table = read(TABLE);
        assert_eq!((state(&table, "4"), state(&table, "y"), state(&table, "004")), (Ok(4), Ok(4), Ok(4)));
        for word in ["5", "why", "", "-1", "4 "] {
            assert_eq!(state(&table, word), Err(format!("expected a state from 0 to 4 or its name, found '{word}'")));
        }
        let unnamed = Table::unnamed(table.part);
        assert_eq!(state(&unnamed, "y").unwrap_err(), "expected a state from 0 to 4, found 'y'");
    }
}
