//! One part with the observers of several, and one observer of a part alone.

use crate::diff::without_observers;
use crate::level::Level;
use crate::part::{Names, Observer, Part, Table, Titled, MAX_OBSERVERS};

/// What the tables are called where two of them differ, by their places.
const LETTERS: [&str; MAX_OBSERVERS] = ["A", "B", "C", "D"];

/// The levels of a part's observers, as they are listed in words.
pub fn levels(part: &Part) -> String {
    let levels: Vec<String> = part.observers.iter().map(|observer| observer.level.text_and_byte()).collect();
    levels.join(", ")
}

/// The observer with this level; where there is none, which there are.
pub fn of_level(part: &Part, level: Level) -> Result<&Observer, String> {
    let none = || format!("there is no observer {}, only {}", level.text_and_byte(), levels(part));
    part.observer(level).ok_or_else(none)
}

/// The table with one of its observers alone.
pub fn alone(table: &Table, level: Level) -> Result<Table, String> {
    let part = Part { observers: vec![of_level(&table.part, level)?.clone()], ..table.part.clone() };
    Ok(Table { part, names: table.names.clone() })
}

/// A limited part cannot be one of several: the others have no fine classes.
fn unlimited(one: &Titled) -> Result<(), String> {
    match one.table.part.is_limited() {
        true => Err(format!("{}: a limited part, but a record for several observers has no fine classes", one.title)),
        false => Ok(()),
    }
}

/// All have the states, the start, the events and the steps of the first.
fn alike(tables: &[Titled]) -> Result<(), String> {
    let first = &tables[0];
    for (other, letter) in tables.iter().zip(LETTERS).skip(1) {
        let differences = without_observers((LETTERS[0], first.table), (letter, other.table));
        if !differences.is_empty() {
            let titles = format!("A is {}\n{letter} is {}", first.title, other.title);
            let lines = differences.iter().map(|line| format!("\nA and {letter} differ: {line}"));
            return Err(titles + &lines.collect::<String>());
        }
    }
    Ok(())
}

/// The observers of all, by the bytes of their levels; each level once, and no more observers than a record has.
fn united(tables: &[Titled]) -> Result<Vec<Observer>, String> {
    let mut all: Vec<(&str, &Observer)> = Vec::new();
    for one in tables {
        all.extend(one.table.part.observers.iter().map(|observer| (one.title, observer)));
    }
    all.sort_by_key(|(_, observer)| observer.level.0);
    if let Some(two) = all.windows(2).find(|two| two[0].1.level == two[1].1.level) {
        let level = two[0].1.level.text_and_byte();
        return Err(format!("{} and {} both have the observer {level}", two[0].0, two[1].0));
    }
    match all.len() {
        count if count <= MAX_OBSERVERS => Ok(all.into_iter().map(|(_, observer)| observer.clone()).collect()),
        count => Err(format!("expected at most {MAX_OBSERVERS} observers together (refusal 20), found {count}")),
    }
}

/// The names of the first table that has some, for the states and for each event.
fn names(tables: &[Titled]) -> Names {
    let mut names = Names::default();
    for one in tables.iter().map(|one| &one.table.names) {
        if names.states.is_empty() {
            names.states = one.states.clone();
        }
        for (&identifier, name) in &one.events {
            names.events.entry(identifier).or_insert_with(|| name.clone());
        }
    }
    names
}

/// One table with the observers of all, which are the same but for these; or in words why there is none.
pub fn together(tables: &[Titled]) -> Result<Table, String> {
    tables.iter().try_for_each(unlimited)?;
    alike(tables)?;
    let observers = united(tables)?;
    Ok(Table { part: Part { observers, ..tables[0].table.part.clone() }, names: names(tables) })
}

#[cfg(test)]
mod tests {
    use super::*;
    use crate::random::{self, Rng};
    use crate::{reader, record};

    const TABLE: &str = "part
observer rank 1 compartments none
states idle sent
start idle
classes {0} {1}
event 7 \"send\" input rank 2 compartments none
  0 -> 1
event 9 output rank 0 compartments none
";

    const LOW: &str = "rank 0 compartments none";
    const MIDDLE: &str = "rank 1 compartments none";
    const HIGH: &str = "rank 3 compartments 0 1";

    /// The table for an observer of this level, with one piece of its text replaced; that is its title.
    fn at(level: &str, old: &str, new: &str) -> (String, Table) {
        let text = TABLE.replacen(MIDDLE, level, 1);
        assert!(text.contains(old), "{old}");
        let table = reader::read(text.replacen(old, new, 1).as_bytes()).unwrap();
        (format!("{level}.table"), table)
    }

    fn plain(level: &str) -> (String, Table) {
        at(level, "", "")
    }

    /// The observers of files with these titles together.
    fn of_files(files: &[(String, Table)]) -> Result<Table, String> {
        let titled: Vec<Titled> = files.iter().map(|(title, table)| Titled { title, table }).collect();
        together(&titled)
    }

    fn columns(table: &Table) -> Vec<(u8, &[u8])> {
        table.part.observers.iter().map(|observer| (observer.level.0, observer.classes.as_slice())).collect()
    }

    /// By the bytes of the levels, whatever the order of the files; a file may have several.
    #[test]
    fn observers_of_several_tables() {
        let low = || at(LOW, "{0} {1}", "{1 0}");
        let table = of_files(&[plain(HIGH), plain(MIDDLE), low()]).unwrap();
        assert_eq!(columns(&table), [(0x00, &[0, 0][..]), (0x40, &[0, 1]), (0xC3, &[0, 1])]);
        let pair = at(MIDDLE, "event 7", "observer rank 2 compartments none\nclasses {0 1}\nevent 7");
        let table = of_files(&[plain(HIGH), pair, low()]).unwrap();
        assert_eq!(columns(&table), [(0x00, &[0, 0][..]), (0x40, &[0, 1]), (0x80, &[0, 0]), (0xC3, &[0, 1])]);
    }

    #[test]
    fn names_of_the_first_that_has_some() {
        let unnamed = at(LOW, "idle sent\nstart idle", "2\nstart 0");
        let unnamed = (unnamed.0, Table::unnamed(unnamed.1.part));
        let mut other = at(HIGH, "idle sent\nstart idle", "a b\nstart a");
        other.1.names.events.extend([(7, "put".to_string()), (9, "ten".to_string())]);
        let nine = at(MIDDLE, "event 9", "event 9 \"nine\"");
        let names = of_files(&[unnamed, nine, other]).unwrap().names;
        assert_eq!(names.states, ["idle", "sent"]);
        assert_eq!((names.event(7), names.event(9)), (Some("send"), Some("nine")));
    }

    #[test]
    fn what_stands_in_the_way() {
        let said = |tables: &[(String, Table)]| of_files(tables).unwrap_err();
        let limited = at(HIGH, "{0} {1}", "{0} {1}\nfine {0} {1}");
        let fine = "a limited part, but a record for several observers has no fine classes";
        assert_eq!(said(&[plain(LOW), limited]), format!("{HIGH}.table: {fine}"));
        let twice = said(&[plain(HIGH), plain(LOW), at(HIGH, "{0} {1}", "{0 1}")]);
        assert_eq!(twice, format!("{HIGH}.table and {HIGH}.table both have the observer {HIGH} (0xC3)"));
        let more =
            "observer rank 2 compartments none\nclasses {0 1}\nobserver rank 2 compartments 1\nclasses {0 1}\nevent 7";
        let five = said(&[at(LOW, "event 7", more), plain(HIGH), plain(MIDDLE)]);
        assert_eq!(five, "expected at most 4 observers together (refusal 20), found 5");
        let third = at(HIGH, "0 -> 1\nevent 9 output", "0 -> 0 1\nevent 9 input");
        let lines = [
            format!("A is {LOW}.table"),
            format!("C is {HIGH}.table"),
            "A and C differ: event 7 \"send\", from 0:idle: only C leads to 0:idle".to_string(),
            "A and C differ: event 9: kind: A output, C input".to_string(),
        ];
        assert_eq!(said(&[plain(LOW), plain(MIDDLE), third]), lines.join("\n"));
        let start = said(&[plain(LOW), at(MIDDLE, "start idle", "start sent")]);
        assert_eq!(start.lines().last(), Some("A and B differ: start: A 0:idle, B 1:sent"));
    }

    #[test]
    fn one_observer_alone() {
        let table = of_files(&[plain(HIGH), at(LOW, "{0} {1}", "{0 1}")]).unwrap();
        assert_eq!(alone(&table, Level(0xC3)).unwrap(), plain(HIGH).1);
        assert_eq!(columns(&alone(&table, Level(0)).unwrap()), [(0x00, &[0, 0][..])]);
        let none = format!("there is no observer {MIDDLE} (0x40), only {LOW} (0x00), {HIGH} (0xC3)");
        assert_eq!(alone(&table, Level(0x40)).unwrap_err(), none);
        let limited = at(HIGH, "{0} {1}", "{0 1}\nfine {0} {1}").1;
        assert_eq!(alone(&limited, Level(0xC3)).unwrap(), limited);
    }

    /// The observers of any part, each alone and then in any order together again: the same part, and its record is
    /// well-formed.
    #[test]
    fn apart_and_together_again() {
        let mut rng = Rng::new(13);
        for _ in 0..300 {
            let table = Table::unnamed(random::several(&mut rng));
            let levels = table.part.observers.iter().map(|observer| observer.level);
            let mut apart: Vec<(String, Table)> =
                levels.map(|level| (level.text(), alone(&table, level).unwrap())).collect();
            for (_, Table { part, .. }) in &apart {
                assert_eq!(record::read(&record::write(part)).as_ref(), Ok(part));
            }
            let turn = rng.below(apart.len());
            apart.rotate_left(turn);
            assert_eq!(of_files(&apart), Ok(table.clone()));
            assert_eq!(record::read(&record::write(&table.part)), Ok(table.part));
        }
    }
}
