//! Writes a table as canonical text: states by their names or, where they have none, their numbers; classes by their
//! smallest state, all else ascending.

use crate::part::{groups, states_of, Event, Table};

/// No line is longer, its end counted, where it can be broken.
const WIDTH: usize = 80;

/// A state by its name or, where it has none, its number.
pub fn state(table: &Table, s: usize) -> String {
    table.names.state(s).map_or_else(|| s.to_string(), str::to_string)
}

fn states(table: &Table, list: &[usize]) -> String {
    let words: Vec<String> = list.iter().map(|&s| state(table, s)).collect();
    words.join(" ")
}

/// Words behind a keyword on one line, where that is short enough.
fn one_line(keyword: &str, words: &[String]) -> Option<String> {
    let line = format!("{keyword} {}\n", words.join(" "));
    (line.len() <= WIDTH || words.len() == 1).then_some(line)
}

/// Words on lines of their own behind a keyword, as many to a line as it has room for.
fn filled(keyword: &str, words: &[String]) -> String {
    let mut lines = vec![keyword.to_string()];
    let mut room = 0;
    for word in words {
        match lines.last_mut().filter(|_| word.len() < room) {
            Some(line) => line.extend([" ", word]),
            None => lines.push(format!("  {word}")),
        }
        room = WIDTH.saturating_sub(lines[lines.len() - 1].len() + 1);
    }
    lines.join("\n") + "\n"
}

/// The names of the states, or how many there are.
fn state_line(table: &Table) -> String {
    let names = &table.names.states;
    if names.is_empty() {
        return format!("states {}\n", table.part.states);
    }
    one_line("states", names).unwrap_or_else(|| filled("states", names))
}

/// The classes of a column behind its keyword, one to a line where they do not stand on one.
fn classes(table: &Table, keyword: &str, column: &[u8]) -> String {
    let groups: Vec<String> = groups(column).iter().map(|group| format!("{{{}}}", states(table, group))).collect();
    one_line(keyword, &groups).unwrap_or_else(|| format!("{keyword}\n  {}\n", groups.join("\n  ")))
}

fn event(table: &Table, event: &Event) -> String {
    let (title, kind, level) = (table.event_words(event.identifier), event.kind.word(), event.level.text());
    let mut text = format!("event {title} {kind} {level}\n");
    for (s, &row) in event.rows.iter().enumerate().filter(|(_, row)| **row != 0) {
        text.push_str(&format!("  {} -> {}\n", state(table, s), states(table, &states_of(row))));
    }
    text
}

/// The canonical text of a table, with its names. Comments are no part of a table.
pub fn write(table: &Table) -> String {
    let mut text = String::from("part\n");
    for (i, observer) in table.part.observers.iter().enumerate() {
        text.push_str(&format!("observer {}\n", observer.level.text()));
        if i == 0 {
            text.push_str(&state_line(table));
            text.push_str(&format!("start {}\n", state(table, table.part.start)));
        }
        text.push_str(&classes(table, "classes", &observer.classes));
        text.extend(observer.fine.iter().map(|fine| classes(table, "fine", fine)));
    }
    text.extend(table.part.events.iter().map(|one| event(table, one)));
    text
}

#[cfg(test)]
mod tests {
    use std::fs;
    use std::path::PathBuf;

    use super::*;
    use crate::part::{Names, Part};
    use crate::random::{self, Rng};
    use crate::{reader, record};

    const CANONICAL: &str = "\
part
observer rank 1 compartments 0 3
states 4
start 0
classes {0 1} {2} {3}
event 7 input rank 2 compartments none
  0 -> 1 2
  1 -> 1
event 9 output rank 0 compartments none
event 12 internal rank 3 compartments 1 5
  2 -> 0
";

    /// The low output 2 stays; the input 1 toggles between two states that only the second observer tells apart.
    const SEVERAL_CANONICAL: &str = "\
part
observer rank 0 compartments none
states 2
start 1
classes {0 1}
observer rank 1 compartments 0
classes {0} {1}
event 1 input rank 1 compartments none
  0 -> 1
  1 -> 0
event 2 output rank 0 compartments none
  0 -> 0
  1 -> 1
";

    /// Its record, byte by byte.
    const SEVERAL_RECORD: [u8; 56] = [
        0x32, 0, 0, 0, // 50 = 4 + 2 + 2 * 2 + 4 * 2 + 8 * 2 * 2
        2, 0, // kind 2
        2, 2, 1, 2, // observers, states, start, events
        0x00, 0x41, // levels
        0, 0, // classes of the first
        0, 1, // classes of the second
        1, 0, 0, 0x40, // input 1
        2, 0, 1, 0x00, // output 2
        2, 0, 0, 0, 0, 0, 0, 0, // 1 from 0
        1, 0, 0, 0, 0, 0, 0, 0, // 1 from 1
        1, 0, 0, 0, 0, 0, 0, 0, // 2 from 0
        2, 0, 0, 0, 0, 0, 0, 0, // 2 from 1
    ];

    /// A limited part: the input 1 leads to state 1, and only state 0 has the low output 2.
    const LIMITED_CANONICAL: &str = "\
part
observer rank 0 compartments none
states 2
start 0
classes {0 1}
fine {0} {1}
event 1 input rank 1 compartments none
  0 -> 1
  1 -> 1
event 2 output rank 0 compartments none
  0 -> 0
";

    /// Its record, byte by byte.
    const LIMITED_RECORD: [u8; 54] = [
        0x30, 0, 0, 0, // 48 = 4 + 2 * 2 + 4 * 2 + 8 * 2 * 2
        3, 0, // kind 3
        0x00, 2, 0, 2, // observer, states, start, events
        0, 0, // classes
        0, 1, // fine classes
        1, 0, 0, 0x40, // input 1
        2, 0, 1, 0x00, // output 2
        2, 0, 0, 0, 0, 0, 0, 0, // 1 from 0
        2, 0, 0, 0, 0, 0, 0, 0, // 1 from 1
        1, 0, 0, 0, 0, 0, 0, 0, // 2 from 0
        0, 0, 0, 0, 0, 0, 0, 0, // 2 from 1
    ];

    fn read_table(text: &str) -> Table {
        reader::read(text.as_bytes()).unwrap()
    }

    fn read(text: &str) -> Part {
        read_table(text).part
    }

    /// The text of a part without names.
    fn write(part: &Part) -> String {
        super::write(&Table::unnamed(part.clone()))
    }

    fn read_record(bytes: &[u8]) -> Part {
        record::read(bytes).unwrap()
    }

    /// A table with names comes back from its text, and the text from that.
    fn named_round_trip(table: &Table) {
        let text = super::write(table);
        assert_eq!(&read_table(&text), table);
        assert_eq!(super::write(&read_table(&text)), text);
    }

    /// Text and back, and from there to the same bytes.
    fn round_trip(part: &Part) {
        let text = write(part);
        assert_eq!(&read(&text), part);
        let bytes = record::write(part);
        assert_eq!(write(&read_record(&bytes)), text);
        assert_eq!(record::write(&read(&text)), bytes);
    }

    /// The files of a folder with this extension.
    fn files(folder: &str, extension: &str) -> Vec<PathBuf> {
        let folder = PathBuf::from(env!("CARGO_MANIFEST_DIR")).join(folder);
        let entries = fs::read_dir(folder).unwrap().map(|entry| entry.unwrap().path());
        entries.filter(|path| path.extension().is_some_and(|found| found == extension)).collect()
    }

    #[test]
    fn the_canonical_text() {
        assert_eq!(write(&read(CANONICAL)), CANONICAL);
        let named = CANONICAL.replace("states 4", "states a b c d").replace("{0 1} {2} {3}", "{d} {c} {b a}");
        let named =
            named.replace("0 -> 1 2\n  1 -> 1\n", "b -> b\n  a -> c b\n").replace("event 9", "event 9 \"nine\"");
        assert_eq!(write(&read(&named)), CANONICAL);
    }

    const NAMED: &str = "\
part
observer rank 1 compartments 0 3
states idle 0.1 full.x lost
start idle
classes {idle 0.1} {full.x} {lost}
event 7 \"<b>send & 'é'\" input rank 2 compartments none
  idle -> 0.1 full.x
  0.1 -> 0.1
event 9 output rank 0 compartments none
event 12 internal rank 3 compartments 1 5
  full.x -> idle
";

    /// Names stay; all else becomes canonical as without them, and comments go.
    #[test]
    fn the_canonical_text_with_names() {
        assert_eq!(super::write(&read_table(NAMED)), NAMED);
        let other = NAMED.replace("states idle 0.1 full.x", "states # four\n  idle 0.1\n full.x");
        let other = other.replace("{idle 0.1} {full.x} {lost}", "{3} {2}\n{1 0}").replace("start idle", "start 0");
        let other = other.replace("idle -> 0.1 full.x\n  0.1 -> 0.1", "1 -> 1 # stays\n 0 -> 2 1");
        assert_ne!(other, NAMED);
        assert_eq!(super::write(&read_table(&other)), NAMED);
        assert_eq!(write(&read(NAMED)), CANONICAL);
        let fine = NAMED.replace("{lost}\n", "{lost}\nfine {idle} {0.1} {full.x} {lost}\n");
        assert_eq!(super::write(&read_table(&fine)), fine);
    }

    /// A table with so many states; state s has a name of length `lengths[s % lengths.len()]`.
    fn with_names(lengths: &[usize], count: usize) -> Table {
        let name = |s: usize| format!("n{s:0>width$}", width = lengths[s % lengths.len()] - 1);
        let names = Names { states: (0..count).map(name).collect(), ..Names::default() };
        Table { part: random::full_limited(count, 1), names }
    }

    /// A class stands on one line however long it is, names do not.
    #[test]
    fn many_names_stand_on_several_lines() {
        let one = super::write(&with_names(&[8], 8));
        assert!(one.contains("\nstates n0000000 n0000001 "), "{one}");
        let two = super::write(&with_names(&[8], 9));
        assert!(two.contains("\nstates\n  n0000000 n0000001 "), "{two}");
        assert!(two.contains(" n0000007\n  n0000008\nstart n0000008\nclasses {n0000000 "), "{two}");
        assert!(two.contains("\nfine\n  {n0000000}\n  {n0000001}\n"), "{two}");
    }

    /// No line is too long, unless it has one name, and none has room for the first name of the next.
    fn full_lines(table: &Table) {
        let text = super::write(table);
        let names = text.lines().skip(2).take_while(|line| !line.starts_with("start"));
        let lines: Vec<&str> = names.map(|line| line.strip_prefix("states").unwrap_or(line)).collect();
        for line in &lines {
            let length = if lines.len() == 1 { "states".len() + line.len() } else { line.len() };
            assert!(length < WIDTH || line.split_whitespace().count() == 1, "{text}");
        }
        for two in lines.windows(2).filter(|two| !two[0].is_empty()) {
            let next = two[1].split_whitespace().next().unwrap();
            assert!(two[0].len() + 1 + next.len() >= WIDTH, "{text}");
        }
    }

    #[test]
    fn lines_of_names_are_full() {
        for length in 3..=90 {
            for count in [1, 2, 64] {
                for table in [with_names(&[length], count), with_names(&[length, length + 1, 5], count)] {
                    full_lines(&table);
                    named_round_trip(&table);
                }
            }
        }
    }

    #[test]
    fn the_text_and_the_record_of_two_observers() {
        assert_eq!(record::write(&read(SEVERAL_CANONICAL)), SEVERAL_RECORD);
        assert_eq!(write(&read_record(&SEVERAL_RECORD)), SEVERAL_CANONICAL);
        round_trip(&read(SEVERAL_CANONICAL));
    }

    /// With each further observer the text has two lines more, and the record a level and a column.
    #[test]
    fn three_and_four_observers() {
        let mut text = SEVERAL_CANONICAL.to_string();
        let mut bytes = SEVERAL_RECORD.to_vec();
        let further = [("rank 2 compartments none", 0x80, "{0} {1}", 1), ("rank 3 compartments 1 5", 0xE2, "{0 1}", 0)];
        for (i, (level, byte, classes, last_class)) in further.into_iter().enumerate() {
            text = text.replace("event 1", &format!("observer {level}\nclasses {classes}\nevent 1"));
            (bytes[0], bytes[6]) = (bytes[0] + 3, bytes[6] + 1);
            bytes.insert(12 + i, byte);
            let columns_end = 12 + i + 1 + 2 * (2 + i);
            bytes.splice(columns_end..columns_end, [0, last_class]);
            assert_eq!(record::write(&read(&text)), bytes);
            assert_eq!(write(&read_record(&bytes)), text);
            round_trip(&read(&text));
        }
        assert_eq!(bytes[..24], [0x38, 0, 0, 0, 2, 0, 4, 2, 1, 2, 0, 0x41, 0x80, 0xE2, 0, 0, 0, 1, 0, 1, 0, 0, 1, 0]);
    }

    #[test]
    fn the_text_and_the_record_of_a_limited_part() {
        assert_eq!(record::write(&read(LIMITED_CANONICAL)), LIMITED_RECORD);
        assert_eq!(write(&read_record(&LIMITED_RECORD)), LIMITED_CANONICAL);
        round_trip(&read(LIMITED_CANONICAL));
        let named = LIMITED_CANONICAL.replace("states 2", "states off on").replace("{0} {1}", "\n {on}\n {off}");
        assert_eq!(write(&read(&named)), LIMITED_CANONICAL);
    }

    /// Fine classes that are the classes stay in the text: without them the record is of kind 1.
    #[test]
    fn fine_classes_that_are_the_classes() {
        let equal = LIMITED_CANONICAL.replace("{0} {1}", "{0 1}");
        assert_eq!(write(&read(&equal)), equal);
        round_trip(&read(&equal));
        let mut bytes = LIMITED_RECORD;
        bytes[13] = 0;
        assert_eq!(record::write(&read(&equal)), bytes);
        let plain = equal.replace("fine {0 1}\n", "");
        assert_eq!(record::write(&read(&plain))[..12], [0x2E, 0, 0, 0, 1, 0, 0, 2, 0, 2, 0, 0]);
        assert_ne!(read(&plain), read(&equal));
    }

    /// A part with one observer is of kind 1, also where there were more.
    #[test]
    fn one_observer_is_of_kind_1() {
        let mut part = read(SEVERAL_CANONICAL);
        part.observers.truncate(1);
        let lines = "observer rank 1 compartments 0\nclasses {0} {1}\n";
        assert_eq!(write(&part), SEVERAL_CANONICAL.replace(lines, ""));
        assert_eq!(record::write(&part)[..12], [0x2E, 0, 0, 0, 1, 0, 0, 2, 1, 2, 0, 0]);
    }

    #[test]
    fn many_classes_stand_one_to_a_line() {
        let mut part = random::full(20, 0);
        assert!(write(&part).contains("\nclasses\n  {0}\n  {1}\n"));
        round_trip(&part);
        part.observers[0].classes = vec![0; 20];
        assert!(write(&part).contains("\nclasses {0 1 2 3 "));
        round_trip(&part);
        let mut part = random::full(64, 0);
        part.observers[0].classes = vec![0; 64];
        round_trip(&part);
        let part = random::full_limited(20, 0);
        assert!(write(&part).contains(" 18 19}\nfine\n  {0}\n  {1}\n"));
        round_trip(&part);
    }

    #[test]
    fn the_shipped_records_come_back() {
        let records = files("../examples", "part");
        assert!(records.len() >= 3);
        for path in records {
            let bytes = fs::read(path).unwrap();
            let part = read_record(&bytes);
            assert_eq!(record::write(&read(&write(&part))), bytes);
            round_trip(&part);
        }
    }

    #[test]
    fn the_shipped_tables_come_back() {
        let tables = files("examples", "table");
        assert!(tables.len() >= 10);
        for path in tables {
            let table = read_table(&fs::read_to_string(path).unwrap());
            round_trip(&table.part);
            named_round_trip(&table);
        }
    }

    #[test]
    fn the_extremes_come_back() {
        for (n, m) in [(1, 0), (1, 1), (1, 32), (64, 0), (64, 1), (64, 32)] {
            for observer_count in 1..=4 {
                round_trip(&random::full_for(n, m, observer_count));
            }
            round_trip(&random::full_limited(n, m));
        }
    }

    #[test]
    fn random_parts_come_back() {
        let mut rng = Rng::new(5);
        let mut limits = [0; 13];
        for _ in 0..1500 {
            let part = random::any(&mut rng);
            round_trip(&part);
            let (n, m) = (part.states, part.events.len());
            let ends = [n == 1 && m == 0, n == 64, m == 32, n == 64 && m == 32];
            let identifiers = [part.event(0).is_some(), part.event(u16::MAX).is_some()];
            let observers = [1, 2, 3, 4].map(|count| part.observers.len() == count);
            let fine = part.observers[0].fine.as_ref();
            let alike = fine == Some(&part.observers[0].classes);
            let refined = [fine.is_none(), alike, fine.is_some() && !alike];
            let observed = observers.into_iter().chain(refined);
            for (count, came) in limits.iter_mut().zip(ends.into_iter().chain(identifiers).chain(observed)) {
                *count += came as usize;
            }
        }
        assert!(limits.iter().all(|&count| count > 5), "{limits:?}");
    }
}
