//! The part record: bytes to a part and back. Document 01, "The part record" and "Refusals out of the input", and
//! document 02, d, k and l. Where a file is not a well-formed record, the first condition that stands in the way is
//! told. The conditions are tested in the order 1 to 5, 20, 6, 21, 7, 16, 8, each on the whole record; 20 is about kind 2
//! alone and 21 about kind 3.

use std::fmt;

use crate::kinds::{KINDS, LIMITED, ONE_OBSERVER, SEVERAL_OBSERVERS};
use crate::level::Level;
use crate::part::{states_of, Event, Kind, Observer, Part, MAX_EVENTS, MAX_OBSERVERS, MAX_STATES};

const HEADER: usize = 6;
const FIRST_AT: usize = 6;
const STATES_AT: usize = 7;
const START_AT: usize = 8;
const EVENTS_AT: usize = 9;
const LIST_AT: usize = 10;

/// The observers of kind 2 by their places.
const PLACES: [&str; MAX_OBSERVERS] = ["first", "second", "third", "fourth"];

/// Why bytes are not a well-formed record: the condition's number, its place (bytes counted from 0) and words.
#[derive(Clone, PartialEq, Eq, Debug)]
pub struct Misfit {
    pub condition: u8,
    pub byte: usize,
    pub message: String,
}

impl fmt::Display for Misfit {
    fn fmt(&self, f: &mut fmt::Formatter) -> fmt::Result {
        write!(f, "byte {}: condition {}: {}", self.byte, self.condition, self.message)
    }
}

fn misfit<T>(condition: u8, byte: usize, message: String) -> Result<T, Misfit> {
    Err(Misfit { condition, byte, message })
}

fn u16_at(bytes: &[u8], at: usize) -> u16 {
    u16::from_le_bytes([bytes[at], bytes[at + 1]])
}

fn u32_at(bytes: &[u8], at: usize) -> u32 {
    u32::from_le_bytes([bytes[at], bytes[at + 1], bytes[at + 2], bytes[at + 3]])
}

fn u64_at(bytes: &[u8], at: usize) -> u64 {
    let mut eight = [0; 8];
    eight.copy_from_slice(&bytes[at..at + 8]);
    u64::from_le_bytes(eight)
}

/// Where the fields of a record stand. Behind the header are four bytes: the first, n, the start state and m. Then come
/// the levels that are listed, the columns, the entries and the rows.
struct Layout {
    kind: u16,
    observers: usize,
    n: usize,
    m: usize,
}

impl Layout {
    /// Kind 2 has the number of its observers as the first byte, the others the level of their only one.
    fn new(kind: u16, first: u8, n: usize, m: usize) -> Layout {
        let observers = if kind == SEVERAL_OBSERVERS { first as usize } else { 1 };
        Layout { kind, observers, n, m }
    }

    fn lists_observers(&self) -> bool {
        self.kind == SEVERAL_OBSERVERS
    }

    fn level_at(&self, observer: usize) -> usize {
        if self.lists_observers() {
            LIST_AT + observer
        } else {
            FIRST_AT
        }
    }

    fn is_limited(&self) -> bool {
        self.kind == LIMITED
    }

    /// The columns: the classes of each observer, and behind them the fine classes of a limited part.
    fn columns(&self) -> usize {
        self.observers + self.is_limited() as usize
    }

    fn column_at(&self, column: usize) -> usize {
        let listed = if self.lists_observers() { self.observers } else { 0 };
        LIST_AT + listed + self.n * column
    }

    fn entry_at(&self, e: usize) -> usize {
        self.column_at(self.columns()) + 4 * e
    }

    fn row_at(&self, e: usize, s: usize) -> usize {
        self.entry_at(self.m) + 8 * (e * self.n + s)
    }

    /// The record ends behind its last row.
    fn body_length(&self) -> usize {
        self.row_at(self.m, 0) - HEADER
    }

    /// `2 states and 1 event`. Before them come the number of the observers where they are listed, and that of the
    /// columns where one observer has two.
    fn sizes(&self) -> String {
        let states_and_events = format!("{} and {}", counted(self.n, "state"), counted(self.m, "event"));
        match self.kind {
            SEVERAL_OBSERVERS => format!("{}, {states_and_events}", counted(self.observers, "observer")),
            LIMITED => format!("{}, {states_and_events}", counted(self.columns(), "column")),
            _ => states_and_events,
        }
    }
}

/// `1 state`, `2 states`.
pub(crate) fn counted(number: usize, thing: &str) -> String {
    format!("{number} {thing}{}", if number == 1 { "" } else { "s" })
}

/// `1`, `1 or 2`, `1, 2 or 3`.
fn any_of(kinds: &[u16]) -> String {
    let words: Vec<String> = kinds.iter().map(u16::to_string).collect();
    match words.split_last() {
        Some((last, before)) if !before.is_empty() => format!("{} or {last}", before.join(", ")),
        _ => words.concat(),
    }
}

/// Conditions 1 to 3: length and kind. Gives the kind.
fn header(bytes: &[u8]) -> Result<u16, Misfit> {
    if bytes.len() < HEADER {
        let message = format!("the record has {}, expected 6 or more", counted(bytes.len(), "byte"));
        return misfit(1, bytes.len(), message);
    }
    let length = u32_at(bytes, 0) as usize;
    let rest = bytes.len() - HEADER;
    if length != rest {
        let message = format!("the length is {length}, but the number of bytes after the first six is {rest}");
        return misfit(2, 0, message);
    }
    let kind = u16_at(bytes, 4);
    if !KINDS.contains(&kind) {
        return misfit(3, 4, format!("the record's kind is {kind}, expected {}", any_of(KINDS)));
    }
    Ok(kind)
}

/// Condition 4: gives the numbers of states and events.
fn counts(bytes: &[u8]) -> Result<(usize, usize), Misfit> {
    let body = bytes.len() - HEADER;
    if body < 4 {
        return misfit(4, HEADER, format!("the body has {}, expected 4 or more", counted(body, "byte")));
    }
    let (n, start, m) = (bytes[STATES_AT] as usize, bytes[START_AT], bytes[EVENTS_AT] as usize);
    if !(1..=MAX_STATES).contains(&n) {
        return misfit(4, STATES_AT, format!("the number of states is {n}, expected 1 to {MAX_STATES}"));
    }
    if start as usize >= n {
        return misfit(4, START_AT, format!("the start state is {start}, expected a state below {n}"));
    }
    if m > MAX_EVENTS {
        return misfit(4, EVENTS_AT, format!("the number of events is {m}, expected 0 to {MAX_EVENTS}"));
    }
    Ok((n, m))
}

/// Condition 5; for kind 2 with whatever number of observers the record has.
fn length(bytes: &[u8], layout: &Layout) -> Result<(), Misfit> {
    let (is, needed) = (u32_at(bytes, 0) as usize, layout.body_length());
    if is != needed {
        return misfit(5, 0, format!("the length is {is}, but {} need {needed}", layout.sizes()));
    }
    Ok(())
}

/// Condition 20: gives the observers' levels.
fn observer_levels(bytes: &[u8], layout: &Layout) -> Result<Vec<Level>, Misfit> {
    let count = layout.observers;
    if layout.lists_observers() && !(2..=MAX_OBSERVERS).contains(&count) {
        return misfit(20, FIRST_AT, format!("the number of observers is {count}, expected 2 to {MAX_OBSERVERS}"));
    }
    let mut levels: Vec<Level> = Vec::new();
    for observer in 0..count {
        let at = layout.level_at(observer);
        let level = Level(bytes[at]);
        if let Some(before) = levels.last().filter(|before| level.0 <= before.0) {
            let (level, before) = (level.text_and_byte(), before.text_and_byte());
            return misfit(20, at, format!("observer {level} after {before}, expected a larger byte"));
        }
        levels.push(level);
    }
    Ok(levels)
}

/// Where a column is not numbered by first appearance: the first state whose number is too large, and the largest that
/// it may have.
fn misnumbered(column: &[u8]) -> Option<(usize, u8)> {
    let mut next = 0;
    for (s, &class) in column.iter().enumerate() {
        if class > next {
            return Some((s, next));
        }
        if class == next {
            next += 1;
        }
    }
    None
}

/// The column at an offset, numbered by first appearance; otherwise the condition holds. `what` is a number in it, and
/// `whose` says which observer's the column is.
fn column(bytes: &[u8], at: usize, n: usize, condition: u8, [what, whose]: [&str; 2]) -> Result<Vec<u8>, Misfit> {
    let column = &bytes[at..at + n];
    if let Some((s, most)) = misnumbered(column) {
        let expected = if most == 0 { "0".to_string() } else { format!("0 to {most}") };
        let message = format!("the {what} of state {s}{whose} is {}, expected {expected}", column[s]);
        return misfit(condition, at + s, message);
    }
    Ok(column.to_vec())
}

/// Conditions 20 and 6: gives the observers with their classes.
fn observers(bytes: &[u8], layout: &Layout) -> Result<Vec<Observer>, Misfit> {
    let mut observers = Vec::new();
    for (i, level) in observer_levels(bytes, layout)?.into_iter().enumerate() {
        let whose = match layout.lists_observers() {
            true => format!(" for the observer {}", level.text_and_byte()),
            false => String::new(),
        };
        let classes = column(bytes, layout.column_at(i), layout.n, 6, ["class", &whose])?;
        observers.push(Observer { level, classes, fine: None });
    }
    Ok(observers)
}

/// Condition 21: gives the fine classes, each of them inside one class.
fn fine_classes(bytes: &[u8], layout: &Layout, classes: &[u8]) -> Result<Vec<u8>, Misfit> {
    let at = layout.column_at(layout.observers);
    let fine = column(bytes, at, layout.n, 21, ["fine class", ""])?;
    for (s, &number) in fine.iter().enumerate() {
        let first = fine.iter().position(|&other| other == number).unwrap_or(s);
        let [here, there] = [classes[s], classes[first]];
        if here != there {
            let both = format!("the fine class of state {s} is {number}, as that of state {first}");
            return misfit(21, at + s, format!("{both}, but their classes are {here} and {there}, expected the same"));
        }
    }
    Ok(fine)
}

/// Condition 7: gives the events, still without steps.
fn entries(bytes: &[u8], layout: &Layout) -> Result<Vec<Event>, Misfit> {
    let mut events: Vec<Event> = Vec::new();
    for e in 0..layout.m {
        let at = layout.entry_at(e);
        let identifier = u16_at(bytes, at);
        if let Some(before) = events.last() {
            let before = before.identifier;
            if identifier <= before {
                return misfit(7, at, format!("identifier {identifier} after {before}, expected a larger one"));
            }
        }
        let Some(&kind) = Kind::ALL.get(bytes[at + 2] as usize) else {
            let kind = bytes[at + 2];
            return misfit(7, at + 2, format!("the kind of event {identifier} is {kind}, expected 0 to 2"));
        };
        events.push(Event { identifier, kind, level: Level(bytes[at + 3]), rows: Vec::new() });
    }
    Ok(events)
}

/// Condition 16: the observers' levels first, then those of the events.
fn labels(layout: &Layout, observers: &[Observer], events: &[Event]) -> Result<(), Misfit> {
    for (i, observer) in observers.iter().enumerate() {
        let title = match layout.lists_observers() {
            true => format!("the {} observer's level", PLACES[i]),
            false => "the observer's level".to_string(),
        };
        label(layout.level_at(i), observer.level, &title)?;
    }
    for (e, event) in events.iter().enumerate() {
        label(layout.entry_at(e) + 3, event.level, &format!("the level of event {}", event.identifier))?;
    }
    Ok(())
}

/// Condition 16 for one level; `title` says whose it is.
fn label(at: usize, level: Level, title: &str) -> Result<(), Misfit> {
    if level.is_mislabelled() {
        return misfit(16, at, format!("{title} is {}, expected no compartments at rank 0", level.text_and_byte()));
    }
    Ok(())
}

/// Condition 8: gives the row at an offset.
fn row(bytes: &[u8], at: usize, n: usize, identifier: u16, s: usize) -> Result<u64, Misfit> {
    let row = u64_at(bytes, at);
    if let Some(t) = states_of(row).into_iter().find(|&t| t >= n) {
        let message = format!("event {identifier} leads from state {s} to state {t}, expected states below {n}");
        return misfit(8, at + t / 8, message);
    }
    Ok(row)
}

/// Reads a record, or tells the first condition that stands in the way.
pub fn read(bytes: &[u8]) -> Result<Part, Misfit> {
    let kind = header(bytes)?;
    let (n, m) = counts(bytes)?;
    let layout = Layout::new(kind, bytes[FIRST_AT], n, m);
    length(bytes, &layout)?;
    let mut observers = observers(bytes, &layout)?;
    if layout.is_limited() {
        observers[0].fine = Some(fine_classes(bytes, &layout, &observers[0].classes)?);
    }
    let mut events = entries(bytes, &layout)?;
    labels(&layout, &observers, &events)?;
    for (e, event) in events.iter_mut().enumerate() {
        for s in 0..n {
            event.rows.push(row(bytes, layout.row_at(e, s), n, event.identifier, s)?);
        }
    }
    Ok(Part { states: n, start: bytes[START_AT] as usize, events, observers })
}

/// The record of a part: of kind 2 where it has several observers, of kind 3 where it is limited, otherwise of kind 1.
pub fn write(part: &Part) -> Vec<u8> {
    let levels: Vec<u8> = part.observers.iter().map(|observer| observer.level.0).collect();
    let (kind, first, listed) = match levels.as_slice() {
        [level] if part.is_limited() => (LIMITED, *level, &[][..]),
        [level] => (ONE_OBSERVER, *level, &[][..]),
        levels => (SEVERAL_OBSERVERS, levels.len() as u8, levels),
    };
    let layout = Layout::new(kind, first, part.states, part.events.len());
    let mut bytes = Vec::new();
    bytes.extend((layout.body_length() as u32).to_le_bytes());
    bytes.extend(kind.to_le_bytes());
    bytes.extend([first, part.states as u8, part.start as u8, part.events.len() as u8]);
    bytes.extend(listed);
    for observer in &part.observers {
        bytes.extend(&observer.classes);
        bytes.extend(observer.fine.iter().flatten());
    }
    for event in &part.events {
        bytes.extend(event.identifier.to_le_bytes());
        bytes.extend([event.kind as u8, event.level.0]);
    }
    for event in &part.events {
        for row in &event.rows {
            bytes.extend(row.to_le_bytes());
        }
    }
    bytes
}

#[cfg(test)]
mod tests {
    use super::*;
    use crate::part::by_first_appearance;
    use crate::random::{self, Rng};

    /// Two states in one class; high input 1 toggles, low output 2 stays.
    fn toggle() -> Vec<u8> {
        let mut bytes = vec![0x2E, 0, 0, 0, 1, 0, 0, 2, 0, 2, 0, 0, 1, 0, 0, 0x40, 2, 0, 1, 0];
        for row in [2u64, 1, 1, 2] {
            bytes.extend(row.to_le_bytes());
        }
        bytes
    }

    /// The toggle of kind 2: for the observers 0x00, 0x40 and 0x81, of which the second knows the state.
    fn watched() -> Vec<u8> {
        let mut bytes = vec![0x35, 0, 0, 0, 2, 0, 3, 2, 0, 2, 0x00, 0x40, 0x81, 0, 0, 0, 1, 0, 0];
        bytes.extend(&toggle()[12..]);
        bytes
    }

    fn said(bytes: &[u8]) -> String {
        match read(bytes) {
            Ok(_) => "well-formed".to_string(),
            Err(misfit) => format!("{} at {}: {}", misfit.condition, misfit.byte, misfit.message),
        }
    }

    /// A record with some of its bytes changed.
    fn changed(mut bytes: Vec<u8>, changes: &[(usize, u8)]) -> Vec<u8> {
        for &(byte, value) in changes {
            bytes[byte] = value;
        }
        bytes
    }

    /// The toggle with some of its bytes changed.
    fn toggle_with(changes: &[(usize, u8)]) -> Vec<u8> {
        changed(toggle(), changes)
    }

    /// What is said of the toggle of kind 2 with some of its bytes changed.
    fn watched_with(changes: &[(usize, u8)]) -> String {
        said(&changed(watched(), changes))
    }

    fn said_with(byte: usize, value: u8) -> String {
        said(&toggle_with(&[(byte, value)]))
    }

    /// Condition and byte of the misfit.
    fn misfit_with(changes: &[(usize, u8)]) -> Option<(u8, usize)> {
        read(&toggle_with(changes)).err().map(|misfit| (misfit.condition, misfit.byte))
    }

    #[test]
    fn the_fields_of_a_record() {
        let part = read(&toggle()).unwrap();
        assert_eq!((part.states, part.start), (2, 0));
        assert_eq!(part.observers, [Observer { level: Level(0), classes: vec![0, 0], fine: None }]);
        assert_eq!((part.events[0].identifier, part.events[0].kind), (1, Kind::Input));
        assert_eq!((part.events[1].identifier, part.events[1].kind), (2, Kind::Output));
        assert!(!part.observers[0].is_low(&part.events[0]) && part.observers[0].is_low(&part.events[1]));
        assert_eq!(part.events[0].rows, [2, 1]);
        assert_eq!(write(&part), toggle());
    }

    #[test]
    fn conditions_1_to_3() {
        assert_eq!(said(&[]), "1 at 0: the record has 0 bytes, expected 6 or more");
        assert_eq!(said(&[1]), "1 at 1: the record has 1 byte, expected 6 or more");
        assert_eq!(said(&toggle()[..5]), "1 at 5: the record has 5 bytes, expected 6 or more");
        let two = "2 at 0: the length is 46, but the number of bytes after the first six is 45";
        assert_eq!(said(&toggle()[..51]), two);
        let two = "2 at 0: the length is 16777262, but the number of bytes after the first six is 46";
        assert_eq!(said_with(3, 1), two);
        for (byte, value, kind) in [(4, 0, 0), (4, 4, 4), (5, 1, 257)] {
            assert_eq!(said_with(byte, value), format!("3 at 4: the record's kind is {kind}, expected 1, 2 or 3"));
        }
    }

    #[test]
    fn conditions_4_and_5() {
        assert_eq!(said(&[0, 0, 0, 0, 1, 0]), "4 at 6: the body has 0 bytes, expected 4 or more");
        assert_eq!(said(&[1, 0, 0, 0, 1, 0, 9]), "4 at 6: the body has 1 byte, expected 4 or more");
        assert_eq!(said_with(7, 0), "4 at 7: the number of states is 0, expected 1 to 64");
        assert_eq!(said_with(7, 65), "4 at 7: the number of states is 65, expected 1 to 64");
        assert_eq!(said_with(8, 2), "4 at 8: the start state is 2, expected a state below 2");
        assert_eq!(said_with(9, 33), "4 at 9: the number of events is 33, expected 0 to 32");
        assert_eq!(said_with(7, 3), "5 at 0: the length is 46, but 3 states and 2 events need 63");
        assert_eq!(said_with(9, 1), "5 at 0: the length is 46, but 2 states and 1 event need 26");
    }

    #[test]
    fn conditions_6_7_and_8() {
        assert_eq!(said_with(10, 1), "6 at 10: the class of state 0 is 1, expected 0");
        assert_eq!(said_with(11, 2), "6 at 11: the class of state 1 is 2, expected 0 to 1");
        assert_eq!(said_with(12, 2), "7 at 16: identifier 2 after 2, expected a larger one");
        assert_eq!(said_with(13, 1), "7 at 16: identifier 2 after 257, expected a larger one");
        assert_eq!(said_with(14, 3), "7 at 14: the kind of event 1 is 3, expected 0 to 2");
        assert_eq!(said_with(18, 255), "7 at 18: the kind of event 2 is 255, expected 0 to 2");
        assert_eq!(said_with(20, 6), "8 at 20: event 1 leads from state 0 to state 2, expected states below 2");
        assert_eq!(said_with(51, 0x80), "8 at 51: event 2 leads from state 1 to state 63, expected states below 2");
    }

    #[test]
    fn condition_16() {
        let expected = "expected no compartments at rank 0";
        let observer = format!("16 at 6: the observer's level is rank 0 compartments 0 (0x01), {expected}");
        assert_eq!(said_with(6, 0x01), observer);
        let first = format!("16 at 15: the level of event 1 is rank 0 compartments 0 1 2 3 4 5 (0x3F), {expected}");
        assert_eq!(said_with(15, 0x3F), first);
        let last = format!("16 at 19: the level of event 2 is rank 0 compartments 3 (0x08), {expected}");
        assert_eq!(said_with(19, 0x08), last);
    }

    /// Each byte as each level: a misfit exactly where it is mislabelled.
    #[test]
    fn all_bytes_as_levels() {
        for at in [6, 15, 19] {
            for byte in 0..=255 {
                let mislabelled = Level(byte).is_mislabelled();
                assert_eq!(misfit_with(&[(at, byte)]), mislabelled.then_some((16, at)));
            }
        }
    }

    /// Condition 7 comes first on all entries, 16 on the observer, then on the events, then 8 on all rows.
    #[test]
    fn the_place_of_condition_16() {
        assert_eq!(misfit_with(&[(19, 1), (15, 1), (6, 1)]), Some((16, 6)));
        assert_eq!(misfit_with(&[(19, 1), (15, 1)]), Some((16, 15)));
        assert_eq!(misfit_with(&[(6, 1), (18, 3)]), Some((7, 18)));
        assert_eq!(misfit_with(&[(15, 1), (16, 1)]), Some((7, 16)));
        assert_eq!(misfit_with(&[(19, 1), (20, 4)]), Some((16, 19)));
    }

    #[test]
    fn a_misfit_in_words() {
        let misfit = read(&[1, 2]).unwrap_err();
        assert_eq!(misfit.to_string(), "byte 2: condition 1: the record has 2 bytes, expected 6 or more");
    }

    #[test]
    fn an_earlier_condition_comes_first() {
        let mut bytes = toggle();
        let content = [(20, 4, 8), (19, 1, 16), (14, 3, 7), (11, 9, 6)];
        let frame = [(9, 1, 5), (8, 2, 4), (5, 1, 3), (0, 0, 2)];
        for (byte, value, condition) in content.into_iter().chain(frame) {
            bytes[byte] = value;
            assert_eq!(read(&bytes).unwrap_err().condition, condition);
        }
    }

    #[test]
    fn the_fields_of_a_record_of_kind_2() {
        let part = read(&watched()).unwrap();
        let toggle = read(&toggle()).unwrap();
        let columns = [(0x00, [0, 0]), (0x40, [0, 1]), (0x81, [0, 0])];
        let observer =
            |(byte, classes): (u8, [u8; 2])| Observer { level: Level(byte), classes: classes.to_vec(), fine: None };
        assert_eq!(part, Part { observers: columns.map(observer).to_vec(), ..toggle });
        assert_eq!(write(&part), watched());
    }

    /// Records of kind 2 with two and with four observers, one state and no events.
    #[test]
    fn other_numbers_of_observers() {
        let two = [8, 0, 0, 0, 2, 0, 2, 1, 0, 0, 0x00, 0xFF, 0, 0];
        assert_eq!(write(&read(&two).unwrap()), two);
        let four = [12, 0, 0, 0, 2, 0, 4, 1, 0, 0, 0x40, 0x41, 0x7F, 0x80, 0, 0, 0, 0];
        assert_eq!(write(&read(&four).unwrap()), four);
    }

    #[test]
    fn kinds_in_words() {
        assert_eq!(any_of(&[1]), "1");
        assert_eq!(any_of(&[1, 2]), "1 or 2");
        assert_eq!(any_of(&[1, 2, 3]), "1, 2 or 3");
    }

    #[test]
    fn conditions_1_to_4_of_kind_2() {
        assert_eq!(said(&watched()[..4]), "1 at 4: the record has 4 bytes, expected 6 or more");
        let two = "2 at 0: the length is 53, but the number of bytes after the first six is 52";
        assert_eq!(said(&watched()[..58]), two);
        assert_eq!(watched_with(&[(4, 4)]), "3 at 4: the record's kind is 4, expected 1, 2 or 3");
        assert_eq!(said(&[3, 0, 0, 0, 2, 0, 2, 1, 0]), "4 at 6: the body has 3 bytes, expected 4 or more");
        assert_eq!(watched_with(&[(7, 0)]), "4 at 7: the number of states is 0, expected 1 to 64");
        assert_eq!(watched_with(&[(8, 2)]), "4 at 8: the start state is 2, expected a state below 2");
        assert_eq!(watched_with(&[(9, 33)]), "4 at 9: the number of events is 33, expected 0 to 32");
    }

    /// The number of observers counts as it stands there, whether 20 allows it or not.
    #[test]
    fn condition_5_of_kind_2() {
        let needs = |count, what: &str, needed| {
            let expected = format!("5 at 0: the length is 53, but {what}, 2 states and 2 events need {needed}");
            assert_eq!(watched_with(&[(6, count)]), expected);
        };
        needs(0, "0 observers", 44);
        needs(1, "1 observer", 47);
        needs(2, "2 observers", 50);
        needs(4, "4 observers", 56);
        needs(255, "255 observers", 809);
    }

    /// A record of kind 2 with one state, no events and so many observers: its length is right.
    fn of_observers(count: u8) -> Vec<u8> {
        let mut bytes = ((4 + 2 * count as u32).to_le_bytes()).to_vec();
        bytes.extend([2, 0, count, 1, 0, 0]);
        bytes.extend((0..count).map(|i| 0x40 + i % 0x40));
        bytes.extend(vec![0; count as usize]);
        bytes
    }

    #[test]
    fn condition_20() {
        for count in 0..=255 {
            let expected = match count {
                2..=4 => "well-formed".to_string(),
                _ => format!("20 at 6: the number of observers is {count}, expected 2 to 4"),
            };
            assert_eq!(said(&of_observers(count)), expected);
        }
        let (low, middle) = ("rank 0 compartments none (0x00)", "rank 1 compartments none (0x40)");
        let (high, highest) = ("rank 2 compartments 0 (0x81)", "rank 3 compartments none (0xC0)");
        let larger = "expected a larger byte";
        assert_eq!(watched_with(&[(11, 0x00)]), format!("20 at 11: observer {low} after {low}, {larger}"));
        assert_eq!(watched_with(&[(10, 0xC0)]), format!("20 at 11: observer {middle} after {highest}, {larger}"));
        assert_eq!(watched_with(&[(11, 0x81)]), format!("20 at 12: observer {high} after {high}, {larger}"));
        assert_eq!(watched_with(&[(12, 0x00)]), format!("20 at 12: observer {low} after {middle}, {larger}"));
    }

    /// The bytes rise; the order of levels plays no part.
    #[test]
    fn levels_that_are_not_comparable() {
        assert_eq!(watched_with(&[(10, 0x41), (11, 0x80), (12, 0x84)]), "well-formed");
        assert_eq!(watched_with(&[(11, 0x3F), (12, 0x40)]).split(':').next(), Some("16 at 11"));
    }

    /// Each column, with the observer named.
    #[test]
    fn condition_6_of_kind_2() {
        let class = "the class of state";
        let (low, middle) = ("for the observer rank 0 compartments none (0x00)", "rank 1 compartments none (0x40)");
        assert_eq!(watched_with(&[(13, 1)]), format!("6 at 13: {class} 0 {low} is 1, expected 0"));
        assert_eq!(watched_with(&[(14, 2)]), format!("6 at 14: {class} 1 {low} is 2, expected 0 to 1"));
        let middle = format!("for the observer {middle}");
        assert_eq!(watched_with(&[(15, 9)]), format!("6 at 15: {class} 0 {middle} is 9, expected 0"));
        assert_eq!(watched_with(&[(16, 2)]), format!("6 at 16: {class} 1 {middle} is 2, expected 0 to 1"));
        let high = "for the observer rank 2 compartments 0 (0x81)";
        assert_eq!(watched_with(&[(18, 255)]), format!("6 at 18: {class} 1 {high} is 255, expected 0 to 1"));
    }

    #[test]
    fn conditions_7_16_and_8_of_kind_2() {
        assert_eq!(watched_with(&[(19, 2)]), "7 at 23: identifier 2 after 2, expected a larger one");
        assert_eq!(watched_with(&[(25, 3)]), "7 at 25: the kind of event 2 is 3, expected 0 to 2");
        let expected = "expected no compartments at rank 0";
        let level = |byte, whose: &str, level: &str| format!("16 at {byte}: {whose} is {level}, {expected}");
        let low = "rank 0 compartments 0 (0x01)";
        assert_eq!(watched_with(&[(10, 1)]), level(10, "the first observer's level", low));
        assert_eq!(watched_with(&[(11, 1)]), level(11, "the second observer's level", low));
        assert_eq!(watched_with(&[(12, 2), (11, 1)]), level(11, "the second observer's level", low));
        assert_eq!(watched_with(&[(22, 1)]), level(22, "the level of event 1", low));
        let third = changed(of_observers(4), &[(10, 0), (11, 1), (12, 2), (13, 3)]);
        assert_eq!(said(&third), level(11, "the second observer's level", low));
        let eight = "8 at 27: event 1 leads from state 0 to state 2, expected states below 2";
        assert_eq!(watched_with(&[(27, 6)]), eight);
        assert_eq!(
            watched_with(&[(58, 0x80)]),
            "8 at 58: event 2 leads from state 1 to state 63, expected states below 2"
        );
    }

    /// Each later change is about a condition that is tested earlier.
    #[test]
    fn the_order_of_the_conditions_of_kind_2() {
        let mut bytes = watched();
        let content = [(27, 4, 8), (26, 1, 16), (12, 0x82, 16), (11, 0x01, 16), (25, 3, 7), (18, 9, 6), (13, 1, 6)];
        let frame = [(12, 1, 20), (6, 4, 5), (8, 2, 4), (5, 1, 3), (0, 0, 2)];
        for (byte, value, condition) in content.into_iter().chain(frame) {
            bytes[byte] = value;
            assert_eq!(read(&bytes).unwrap_err().condition, condition);
        }
        // A wrong number of observers hides a list that does not rise.
        let five = changed(of_observers(5), &[(11, 0x40)]);
        assert_eq!(said(&five), "20 at 6: the number of observers is 5, expected 2 to 4");
    }

    /// A record of kind 3: high input 1 turns 0 to 1 and 2 to 3, low output 2 stays. The classes are 0 0 1 1, the fine
    /// ones 0 1 2 2.
    fn limited() -> Vec<u8> {
        let mut bytes = vec![0x54, 0, 0, 0, 3, 0, 0, 4, 0, 2, 0, 0, 1, 1, 0, 1, 2, 2, 1, 0, 0, 0x40, 2, 0, 1, 0];
        for row in [2u64, 2, 8, 8, 1, 2, 4, 8] {
            bytes.extend(row.to_le_bytes());
        }
        bytes
    }

    /// What is said of that record with some of its bytes changed.
    fn limited_with(changes: &[(usize, u8)]) -> String {
        said(&changed(limited(), changes))
    }

    #[test]
    fn the_fields_of_a_record_of_kind_3() {
        let part = read(&limited()).unwrap();
        assert_eq!((part.states, part.start, part.events.len()), (4, 0, 2));
        let observer = Observer { level: Level(0), classes: vec![0, 0, 1, 1], fine: Some(vec![0, 1, 2, 2]) };
        assert_eq!(part.observers, [observer]);
        let heads: Vec<(u16, Kind, u8)> = part.events.iter().map(|e| (e.identifier, e.kind, e.level.0)).collect();
        assert_eq!(heads, [(1, Kind::Input, 0x40), (2, Kind::Output, 0)]);
        assert_eq!((&part.events[0].rows, &part.events[1].rows), (&vec![2, 2, 8, 8], &vec![1, 2, 4, 8]));
        assert_eq!(write(&part), limited());
    }

    /// The kind stays where the fine classes are the classes, and goes where there are none.
    #[test]
    fn fine_classes_that_are_the_classes() {
        let bytes = changed(limited(), &[(15, 0), (16, 1), (17, 1)]);
        let mut part = read(&bytes).unwrap();
        assert_eq!(part.observers[0].fine.as_ref(), Some(&part.observers[0].classes));
        assert_eq!(write(&part), bytes);
        part.observers[0].fine = None;
        let plain = write(&part);
        assert_eq!(plain[..6], [0x50, 0, 0, 0, 1, 0]);
        assert_eq!(plain[6..], [&bytes[6..14], &bytes[18..]].concat());
    }

    #[test]
    fn conditions_1_to_5_of_kind_3() {
        assert_eq!(said(&limited()[..5]), "1 at 5: the record has 5 bytes, expected 6 or more");
        let two = "2 at 0: the length is 84, but the number of bytes after the first six is 83";
        assert_eq!(said(&limited()[..89]), two);
        assert_eq!(limited_with(&[(4, 4)]), "3 at 4: the record's kind is 4, expected 1, 2 or 3");
        assert_eq!(said(&[3, 0, 0, 0, 3, 0, 2, 1, 0]), "4 at 6: the body has 3 bytes, expected 4 or more");
        assert_eq!(limited_with(&[(7, 65)]), "4 at 7: the number of states is 65, expected 1 to 64");
        assert_eq!(limited_with(&[(8, 4)]), "4 at 8: the start state is 4, expected a state below 4");
        assert_eq!(limited_with(&[(9, 33)]), "4 at 9: the number of events is 33, expected 0 to 32");
        let needs = |sizes: &str, needed| format!("5 at 0: the length is 84, but {sizes} need {needed}");
        assert_eq!(limited_with(&[(9, 1)]), needs("2 columns, 4 states and 1 event", 48));
        assert_eq!(limited_with(&[(7, 3)]), needs("2 columns, 3 states and 2 events", 66));
        assert_eq!(limited_with(&[(4, 1)]), needs("4 states and 2 events", 80));
        assert_eq!(limited_with(&[(4, 2), (6, 1)]), needs("1 observer, 4 states and 2 events", 81));
        let three = "5 at 0: the length is 46, but 2 columns, 2 states and 2 events need 48";
        assert_eq!(said_with(4, 3), three);
    }

    /// 6 is about the first column alone, 21 about the second.
    #[test]
    fn conditions_6_and_21_of_kind_3() {
        assert_eq!(limited_with(&[(10, 1)]), "6 at 10: the class of state 0 is 1, expected 0");
        assert_eq!(limited_with(&[(13, 3)]), "6 at 13: the class of state 3 is 3, expected 0 to 2");
        assert_eq!(limited_with(&[(14, 1)]), "21 at 14: the fine class of state 0 is 1, expected 0");
        assert_eq!(limited_with(&[(15, 2)]), "21 at 15: the fine class of state 1 is 2, expected 0 to 1");
        assert_eq!(limited_with(&[(17, 255)]), "21 at 17: the fine class of state 3 is 255, expected 0 to 3");
        let across = |byte: usize, s, number, first| {
            let both = format!("the fine class of state {s} is {number}, as that of state {first}");
            format!("21 at {byte}: {both}, but their classes are 1 and 0, expected the same")
        };
        assert_eq!(limited_with(&[(16, 1)]), across(16, 2, 1, 1));
        assert_eq!(limited_with(&[(17, 0)]), across(17, 3, 0, 0));
        assert_eq!(limited_with(&[(16, 1), (17, 0)]), across(16, 2, 1, 1));
        assert_eq!(limited_with(&[(16, 0), (17, 3)]), "21 at 17: the fine class of state 3 is 3, expected 0 to 2");
    }

    /// Every second column of numbers to 4 beside every first one of numbers to 2: 21 comes exactly where the numbers are
    /// not those of first appearance, or two states with one number have different classes.
    #[test]
    fn condition_21_exactly() {
        let columns =
            |most: usize| (0..(most + 1).pow(4)).map(move |i| [0, 1, 2, 3].map(|s| i / (most + 1).pow(s) % (most + 1)));
        let numbered =
            |column: &[usize; 4]| by_first_appearance(column).iter().zip(column).all(|(&a, &b)| a as usize == b);
        let mut counts = [0; 2];
        for classes in columns(2).filter(numbered) {
            for fine in columns(4) {
                let two = (0..4).any(|s| (0..s).any(|t| fine[s] == fine[t] && classes[s] != classes[t]));
                let fits = numbered(&fine) && !two;
                let changes: Vec<(usize, u8)> = (0..8).map(|i| (10 + i, [classes, fine].concat()[i] as u8)).collect();
                let misfit = read(&changed(limited(), &changes)).err().map(|misfit| misfit.condition);
                assert_eq!(misfit, (!fits).then_some(21), "{classes:?} {fine:?}");
                counts[fits as usize] += 1;
            }
        }
        assert_eq!(counts, [8691, 59]);
    }

    #[test]
    fn conditions_7_16_and_8_of_kind_3() {
        assert_eq!(limited_with(&[(18, 2)]), "7 at 22: identifier 2 after 2, expected a larger one");
        assert_eq!(limited_with(&[(24, 3)]), "7 at 24: the kind of event 2 is 3, expected 0 to 2");
        let expected = "expected no compartments at rank 0";
        let observer = format!("16 at 6: the observer's level is rank 0 compartments 0 (0x01), {expected}");
        assert_eq!(limited_with(&[(6, 1)]), observer);
        let event = format!("16 at 25: the level of event 2 is rank 0 compartments 3 (0x08), {expected}");
        assert_eq!(limited_with(&[(25, 8)]), event);
        let eight = "8 at 26: event 1 leads from state 0 to state 4, expected states below 4";
        assert_eq!(limited_with(&[(26, 0x10)]), eight);
        let eight = "8 at 89: event 2 leads from state 3 to state 63, expected states below 4";
        assert_eq!(limited_with(&[(89, 0x80)]), eight);
    }

    /// Each later change is about a condition that is tested earlier.
    #[test]
    fn the_order_of_the_conditions_of_kind_3() {
        let mut bytes = limited();
        let content = [(26, 16, 8), (25, 1, 16), (6, 1, 16), (24, 3, 7), (16, 1, 21), (14, 1, 21), (13, 9, 6)];
        let frame = [(9, 1, 5), (8, 4, 4), (5, 1, 3), (0, 0, 2)];
        for (byte, value, condition) in content.into_iter().chain(frame) {
            bytes[byte] = value;
            assert_eq!(read(&bytes).unwrap_err().condition, condition);
        }
    }

    fn comes_back(record: &[u8], length: usize) {
        assert_eq!(record.len(), length);
        assert_eq!(write(&read(record).unwrap()), record);
    }

    #[test]
    fn the_extremes() {
        comes_back(&[5, 0, 0, 0, 1, 0, 0, 1, 0, 0, 0], 11);
        comes_back(&write(&random::full(64, 32)), 16_586);
        comes_back(&write(&random::full_for(64, 32, 4)), 16_782);
        comes_back(&[6, 0, 0, 0, 3, 0, 0, 1, 0, 0, 0, 0], 12);
        comes_back(&write(&random::full_limited(64, 32)), 16_650);
    }

    #[test]
    fn random_records_come_back() {
        let mut rng = Rng::new(1);
        for _ in 0..1000 {
            let part = random::any(&mut rng);
            assert_eq!(read(&write(&part)), Ok(part));
        }
    }

    /// Records of the parts with some bytes changed: how many are read, and how many have each condition. There is no
    /// panic, and what is read is written back the same.
    fn damaged(part: fn(&mut Rng) -> Part) -> (usize, [usize; 22]) {
        let mut rng = Rng::new(2);
        let (mut read_back, mut refused) = (0, [0; 22]);
        for _ in 0..5000 {
            let mut bytes = write(&part(&mut rng));
            random::damage(&mut rng, &mut bytes);
            match read(&bytes) {
                Ok(part) => {
                    assert_eq!(write(&part), bytes);
                    read_back += 1;
                }
                Err(misfit) => refused[misfit.condition as usize] += 1,
            }
        }
        (read_back, refused)
    }

    #[test]
    fn changed_records_come_back_or_misfit() {
        let (read_back, refused) = damaged(random::part);
        let least = [1, 2, 3, 4, 5, 6, 7, 16, 8].map(|condition| refused[condition]).into_iter().min();
        assert!(read_back > 100 && least > Some(100), "{read_back} {refused:?}");
    }

    #[test]
    fn changed_records_of_kind_2_come_back_or_misfit() {
        let (read_back, refused) = damaged(random::several);
        let least = [1, 2, 3, 4, 5, 20, 6, 7, 16, 8].map(|condition| refused[condition]).into_iter().min();
        assert!(read_back > 100 && least > Some(50), "{read_back} {refused:?}");
    }

    #[test]
    fn changed_records_of_kind_3_come_back_or_misfit() {
        let (read_back, refused) = damaged(random::limited);
        let least = [1, 2, 3, 4, 5, 6, 21, 7, 16, 8].map(|condition| refused[condition]).into_iter().min();
        assert!(read_back > 100 && least > Some(100), "{read_back} {refused:?}");
        assert_eq!(refused[20], 0);
    }
}
