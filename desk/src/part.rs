//! A part as its record describes it: what all its observers have in common, and a list of the observers. Then the
//! names that only a table has.

use std::collections::BTreeMap;

use crate::level::Level;

pub const MAX_STATES: usize = 64;
/// The longest name of a state; so no table needs more bytes than are read.
pub const MAX_NAME: usize = 100;
pub const MAX_EVENTS: usize = 32;
pub const MAX_OBSERVERS: usize = 4;

#[derive(Clone, Copy, PartialEq, Eq, Debug)]
pub enum Kind {
    Input,
    Output,
    Internal,
}

impl Kind {
    /// All kinds; the place of each is its byte in a record.
    pub const ALL: [Kind; 3] = [Kind::Input, Kind::Output, Kind::Internal];

    pub fn word(self) -> &'static str {
        match self {
            Kind::Input => "input",
            Kind::Output => "output",
            Kind::Internal => "internal",
        }
    }
}

/// An event with its steps. Bit t of `rows[s]` is set where it may lead from s to t.
#[derive(Clone, PartialEq, Eq, Debug)]
pub struct Event {
    pub identifier: u16,
    pub kind: Kind,
    pub level: Level,
    pub rows: Vec<u64>,
}

impl Event {
    pub fn leads(&self, s: usize, t: usize) -> bool {
        self.rows[s] >> t & 1 == 1
    }

    pub fn step_count(&self) -> u32 {
        self.rows.iter().map(|row| row.count_ones()).sum()
    }
}

/// An observer: its level, and its partition of the states. `classes[s]` is the class of state s; classes are numbered
/// by first appearance. The observer of a limited part has a refinement of it too: `fine[s]` is the fine class of state
/// s, numbered likewise, and each fine class lies inside one class, which is then called coarse.
#[derive(Clone, PartialEq, Eq, Debug)]
pub struct Observer {
    pub level: Level,
    pub classes: Vec<u8>,
    pub fine: Option<Vec<u8>>,
}

impl Observer {
    pub fn same_class(&self, s: usize, t: usize) -> bool {
        self.classes[s] == self.classes[t]
    }

    /// Are they in one fine class? Without a refinement the fine classes are the classes.
    #[cfg(test)]
    pub fn same_fine_class(&self, s: usize, t: usize) -> bool {
        let finest = self.fine.as_ref().unwrap_or(&self.classes);
        finest[s] == finest[t]
    }

    /// `class`, or `coarse class` where there are fine ones too.
    pub fn class_word(&self) -> &'static str {
        match self.fine {
            Some(_) => "coarse class",
            None => "class",
        }
    }

    /// Is the event low for this observer? Needed for the words of a verdict and for drawings only, as is what it sees.
    pub fn is_low(&self, event: &Event) -> bool {
        event.level.at_or_below(self.level)
    }

    /// Does it see the event? It sees low inputs and low outputs, and no internal event, whatever its level.
    pub fn sees(&self, event: &Event) -> bool {
        event.kind != Kind::Internal && self.is_low(event)
    }

    /// Is the event silent for it, a high output or an internal event? A high input is neither seen nor silent.
    pub fn is_silent(&self, event: &Event) -> bool {
        event.kind != Kind::Input && !self.sees(event)
    }
}

/// A part: the states 0 to `states` - 1, the start and the events with their steps, and one to four observers. Each
/// observer has a class for each state, and their levels rise by byte. Only a part with one observer may be limited.
#[derive(Clone, PartialEq, Eq, Debug)]
pub struct Part {
    pub states: usize,
    pub start: usize,
    pub events: Vec<Event>,
    pub observers: Vec<Observer>,
}

impl Part {
    pub fn event(&self, identifier: u16) -> Option<&Event> {
        self.events.iter().find(|event| event.identifier == identifier)
    }

    /// Has its observer fine classes?
    pub fn is_limited(&self) -> bool {
        self.observers.iter().any(|observer| observer.fine.is_some())
    }

    pub fn has_several_observers(&self) -> bool {
        self.observers.len() > 1
    }

    pub fn observer(&self, level: Level) -> Option<&Observer> {
        self.observers.iter().find(|observer| observer.level == level)
    }
}

/// The states of each class of a column. Classes come by their smallest state, states ascending.
pub fn groups(column: &[u8]) -> Vec<Vec<usize>> {
    let mut groups: Vec<Vec<usize>> = Vec::new();
    for (s, &class) in column.iter().enumerate() {
        match groups.get_mut(class as usize) {
            Some(group) => group.push(s),
            None => groups.push(vec![s]),
        }
    }
    groups
}

/// The states of a row, ascending.
pub fn states_of(row: u64) -> Vec<usize> {
    (0..MAX_STATES).filter(|&t| row >> t & 1 == 1).collect()
}

/// Classes with any numbers, numbered anew by first appearance.
pub fn by_first_appearance(numbers: &[usize]) -> Vec<u8> {
    let mut seen: Vec<usize> = Vec::new();
    let mut classes = Vec::new();
    for &number in numbers {
        let class = seen.iter().position(|&other| other == number).unwrap_or_else(|| {
            seen.push(number);
            seen.len() - 1
        });
        classes.push(class as u8);
    }
    classes
}

/// Names for readers. No record holds them. `states` is empty where the table has none.
#[derive(Clone, PartialEq, Eq, Debug, Default)]
pub struct Names {
    pub states: Vec<String>,
    pub events: BTreeMap<u16, String>,
}

impl Names {
    pub fn state(&self, s: usize) -> Option<&str> {
        self.states.get(s).map(String::as_str)
    }

    pub fn event(&self, identifier: u16) -> Option<&str> {
        self.events.get(&identifier).map(String::as_str)
    }
}

/// A part with the names of its table; a record's part has none.
#[derive(Clone, PartialEq, Eq, Debug)]
pub struct Table {
    pub part: Part,
    pub names: Names,
}

impl Table {
    pub fn unnamed(part: Part) -> Table {
        Table { part, names: Names::default() }
    }

    /// A state by its number and, where it has one, its name: `0:idle`.
    pub fn state_words(&self, s: usize) -> String {
        match self.names.state(s) {
            Some(name) => format!("{s}:{name}"),
            None => s.to_string(),
        }
    }

    /// `{0:idle 1:sent}`
    pub fn states_words(&self, states: &[usize]) -> String {
        let words: Vec<String> = states.iter().map(|&s| self.state_words(s)).collect();
        format!("{{{}}}", words.join(" "))
    }

    /// An event by its identifier and, where it has one, its name: `7 "send"`.
    pub fn event_words(&self, identifier: u16) -> String {
        match self.names.event(identifier) {
            Some(name) => format!("{identifier} \"{name}\""),
            None => identifier.to_string(),
        }
    }
}

/// A table, and what it is called in a sentence: its file, or `part 0`.
#[derive(Clone, Copy)]
pub struct Titled<'a> {
    pub title: &'a str,
    pub table: &'a Table,
}

#[cfg(test)]
mod tests {
    use super::*;

    #[test]
    fn classes_by_first_appearance() {
        assert_eq!(by_first_appearance(&[5, 5, 2, 9, 2]), [0, 0, 1, 2, 1]);
        assert_eq!(by_first_appearance(&[0]), [0]);
    }

    #[test]
    fn groups_come_by_their_smallest_state() {
        assert_eq!(groups(&[0, 1, 0, 2, 1]), [vec![0, 2], vec![1, 4], vec![3]]);
    }

    fn limited(classes: &[u8], fine: &[u8]) -> Observer {
        Observer { level: Level(0), classes: classes.to_vec(), fine: Some(fine.to_vec()) }
    }

    #[test]
    fn states_of_one_fine_class() {
        let observer = limited(&[0, 0, 1, 0], &[0, 1, 2, 0]);
        assert!(observer.same_class(0, 1) && !observer.same_fine_class(0, 1) && observer.same_fine_class(0, 3));
        let plain = Observer { fine: None, ..observer };
        assert!(plain.same_fine_class(0, 1) && !plain.same_fine_class(0, 2));
        assert_eq!((limited(&[0], &[0]).class_word(), plain.class_word()), ("coarse class", "class"));
    }

    /// The kinds and ranks of the events of which a test of an observer of rank 1 holds.
    fn those(test: fn(&Observer, &Event) -> bool) -> Vec<(Kind, u8)> {
        let observer = Observer { level: Level::of_rank(1), classes: vec![0], fine: None };
        let mut those = Vec::new();
        for kind in Kind::ALL {
            for rank in 0..=3 {
                let event = Event { identifier: 0, kind, level: Level::of_rank(rank), rows: vec![0] };
                if test(&observer, &event) {
                    those.push((kind, rank));
                }
            }
        }
        those
    }

    #[test]
    fn what_an_observer_of_rank_1_sees() {
        let seen = [(Kind::Input, 0), (Kind::Input, 1), (Kind::Output, 0), (Kind::Output, 1)];
        assert_eq!(those(Observer::sees), seen);
    }

    #[test]
    fn what_is_silent_for_an_observer_of_rank_1() {
        let outputs = [2, 3].map(|rank| (Kind::Output, rank));
        let internal = [0, 1, 2, 3].map(|rank| (Kind::Internal, rank));
        assert_eq!(those(Observer::is_silent), [&outputs[..], &internal[..]].concat());
    }

    #[test]
    fn an_observer_by_its_level() {
        let observers = [Level(0x40), Level(0x81)].map(|level| Observer { level, classes: vec![0], fine: None });
        let part = Part { states: 1, start: 0, events: Vec::new(), observers: observers.to_vec() };
        assert_eq!(part.observer(Level(0x81)), Some(&observers[1]));
        assert_eq!(part.observer(Level(0x80)), None);
    }

    #[test]
    fn states_of_a_row() {
        assert_eq!(states_of(0), []);
        assert_eq!(states_of(1 << 63 | 5), [0, 2, 63]);
    }
}
