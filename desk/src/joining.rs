//! Two parts hooked together: the names of the joined table, and in words why there is none. The joined record and what
//! stands in its way come from the proved library; here things are only looked up.

use std::collections::BTreeSet;

use crate::diff::common_name;
use crate::observers::levels;
use crate::part::{Kind, Names, Table, Titled, MAX_NAME};
use crate::proved::{Obstacle, Verdict};
use crate::{record, verdict, writer};

/// Each state's name or, where it has none, its number.
fn pieces(table: &Table) -> Vec<String> {
    (0..table.part.states).map(|s| writer::state(table, s)).collect()
}

fn numbers(table: &Table) -> Vec<String> {
    (0..table.part.states).map(|s| s.to_string()).collect()
}

/// The pairs of the states, in the order in which the joined part has them: `idle.sent`.
fn pairs(a: &[String], b: &[String]) -> Vec<String> {
    a.iter().flat_map(|of_a| b.iter().map(move |of_b| format!("{of_a}.{of_b}"))).collect()
}

/// The pairs of the names; of the numbers, where two pairs of names would make the same one, or one is too long for a name.
fn state_names(a: &Table, b: &Table) -> Vec<String> {
    let names = pairs(&pieces(a), &pieces(b));
    let different: BTreeSet<&String> = names.iter().collect();
    match different.len() == names.len() && names.iter().all(|name| name.len() <= MAX_NAME) {
        true => names,
        false => pairs(&numbers(a), &numbers(b)),
    }
}

/// The joined table: the part of a joined record, with names made of those of the two parts.
pub fn table(a: &Table, b: &Table, joined: &[u8]) -> Table {
    let part = record::read(joined).expect("a joined record is well-formed");
    let mut names = Names { states: state_names(a, b), ..Names::default() };
    for event in &part.events {
        let name = common_name(a.names.event(event.identifier), b.names.event(event.identifier));
        names.events.extend(name.map(|name| (event.identifier, name)));
    }
    Table { part, names }
}

/// The line of what stands in the way of two passing parts, as `replay` prints it.
pub fn line(obstacle: Obstacle) -> String {
    match obstacle {
        Obstacle::Clash(identifier) => format!("refused 10 identifier {identifier}"),
        Obstacle::Refused(number) => verdict::line(&Verdict::Refused(number)),
        Obstacle::Fails(side) => format!("the {} part does not pass", side.word()),
    }
}

/// Refusal 9, for one of the two parts.
fn observers(part: Titled) -> String {
    format!("The observers of {}: {}.", part.title, levels(&part.table.part))
}

/// Refusal 10, for one of the two parts: `In part 0 event 7 "send" is an input, rank 1 compartments none (0x40).`
fn shared_event(part: Titled, identifier: u16) -> String {
    let event = part.table.part.event(identifier).expect("a shared event is an event of both parts");
    let kind = match event.kind {
        Kind::Internal => "internal".to_string(),
        kind => format!("an {}", kind.word()),
    };
    let (named, level) = (part.table.event_words(identifier), event.level.text_and_byte());
    format!("In {} event {named} is {kind}, {level}.", part.title)
}

/// Refusal 11: the states and the events of both.
fn sizes([a, b]: [Titled; 2]) -> String {
    let events = a.table.part.events.iter().chain(&b.table.part.events).map(|event| event.identifier);
    let events: BTreeSet<u16> = events.collect();
    let (in_a, in_b) = (a.table.part.states, b.table.part.states);
    let states = format!("The states of {} and {} make {in_a} × {in_b} = {}", a.title, b.title, in_a * in_b);
    format!("{states}, and their events together are {}.", events.len())
}

/// Why two passing parts are not joined: the refusal, and what there is to it in the two.
pub fn sentences(obstacle: Obstacle, parts: [Titled; 2]) -> Vec<String> {
    let (number, mut of_both) = match obstacle {
        Obstacle::Clash(identifier) => (10, parts.map(|part| shared_event(part, identifier)).to_vec()),
        Obstacle::Refused(number @ 9) => (number, parts.map(observers).to_vec()),
        Obstacle::Refused(number @ 11) => (number, vec![sizes(parts)]),
        Obstacle::Refused(number) => (number, Vec::new()),
        Obstacle::Fails(_) => return Vec::new(),
    };
    // Of a part that is hooked to itself the same is told once.
    of_both.dedup();
    verdict::refusal(number, None).into_iter().chain(of_both).collect()
}

#[cfg(test)]
mod tests {
    use super::*;
    use crate::part::Event;
    use crate::proved::{join, Side};
    use crate::source::Source;
    use crate::{random, reader};

    const P: &str = "part
observer rank 0 compartments none
states off on
start off
classes {0 1}
event 1 \"flip\" input rank 1 compartments none
  0 -> 1
  1 -> 0
event 2 \"tell\" output rank 0 compartments none
  0 -> 0
  1 -> 1
";

    const Q: &str = "part
observer rank 0 compartments none
states here there gone
start here
classes {0 1 2}
event 2 \"hear\" input rank 0 compartments none
  0 -> 1
  1 -> 1
  2 -> 2
";

    fn read(text: &str) -> Source {
        Source::read(text.as_bytes()).unwrap()
    }

    /// Text with pieces replaced, each of which is there.
    fn with(text: &str, changes: &[(&str, &str)]) -> String {
        changes.iter().fold(text.to_string(), |text, (old, new)| {
            assert!(text.contains(old), "{old}");
            text.replacen(old, new, 1)
        })
    }

    /// The joined table of two texts.
    fn joined(a: &str, b: &str) -> Table {
        let (a, b) = (read(a), read(b));
        table(a.table.as_ref().unwrap(), b.table.as_ref().unwrap(), &join(&a.record, &b.record).unwrap())
    }

    /// The line and the sentences of what stands in the way.
    fn said(a: &str, b: &str) -> Vec<String> {
        said_of(&read(a), &read(b))
    }

    fn said_of(a: &Source, b: &Source) -> Vec<String> {
        let obstacle = join(&a.record, &b.record).unwrap_err();
        let parts = [("a.table", a), ("b.part", b)]
            .map(|(title, source)| Titled { title, table: source.table.as_ref().unwrap() });
        [vec![line(obstacle)], sentences(obstacle, parts)].concat()
    }

    /// State a × 3 + b is the pair of a and b, as the steps of the joined part show.
    #[test]
    fn names_of_the_pairs() {
        let table = joined(P, Q);
        assert_eq!(table.names.states, ["off.here", "off.there", "off.gone", "on.here", "on.there", "on.gone"]);
        assert_eq!((table.names.event(1), table.names.event(2)), (Some("flip"), Some("tell/hear")));
        let rows: Vec<Vec<u64>> = table.part.events.iter().map(|event| event.rows.clone()).collect();
        assert_eq!(rows, [[8, 16, 32, 1, 2, 4], [2, 2, 4, 16, 16, 32]]);
        let text = writer::write(&table);
        assert!(text.contains("\n  off.here -> off.there\n"), "{text}");
        assert_eq!(reader::read(text.as_bytes()), Ok(table));
    }

    #[test]
    fn parts_without_names() {
        let unnamed = |text: &str| with(text, &[("states off on\nstart off", "states 2\nstart 0")]);
        let other = |text: &str| with(text, &[("states here there gone\nstart here", "states 3\nstart 0")]);
        assert_eq!(joined(&unnamed(P), Q).names.states[..4], ["0.here", "0.there", "0.gone", "1.here"]);
        assert_eq!(joined(P, &other(Q)).names.states[..4], ["off.0", "off.1", "off.2", "on.0"]);
        let none = with(&unnamed(P), &[(" \"tell\"", "")]);
        let table = joined(&none, &other(Q));
        assert_eq!(table.names.states, ["0.0", "0.1", "0.2", "1.0", "1.1", "1.2"]);
        assert_eq!((table.names.event(1), table.names.event(2)), (Some("flip"), Some("hear")));
        assert_eq!(reader::read(writer::write(&table).as_bytes()), Ok(table));
    }

    /// A pair that would have a longer name than a name may be makes all names numbers.
    #[test]
    fn long_names() {
        let half = "x".repeat(50);
        for (name, first) in [(&half[1..], format!("{}.{half}", &half[1..])), (&half, "0.0".to_string())] {
            let a = with(P, &[("states off on\nstart off", &format!("states {name} on\nstart 0"))]);
            let b = with(Q, &[("states here there gone\nstart here", &format!("states {half} b c\nstart 0"))]);
            assert_eq!(joined(&a, &b).names.states[0], first);
        }
    }

    /// Pairs that would have one name make all names numbers; dots in one part alone do not.
    #[test]
    fn names_with_dots_in_both() {
        let a = with(P, &[("states off on\nstart off", "states x x.y\nstart x")]);
        let alike = with(Q, &[("states here there gone\nstart here", "states y.z z q\nstart z")]);
        assert_eq!(joined(&a, &alike).names.states, ["0.0", "0.1", "0.2", "1.0", "1.1", "1.2"]);
        let apart = with(Q, &[("states here there gone\nstart here", "states y.z w q\nstart w")]);
        assert_eq!(joined(&a, &apart).names.states[..4], ["x.y.z", "x.w", "x.q", "x.y.y.z"]);
        assert_eq!(joined(&a, Q).names.states[3], "x.y.here");
    }

    #[test]
    fn refusals_9_and_10() {
        let both = with(P, &[("event 1", "observer rank 3 compartments 0\nclasses {0} {1}\nevent 1")]);
        let nine = [
            "refused 9",
            "Refused: the observers of the two parts differ in number or level.",
            "The observers of a.table: rank 0 compartments none (0x00), rank 3 compartments 0 (0xC1).",
            "The observers of b.part: rank 0 compartments none (0x00).",
        ];
        assert_eq!(said(&both, Q), nine);
        let ten =
            "Refused: a shared event is not an output of one part and an input of the other, or its levels differ.";
        let inputs = [
            "refused 10 identifier 1",
            ten,
            "In a.table event 1 \"flip\" is an input, rank 1 compartments none (0x40).",
            "In b.part event 1 \"flip\" is an input, rank 1 compartments none (0x40).",
        ];
        assert_eq!(said(P, P), inputs);
        let internal = with(P, &[("output rank 0", "internal rank 2")]);
        let internal = said(&internal, Q);
        assert_eq!(internal[2], "In a.table event 2 \"tell\" is internal, rank 2 compartments none (0x80).");
        assert_eq!(internal[3], "In b.part event 2 \"hear\" is an input, rank 0 compartments none (0x00).");
        let level = with(P, &[("output rank 0", "output rank 1")]);
        assert_eq!(said(&level, Q)[2], "In a.table event 2 \"tell\" is an output, rank 1 compartments none (0x40).");
    }

    /// Of one part that is both, the same is told once.
    #[test]
    fn a_part_hooked_to_itself() {
        let p = read(P);
        let part = Titled { title: "part 0", table: p.table.as_ref().unwrap() };
        let obstacle = join(&p.record, &p.record).unwrap_err();
        assert_eq!(sentences(obstacle, [part, part]).len(), 2);
        assert_eq!(line(Obstacle::Fails(Side::Second)), "the second part does not pass");
    }

    #[test]
    fn refusal_11() {
        let many = |n: usize, first: u16, events: u16| {
            let mut part = random::full(n, 0);
            let event =
                |identifier| Event { identifier, kind: Kind::Input, level: crate::level::Level(0), rows: vec![1; n] };
            part.events = (first..first + events).map(event).collect();
            part.observers[0].classes = vec![0; n];
            Source::of_table(Table::unnamed(part))
        };
        let eleven = ["refused 11", "Refused: more than 64 states or 32 events together."];
        let make = "The states of a.table and b.part make";
        let states = said_of(&many(13, 0, 3), &many(5, 10, 2));
        assert_eq!(states[..2], eleven);
        assert_eq!(states[2..], [format!("{make} 13 × 5 = 65, and their events together are 5.")]);
        let events = said_of(&many(8, 0, 20), &many(8, 20, 13));
        assert_eq!(events[2..], [format!("{make} 8 × 8 = 64, and their events together are 33.")]);
        assert!(join(&many(8, 0, 20).record, &many(8, 20, 12).record).is_ok());
    }
}
