//! The differences of two parts, a line each. Names do not count, they only help to read; but where both tables have
//! the same names in another order, states are compared by name.

use std::collections::BTreeSet;

use crate::numbering;
use crate::part::{groups, states_of, Event, Observer, Part, Table};

/// Of more pairs of states than this, only the number of the others is told.
const MAX_PAIRS: usize = 10;

/// One of the two tables, and what it is called in the lines.
#[derive(Clone, Copy)]
struct Side<'a> {
    called: &'a str,
    table: &'a Table,
}

impl<'a> Side<'a> {
    fn part(self) -> &'a Part {
        &self.table.part
    }

    /// States with this table's names.
    fn states(self, list: &[usize]) -> String {
        let words: Vec<String> = list.iter().map(|&s| self.table.state_words(s)).collect();
        words.join(" ")
    }
}

/// Both names where they differ, else the one there is.
pub fn common_name(a: Option<&str>, b: Option<&str>) -> Option<String> {
    match (a, b) {
        (Some(a), Some(b)) if a != b => Some(format!("{a}/{b}")),
        (a, b) => a.or(b).map(str::to_string),
    }
}

/// `0`, or `0:idle` where the state has a name.
fn state(a: Side, b: Side, s: usize) -> String {
    match common_name(a.table.names.state(s), b.table.names.state(s)) {
        Some(name) => format!("{s}:{name}"),
        None => s.to_string(),
    }
}

/// `event 7`, or `event 7 "send"` where the event has a name.
pub fn event_title(a: &Table, b: &Table, identifier: u16) -> String {
    match common_name(a.names.event(identifier), b.names.event(identifier)) {
        Some(name) => format!("event {identifier} \"{name}\""),
        None => format!("event {identifier}"),
    }
}

/// How many states both parts have.
fn shared_states(a: Side, b: Side) -> usize {
    a.part().states.min(b.part().states)
}

fn state_counts(a: Side, b: Side, lines: &mut Vec<String>) {
    let (in_a, in_b) = (a.part().states, b.part().states);
    if in_a != in_b {
        let shared = match shared_states(a, b) {
            1 => "only state 0 is".to_string(),
            n => format!("only the states 0 to {} are", n - 1),
        };
        lines.push(format!("states: {} has {in_a}, {} has {in_b}; {shared} compared below", a.called, b.called));
    }
}

/// Has one of the parts several observers? Then each line about an observer says which one it is.
fn several(a: Side, b: Side) -> bool {
    a.part().has_several_observers() || b.part().has_several_observers()
}

/// The observers of A and B that are compared with one another: those of the same level or, where both parts have only
/// one, these two.
fn compared<'a>(a: Side<'a>, b: Side<'a>) -> Vec<(&'a Observer, &'a Observer)> {
    let (in_a, in_b) = (&a.part().observers, &b.part().observers);
    if !several(a, b) {
        return vec![(&in_a[0], &in_b[0])];
    }
    in_a.iter().filter_map(|one| Some((one, b.part().observer(one.level)?))).collect()
}

/// `1 class`, `2 classes`
fn class_count(class: &str, column: &[u8]) -> String {
    match groups(column).len() {
        1 => format!("1 {class}"),
        count => format!("{count} {class}es"),
    }
}

/// The observers of `one` whose level no observer of `other` has.
fn own_observers(one: Side, other: Side, lines: &mut Vec<String>) {
    for observer in one.part().observers.iter().filter(|observer| other.part().observer(observer.level).is_none()) {
        let mut counts = vec![class_count("class", &observer.classes)];
        counts.extend(observer.fine.iter().map(|fine| class_count("fine class", fine)));
        let level = observer.level.text_and_byte();
        lines.push(format!("observer {level}: only in {}: {}", one.called, counts.join(", ")));
    }
}

fn observers(a: Side, b: Side, lines: &mut Vec<String>) {
    if several(a, b) {
        own_observers(a, b, lines);
        own_observers(b, a, lines);
        return;
    }
    let (in_a, in_b) = (a.part().observers[0].level, b.part().observers[0].level);
    if in_a != in_b {
        let (level_a, level_b) = (in_a.text_and_byte(), in_b.text_and_byte());
        lines.push(format!("observer: {} {level_a}, {} {level_b}", a.called, b.called));
    }
}

fn starts(a: Side, b: Side, lines: &mut Vec<String>) {
    let (in_a, in_b) = (a.part().start, b.part().start);
    if in_a != in_b {
        let (state_a, state_b) = (a.table.state_words(in_a), b.table.state_words(in_b));
        lines.push(format!("start: {} {state_a}, {} {state_b}", a.called, b.called));
    }
}

/// The classes of `one`, a column of its table, that `other` does not have.
fn own_classes(side: Side, one: &[u8], other: &[u8]) -> Option<String> {
    let others = groups(other);
    let mut own = groups(one);
    own.retain(|group| !others.contains(group));
    let words: Vec<String> = own.iter().map(|group| side.table.states_words(group)).collect();
    (!words.is_empty()).then(|| words.join(" "))
}

/// The pairs of states that `one` puts together and `other` does not.
fn pairs(one: &[u8], other: &[u8]) -> Vec<[usize; 2]> {
    let mut pairs = Vec::new();
    for s in 0..one.len() {
        for t in s + 1..one.len() {
            if one[s] == one[t] && other[s] != other[t] {
                pairs.push([s, t]);
            }
        }
    }
    pairs
}

/// Some pairs in words: the first ones, then how many more there are.
fn pair_words(a: Side, b: Side, pairs: &[[usize; 2]]) -> Option<String> {
    let shown = pairs.iter().take(MAX_PAIRS);
    let mut words: Vec<String> = shown.map(|&[s, t]| format!("{} with {}", state(a, b, s), state(a, b, t))).collect();
    if pairs.len() > MAX_PAIRS {
        words.push(format!("and {} more", pairs.len() - MAX_PAIRS));
    }
    (!words.is_empty()).then(|| words.join(", "))
}

/// A grouping of A and one of B, of the states that both have; `title` begins each line.
fn grouping(a: (Side, &[u8]), b: (Side, &[u8]), title: &str, lines: &mut Vec<String>) {
    let n = shared_states(a.0, b.0);
    let (in_a, in_b) = (&a.1[..n], &b.1[..n]);
    let (called_a, called_b) = (a.0.called, b.0.called);
    let differences = [
        (format!("classes only in {called_a}"), own_classes(a.0, in_a, in_b)),
        (format!("classes only in {called_b}"), own_classes(b.0, in_b, in_a)),
        (format!("together in {called_a}, apart in {called_b}"), pair_words(a.0, b.0, &pairs(in_a, in_b))),
        (format!("together in {called_b}, apart in {called_a}"), pair_words(a.0, b.0, &pairs(in_b, in_a))),
    ];
    for (which, words) in differences {
        lines.extend(words.map(|words| format!("{title}: {which}: {words}")));
    }
}

/// The fine groupings, where a part is limited; that only one of the parts is so is a line of its own.
fn fine_grouping(a: (Side, &Observer), b: (Side, &Observer), title: &str, lines: &mut Vec<String>) {
    let only = |side: Side, fine| format!("{title}: only in {}: {}", side.called, class_count("class", fine));
    match (&a.1.fine, &b.1.fine) {
        (Some(in_a), Some(in_b)) => grouping((a.0, in_a), (b.0, in_b), title, lines),
        (Some(in_a), None) => lines.push(only(a.0, in_a)),
        (None, Some(in_b)) => lines.push(only(b.0, in_b)),
        (None, None) => {}
    }
}

fn groupings(a: Side, b: Side, lines: &mut Vec<String>) {
    for (in_a, in_b) in compared(a, b) {
        let title = match several(a, b) {
            true => format!("grouping for the observer {}", in_a.level.text_and_byte()),
            false => "grouping".to_string(),
        };
        grouping((a, &in_a.classes), (b, &in_b.classes), &title, lines);
        fine_grouping((a, in_a), (b, in_b), &format!("fine {title}"), lines);
    }
}

fn only_in(side: Side, title: &str, event: &Event, lines: &mut Vec<String>) {
    let (kind, level) = (event.kind.word(), event.level.text_and_byte());
    let steps = match event.step_count() {
        1 => "1 step".to_string(),
        count => format!("{count} steps"),
    };
    lines.push(format!("{title}: only in {}: {kind}, {level}, {steps}", side.called));
}

/// `only A leads to 1 2`, or that there is no step at all; nothing where the other row has them all.
fn own_steps(side: Side, row: u64, other: u64) -> Option<String> {
    if row == 0 {
        return Some(format!("{} has no step", side.called));
    }
    let own = states_of(row & !other);
    (!own.is_empty()).then(|| format!("only {} leads to {}", side.called, side.states(&own)))
}

fn steps(a: (Side, &Event), b: (Side, &Event), title: &str, lines: &mut Vec<String>) {
    for (s, (&in_a, &in_b)) in a.1.rows.iter().zip(&b.1.rows).enumerate() {
        if in_a != in_b {
            let words = [own_steps(a.0, in_a, in_b), own_steps(b.0, in_b, in_a)];
            let words: Vec<String> = words.into_iter().flatten().collect();
            lines.push(format!("{title}, from {}: {}", state(a.0, b.0, s), words.join("; ")));
        }
    }
}

fn both(a: (Side, &Event), b: (Side, &Event), title: &str, lines: &mut Vec<String>) {
    let (in_a, in_b) = (a.1, b.1);
    let (called_a, called_b) = (a.0.called, b.0.called);
    if in_a.kind != in_b.kind {
        lines.push(format!("{title}: kind: {called_a} {}, {called_b} {}", in_a.kind.word(), in_b.kind.word()));
    }
    if in_a.level != in_b.level {
        let (level_a, level_b) = (in_a.level.text_and_byte(), in_b.level.text_and_byte());
        lines.push(format!("{title}: level: {called_a} {level_a}, {called_b} {level_b}"));
    }
    steps(a, b, title, lines);
}

fn events(a: Side, b: Side, lines: &mut Vec<String>) {
    let all: BTreeSet<u16> = a.part().events.iter().chain(&b.part().events).map(|event| event.identifier).collect();
    for identifier in all {
        let title = event_title(a.table, b.table, identifier);
        match (a.part().event(identifier), b.part().event(identifier)) {
            (Some(in_a), Some(in_b)) => both((a, in_a), (b, in_b), &title, lines),
            (Some(in_a), None) => only_in(a, &title, in_a, lines),
            (None, Some(in_b)) => only_in(b, &title, in_b, lines),
            (None, None) => {}
        }
    }
}

/// What is compared: all, or all but the observers and their groupings.
#[derive(Clone, Copy, PartialEq, Eq)]
enum Scope {
    All,
    WithoutObservers,
}

/// The differences by the numbers of the states.
fn by_number(a: Side, b: Side, scope: Scope) -> Vec<String> {
    let mut lines = Vec::new();
    state_counts(a, b, &mut lines);
    if scope == Scope::All {
        observers(a, b, &mut lines);
    }
    starts(a, b, &mut lines);
    if scope == Scope::All {
        groupings(a, b, &mut lines);
    }
    events(a, b, &mut lines);
    lines
}

/// Where the states have the same names in another order: state i of A is state `from[i]` of B.
fn in_another_order(a: Side, b: Side) -> Option<Vec<usize>> {
    let from = numbering::by_names(&a.table.names, &b.table.names)?;
    from.iter().enumerate().any(|(s, &in_b)| s != in_b).then_some(from)
}

/// The states that have other numbers in B; state i of A is state `from[i]` there.
fn numbering_line(a: Side, b: Side, from: &[usize]) -> String {
    let moved = from.iter().enumerate().filter(|(s, in_b)| s != *in_b);
    let words: Vec<String> =
        moved.map(|(s, in_b)| format!("{} is {in_b} in {}", a.table.state_words(s), b.called)).collect();
    format!("numbering: the states have other numbers in {}: {}", b.called, words.join(", "))
}

/// What there is to tell of two tables.
pub struct Comparison {
    /// By the numbers of the states nothing differs.
    pub same: bool,
    /// Where the states have the same names in another order, which.
    numbering: Option<String>,
    /// The differences, by name where there is a numbering, with the numbers of A.
    lines: Vec<String>,
}

impl Comparison {
    pub fn told(self) -> Vec<String> {
        self.numbering.into_iter().chain(self.lines).collect()
    }
}

fn compare(a: Side, b: Side, scope: Scope) -> Comparison {
    let mut lines = by_number(a, b, scope);
    let same = lines.is_empty();
    let from = in_another_order(a, b);
    if let (Some(from), false) = (&from, same) {
        let renumbered = numbering::table(b.table, from);
        lines = by_number(a, Side { table: &renumbered, ..b }, scope);
    }
    Comparison { same, numbering: from.map(|from| numbering_line(a, b, &from)), lines }
}

/// The differences of states, start, events and steps alone, of two tables that are called so; none exactly if only the
/// observers and their groupings may differ, and the names that both have stand in the same order.
pub fn without_observers(a: (&str, &Table), b: (&str, &Table)) -> Vec<String> {
    let [a, b] = [a, b].map(|(called, table)| Side { called, table });
    compare(a, b, Scope::WithoutObservers).told()
}

/// Compares two tables, called A and B; they are the same exactly if their parts are, as names make no difference.
pub fn differences(a: &Table, b: &Table) -> Comparison {
    let [a, b] = [("A", a), ("B", b)].map(|(called, table)| Side { called, table });
    let mut comparison = compare(a, b, Scope::All);
    if !comparison.same && comparison.lines.is_empty() {
        comparison.lines.push("the same part but for the numbering of the states".to_string());
    }
    comparison
}

#[cfg(test)]
mod tests {
    use super::*;
    use crate::level::Level;
    use crate::random::{self, Rng};
    use crate::reader;

    const A: &str = "part
observer rank 1 compartments 0 3
states idle sent full
start idle
classes {idle sent} {full}
event 7 \"send\" input rank 2 compartments none
  idle -> sent full
  sent -> sent
event 9 output rank 0 compartments none
event 12 internal rank 3 compartments 1 5
  full -> idle
";

    fn table(text: &str) -> Table {
        reader::read(text.as_bytes()).unwrap()
    }

    /// The lines that are told, some exactly where the parts are not the same.
    fn lines_of(a: &Table, b: &Table) -> Vec<String> {
        let comparison = differences(a, b);
        let same = comparison.same;
        let told = comparison.told();
        assert_eq!((same, told.is_empty()), (a.part == b.part, same), "{told:?}");
        told
    }

    /// The differences of A and of A with one piece of its text replaced.
    fn changed(old: &str, new: &str) -> Vec<String> {
        assert!(A.contains(old), "{old}");
        lines_of(&table(A), &table(&A.replacen(old, new, 1)))
    }

    #[test]
    fn no_difference() {
        assert_eq!(changed("{idle sent} {full}", "{2} {1 0}"), [""; 0]);
        assert_eq!(changed("\"send\" ", ""), [""; 0]);
        assert_eq!(changed("\"send\" ", "\"put\" "), [""; 0]);
    }

    #[test]
    fn the_head_lines() {
        let observer = "observer: A rank 1 compartments 0 3 (0x49), B rank 2 compartments none (0x80)";
        assert_eq!(changed("rank 1 compartments 0 3", "rank 2 compartments none"), [observer]);
        assert_eq!(changed("start idle", "start full"), ["start: A 0:idle, B 2:full"]);
    }

    #[test]
    fn the_grouping() {
        let expected = [
            "grouping: classes only in A: {0:idle 1:sent} {2:full}",
            "grouping: classes only in B: {0:idle} {1:sent 2:full}",
            "grouping: together in A, apart in B: 0:idle with 1:sent",
            "grouping: together in B, apart in A: 1:sent with 2:full",
        ];
        assert_eq!(changed("{idle sent} {full}", "{idle} {sent full}"), expected);
    }

    #[test]
    fn kinds_levels_and_steps() {
        assert_eq!(changed("input", "output"), ["event 7 \"send\": kind: A input, B output"]);
        let level = "event 9: level: A rank 0 compartments none (0x00), B rank 1 compartments 5 (0x60)";
        assert_eq!(changed("rank 0 compartments none", "rank 1 compartments 5"), [level]);
        let both = "event 7 \"send\", from 0:idle: only A leads to 1:sent; only B leads to 0:idle";
        assert_eq!(changed("idle -> sent full", "idle -> idle full"), [both]);
        let more = "event 7 \"send\", from 1:sent: only B leads to 2:full";
        assert_eq!(changed("sent -> sent\n", "sent -> sent full\n"), [more]);
        let none = "event 7 \"send\", from 1:sent: only A leads to 1:sent; B has no step";
        assert_eq!(changed("  sent -> sent\n", ""), [none]);
    }

    #[test]
    fn events_of_one_part_only() {
        let expected = [
            "event 9: only in A: output, rank 0 compartments none (0x00), 0 steps",
            "event 10: only in B: output, rank 0 compartments none (0x00), 0 steps",
        ];
        assert_eq!(changed("event 9", "event 10"), expected);
        let one = changed("event 12 internal rank 3 compartments 1 5\n  full -> idle\n", "");
        assert_eq!(one, ["event 12: only in A: internal, rank 3 compartments 1 5 (0xE2), 1 step"]);
    }

    #[test]
    fn other_names() {
        let renamed =
            A.replace("full", "busy").replace("\"send\"", "\"put\"").replace("idle -> sent busy", "idle -> sent");
        let expected = ["event 7 \"send/put\", from 0:idle: only A leads to 2:full"];
        assert_eq!(lines_of(&table(A), &table(&renamed)), expected);
        let renamed =
            renamed.replace("{idle sent} {busy}", "{idle} {sent} {busy}").replace("idle -> sent", "idle -> sent busy");
        let lines = lines_of(&table(A), &table(&renamed));
        assert_eq!(lines[2], "grouping: together in A, apart in B: 0:idle with 1:sent");
        let renamed = renamed.replace("sent", "gone");
        let lines = lines_of(&table(A), &table(&renamed));
        assert_eq!(lines[2], "grouping: together in A, apart in B: 0:idle with 1:sent/gone");
    }

    /// What is said of A and of a table with the same names in another order and one piece of its text replaced.
    fn turned(old: &str, new: &str) -> Vec<String> {
        let text = A.replace("states idle sent full", "states full idle sent");
        assert!(text.contains(old), "{old}");
        lines_of(&table(A), &table(&text.replacen(old, new, 1)))
    }

    const NUMBERING: &str =
        "numbering: the states have other numbers in B: 0:idle is 1 in B, 1:sent is 2 in B, 2:full is 0 in B";

    #[test]
    fn the_same_names_in_another_order() {
        assert_eq!(turned("part", "part"), [NUMBERING, "the same part but for the numbering of the states"]);
        let swapped = table(&A.replace("states idle sent full", "states idle full sent"));
        let numbering = "numbering: the states have other numbers in B: 1:sent is 2 in B, 2:full is 1 in B";
        assert_eq!(lines_of(&table(A), &swapped)[0], numbering);
        let other = "event 7 \"send\", from 1:sent: only A leads to 1:sent; only B leads to 2:full";
        assert_eq!(turned("sent -> sent", "sent -> full"), [NUMBERING, other]);
        assert_eq!(turned("start idle", "start 0"), [NUMBERING, "start: A 0:idle, B 2:full"]);
        let grouping = "grouping: classes only in B: {0:idle} {1:sent}";
        assert_eq!(turned("{idle sent} {full}", "{idle} {sent} {full}")[2], grouping);
    }

    /// Another set of names, and the names of one table alone, are no numbering.
    #[test]
    fn no_numbering() {
        let lines = lines_of(&table(A), &table(&A.replace("full", "busy").replace("start idle", "start sent")));
        assert_eq!(lines, ["start: A 0:idle, B 1:sent"]);
        let turned = A.replace("states idle sent full", "states full idle sent");
        let unnamed = Table::unnamed(table(&turned).part);
        let lines = lines_of(&table(A), &unnamed);
        assert_eq!(lines[0], "start: A 0:idle, B 1");
    }

    /// The same record with its names in another order is the same part; the numbering is told all the same, and where
    /// groupings are put together it is a difference.
    #[test]
    fn the_same_part_with_its_names_in_another_order() {
        let [a, b] = ["a b c", "a c b"].map(|names| {
            table(&format!("part\nobserver rank 0 compartments none\nstates {names}\nstart 0\nclasses {{0 1}} {{2}}\n"))
        });
        let numbering = ["numbering: the states have other numbers in B: 1:b is 2 in B, 2:c is 1 in B"];
        let comparison = differences(&a, &b);
        assert!(comparison.same && a.part == b.part);
        assert_eq!(comparison.told(), numbering);
        assert_eq!(without_observers(("A", &a), ("B", &b)), numbering);
    }

    #[test]
    fn all_but_the_observers() {
        let lines = |old: &str, new: &str| {
            assert!(A.contains(old), "{old}");
            without_observers(("A", &table(A)), ("C", &table(&A.replacen(old, new, 1))))
        };
        assert_eq!(lines("rank 1 compartments 0 3", "rank 2 compartments none"), [""; 0]);
        assert_eq!(lines("{idle sent} {full}", "{idle} {sent} {full}"), [""; 0]);
        assert_eq!(lines("{idle sent} {full}", "{idle sent} {full}\nfine {idle} {sent} {full}"), [""; 0]);
        assert_eq!(lines("start idle", "start full"), ["start: A 0:idle, C 2:full"]);
        let level = "event 9: level: A rank 0 compartments none (0x00), C rank 1 compartments 5 (0x60)";
        assert_eq!(lines("rank 0 compartments none", "rank 1 compartments 5"), [level]);
        let none = "event 7 \"send\", from 1:sent: only A leads to 1:sent; C has no step";
        assert_eq!(lines("  sent -> sent\n", ""), [none]);
        let only = "event 10: only in C: output, rank 0 compartments none (0x00), 0 steps";
        assert_eq!(lines("event 9", "event 10")[1], only);
        let turned = lines("states idle sent full", "states full idle sent");
        assert_eq!(turned, [NUMBERING.replace('B', "C")]);
        let one = "part\nobserver rank 0 compartments none\nstates 1\nstart 0\nclasses {0}\n";
        let fewer = without_observers(("B", &table(A)), ("D", &table(one)));
        assert_eq!(fewer[0], "states: B has 3, D has 1; only state 0 is compared below");
    }

    #[test]
    fn another_number_of_states_comes_first() {
        let fewer = "part\nobserver rank 0 compartments none\nstates 2\nstart 1\nclasses {0} {1}\n\
                     event 7 input rank 2 compartments none\n0 -> 1\n1 -> 1\n";
        let lines = lines_of(&table(A), &table(fewer));
        assert_eq!(lines[0], "states: A has 3, B has 2; only the states 0 to 1 are compared below");
        assert_eq!(lines[1], "observer: A rank 1 compartments 0 3 (0x49), B rank 0 compartments none (0x00)");
        assert_eq!(lines[2], "start: A 0:idle, B 1");
        assert_eq!(lines[3], "grouping: classes only in A: {0:idle 1:sent}");
        assert_eq!(lines[4], "grouping: classes only in B: {0} {1}");
        assert_eq!(lines[5], "grouping: together in A, apart in B: 0:idle with 1:sent");
        assert_eq!(lines[6], "event 7 \"send\", from 0:idle: only A leads to 2:full");
        assert_eq!(lines[7], "event 9: only in A: output, rank 0 compartments none (0x00), 0 steps");
        assert_eq!(lines.len(), 9);
    }

    #[test]
    fn one_shared_state() {
        let one = "part\nobserver rank 1 compartments 0 3\nstates 1\nstart 0\nclasses {0}\n";
        let lines = lines_of(&table(one), &table(A));
        assert_eq!(lines[0], "states: A has 1, B has 3; only state 0 is compared below");
        assert_eq!(lines[1], "event 7 \"send\": only in B: input, rank 2 compartments none (0x80), 3 steps");
    }

    #[test]
    fn many_pairs_are_counted() {
        let mut together = random::full(64, 0);
        let apart = Table::unnamed(together.clone());
        together.observers[0].classes = vec![0; 64];
        let lines = lines_of(&Table::unnamed(together), &apart);
        let pairs = lines.last().unwrap();
        assert!(pairs.starts_with("grouping: together in A, apart in B: 0 with 1, 0 with 2, "), "{pairs}");
        assert!(pairs.ends_with(", 0 with 10, and 2006 more"), "{pairs}");
    }

    /// A for two more observers: the first sees nothing of the states, the last knows them.
    fn watched() -> String {
        let first = "observer rank 1 compartments none\nstates idle sent full\nstart idle\nclasses {0 1 2}\n";
        let last = "observer rank 2 compartments none\nclasses {0} {1} {2}\nevent 7";
        let text = A.replace("states idle sent full\nstart idle\n", "").replace("event 7", last);
        text.replace("part\n", &format!("part\n{first}"))
    }

    /// The differences of the part with three observers and of it with one piece of its text replaced.
    fn changed_watched(old: &str, new: &str) -> Vec<String> {
        assert!(watched().contains(old), "{old}");
        lines_of(&table(&watched()), &table(&watched().replacen(old, new, 1)))
    }

    #[test]
    fn observers_of_one_part_only() {
        let expected = [
            "observer rank 1 compartments none (0x40): only in B: 1 class",
            "observer rank 2 compartments none (0x80): only in B: 3 classes",
        ];
        assert_eq!(lines_of(&table(A), &table(&watched())), expected);
        let expected = [
            "observer rank 1 compartments 0 3 (0x49): only in A: 2 classes",
            "observer rank 1 compartments 3 (0x48): only in B: 2 classes",
        ];
        assert_eq!(changed_watched("compartments 0 3", "compartments 3"), expected);
        assert_eq!(changed_watched("{0} {1} {2}", "{2} {1} {0}"), [""; 0]);
    }

    /// The observer is named, also where one of the parts has only this one.
    #[test]
    fn the_grouping_of_one_of_several_observers() {
        let title = "grouping for the observer rank 1 compartments 0 3 (0x49)";
        let expected = [
            format!("{title}: classes only in A: {{0:idle 1:sent}} {{2:full}}"),
            format!("{title}: classes only in B: {{0:idle}} {{1:sent 2:full}}"),
            format!("{title}: together in A, apart in B: 0:idle with 1:sent"),
            format!("{title}: together in B, apart in A: 1:sent with 2:full"),
        ];
        assert_eq!(changed_watched("{idle sent} {full}", "{idle} {sent full}"), expected);
        let one = table(&A.replace("{idle sent} {full}", "{idle} {sent full}"));
        let lines = lines_of(&table(&watched()), &one);
        assert_eq!(lines[0], "observer rank 1 compartments none (0x40): only in A: 1 class");
        assert_eq!(lines[1], "observer rank 2 compartments none (0x80): only in A: 3 classes");
        assert_eq!(lines[2..], expected);
    }

    #[test]
    fn other_differences_of_parts_with_several_observers() {
        assert_eq!(changed_watched("start idle", "start full"), ["start: A 0:idle, B 2:full"]);
        assert_eq!(changed_watched("input", "output"), ["event 7 \"send\": kind: A input, B output"]);
    }

    /// A with fine classes.
    fn limited(fine: &str) -> Table {
        table(&A.replace("{full}\n", &format!("{{full}}\nfine {fine}\n")))
    }

    /// Told also where the fine classes are the classes.
    #[test]
    fn fine_classes_of_one_part_only() {
        let line = |side, count| format!("fine grouping: only in {side}: {count} classes");
        assert_eq!(lines_of(&limited("{0} {1} {2}"), &table(A)), [line("A", 3)]);
        assert_eq!(lines_of(&table(A), &limited("{0} {1} {2}")), [line("B", 3)]);
        assert_eq!(lines_of(&table(A), &limited("{0 1} {2}")), [line("B", 2)]);
        assert_eq!(lines_of(&limited("{0} {1} {2}"), &limited("{2} {1} {0}")), [""; 0]);
    }

    #[test]
    fn the_fine_grouping() {
        let expected = [
            "fine grouping: classes only in A: {0:idle 1:sent}",
            "fine grouping: classes only in B: {0:idle} {1:sent}",
            "fine grouping: together in A, apart in B: 0:idle with 1:sent",
        ];
        assert_eq!(lines_of(&limited("{0 1} {2}"), &limited("{0} {1} {2}")), expected);
        let coarser = table(&A.replace("{idle sent} {full}\n", "{idle sent full}\nfine {0 1} {2}\n"));
        let lines = lines_of(&limited("{0 1} {2}"), &coarser);
        assert_eq!(lines[0], "grouping: classes only in A: {0:idle 1:sent} {2:full}");
        assert_eq!(lines[1], "grouping: classes only in B: {0:idle 1:sent 2:full}");
        assert!(lines.iter().all(|line| line.starts_with("grouping: ")), "{lines:?}");
    }

    /// Beside a part with several observers the fine classes are told with their observer.
    #[test]
    fn fine_classes_and_several_observers() {
        let lines = lines_of(&limited("{0} {1} {2}"), &table(&watched()));
        assert_eq!(lines[2], "fine grouping for the observer rank 1 compartments 0 3 (0x49): only in A: 3 classes");
        assert_eq!(lines.len(), 3);
        let other = watched().replace("compartments 0 3", "compartments 3");
        let lines = lines_of(&limited("{0} {1} {2}"), &table(&other));
        assert_eq!(lines[0], "observer rank 1 compartments 0 3 (0x49): only in A: 2 classes, 3 fine classes");
        assert!(lines.iter().all(|line| !line.starts_with("fine grouping")), "{lines:?}");
    }

    /// Changes one bit of a level, but not where it would then be mislabelled.
    fn relabel(rng: &mut Rng, level: &mut Level) {
        let changed = Level(level.0 ^ 1 << rng.below(8));
        if !changed.is_mislabelled() {
            *level = changed;
        }
    }

    /// Changes an observer's level, but not where the levels would then no longer rise.
    fn change_level(rng: &mut Rng, observers: &mut [Observer], i: usize) {
        let before = observers[i].level;
        relabel(rng, &mut observers[i].level);
        if !observers.windows(2).all(|two| two[0].level.0 < two[1].level.0) {
            observers[i].level = before;
        }
    }

    /// Changes the class of one state and, where there are fine classes, of all states of its own.
    fn change_class(rng: &mut Rng, observer: &mut Observer) {
        let n = observer.classes.len();
        let mut numbers: Vec<usize> = observer.classes.iter().map(|&class| class as usize).collect();
        let s = rng.below(n);
        let class = rng.below(n);
        for u in (0..n).filter(|&u| u == s || observer.fine.is_some() && observer.same_fine_class(s, u)) {
            numbers[u] = class;
        }
        observer.classes = crate::part::by_first_appearance(&numbers);
    }

    /// Takes the fine classes away, makes them the classes, or puts a state into the fine class of another of its class.
    fn change_fine(rng: &mut Rng, observer: &mut Observer) {
        let (s, u) = (rng.below(observer.classes.len()), rng.below(observer.classes.len()));
        observer.fine = match observer.fine.take() {
            Some(fine) if rng.below(2) == 0 && observer.same_class(s, u) => {
                let mut numbers: Vec<usize> = fine.iter().map(|&number| number as usize).collect();
                numbers[s] = numbers[u];
                Some(crate::part::by_first_appearance(&numbers))
            }
            Some(_) => None,
            None => Some(observer.classes.clone()),
        };
    }

    /// Changes one field of a part at random, perhaps to what it was.
    fn change(rng: &mut Rng, part: &mut Part) {
        let n = part.states;
        let e = rng.below(part.events.len().max(1));
        let i = rng.below(part.observers.len());
        match (rng.below(8), part.events.get_mut(e)) {
            (0, _) => change_level(rng, &mut part.observers, i),
            (1, _) => part.start = rng.below(n),
            (2, _) => change_class(rng, &mut part.observers[i]),
            (3, Some(event)) => event.rows[rng.below(n)] ^= 1 << rng.below(n),
            (4, Some(event)) => event.kind = rng.pick(&crate::part::Kind::ALL),
            (5, Some(_)) => drop(part.events.remove(e)),
            (6, _) if part.observers.len() > 1 => drop(part.observers.remove(i)),
            (7, _) if part.observers.len() == 1 => change_fine(rng, &mut part.observers[0]),
            (_, Some(event)) => relabel(rng, &mut event.level),
            (_, None) => {}
        }
    }

    /// There is a line exactly if the parts, and with them their records, differ.
    #[test]
    fn lines_exactly_for_different_parts() {
        let mut rng = Rng::new(3);
        let (mut same, mut different) = (0, 0);
        for _ in 0..3000 {
            let a = random::any(&mut rng);
            let mut b = a.clone();
            change(&mut rng, &mut b);
            let lines = lines_of(&Table::unnamed(a.clone()), &Table::unnamed(b.clone()));
            assert_eq!(lines.is_empty(), a == b);
            assert_eq!(a == b, crate::record::write(&a) == crate::record::write(&b));
            match a == b {
                true => same += 1,
                false => different += 1,
            }
        }
        assert!(same > 100 && different > 1000, "{same} {different}");
    }

    #[test]
    fn any_two_parts_can_be_compared() {
        let mut rng = Rng::new(4);
        for _ in 0..500 {
            let (a, b) = (random::any(&mut rng), random::any(&mut rng));
            lines_of(&Table::unnamed(a.clone()), &Table::unnamed(b.clone()));
        }
    }
}
