//! Categories of records by their kinds and their lists of observers. Every call that takes a record has them.

use crate::category::Names;
use crate::check::{self, break_for, Break, Verdict};
use crate::record::{
    applies, column, fields, incomparable, is_mislabelled, is_misnumbered, longest, observer_levels, read, u16_at,
    u32_at, First, Form, Layout, Part, FEWEST_LISTED, FIRST_AT, FORMS, HEADER, KIND_AT, MOST_LISTED,
};
use crate::wrong_list::{readings_that_differ, READINGS};

/// The wrong readings are tried on parts of so many states at most; on larger ones they would take too long.
const MOST_STATES_MISREAD: usize = 24;

/// Categories of large parts, of which fewer must come up: they take long.
pub const LARGEST: &str = "passes, 4 observers, 64 states and 32 events";
pub const LARGEST_BROKEN: &str = "breaks at the last of 4 observers, 64 states and 32 events";

/// The least number of cases of a category, where most of them have that least number.
pub fn least_of(name: &str, least: usize) -> usize {
    if name == LARGEST || name == LARGEST_BROKEN {
        least.div_ceil(10)
    } else {
        least
    }
}

/// Every number of observers that a list may have.
pub fn counts() -> Vec<usize> {
    (FEWEST_LISTED..=MOST_LISTED).collect()
}

/// Counts out of range that come up by themselves.
pub const WRONG_COUNTS: [usize; 4] = [0, 1, 5, 255];

/// Kinds that are not described. Some have a low byte that is a kind described.
pub const OTHER_KINDS: [(&str, fn(u16) -> bool); 7] = [
    ("kind 0", |kind| kind == 0),
    ("kind 4", |kind| kind == 4),
    ("kind from 5 to 255", |kind| (5..256).contains(&kind)),
    ("kind 257", |kind| kind == 257),
    ("kind 258", |kind| kind == 258),
    ("kind 259", |kind| kind == 259),
    ("another kind above 255", |kind| kind > 255 && !(257..=259).contains(&kind)),
];

/// Every category.
pub fn names() -> Vec<String> {
    let mut names = Vec::new();
    for (kind, _) in OTHER_KINDS {
        for form in FORMS {
            names.push(format!("refused 3, {}, passes as kind {}", kind, form.kind));
        }
    }
    for form in FORMS {
        for other in FORMS.iter().filter(|other| other.kind != form.kind) {
            names.push(length_name(form.kind, other.kind));
        }
    }
    for name in [
        "refused 4, kind 2",
        "refused 4, kind 2, count out of range too",
        "refused 5, kind 2",
        "refused 5, kind 2, the length is that of another count in range",
        "refused 5, kind 2, count out of range too",
        "refused 5, kind 2, observers that do not rise too",
        "refused 20, count from 6 to 254",
        "refused 20, equal observers",
        "refused 20, falling observers",
        "refused 20, longer than the longest record",
        "refused 20, otherwise passes",
        "refused 20, otherwise breaks",
        "refused 20, misnumbered too",
        "refused 20, mislabelled too",
        "refused 6, each column",
        "refused 7, kind 2",
        "refused 16, kind 2, events alone",
        "refused 8, kind 2",
        "passes, several observers, columns differ",
        "passes, several observers, numbers of classes differ",
        "passes, several observers, two of them incomparable",
        "passes, several observers, one of them 0xff",
        "passes, several observers, an input low for one and high for another",
        "passes, several observers, an output low for one and high for another",
        "passes, 4 observers and 1 state",
        "passes, 4 observers and 0 events",
        LARGEST,
        LARGEST_BROKEN,
        "breaks rule 1, several observers",
        "breaks at the first observer alone",
        "breaks at the first observer and all others",
        "breaks, one observer passes and two break different rules",
        "breaks, a later observer breaks a lower rule",
        "breaks, a later observer breaks a higher rule",
        "breaks, a later observer breaks the same rule at an earlier place",
        "breaks, a later observer breaks the same rule at a later place",
    ] {
        names.push(name.to_string());
    }
    for count in WRONG_COUNTS {
        names.push(format!("refused 5, kind 2, count {}", count));
        names.push(format!("refused 20, count {}", count));
    }
    for count in counts() {
        names.push(format!("passes, {} observers", count));
        for i in 1..=count {
            names.push(format!("refused 6, column {} of {} alone", i, count));
            names.push(format!("breaks at observer {} of {}", i, count));
        }
        for i in 1..count {
            names.push(order_name("equal", i, count));
            names.push(order_name("falling", i, count));
        }
        for places in mislabelled_places(count) {
            names.push(mislabelled_name(&places, count));
        }
    }
    for rule in 2..=5 {
        for i in 1..=MOST_LISTED {
            names.push(format!("breaks rule {} at observer {}", rule, i));
        }
    }
    for reading in READINGS {
        names.push(wrong_reading_name(reading.name));
    }
    names
}

/// Observers number i - 1 and i do not rise, all others do.
fn order_name(how: &str, i: usize, count: usize) -> String {
    format!("refused 20, {} observers, {} and {} of {} alone", how, i, i + 1, count)
}

/// Which observers can have bad levels at a time. Only 0x00 is good and below a bad level, so they are the first ones, or
/// those behind a first one.
pub fn mislabelled_places(count: usize) -> Vec<Vec<usize>> {
    let mut places = Vec::new();
    for from in 0..2 {
        for behind in from + 1..=count {
            places.push((from..behind).collect());
        }
    }
    places
}

fn mislabelled_name(places: &[usize], count: usize) -> String {
    let numbers: Vec<String> = places.iter().map(|i| (i + 1).to_string()).collect();
    format!("refused 16, kind 2, observers {} of {}", numbers.join(" "), count)
}

fn wrong_reading_name(name: &str) -> String {
    format!("wrong reading of lists differs: {}", name)
}

/// A record of this kind that has another's length.
fn length_name(kind: u16, other: u16) -> String {
    format!("refused 5, kind {}, the length is kind {}'s", kind, other)
}

fn kind_of(bytes: &[u8]) -> u16 {
    u16_at(bytes, KIND_AT)
}

/// Is this a record of that kind?
pub fn is_of_kind(bytes: &[u8], kind: u16) -> bool {
    bytes.len() >= HEADER && kind_of(bytes) == kind
}

/// Is this a record of kind 2?
pub fn lists_observers(bytes: &[u8]) -> bool {
    is_of_kind(bytes, 2)
}

/// The categories of a record's bytes, given Check's verdict.
pub fn of_record(bytes: &[u8], verdict: Verdict) -> Vec<String> {
    let mut names = match verdict {
        Verdict::Refused(3) => return kind_names(bytes),
        Verdict::Refused(5) => length_names(bytes),
        _ => Vec::new(),
    };
    if !lists_observers(bytes) {
        return names;
    }
    names.extend(match verdict {
        Verdict::Refused(number) => refused_names(bytes, number),
        Verdict::Pass => pass_names(&read(bytes).unwrap()),
        Verdict::Breaks(found) => break_names(&read(bytes).unwrap(), found),
    });
    let is_small = bytes.len() >= HEADER + 4 && Layout::of(bytes).n <= MOST_STATES_MISREAD;
    if is_small {
        names.extend(readings_that_differ(bytes, check::number(verdict)).into_iter().map(wrong_reading_name));
    }
    names
}

/// Refusal 3.
fn kind_names(bytes: &[u8]) -> Vec<String> {
    let mut names = Names::default();
    for form in FORMS {
        let mut of_form = bytes.to_vec();
        of_form[KIND_AT..KIND_AT + 2].copy_from_slice(&form.kind.to_le_bytes());
        let passes = check::check(&of_form) == Verdict::Pass;
        for (kind, is_so) in OTHER_KINDS {
            let name = format!("refused 3, {}, passes as kind {}", kind, form.kind);
            names.add(passes && is_so(kind_of(bytes)), &name);
        }
    }
    names.0
}

/// Has the record the length of this form, with so many observers?
fn has_length_of(bytes: &[u8], form: Form, observers: usize) -> bool {
    Layout { form, observers, ..Layout::of(bytes) }.body_length() == u32_at(bytes, 0) as usize
}

/// Refusal 5, where the record might be taken for one of another kind.
fn length_names(bytes: &[u8]) -> Vec<String> {
    let mut names = Names::default();
    for form in FORMS {
        let observers = if form.first == First::Count { bytes[FIRST_AT] as usize } else { 1 };
        let fits = form.kind != kind_of(bytes) && has_length_of(bytes, form, observers);
        names.add(fits, &length_name(kind_of(bytes), form.kind));
    }
    names.0
}

fn is_out_of_range(count: usize) -> bool {
    !counts().contains(&count)
}

fn refused_names(bytes: &[u8], number: u32) -> Vec<String> {
    if number <= 3 {
        return Vec::new();
    }
    let count = if bytes.len() > FIRST_AT { bytes[FIRST_AT] as usize } else { 0 };
    let mut names = Names::default();
    match number {
        4 => {
            names.add(true, "refused 4, kind 2");
            names.add(is_out_of_range(count), "refused 4, kind 2, count out of range too");
        }
        5 => return size_names(bytes, count),
        20 => return list_names(bytes, count),
        6 => return column_names(bytes, count),
        16 => return level_names(bytes, count),
        number => names.add(true, &format!("refused {}, kind 2", number)),
    }
    names.0
}

/// Refusal 5.
fn size_names(bytes: &[u8], count: usize) -> Vec<String> {
    let mut names = Names(vec!["refused 5, kind 2".to_string()]);
    let is_other_count = counts().into_iter().any(|other| has_length_of(bytes, FORMS[1], other));
    names.add(is_other_count, "refused 5, kind 2, the length is that of another count in range");
    names.add(is_out_of_range(count), "refused 5, kind 2, count out of range too");
    names.add(WRONG_COUNTS.contains(&count), &format!("refused 5, kind 2, count {}", count));
    let list = Layout::of(bytes).observer_at(0);
    let levels = bytes.get(list..list + count);
    let do_not_rise = levels.is_some_and(|levels| !levels.windows(2).all(|pair| pair[0] < pair[1]));
    let name = "refused 5, kind 2, observers that do not rise too";
    names.add(!is_out_of_range(count) && do_not_rise, name);
    names.0
}

/// Refusal 20.
fn list_names(bytes: &[u8], count: usize) -> Vec<String> {
    let mut names = Names::default();
    if is_out_of_range(count) {
        names.add(WRONG_COUNTS.contains(&count), &format!("refused 20, count {}", count));
        names.add((6..255).contains(&count), "refused 20, count from 6 to 254");
        names.add(bytes.len() > longest(), "refused 20, longer than the longest record");
    } else {
        names.0.extend(order_names(&observer_levels(bytes)));
    }
    names.add(applies(6, bytes), "refused 20, misnumbered too");
    names.add(applies(16, bytes), "refused 20, mislabelled too");
    let is_otherwise_refused = [6, 7, 16, 8].into_iter().any(|number| applies(number, bytes));
    if count > 0 && Layout::of(bytes).n <= MOST_STATES_MISREAD && !is_otherwise_refused {
        let passes = check::passes(&fields(bytes));
        names.add(passes, "refused 20, otherwise passes");
        names.add(!passes, "refused 20, otherwise breaks");
    }
    names.0
}

/// Observers that do not rise.
fn order_names(levels: &[u8]) -> Vec<String> {
    let mut names = Names::default();
    let places = |is_so: fn(&u8, &u8) -> bool| -> Vec<usize> {
        (1..levels.len()).filter(|&i| is_so(&levels[i - 1], &levels[i])).collect()
    };
    let not_rising = places(u8::ge);
    for (how, places) in [("equal", places(u8::eq)), ("falling", places(u8::gt))] {
        names.add(!places.is_empty(), &format!("refused 20, {} observers", how));
        if let ([i], 1) = (&places[..], not_rising.len()) {
            names.add(true, &order_name(how, *i, levels.len()));
        }
    }
    names.0
}

/// Refusal 6.
fn column_names(bytes: &[u8], count: usize) -> Vec<String> {
    let mut names = Names::default();
    let places: Vec<usize> = (0..count).filter(|&i| is_misnumbered(column(bytes, i))).collect();
    if let [i] = places[..] {
        names.add(true, &format!("refused 6, column {} of {} alone", i + 1, count));
    }
    names.add(places.len() == count, "refused 6, each column");
    names.0
}

/// Refusal 16.
fn level_names(bytes: &[u8], count: usize) -> Vec<String> {
    let levels = observer_levels(bytes);
    let places: Vec<usize> = (0..count).filter(|&i| is_mislabelled(levels[i])).collect();
    if places.is_empty() {
        vec!["refused 16, kind 2, events alone".to_string()]
    } else {
        vec![mislabelled_name(&places, count)]
    }
}

/// Is some event of this kind low for one observer and high for another?
fn is_seen_differently(part: &Part, is_of_kind: fn(&Part, usize) -> bool) -> bool {
    let views = part.views();
    (0..part.event_count()).any(|e| {
        is_of_kind(part, e) && views.iter().any(|view| view.is_low(e)) && views.iter().any(|view| view.is_high(e))
    })
}

fn is_largest(part: &Part) -> bool {
    part.observers.len() == MOST_LISTED && part.state_count() == 64 && part.event_count() == 32
}

fn pass_names(part: &Part) -> Vec<String> {
    let (n, m, count) = (part.state_count(), part.event_count(), part.observers.len());
    let first = &part.observers[0];
    let differ = part.observers.iter().any(|observer| observer.classes != first.classes);
    let numbers_differ = part.observers.iter().any(|observer| observer.class_count() != first.class_count());
    let levels = part.levels();
    let are_incomparable = levels.iter().any(|&a| levels.iter().any(|&b| incomparable(a, b)));
    let mut names = Names(vec![format!("passes, {} observers", count)]);
    names.add(differ, "passes, several observers, columns differ");
    names.add(numbers_differ, "passes, several observers, numbers of classes differ");
    names.add(are_incomparable, "passes, several observers, two of them incomparable");
    names.add(levels.contains(&0xFF), "passes, several observers, one of them 0xff");
    let name = "passes, several observers, an input low for one and high for another";
    names.add(is_seen_differently(part, Part::is_input), name);
    let name = "passes, several observers, an output low for one and high for another";
    names.add(is_seen_differently(part, Part::is_output), name);
    names.add(count == 4 && n == 1, "passes, 4 observers and 1 state");
    names.add(count == 4 && m == 0, "passes, 4 observers and 0 events");
    names.add(is_largest(part), LARGEST);
    names.0
}

fn break_names(part: &Part, found: Break) -> Vec<String> {
    let count = part.observers.len();
    let breaks: Vec<Option<Break>> = part.views().into_iter().map(break_for).collect();
    let at = breaks.iter().position(Option::is_some).unwrap();
    let later: Vec<Break> = breaks[at + 1..].iter().copied().flatten().collect();
    let mut names = Names(vec![format!("breaks at observer {} of {}", at + 1, count)]);
    names.add(found.rule == 1, "breaks rule 1, several observers");
    names.add(found.rule > 1, &format!("breaks rule {} at observer {}", found.rule, at + 1));
    names.add(at == 0 && later.is_empty(), "breaks at the first observer alone");
    names.add(breaks.iter().all(Option::is_some), "breaks at the first observer and all others");
    let other_rule = later.iter().any(|other| other.rule != found.rule);
    let name = "breaks, one observer passes and two break different rules";
    names.add(other_rule && breaks.contains(&None), name);
    names.add(later.iter().any(|other| other.rule < found.rule), "breaks, a later observer breaks a lower rule");
    names.add(later.iter().any(|other| other.rule > found.rule), "breaks, a later observer breaks a higher rule");
    let mut same_rule = later.iter().filter(|other| other.rule == found.rule).map(|other| place(*other));
    let (is_earlier, is_later) =
        (same_rule.clone().any(|other| other < place(found)), same_rule.any(|other| other > place(found)));
    names.add(is_earlier, "breaks, a later observer breaks the same rule at an earlier place");
    names.add(is_later, "breaks, a later observer breaks the same rule at a later place");
    names.add(is_largest(part) && at == count - 1, LARGEST_BROKEN);
    names.0
}

/// Where a rule is broken, in the order of the verdict.
fn place(found: Break) -> (u16, usize, usize, usize) {
    (found.identifier, found.s, found.t, found.u)
}

#[cfg(test)]
mod tests {
    use super::*;
    use crate::examples;
    use crate::record;

    /// The categories of a record but for the wrong readings.
    fn names_of(bytes: &[u8]) -> Vec<String> {
        let mut found = of_record(bytes, check::check(bytes));
        assert!(found.iter().all(|name| names().contains(name)), "{:?}", found);
        found.retain(|name| !name.starts_with("wrong"));
        found
    }

    /// P for two observers with some bytes changed: 6 is its count, 10 and 11 are its observers, 12 to 15 its columns.
    fn of_p(changes: &[(usize, u8)]) -> Vec<String> {
        names_of(&examples::p_for_two_with(changes))
    }

    #[test]
    fn refusals_by_hand() {
        assert_eq!(of_p(&[(9, 33)]), ["refused 4, kind 2"]);
        assert_eq!(of_p(&[(9, 33), (6, 5)]), ["refused 4, kind 2", "refused 4, kind 2, count out of range too"]);
        assert_eq!(of_p(&[(9, 1)]), ["refused 5, kind 2"]);
        let other_count = "refused 5, kind 2, the length is that of another count in range";
        assert_eq!(of_p(&[(6, 3), (12, 0x41)]), ["refused 5, kind 2", other_count]);
        let out_of_range = "refused 5, kind 2, count out of range too";
        assert_eq!(of_p(&[(6, 1)]), ["refused 5, kind 2", other_count, out_of_range, "refused 5, kind 2, count 1"]);
        assert_eq!(of_p(&[(6, 7)]), ["refused 5, kind 2", other_count, out_of_range]);
        assert_eq!(
            of_p(&[(9, 1), (11, 0)]),
            ["refused 5, kind 2", "refused 5, kind 2, observers that do not rise too"]
        );
        let equal = ["refused 20, equal observers", "refused 20, equal observers, 1 and 2 of 2 alone"];
        let falling = ["refused 20, falling observers", "refused 20, falling observers, 1 and 2 of 2 alone"];
        assert_eq!(of_p(&[(11, 0)]), [&equal[..], &["refused 20, otherwise breaks"]].concat());
        assert_eq!(of_p(&[(10, 0x40), (11, 0), (15, 0)]), [&falling[..], &["refused 20, otherwise passes"]].concat());
        assert_eq!(of_p(&[(11, 0), (15, 2)]), [&equal[..], &["refused 20, misnumbered too"]].concat());
        assert_eq!(
            names_of(&examples::z_for(&[0x40, 0x40, 0])),
            ["refused 20, equal observers", "refused 20, falling observers", "refused 20, otherwise passes"]
        );
        assert_eq!(
            names_of(&examples::z_for(&[0, 0x40, 0x80, 0x80])),
            [
                "refused 20, equal observers",
                "refused 20, equal observers, 3 and 4 of 4 alone",
                "refused 20, otherwise passes"
            ]
        );
        assert_eq!(names_of(&[4, 0, 0, 0, 2, 0, 0, 1, 0, 0]), ["refused 20, count 0"]);
        assert_eq!(
            names_of(&[6, 0, 0, 0, 2, 0, 1, 1, 0, 0, 0, 0]),
            ["refused 20, count 1", "refused 20, otherwise passes"]
        );
        assert_eq!(of_p(&[(13, 2)]), ["refused 6, column 1 of 2 alone"]);
        assert_eq!(of_p(&[(15, 2)]), ["refused 6, column 2 of 2 alone"]);
        assert_eq!(of_p(&[(13, 2), (15, 2)]), ["refused 6, each column"]);
        assert_eq!(of_p(&[(22, 3)]), ["refused 7, kind 2"]);
        assert_eq!(of_p(&[(10, 1)]), ["refused 16, kind 2, observers 1 of 2"]);
        assert_eq!(of_p(&[(11, 1)]), ["refused 16, kind 2, observers 2 of 2"]);
        assert_eq!(of_p(&[(10, 1), (11, 2)]), ["refused 16, kind 2, observers 1 2 of 2"]);
        assert_eq!(names_of(&examples::z_for(&[0, 1, 2, 0x40])), ["refused 16, kind 2, observers 2 3 of 4"]);
        assert_eq!(of_p(&[(23, 1)]), ["refused 16, kind 2, events alone"]);
        assert_eq!(of_p(&[(55, 0x80)]), ["refused 8, kind 2"]);
        assert_eq!(of_p(&[(0, 0)]), [""; 0]);
        assert_eq!(of_p(&[(4, 1)]), ["refused 5, kind 1, the length is kind 2's"]);
        assert_eq!(names_of(&examples::p_for_two()[..5]), [""; 0]);
        assert_eq!(names_of(&[0, 0, 0, 0, 2, 0]), ["refused 4, kind 2", "refused 4, kind 2, count out of range too"]);
    }

    /// P, P for two and the guard with other kinds.
    #[test]
    fn other_kinds_by_hand() {
        let with_kind = |bytes: &[u8], kind: u16| {
            let mut changed = bytes.to_vec();
            changed[KIND_AT..KIND_AT + 2].copy_from_slice(&kind.to_le_bytes());
            names_of(&changed)
        };
        for (kind, name) in [
            (0, "kind 0"),
            (4, "kind 4"),
            (5, "kind from 5 to 255"),
            (255, "kind from 5 to 255"),
            (256, "another kind above 255"),
            (257, "kind 257"),
            (258, "kind 258"),
            (259, "kind 259"),
            (0xFFFF, "another kind above 255"),
        ] {
            for (passes_as, bytes) in [(1, examples::p()), (2, examples::p_for_two()), (3, examples::guard())] {
                assert_eq!(with_kind(&bytes, kind), [format!("refused 3, {}, passes as kind {}", name, passes_as)]);
            }
        }
        assert_eq!(with_kind(&examples::p_with_classes_0_1(), 4), [""; 0]);
        assert_eq!(with_kind(&examples::p(), 3), ["refused 5, kind 3, the length is kind 1's"]);
        assert_eq!(with_kind(&examples::guard(), 1), ["refused 5, kind 1, the length is kind 3's"]);
        assert_eq!(with_kind(&examples::p_for_two(), 3), ["refused 5, kind 3, the length is kind 2's"]);
        assert_eq!(
            with_kind(&examples::p(), 2),
            [
                "refused 5, kind 2, the length is kind 1's",
                "refused 5, kind 2",
                "refused 5, kind 2, count out of range too",
                "refused 5, kind 2, count 0"
            ]
        );
    }

    #[test]
    fn verdicts_by_hand() {
        assert_eq!(
            of_p(&[]),
            [
                "passes, 2 observers",
                "passes, several observers, columns differ",
                "passes, several observers, numbers of classes differ",
                "passes, several observers, an input low for one and high for another",
            ]
        );
        let of_t = |first, second| names_of(&record::write(&examples::t_for_two(first, second)));
        assert_eq!(of_t([0, 0, 0], [0, 0, 1]), ["breaks at observer 2 of 2", "breaks rule 5 at observer 2"]);
        assert_eq!(
            of_t([0, 0, 1], [0, 1, 2]),
            ["breaks at observer 1 of 2", "breaks rule 4 at observer 1", "breaks at the first observer alone"]
        );
        assert_eq!(
            of_t([0, 0, 1], [0, 0, 1]),
            [
                "breaks at observer 1 of 2",
                "breaks rule 4 at observer 1",
                "breaks at the first observer and all others",
                "breaks, a later observer breaks a higher rule",
            ]
        );
        assert_eq!(
            names_of(&record::write(&examples::lower_rule_at_the_second())),
            [
                "breaks at observer 1 of 2",
                "breaks rule 4 at observer 1",
                "breaks at the first observer and all others",
                "breaks, a later observer breaks a lower rule",
            ]
        );
        // Z for the observers 0x41 and 0x80, and for four.
        assert_eq!(
            names_of(&examples::z_for(&[0x41, 0x80])),
            ["passes, 2 observers", "passes, several observers, two of them incomparable"]
        );
        assert_eq!(
            names_of(&examples::z_for(&[0x00, 0x40, 0x80, 0xFF])),
            [
                "passes, 4 observers",
                "passes, several observers, one of them 0xff",
                "passes, 4 observers and 1 state",
                "passes, 4 observers and 0 events",
            ]
        );
    }
}
