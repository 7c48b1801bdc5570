//! Categories of joins, by the checker's own answer.

use crate::category_internal::{add_to_a_reach, has_step, low_internal_events};
use crate::check::{self, Verdict};
use crate::join::{self, JoinAnswer, Side};
use crate::record::{self, incomparable, Kind, Part, View, ORDER};
use crate::wrong_internal::as_outputs;

/// Is this a category that must come up most often?
pub fn is_main(name: &str) -> bool {
    name == JOINED || name == SHARED
}

const JOINED: &str = "joined";
const SHARED: &str = "joined, shared event";

/// The longest record of kind 1.
const LONGEST: usize = 16_586;

fn kind_name(kind: Kind) -> &'static str {
    match kind {
        Kind::Input => "input",
        Kind::Output => "output",
        Kind::Internal => "internal",
    }
}

/// Every category.
pub fn names() -> Vec<String> {
    let mut names = Vec::new();
    for side in ["A", "B"] {
        for number in ORDER {
            names.push(format!("{} refused {}", side, number));
        }
        for rule in 1..=5 {
            names.push(format!("{} breaks rule {}", side, rule));
        }
    }
    for name in [
        "refused 9",
        "refused 10 by kind",
        "refused 10 by level",
        "refused 10, several clashes",
        "refused 11 by states",
        "refused 11 by states, 64 x 2",
        "refused 11 by entries",
        "refused 11 by entries, 33 of them",
        "refused 15",
        "refused 15, one byte short",
        "refused 15, no byte at all",
        "two reasons: A and B",
        "two reasons: A and no room",
        "two reasons: B and no room",
        "two reasons: 9 and 10",
        "two reasons: 9 and 11",
        "two reasons: 9 and no room",
        "two reasons: 10 and 11",
        "two reasons: 10 and no room",
        "two reasons: 11 and no room",
    ] {
        names.push(name.to_string());
    }
    for a in [Kind::Input, Kind::Output, Kind::Internal] {
        for b in [Kind::Input, Kind::Output, Kind::Internal] {
            if join::shared_kind(a, b).is_none() {
                names.push(format!("refused 10, {} with {}", kind_name(a), kind_name(b)));
            }
        }
    }
    for name in [
        JOINED,
        SHARED,
        "joined, nothing shared",
        "joined, A sends",
        "joined, B sends",
        "joined, shared low event",
        "joined, shared high event",
        "joined, shared incomparable event",
        "joined, just enough room",
        "joined, room to spare",
        "joined, 64 x 1",
        "joined, 1 x 64",
        "joined, 8 x 8",
        "joined, 1 x 1",
        "joined, 0 entries",
        "joined, 32 entries",
        "joined, 16586 bytes",
        "joined, identifier 0",
        "joined, identifier 65535",
        "joined, start not 0",
        "joined, several classes in both",
        "joined, 64 classes",
    ] {
        names.push(name.to_string());
    }
    for name in INTERNAL {
        names.push(format!("joined, {}", name));
    }
    names
}

/// Categories of joined parts by the events that are quiet in them.
pub const INTERNAL: [&str; 3] = [
    "a shared low event adds to a quiet reach",
    "a shared low event has a step, passes with internal events made outputs too",
    "breaks with internal events made outputs",
];

/// The shared low events that have a step in the joined part, by their numbers there, for one of its observers.
pub fn shared_low_events(a: &Part, b: &Part, joined: View) -> Vec<usize> {
    let merged = join::merged_entries(a, b);
    let is_shared = |e: usize| merged[e].from_a.is_some() && merged[e].from_b.is_some();
    (0..merged.len()).filter(|&e| is_shared(e) && joined.is_low(e) && has_step(&joined, e)).collect()
}

/// Does a shared low event add to a quiet reach of the joined part, for one of its observers?
pub fn shared_low_event_adds(a: &Part, b: &Part, joined: View) -> bool {
    let shared = shared_low_events(a, b, joined);
    !shared.is_empty() && add_to_a_reach(joined, &check::quiet_reaches(joined), &shared)
}

/// The categories of a joined part by the events that are quiet in it, for some of its observers.
pub fn internal_names(a: &Part, b: &Part, joined: &Part) -> Vec<&'static str> {
    let views = joined.views();
    let shares = views.iter().any(|&view| !shared_low_events(a, b, view).is_empty());
    let adds = views.iter().any(|&view| shared_low_event_adds(a, b, view));
    let has_low_internal = views.iter().any(|&view| !low_internal_events(view).is_empty());
    let passes = !has_low_internal || check::passes(&as_outputs(joined));
    let applies = [adds, shares && passes, !passes];
    (0..INTERNAL.len()).filter(|&i| applies[i]).map(|i| INTERNAL[i]).collect()
}

/// How many shared events clash, by kind or by level.
pub fn clashes(a: &Part, b: &Part) -> (Vec<(Kind, Kind)>, usize) {
    let mut by_kind = Vec::new();
    let mut by_level = 0;
    for entry in join::merged_entries(a, b) {
        if let (Some(i), Some(j)) = (entry.from_a, entry.from_b) {
            let x = a.events[i];
            let y = b.events[j];
            if join::shared_kind(x.kind, y.kind).is_none() {
                by_kind.push((x.kind, y.kind));
            } else if x.level != y.level {
                by_level += 1;
            }
        }
    }
    (by_kind, by_level)
}

fn side_category(side: Side, verdict: Verdict) -> String {
    let side = if side == Side::A { "A" } else { "B" };
    match verdict {
        Verdict::Refused(number) => format!("{} refused {}", side, number),
        Verdict::Breaks(found) => format!("{} breaks rule {}", side, found.rule),
        Verdict::Pass => unreachable!(),
    }
}

/// The categories of one join with an output buffer of `room` bytes.
pub fn of_join(a: &[u8], b: &[u8], room: usize, answer: JoinAnswer) -> Vec<String> {
    let mut names: Vec<String> = Vec::new();
    if let JoinAnswer::Stopped(side, verdict) = answer {
        names.push(side_category(side, verdict));
        if side == Side::A && check::check(b) != Verdict::Pass {
            names.push("two reasons: A and B".to_string());
        }
        if room == 0 {
            let side = if side == Side::A { "A" } else { "B" };
            names.push(format!("two reasons: {} and no room", side));
        }
        return names;
    }
    let part_a = record::read(a).unwrap();
    let part_b = record::read(b).unwrap();
    let na = part_a.state_count();
    let nb = part_b.state_count();
    let merged = join::merged_entries(&part_a, &part_b);
    let (by_kind, by_level) = clashes(&part_a, &part_b);
    let clashing = by_kind.len() + by_level;
    let too_large = join::too_many_states(&part_a, &part_b) || join::too_many_entries(&part_a, &part_b);
    let mut add = |name: &str| names.push(name.to_string());
    match answer {
        JoinAnswer::Refused(9) => {
            add("refused 9");
            if clashing > 0 {
                add("two reasons: 9 and 10");
            }
            if too_large {
                add("two reasons: 9 and 11");
            }
            if room == 0 {
                add("two reasons: 9 and no room");
            }
        }
        JoinAnswer::Clash(_) => {
            if clashing == 1 && by_level == 1 {
                add("refused 10 by level");
            }
            if clashing == 1 && by_level == 0 {
                add("refused 10 by kind");
                add(&format!("refused 10, {} with {}", kind_name(by_kind[0].0), kind_name(by_kind[0].1)));
            }
            if clashing > 1 {
                add("refused 10, several clashes");
            }
            if too_large {
                add("two reasons: 10 and 11");
            }
            if room == 0 {
                add("two reasons: 10 and no room");
            }
        }
        JoinAnswer::Refused(11) => {
            if join::too_many_states(&part_a, &part_b) {
                add("refused 11 by states");
                if na == 64 && nb == 2 {
                    add("refused 11 by states, 64 x 2");
                }
            } else {
                add("refused 11 by entries");
                if merged.len() == 33 {
                    add("refused 11 by entries, 33 of them");
                }
            }
            if room == 0 {
                add("two reasons: 11 and no room");
            }
        }
        JoinAnswer::Refused(_) => {
            add("refused 15");
            if room + 1 == join::joined_record(&part_a, &part_b).len() {
                add("refused 15, one byte short");
            }
            if room == 0 {
                add("refused 15, no byte at all");
            }
        }
        JoinAnswer::Length(length) => {
            add(JOINED);
            let mut shared = Vec::new();
            for entry in &merged {
                if let (Some(i), Some(_)) = (entry.from_a, entry.from_b) {
                    shared.push(i);
                }
            }
            if shared.is_empty() {
                add("joined, nothing shared");
            } else {
                add(SHARED);
            }
            if shared.iter().any(|&i| part_a.events[i].kind == Kind::Output) {
                add("joined, A sends");
            }
            if shared.iter().any(|&i| part_a.events[i].kind == Kind::Input) {
                add("joined, B sends");
            }
            // For some of the observers.
            let shares = |is: fn(View, usize) -> bool| {
                part_a.views().into_iter().any(|view| shared.iter().any(|&i| is(view, i)))
            };
            if shares(|view, i| view.is_low(i)) {
                add("joined, shared low event");
            }
            if shares(|view, i| view.is_high(i)) {
                add("joined, shared high event");
            }
            if shares(|view, i| incomparable(view.events[i].level, view.level())) {
                add("joined, shared incomparable event");
            }
            add(if room == length { "joined, just enough room" } else { "joined, room to spare" });
            for (x, y) in [(64, 1), (1, 64), (8, 8), (1, 1)] {
                if na == x && nb == y {
                    add(&format!("joined, {} x {}", x, y));
                }
            }
            if merged.is_empty() {
                add("joined, 0 entries");
            }
            if merged.len() == 32 {
                add("joined, 32 entries");
            }
            if length == LONGEST {
                add("joined, 16586 bytes");
            }
            for identifier in [0, 65_535] {
                if part_a.events.iter().chain(&part_b.events).any(|event| event.identifier == identifier) {
                    add(&format!("joined, identifier {}", identifier));
                }
            }
            if part_a.start * nb + part_b.start > 0 {
                add("joined, start not 0");
            }
            // In some column.
            let columns = part_a.observers.iter().zip(&part_b.observers);
            let counts: Vec<(usize, usize)> = columns.map(|(x, y)| (x.class_count(), y.class_count())).collect();
            if counts.iter().any(|&(x, y)| x > 1 && y > 1) {
                add("joined, several classes in both");
            }
            if counts.iter().any(|&(x, y)| x * y == 64) {
                add("joined, 64 classes");
            }
        }
        JoinAnswer::Stopped(_, _) => unreachable!(),
    }
    if let JoinAnswer::Length(_) = answer {
        let joined = record::read(&join::joined_record(&part_a, &part_b)).unwrap();
        names.extend(internal_names(&part_a, &part_b, &joined).iter().map(|name| format!("joined, {}", name)));
    }
    names
}
