//! Categories of inputs, by the checker's own verdict, and how often each came up.

use crate::check::{self, Verdict};
use crate::closure::least_steps;
use crate::record::{self, incomparable, View, ORDER};
use crate::wrong;
use std::collections::{BTreeMap, BTreeSet};

/// Counts by category, each with the least number that a run must reach.
#[derive(Default)]
pub struct Tally {
    order: Vec<String>,
    counts: BTreeMap<String, usize>,
    minimums: BTreeMap<String, usize>,
    values: BTreeSet<(String, u8)>,
}

impl Tally {
    pub fn new() -> Tally {
        Tally::default()
    }

    pub fn need(&mut self, name: &str, minimum: usize) {
        assert!(!self.counts.contains_key(name), "category named twice: {}", name);
        self.order.push(name.to_string());
        self.counts.insert(name.to_string(), 0);
        self.minimums.insert(name.to_string(), minimum);
    }

    /// Counts one case of a known category.
    pub fn count(&mut self, name: &str) {
        match self.counts.get_mut(name) {
            Some(count) => *count += 1,
            None => panic!("unknown category: {}", name),
        }
    }

    /// Counts one case if the category is known.
    pub fn count_if_known(&mut self, name: &str) {
        if let Some(count) = self.counts.get_mut(name) {
            *count += 1;
        }
    }

    /// Counts a value of a known category; one that came up before does not count again.
    pub fn count_value(&mut self, name: &str, value: u8) {
        if self.values.insert((name.to_string(), value)) {
            self.count(name);
        }
    }

    pub fn lacks(&self, name: &str) -> bool {
        match self.counts.get(name) {
            Some(count) => *count < self.minimums[name],
            None => false,
        }
    }

    /// The categories with too few cases.
    pub fn too_few(&self) -> Vec<&str> {
        let mut names = Vec::new();
        for name in &self.order {
            if self.counts[name] < self.minimums[name] {
                names.push(name.as_str());
            }
        }
        names
    }

    /// One line for each category.
    pub fn print(&self) {
        for name in &self.order {
            println!("{:>7} (at least {:>4})  {}", self.counts[name], self.minimums[name], name);
        }
    }

    pub fn categories(&self) -> usize {
        self.order.len()
    }
}

/// Names of categories, to which those are added that apply.
#[derive(Default)]
pub struct Names(pub Vec<String>);

impl Names {
    pub fn add(&mut self, applies: bool, name: &str) {
        if applies {
            self.0.push(name.to_string());
        }
    }
}

/// First, middle or last among at least three; otherwise none.
pub fn place(index: usize, count: usize) -> Option<&'static str> {
    if count < 3 {
        None
    } else if index == 0 {
        Some("first")
    } else if index == count - 1 {
        Some("last")
    } else {
        Some("middle")
    }
}

/// The names of rule R's places: which of event, s, t, u the verdict names freely.
pub fn place_names(rule: u32) -> Vec<String> {
    let named: &[&str] = match rule {
        1 => &["event", "s"],
        2 => &["event", "s", "t"],
        _ => &["event", "s", "t", "u"],
    };
    let mut names = Vec::new();
    for name in named {
        for place in ["first", "middle", "last"] {
            names.push(format!("rule {}, {} {}", rule, name, place));
        }
    }
    names
}

pub const PASS_BOUNDARIES: [&str; 10] = [
    "pass, 1 state",
    "pass, 64 states",
    "pass, 0 events",
    "pass, 32 events",
    "pass, 64 states and 32 events",
    "pass, identifier 0",
    "pass, identifier 65535",
    "pass, incomparable level",
    "pass, 64 classes",
    "pass, breaks if at most 31 quiet steps are taken in a row",
];

pub const BREAK_BOUNDARIES: [&str; 7] = [
    "break, 1 state",
    "break, 64 states",
    "break, 32 events",
    "break, names identifier 0",
    "break, names identifier 65535",
    "break, names incomparable level",
    "break by rule 4 or 5, some state comes by quiet steps to 32 others or more",
];

pub const QUIET_IGNORED: &str = "pass, 8 states or more, several classes, breaks if quiet steps are ignored";
pub const QUIET_REMOVED: &str = "pass, 8 states or more, several classes, breaks if quiet steps are removed";

pub const WRONG_READINGS: [&str; 8] = [
    "wrong reading differs: only reachable states",
    "wrong reading differs: no quiet steps",
    "wrong reading differs: quiet steps before a low output alone",
    "wrong reading differs: quiet steps behind a low output alone",
    "wrong reading differs: high inputs quiet",
    "wrong reading differs: incomparable is low",
    "wrong reading differs: rank alone",
    "wrong reading differs: all matches must agree",
];

fn pass_categories(view: View) -> Vec<String> {
    let n = view.state_count();
    let m = view.event_count();
    let mut names = vec!["pass".to_string()];
    if n == 1 {
        names.push(PASS_BOUNDARIES[0].to_string());
    }
    if n == 64 {
        names.push(PASS_BOUNDARIES[1].to_string());
    }
    if m == 0 {
        names.push(PASS_BOUNDARIES[2].to_string());
    }
    if m == 32 {
        names.push(PASS_BOUNDARIES[3].to_string());
    }
    if n == 64 && m == 32 {
        names.push(PASS_BOUNDARIES[4].to_string());
    }
    if view.events.iter().any(|event| event.identifier == 0) {
        names.push(PASS_BOUNDARIES[5].to_string());
    }
    if view.events.iter().any(|event| event.identifier == 65_535) {
        names.push(PASS_BOUNDARIES[6].to_string());
    }
    if view.events.iter().any(|event| incomparable(event.level, view.level())) {
        names.push(PASS_BOUNDARIES[7].to_string());
    }
    if view.class_count() == 64 {
        names.push(PASS_BOUNDARIES[8].to_string());
    }
    if n > 32 && leads_farther(view, 31) && !wrong::passes_with_few_quiet_steps(view, 31) {
        names.push(PASS_BOUNDARIES[9].to_string());
    }
    if n >= 8 && view.class_count() >= 2 {
        if !wrong::passes_without_quiet_steps(view) {
            names.push(QUIET_IGNORED.to_string());
        }
        if !wrong::passes_with_quiet_steps_removed(view) {
            names.push(QUIET_REMOVED.to_string());
        }
    }
    names
}

/// Is some state in a quiet reach only by more than `limit` quiet steps?
fn leads_farther(view: View, limit: usize) -> bool {
    let table = check::quiet_steps(view);
    (0..view.state_count()).any(|s| least_steps(&table, s).into_iter().flatten().any(|steps| steps > limit))
}

fn break_categories(view: View, found: check::Break) -> Vec<String> {
    let n = view.state_count();
    let m = view.event_count();
    let mut names = vec![format!("rule {}", found.rule)];
    let mut e = 0;
    while view.events[e].identifier != found.identifier {
        e += 1;
    }
    let mut add = |name: &str, index: usize, count: usize| {
        if let Some(place) = place(index, count) {
            names.push(format!("rule {}, {} {}", found.rule, name, place));
        }
    };
    add("event", e, m);
    add("s", found.s, n);
    if found.rule >= 2 {
        add("t", found.t, n);
    }
    if found.rule >= 3 {
        add("u", found.u, n);
    }
    if n == 1 {
        names.push(BREAK_BOUNDARIES[0].to_string());
    }
    if n == 64 {
        names.push(BREAK_BOUNDARIES[1].to_string());
    }
    if m == 32 {
        names.push(BREAK_BOUNDARIES[2].to_string());
    }
    if found.identifier == 0 {
        names.push(BREAK_BOUNDARIES[3].to_string());
    }
    if found.identifier == 65_535 {
        names.push(BREAK_BOUNDARIES[4].to_string());
    }
    if incomparable(view.events[e].level, view.level()) {
        names.push(BREAK_BOUNDARIES[5].to_string());
    }
    if n > 32 && found.rule >= 4 {
        let reaches = check::quiet_reaches(view);
        let far = reaches.iter().any(|reach| reach.iter().filter(|&&reached| reached).count() > 32);
        if far {
            names.push(BREAK_BOUNDARIES[6].to_string());
        }
    }
    names
}

/// The categories of a record's bytes, by Check.
pub fn of_record(bytes: &[u8]) -> Vec<String> {
    of_verdict(bytes, check::check(bytes))
}

/// The same with Check's verdict on the record. A break is looked at as the observer told sees the part, a pass as the
/// first one does.
pub fn of_verdict(bytes: &[u8], verdict: Verdict) -> Vec<String> {
    if let Verdict::Refused(number) = verdict {
        return vec![format!("refused {}", number)];
    }
    let part = record::read(bytes).unwrap();
    let found = check::found_by(verdict);
    let view = check::told(&part, found);
    match found {
        None => pass_categories(view),
        Some(found) => break_categories(view, found),
    }
}

/// The wrong readings that would give a well-formed record another verdict (pass or not).
pub fn wrong_readings_of(bytes: &[u8]) -> Vec<String> {
    let part = match record::read(bytes) {
        Ok(part) => part,
        Err(_) => return Vec::new(),
    };
    let passes = check::passes(&part);
    let readings: [fn(View) -> bool; 8] = [
        wrong::passes_on_reachable_states,
        wrong::passes_without_quiet_steps,
        |view| wrong::passes_with_quiet_steps_on_one_side(view, true),
        |view| wrong::passes_with_quiet_steps_on_one_side(view, false),
        wrong::passes_with_high_inputs_quiet,
        wrong::passes_with_incomparable_low,
        wrong::passes_by_rank_alone,
        wrong::passes_if_all_matches_agree,
    ];
    let mut names = Vec::new();
    for i in 0..readings.len() {
        if part.views().into_iter().all(readings[i]) != passes {
            names.push(WRONG_READINGS[i].to_string());
        }
    }
    names
}

pub fn refused_names() -> Vec<String> {
    ORDER.iter().map(|number| format!("refused {}", number)).collect()
}

pub fn break_names() -> Vec<String> {
    let mut names = Vec::new();
    for rule in 1..=5 {
        names.push(format!("rule {}", rule));
        names.extend(place_names(rule));
    }
    for name in BREAK_BOUNDARIES {
        names.push(name.to_string());
    }
    names
}

pub fn pass_names() -> Vec<String> {
    let mut names = vec!["pass".to_string()];
    for name in PASS_BOUNDARIES {
        names.push(name.to_string());
    }
    names
}
