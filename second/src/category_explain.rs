//! Categories of explanations, by the checker's own answer.

use crate::category_internal::{add_to_a_reach, has_step, low_internal_events};
use crate::check::{self, Break, Verdict};
use crate::explain::{sum_of_sizes, ExplainAnswer, Explanation, EXPLANATION};
use crate::record::{self, View, ORDER};
use crate::wrong_closure::{self, STEPS};
use crate::wrong_count::{self, COUNTS};

/// Is this a category that must come up most often?
pub fn is_main(name: &str) -> bool {
    name == PASSES || name == COUNT_ABOVE_N
}

const PASSES: &str = "explained, passes";
const COUNT_ABOVE_N: &str = "explained, count above n";

/// The wrong counts are tried on parts of so many states at most; on larger ones they would take too long.
const MOST_STATES_MISREAD: usize = 24;

/// Every category.
pub fn names() -> Vec<String> {
    let mut names = Vec::new();
    for number in ORDER {
        names.push(format!("refused {}", number));
        names.push(format!("refused {}, no room either", number));
        names.push(format!("refused {}, 64 bytes or more", number));
    }
    for rule in 0..=5 {
        let verdict = verdict_name(rule);
        names.push(format!("refused 15, {}", verdict));
        names.push(format!("refused 15, {}, 63 bytes", verdict));
        names.push(format!("refused 15, {}, no byte at all", verdict));
        names.push(format!("explained, {}", verdict));
        names.push(format!("explained, {}, 64 bytes", verdict));
        names.push(format!("explained, {}, 65 bytes", verdict));
        names.push(format!("explained, {}, more bytes", verdict));
        names.push(format!("explained, {}, observer's level not 0", verdict));
    }
    for rule in 1..=5 {
        for name in ["event above 255", "event 65535", "s not 0", "observer's level neither 0 nor the event's"] {
            names.push(format!("explained, breaks rule {}, {}", rule, name));
        }
        if rule >= 2 {
            names.push(format!("explained, breaks rule {}, t not 0", rule));
        }
        if rule == 2 {
            names.push("explained, breaks rule 2, s and t different and not 0".to_string());
        }
        if rule >= 3 {
            names.push(format!("explained, breaks rule {}, u not 0", rule));
            names.push(format!("explained, breaks rule {}, s, t and u different and not 0", rule));
        }
        if rule <= 3 {
            names.push(format!("explained, breaks rule {}, a quiet step leads on", rule));
        }
    }
    for name in [
        COUNT_ABOVE_N,
        "explained, breaks rule 4, count above n",
        "explained, breaks rule 4, count above 255",
        "explained, breaks rule 5, count n",
        "explained, breaks rule 5, count above n",
        "explained, breaks rule 5, count above 255",
        "explained, breaks rule 1, 1 state",
        "explained, breaks a rule, 64 states",
        "explained, breaks a rule, 64 states and 32 events",
        "explained, passes, 1 state",
        "explained, passes, 1 state with a quiet step",
        "explained, passes, 64 states, count 64",
        "explained, passes, 64 states, count 4096",
        "explained, passes, 0 events",
        "explained, passes, 32 events",
        "explained, passes, 64 states and 32 events",
        "explained, passes, 2 states or more, no quiet event",
        "explained, passes, 2 states or more, quiet events without a step",
        "explained, passes, 2 states or more, quiet steps that stay and no other",
        "explained, passes, 2 states or more, count n x n",
        "explained, passes, count between n and n x n",
        "explained, passes, count above 255",
        "explained, passes, each state in its own class, a quiet step leads on",
        "explained, passes, one class, a quiet step leads on",
        "explained, passes, several classes and fewer than states, a quiet step leads on",
        "explained, passes, a low internal event adds to the count",
        "explained, breaks rule 4, a low internal event adds to the count",
        "explained, breaks rule 5, a low internal event adds to the count",
    ] {
        names.push(name.to_string());
    }
    for (name, _) in COUNTS {
        names.push(format!("wrong count differs: {}", name));
    }
    for (name, _) in STEPS {
        names.push(format!("wrong steps change the count: {}", name));
    }
    names
}

/// The first broken rule in words; 0 stands for a pass.
fn verdict_name(rule: u32) -> String {
    match rule {
        0 => "passes".to_string(),
        rule => format!("breaks rule {}", rule),
    }
}

/// The categories of one call with an output buffer of `room` bytes.
pub fn of_explain(bytes: &[u8], room: usize, answer: ExplainAnswer) -> Vec<String> {
    match answer {
        ExplainAnswer::Explained(explanation) => {
            let part = record::read(bytes).unwrap();
            let view = check::told(&part, break_of(&explanation));
            let reaches = check::quiet_reaches(view);
            let mut names = explained_names(&explanation, view.level(), room);
            if explanation.rule > 0 {
                names.extend(break_names(view, &reaches, &explanation));
            } else {
                names.extend(pass_names(view, &explanation));
            }
            if explanation.taken > part.state_count() as u64 {
                names.push(COUNT_ABOVE_N.to_string());
                names.extend(internal_name(view, &reaches, &explanation));
            }
            if part.state_count() <= MOST_STATES_MISREAD {
                names.extend(wrong_count_names(view, &reaches, &explanation));
            }
            names
        }
        ExplainAnswer::Refused(15) => no_room_names(bytes, room),
        ExplainAnswer::Refused(number) => refused_names(number, room),
    }
}

fn refused_names(number: u32, room: usize) -> Vec<String> {
    let behind = if room < EXPLANATION { "no room either" } else { "64 bytes or more" };
    vec![format!("refused {}", number), format!("refused {}, {}", number, behind)]
}

fn no_room_names(bytes: &[u8], room: usize) -> Vec<String> {
    let verdict = match check::check(bytes) {
        Verdict::Pass => verdict_name(0),
        Verdict::Breaks(found) => verdict_name(found.rule),
        Verdict::Refused(_) => unreachable!(),
    };
    let mut names = vec![format!("refused 15, {}", verdict)];
    if room == EXPLANATION - 1 {
        names.push(format!("refused 15, {}, 63 bytes", verdict));
    }
    if room == 0 {
        names.push(format!("refused 15, {}, no byte at all", verdict));
    }
    names
}

fn explained_names(explanation: &Explanation, observer: u8, room: usize) -> Vec<String> {
    let verdict = verdict_name(explanation.rule as u32);
    let bytes = match room - EXPLANATION {
        0 => "64 bytes",
        1 => "65 bytes",
        _ => "more bytes",
    };
    let mut names = vec![format!("explained, {}", verdict), format!("explained, {}, {}", verdict, bytes)];
    if observer != 0 {
        names.push(format!("explained, {}, observer's level not 0", verdict));
    }
    names
}

fn leads_on(reaches: &[Vec<bool>]) -> bool {
    sum_of_sizes(reaches) > reaches.len() as u64
}

fn break_names(view: View, reaches: &[Vec<bool>], explanation: &Explanation) -> Vec<String> {
    let n = view.state_count() as u64;
    let Explanation { rule, event, s, t, u, taken, observer, .. } = *explanation;
    let level = view.events.iter().find(|entry| entry.identifier as u64 == event).unwrap().level as u64;
    let all_differ = s != t && t != u && u != s && s > 0 && t > 0 && u > 0;
    let mut names = Vec::new();
    let mut add = |applies: bool, name: &str| {
        if applies {
            names.push(format!("explained, breaks rule {}, {}", rule, name));
        }
    };
    add(event > 255, "event above 255");
    add(event == 65_535, "event 65535");
    add(s > 0, "s not 0");
    add(t > 0, "t not 0");
    add(u > 0, "u not 0");
    add(rule == 2 && s != t && s > 0 && t > 0, "s and t different and not 0");
    add(all_differ, "s, t and u different and not 0");
    add(observer > 0 && observer != level, "observer's level neither 0 nor the event's");
    add(rule <= 3 && leads_on(reaches), "a quiet step leads on");
    add(taken == n, "count n");
    add(taken > n, "count above n");
    add(taken > 255, "count above 255");
    add(n == 1, "1 state");
    if n == 64 {
        names.push("explained, breaks a rule, 64 states".to_string());
        if view.event_count() == 32 {
            names.push("explained, breaks a rule, 64 states and 32 events".to_string());
        }
    }
    names
}

fn pass_names(view: View, explanation: &Explanation) -> Vec<String> {
    let n = view.state_count() as u64;
    let classes = view.class_count() as u64;
    let taken = explanation.taken;
    let quiet: Vec<usize> = (0..view.event_count()).filter(|&e| view.is_quiet(e)).collect();
    let has_step = quiet.iter().any(|&e| has_step(&view, e));
    let mut names = Vec::new();
    let mut add = |applies: bool, name: &str| {
        if applies {
            names.push(format!("explained, passes, {}", name));
        }
    };
    add(n == 1, "1 state");
    add(n == 1 && has_step, "1 state with a quiet step");
    add(n == 64 && taken == 64, "64 states, count 64");
    add(n == 64 && taken == 4096, "64 states, count 4096");
    add(view.event_count() == 0, "0 events");
    add(view.event_count() == 32, "32 events");
    add(n == 64 && view.event_count() == 32, "64 states and 32 events");
    add(n > 1 && quiet.is_empty(), "2 states or more, no quiet event");
    add(n > 1 && !quiet.is_empty() && !has_step, "2 states or more, quiet events without a step");
    add(n > 1 && has_step && taken == n, "2 states or more, quiet steps that stay and no other");
    add(n > 1 && taken == n * n, "2 states or more, count n x n");
    add(n < taken && taken < n * n, "count between n and n x n");
    add(taken > 255, "count above 255");
    if taken > n {
        add(classes == n, "each state in its own class, a quiet step leads on");
        add(classes == 1, "one class, a quiet step leads on");
        add(1 < classes && classes < n, "several classes and fewer than states, a quiet step leads on");
    }
    names
}

/// By the low internal events that count, where there is a count.
fn internal_name(view: View, reaches: &[Vec<bool>], explanation: &Explanation) -> Option<String> {
    let verdict = verdict_name(explanation.rule as u32);
    let adds = add_to_a_reach(view, reaches, &low_internal_events(view));
    adds.then(|| format!("explained, {}, a low internal event adds to the count", verdict))
}

/// The wrong counts, and the wrong tables of quiet steps, that would show in this explanation.
fn wrong_count_names(view: View, reaches: &[Vec<bool>], explanation: &Explanation) -> Vec<String> {
    let found = break_of(explanation);
    let mut names = Vec::new();
    for (name, count) in COUNTS {
        if count(view, reaches, found) != explanation.taken {
            names.push(format!("wrong count differs: {}", name));
        }
    }
    let right = check::quiet_steps(view);
    for (name, counts) in STEPS {
        let table = wrong_closure::steps_by(view, counts);
        if table != right {
            let reaches: Vec<Vec<bool>> = (0..view.state_count()).map(|s| check::reach(&table, s)).collect();
            if wrong_count::when_reported(found, sum_of_sizes(&reaches)) != explanation.taken {
                names.push(format!("wrong steps change the count: {}", name));
            }
        }
    }
    names
}

/// The first break again, from the numbers that tell it.
pub fn break_of(explanation: &Explanation) -> Option<Break> {
    if explanation.rule == 0 {
        return None;
    }
    Some(Break {
        observer: explanation.observer as u8,
        rule: explanation.rule as u32,
        identifier: explanation.event as u16,
        s: explanation.s as usize,
        t: explanation.t as usize,
        u: explanation.u as usize,
    })
}
