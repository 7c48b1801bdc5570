//! Categories of closures, by the checker's own answer.

use crate::category_internal::{add_to_a_reach, has_step, low_internal_events, quiet_steps_without};
use crate::check::{self, Verdict};
use crate::closure::{self, ClosureAnswer, LONGEST, PIECE};
use crate::record::{self, Part, View, ORDER};
use crate::wrong_closure::{self, DISTANCES, LONGEST_WAY, ORDERS, STEPS};

/// Is this a category that must come up most often?
pub fn is_main(name: &str) -> bool {
    name == CLOSED || name == NO_WRONG_ORDER
}

const CLOSED: &str = "closed";
const NO_WRONG_ORDER: &str = "closed, no wrong order gives the visits from some state";
const SHORTER: &str = "closed, a low internal event adds to no set and makes a distance shorter";

/// The wrong orders and distances, and the steps without an event, are tried on parts of so many states at most; on
/// larger ones they would take too long. The longest ways are tried on fewer.
const MOST_STATES_MISREAD: usize = 24;
const MOST_STATES_LONGEST_WAY: usize = 5;

/// Every category.
pub fn names() -> Vec<String> {
    let mut names = Vec::new();
    for number in ORDER {
        names.push(format!("refused {}", number));
        names.push(format!("refused {}, no room either", number));
        names.push(format!("refused {}, room for the longest closures", number));
    }
    for rule in 1..=5 {
        names.push(format!("closed, breaks rule {}", rule));
    }
    for name in [
        "refused 15",
        "refused 15, one byte short",
        "refused 15, no byte at all",
        CLOSED,
        NO_WRONG_ORDER,
        "closed, passes",
        "closed, just enough room",
        "closed, one byte to spare",
        "closed, room to spare",
        "closed, 1 state",
        "closed, 64 states",
        "closed, 0 events",
        "closed, 32 events",
        "closed, 64 states and 32 events",
        "closed, no quiet event",
        "closed, quiet events without a step",
        "closed, quiet steps that stay and no other",
        "closed, 8 states or more, each quiet step there is",
        "closed, 8 states or more, one leads to all others at once, no other quiet step",
        "closed, 8 states or more, all others lead to one at once, no other quiet step",
        "closed, 8 states or more, one circle of quiet steps",
        "closed, 8 states or more, all visited from each",
        "closed, 64 visits",
        "closed, 64 visits, rising",
        "closed, 64 visits, falling",
        "closed, 64 visits, the last at distance 63",
        "closed, 64 visits, all behind s at distance 1",
        "closed, 8 visits or more at a distance above 1",
        "closed, several visits at each of three distances",
        "closed, 8 distances or more, several visits at one of them",
        "closed, 32 visits or more, neither rising nor falling behind s",
        "closed, state 0 the last visit",
        "closed, state 0 neither the first visit nor the last",
        "closed, state 63 neither the first visit nor the last",
        "closed, three quiet events or more, none to be spared",
        "closed, a high output adds to a set",
        "closed, a high internal event adds to a set",
        "closed, a low internal event adds to a set",
        "closed, a low internal event of the observer's own level adds to a set",
        "closed, a low internal event of another level adds to a set",
        SHORTER,
        "closed, low internal events alone have quiet steps, one adds to a set",
    ] {
        names.push(name.to_string());
    }
    for (name, _) in ORDERS {
        names.push(format!("wrong order differs: {}", name));
    }
    for (name, _) in DISTANCES {
        names.push(format!("wrong distances differ: {}", name));
    }
    for (name, _) in STEPS {
        names.push(format!("wrong steps differ: {}", name));
    }
    names
}

/// The categories of one call with an output buffer of `room` bytes, given Check's verdict on the record.
pub fn of_closure(bytes: &[u8], room: usize, answer: ClosureAnswer, verdict: Verdict) -> Vec<String> {
    match answer {
        ClosureAnswer::Length(length) => {
            let part = record::read(bytes).unwrap();
            let mut names = vec![CLOSED.to_string(), rule_name(verdict)];
            names.extend(size_names(&part, room - length));
            for view in part.views() {
                let mut found = block_names(view);
                found.retain(|name| !names.contains(name));
                names.extend(found);
            }
            names
        }
        ClosureAnswer::Refused(15) => no_room_names(&record::read(bytes).unwrap(), room),
        ClosureAnswer::Refused(number) => refused_names(number, room),
    }
}

/// By one observer's block; a category counts once where some block belongs to it.
fn block_names(view: View) -> Vec<String> {
    let table = check::quiet_steps(view);
    let reaches = check::quiet_reaches(view);
    let mut names = event_names(view);
    if view.state_count() <= MOST_STATES_MISREAD {
        names.extend(needed_names(view, &reaches));
        names.extend(shorter_name(view, &reaches, &table));
    }
    names.extend(table_names(&table, &reaches));
    names.extend(visit_names(&table));
    names.extend(wrong_step_names(view, &table, &reaches));
    names
}

fn refused_names(number: u32, room: usize) -> Vec<String> {
    let mut names = vec![format!("refused {}", number)];
    if room < PIECE {
        names.push(format!("refused {}, no room either", number));
    }
    if room >= LONGEST {
        names.push(format!("refused {}, room for the longest closures", number));
    }
    names
}

fn no_room_names(part: &Part, room: usize) -> Vec<String> {
    let mut names = vec!["refused 15".to_string()];
    if room + 1 == closure::length(part) {
        names.push("refused 15, one byte short".to_string());
    }
    if room == 0 {
        names.push("refused 15, no byte at all".to_string());
    }
    names
}

/// What Check says of the part; the closures do not ask.
fn rule_name(verdict: Verdict) -> String {
    match verdict {
        Verdict::Pass => "closed, passes".to_string(),
        Verdict::Breaks(found) => format!("closed, breaks rule {}", found.rule),
        Verdict::Refused(_) => unreachable!(),
    }
}

fn size_names(part: &Part, spare: usize) -> Vec<String> {
    let n = part.state_count();
    let m = part.event_count();
    let mut names = Vec::new();
    let mut add = |applies: bool, name: &str| {
        if applies {
            names.push(name.to_string());
        }
    };
    add(spare == 0, "closed, just enough room");
    add(spare == 1, "closed, one byte to spare");
    add(spare > 1, "closed, room to spare");
    add(n == 1, "closed, 1 state");
    add(n == 64, "closed, 64 states");
    add(m == 0, "closed, 0 events");
    add(m == 32, "closed, 32 events");
    add(n == 64 && m == 32, "closed, 64 states and 32 events");
    names
}

fn event_names(view: View) -> Vec<String> {
    let quiet: Vec<usize> = (0..view.event_count()).filter(|&e| view.is_quiet(e)).collect();
    let mut names = Vec::new();
    if quiet.is_empty() {
        names.push("closed, no quiet event".to_string());
    } else if !quiet.iter().any(|&e| has_step(&view, e)) {
        names.push("closed, quiet events without a step".to_string());
    }
    names
}

/// By the events without which some quiet reach would be smaller.
fn needed_names(view: View, reaches: &[Vec<bool>]) -> Vec<String> {
    let quiet: Vec<usize> = (0..view.event_count()).filter(|&e| view.is_quiet(e)).collect();
    let needed: Vec<usize> = quiet.iter().copied().filter(|&e| add_to_a_reach(view, reaches, &[e])).collect();
    let mut names = Vec::new();
    for &e in &needed {
        for name in names_of_event(view, e) {
            let name = format!("closed, {} adds to a set", name);
            if !names.contains(&name) {
                names.push(name);
            }
        }
    }
    if quiet.len() >= 3 && needed == quiet {
        names.push("closed, three quiet events or more, none to be spared".to_string());
    }
    let are_low_internal = quiet.iter().all(|&e| !has_step(&view, e) || (view.is_internal(e) && view.is_low(e)));
    if are_low_internal && !needed.is_empty() {
        names.push("closed, low internal events alone have quiet steps, one adds to a set".to_string());
    }
    names
}

/// A quiet event in words.
fn names_of_event(view: View, e: usize) -> &'static [&'static str] {
    if view.is_output(e) {
        &["a high output"]
    } else if view.is_high(e) {
        &["a high internal event"]
    } else if view.events[e].level == view.level() {
        &["a low internal event", "a low internal event of the observer's own level"]
    } else {
        &["a low internal event", "a low internal event of another level"]
    }
}

/// By the low internal events that make a distance shorter and nothing else.
fn shorter_name(view: View, reaches: &[Vec<bool>], table: &[Vec<bool>]) -> Option<String> {
    let shortens = |e: usize| {
        let others = quiet_steps_without(view, &[e]);
        !add_to_a_reach(view, reaches, &[e])
            && (0..table.len()).any(|s| closure::least_steps(&others, s) != closure::least_steps(table, s))
    };
    low_internal_events(view).into_iter().any(shortens).then(|| SHORTER.to_string())
}

/// By the single quiet steps; those that stay in their state do not count for a shape.
fn table_names(table: &[Vec<bool>], reaches: &[Vec<bool>]) -> Vec<String> {
    let n = table.len();
    let stays = (0..n).filter(|&s| table[s][s]).count();
    let leading = |s: usize| (0..n).filter(|&t| t != s && table[s][t]).count();
    let steps: usize = (0..n).map(leading).sum();
    let one_leads_to_all = (0..n).any(|s| leading(s) == n - 1);
    let all_lead_to_one = (0..n).any(|t| (0..n).filter(|&s| s != t && table[s][t]).count() == n - 1);
    let one_each = (0..n).all(|s| leading(s) == 1);
    let all_from_each = reaches.iter().all(|reach| !reach.contains(&false));
    let mut names = Vec::new();
    let mut add = |applies: bool, name: &str| {
        if applies {
            names.push(name.to_string());
        }
    };
    add(steps == 0 && stays > 0, "closed, quiet steps that stay and no other");
    if n >= 8 {
        add(steps + stays == n * n, "closed, 8 states or more, each quiet step there is");
        let name = "closed, 8 states or more, one leads to all others at once, no other quiet step";
        add(one_leads_to_all && steps == n - 1, name);
        let name = "closed, 8 states or more, all others lead to one at once, no other quiet step";
        add(all_lead_to_one && steps == n - 1, name);
        add(one_each && all_from_each, "closed, 8 states or more, one circle of quiet steps");
        add(all_from_each, "closed, 8 states or more, all visited from each");
    }
    names
}

/// By the visits: a category counts once where the visits from some state belong to it.
fn visit_names(table: &[Vec<bool>]) -> Vec<String> {
    let mut names = Vec::new();
    for s in 0..table.len() {
        let least = closure::least_steps(table, s);
        let visits = closure::visits(&least);
        let distances = closure::distances(&least, &visits);
        let mut found = names_of_visits(&visits);
        found.extend(names_of_distances(&distances));
        if table.len() <= MOST_STATES_MISREAD {
            found.extend(wrong_order_names(table, &visits));
            found.extend(wrong_distance_names(table, &least, &visits, &distances));
        }
        found.retain(|name| !names.contains(name));
        names.extend(found);
    }
    names
}

fn names_of_visits(visits: &[usize]) -> Vec<String> {
    let count = visits.len();
    let last = visits[count - 1];
    let rises = |visits: &[usize]| visits.windows(2).all(|pair| pair[0] < pair[1]);
    let falls = |visits: &[usize]| visits.windows(2).all(|pair| pair[0] > pair[1]);
    let is_inside = |t: usize| visits[1..].contains(&t) && last != t;
    let mut names = Vec::new();
    let mut add = |applies: bool, name: &str| {
        if applies {
            names.push(name.to_string());
        }
    };
    if count == 64 {
        add(true, "closed, 64 visits");
        add(rises(visits), "closed, 64 visits, rising");
        add(falls(visits), "closed, 64 visits, falling");
    }
    if count >= 32 {
        let is_mixed = !rises(&visits[1..]) && !falls(&visits[1..]);
        add(is_mixed, "closed, 32 visits or more, neither rising nor falling behind s");
    }
    add(count > 1 && last == 0, "closed, state 0 the last visit");
    add(is_inside(0), "closed, state 0 neither the first visit nor the last");
    add(is_inside(63), "closed, state 63 neither the first visit nor the last");
    names
}

fn names_of_distances(distances: &[usize]) -> Vec<String> {
    let count = distances.len();
    let farthest = distances[count - 1];
    let mut at = vec![0; farthest + 1];
    for &distance in distances {
        at[distance] += 1;
    }
    let several = at.iter().filter(|&&visits| visits > 1).count();
    let mut names = Vec::new();
    let mut add = |applies: bool, name: &str| {
        if applies {
            names.push(name.to_string());
        }
    };
    add(count == 64 && farthest == 63, "closed, 64 visits, the last at distance 63");
    add(count == 64 && farthest == 1, "closed, 64 visits, all behind s at distance 1");
    add(at.iter().skip(2).any(|&visits| visits >= 8), "closed, 8 visits or more at a distance above 1");
    add(several >= 3, "closed, several visits at each of three distances");
    add(farthest >= 8 && several > 0, "closed, 8 distances or more, several visits at one of them");
    names
}

/// The wrong orders that would show in these visits.
fn wrong_order_names(table: &[Vec<bool>], visits: &[usize]) -> Vec<String> {
    let mut names = Vec::new();
    for (name, order) in ORDERS {
        if order(table, visits[0]) != visits {
            names.push(format!("wrong order differs: {}", name));
        }
    }
    if names.len() == ORDERS.len() {
        names.push(NO_WRONG_ORDER.to_string());
    }
    names
}

/// The wrong distances that would show beside these visits.
fn wrong_distance_names(
    table: &[Vec<bool>],
    least: &[Option<usize>],
    visits: &[usize],
    distances: &[usize],
) -> Vec<String> {
    let right = closure::entry_bytes(distances);
    let mut names = Vec::new();
    for (name, numbers) in DISTANCES {
        if name == LONGEST_WAY && table.len() > MOST_STATES_LONGEST_WAY {
            continue;
        }
        if closure::entry_bytes(&numbers(table, least, visits)) != right {
            names.push(format!("wrong distances differ: {}", name));
        }
    }
    names
}

/// The wrong tables of quiet steps that would show in some set.
fn wrong_step_names(view: View, right: &[Vec<bool>], reaches: &[Vec<bool>]) -> Vec<String> {
    let mut names = Vec::new();
    for (name, counts) in STEPS {
        let table = wrong_closure::steps_by(view, counts);
        if table != right && (0..view.state_count()).any(|s| check::reach(&table, s) != reaches[s]) {
            names.push(format!("wrong steps differ: {}", name));
        }
    }
    names
}
