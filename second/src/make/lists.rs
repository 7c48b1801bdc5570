//! Makes parts for several observers, and damages their lists.

use super::breaks::{breaking, changed_steps, Wanted};
use super::damages::set_length;
use super::groupings::{any_grouping, by_first_appearance};
use super::levels::{any_level, bad_level, identifiers, near_level, random_events};
use super::pairs::{bus, joinable_pair, pair, small_joinable_pair, third_for, PairPlan};
use super::passing::{passing_of_size, small_passing};
use super::shapes::{steps_of_shape, with_quiet_events_internal, Shape, SHAPES};
use crate::check;
use crate::record::{
    column, observer_levels, Event, First, Kind, Layout, Observer, Part, View, FEWEST_LISTED, FIRST_AT, HEADER,
    MOST_LISTED,
};
use crate::rng::Rng;
use std::ops::Range;

/// A number of observers that a list may have.
pub fn any_count(rng: &mut Rng) -> usize {
    rng.range(FEWEST_LISTED, MOST_LISTED)
}

/// Groupings are worked out for so many states at most; for more it would take too long.
const MOST_STATES_WORKED_OUT: usize = 16;

/// What an observer of one grouping can tell about a state: its class, the classes of its quiet reach, and for each low
/// input and low output the classes that it leads to, with quiet steps around an output.
fn seen_from(view: View, reaches: &[Vec<bool>], s: usize) -> Vec<Vec<bool>> {
    let classes_in = |set: &[bool]| {
        let mut classes = vec![false; view.class_count()];
        for t in 0..set.len() {
            if set[t] {
                classes[view.observer.classes[t] as usize] = true;
            }
        }
        classes
    };
    let mut own = vec![false; view.state_count()];
    own[s] = true;
    let mut seen = vec![classes_in(&own), classes_in(&reaches[s])];
    for e in 0..view.event_count() {
        if view.is_input(e) && view.is_low(e) {
            seen.push(classes_in(&view.steps[e][s]));
        }
        if view.is_low_output(e) {
            seen.push(classes_in(&check::quiet_event_quiet(view, reaches, e, s)));
        }
    }
    seen
}

/// A grouping for an observer of this level that keeps together what it cannot tell apart; it need not pass.
fn worked_out(part: &Part, level: u8) -> Vec<u8> {
    let n = part.state_count();
    let mut observer = Observer::new(level, vec![0; n]);
    loop {
        let view = View { part, observer: &observer };
        let reaches = check::quiet_reaches(view);
        let seen: Vec<Vec<Vec<bool>>> = (0..n).map(|s| seen_from(view, &reaches, s)).collect();
        let first_alike: Vec<usize> = (0..n).map(|s| (0..n).find(|&t| seen[t] == seen[s]).unwrap()).collect();
        let classes = by_first_appearance(&first_alike);
        if classes == observer.classes {
            return classes;
        }
        observer.classes = classes;
    }
}

/// An observer of this level for whom the part passes, with one of several groupings; none where none of them will do.
pub fn observer_for(rng: &mut Rng, part: &Part, level: u8) -> Option<Observer> {
    let n = part.state_count();
    let mut groupings = vec![part.observers[0].classes.clone(), (0..n as u8).collect(), vec![0; n]];
    if n <= MOST_STATES_WORKED_OUT {
        groupings.push(worked_out(part, level));
    }
    rng.shuffle(&mut groupings);
    let observers = groupings.into_iter().map(|classes| Observer::new(level, classes));
    observers.into_iter().find(|observer| check::break_for(View { part, observer }).is_none())
}

/// A level for a further observer: an event's, one near the first observer's, or any.
fn another_level(rng: &mut Rng, part: &Part) -> u8 {
    match rng.below(4) {
        0 if part.event_count() > 0 => part.events[rng.below(part.event_count())].level,
        1 => near_level(rng, part.observers[0].level),
        2 => rng.pick(&[0x00, 0x40, 0x80, 0xC0, 0xFF]),
        _ => any_level(rng),
    }
}

/// The table of a part for other observers.
fn for_observers(part: &Part, mut observers: Vec<Observer>) -> Part {
    observers.sort_by_key(|observer| observer.level);
    Part { observers, ..part.clone() }
}

/// How many levels are tried for a list.
const MOST_LEVELS_TRIED: usize = 40;

/// The same table for `count` observers, for each of whom it passes, the first one if it does; none where too few are
/// found.
pub fn listed(rng: &mut Rng, part: &Part, count: usize) -> Option<Part> {
    let mut observers: Vec<Observer> = Vec::new();
    if check::break_for(part.view(0)).is_none() {
        observers.push(part.observers[0].clone());
    }
    for _ in 0..MOST_LEVELS_TRIED {
        if observers.len() == count {
            return Some(for_observers(part, observers));
        }
        let level = another_level(rng, part);
        if !observers.iter().any(|observer| observer.level == level) {
            observers.extend(observer_for(rng, part, level));
        }
    }
    None
}

/// The levels of a list, with no two alike.
fn levels(rng: &mut Rng, count: usize) -> Vec<u8> {
    let mut levels: Vec<u8> = Vec::new();
    while levels.len() < count {
        let level = if rng.chance(1, 4) { rng.pick(&[0x00, 0x40, 0x80, 0xC0, 0xFF]) } else { any_level(rng) };
        if !levels.contains(&level) {
            levels.push(level);
        }
    }
    levels.sort();
    levels
}

/// A passing part for `count` observers whose inputs stay where one of them takes them for high; with a class for each
/// state it would pass for anyone.
pub fn staying_list(rng: &mut Rng, n: usize, m: usize, count: usize) -> Part {
    let levels = levels(rng, count);
    let seen_by = levels.iter().copied().find(|&level| level != 0xFF).unwrap();
    let events = random_events(rng, seen_by, m);
    let mut part = Part::without_steps(levels[0], rng.below(n), vec![0; n], events);
    part.observers = levels.iter().map(|&level| Observer::new(level, (0..n as u8).collect())).collect();
    for e in 0..m {
        let shape = rng.pick(&SHAPES);
        part.steps[e] = steps_of_shape(rng, shape, n);
        let stays = part.views().into_iter().any(|view| view.is_high(e));
        for s in 0..n {
            if part.is_input(e) && stays {
                part.steps[e][s] = vec![false; n];
            }
            if part.is_input(e) && !part.steps[e][s].contains(&true) {
                part.steps[e][s][if stays { s } else { rng.below(n) }] = true;
            }
        }
    }
    part.observers = levels.iter().map(|&level| observer_for(rng, &part, level).unwrap()).collect();
    part
}

/// A part for `count` observers each of whom sees more than those before: an output at its own level is quiet for them.
/// It passes, or has any groupings.
pub fn seeing_more(rng: &mut Rng, n: usize, count: usize) -> Part {
    let mut ranks = vec![0x00, 0x40, 0x80, 0xC0];
    while ranks.len() > count {
        ranks.remove(rng.below(ranks.len()));
    }
    let compartment = rng.pick(&[0x00, 0x01, 0x20, 0x3F]);
    let levels: Vec<u8> = ranks.into_iter().map(|rank| if rank == 0 { 0 } else { rank | compartment }).collect();
    let mut events: Vec<Event> =
        levels.iter().map(|&level| Event { identifier: 0, kind: Kind::Output, level }).collect();
    events.push(Event { identifier: 0, kind: Kind::Internal, level: any_level(rng) });
    rng.shuffle(&mut events);
    for (e, identifier) in identifiers(rng, count + 1).into_iter().enumerate() {
        events[e].identifier = identifier;
    }
    let mut part = Part::without_steps(levels[0], rng.below(n), (0..n as u8).collect(), events);
    for e in 0..=count {
        let shape = rng.pick(&[Shape::Few, Shape::Some, Shape::LineUp, Shape::LineDown, Shape::StarOut]);
        part.steps[e] = steps_of_shape(rng, shape, n);
    }
    let passes = rng.chance(1, 2);
    let observers = levels.iter().map(|&level| match passes {
        true => observer_for(rng, &part, level).unwrap(),
        false => Observer::new(level, any_grouping(rng, n)),
    });
    part.observers = observers.collect();
    part
}

/// A passing part of this size for `count` observers.
pub fn list_of_size(rng: &mut Rng, n: usize, m: usize, count: usize) -> Part {
    if rng.chance(1, 2) {
        for _ in 0..4 {
            let part = passing_of_size(rng, n, m);
            if let Some(part) = listed(rng, &part, count) {
                return part;
            }
        }
    }
    staying_list(rng, n, m, count)
}

/// A small passing part for several observers.
pub fn any_list(rng: &mut Rng) -> Part {
    let count = any_count(rng);
    let n = rng.range(1, 7);
    let m = rng.range(0, 6);
    list_of_size(rng, n, m, count)
}

/// The same, small enough for brute force.
pub fn small_list(rng: &mut Rng) -> Part {
    loop {
        let count = any_count(rng);
        let mut part = small_passing(rng);
        if rng.chance(1, 2) {
            part = with_quiet_events_internal(rng, &part);
        }
        if let Some(part) = listed(rng, &part, count) {
            return part;
        }
    }
}

/// Another observer of the table, of a level that is wanted and no observer's so far: one for whom it passes, or one with
/// any grouping. None where none is found.
fn another(
    rng: &mut Rng,
    part: &Part,
    so_far: &[Observer],
    wanted: impl Fn(u8) -> bool,
    passes: bool,
) -> Option<Observer> {
    for _ in 0..MOST_LEVELS_TRIED {
        let level = another_level(rng, part);
        if !wanted(level) || so_far.iter().any(|observer| observer.level == level) {
            continue;
        }
        if !passes {
            return Some(Observer::new(level, any_grouping(rng, part.state_count())));
        }
        if let Some(observer) = observer_for(rng, part, level) {
            return Some(observer);
        }
    }
    None
}

/// A part for `count` observers that is meant to break this rule for observer number i first. It passes for those
/// before; those behind have any grouping, or one with which it passes. None where the tries fail.
pub fn breaking_list_at(rng: &mut Rng, rule: u32, i: usize, count: usize) -> Option<Part> {
    let wanted = Wanted::anywhere(rng, rule);
    let (n, m) = (rng.range(3, 5), rng.range(3, 5));
    let part = breaking(rng, wanted, n, m)?;
    let own = part.observers[0].level;
    let mut observers = part.observers.clone();
    for _ in 0..i {
        let before = another(rng, &part, &observers, |level| level < own, true)?;
        observers.push(before);
    }
    for _ in i + 1..count {
        let passes = rng.chance(1, 2);
        let behind = another(rng, &part, &observers, |level| level > own, passes)?;
        observers.push(behind);
    }
    Some(for_observers(&part, observers))
}

/// A part for several observers that is meant to break a rule for some of them: by its steps, or by some columns.
pub fn breaking_list(rng: &mut Rng) -> Part {
    let count = any_count(rng);
    if rng.chance(1, 2) {
        let rule = rng.range(1, 5) as u32;
        let i = rng.below(count);
        if let Some(part) = breaking_list_at(rng, rule, i, count) {
            return part;
        }
    }
    let (n, m) = (rng.range(2, 6), rng.range(2, 6));
    let mut part = list_of_size(rng, n, m, count);
    if rng.chance(1, 3) {
        return changed_steps(rng, &part);
    }
    let certain = rng.below(count);
    for i in 0..count {
        if i == certain || rng.chance(1, 3) {
            part.observers[i].classes = any_grouping(rng, n);
        }
    }
    part
}

/// The tables of these parts for the same `count` observers, for each of whom all pass; none where too few are found.
fn listed_alike(rng: &mut Rng, parts: &[Part], count: usize) -> Option<Vec<Part>> {
    let mut lists: Vec<Vec<Observer>> = vec![Vec::new(); parts.len()];
    for _ in 0..MOST_LEVELS_TRIED {
        if lists[0].len() == count {
            let made = parts.iter().zip(lists).map(|(part, observers)| for_observers(part, observers));
            return Some(made.collect());
        }
        let of = rng.below(parts.len());
        let level = another_level(rng, &parts[of]);
        if lists[0].iter().any(|observer| observer.level == level) {
            continue;
        }
        let found: Vec<Option<Observer>> = parts.iter().map(|part| observer_for(rng, part, level)).collect();
        if found.iter().all(Option::is_some) {
            for (list, observer) in lists.iter_mut().zip(found) {
                list.extend(observer);
            }
        }
    }
    None
}

/// Two passing parts of a maker, for the same observers.
fn listed_pair(rng: &mut Rng, count: usize, maker: impl Fn(&mut Rng) -> (Part, Part)) -> (Part, Part) {
    loop {
        let (a, b) = maker(rng);
        if let Some(made) = listed_alike(rng, &[a, b], count) {
            return (made[0].clone(), made[1].clone());
        }
    }
}

/// Two passing parts by a plan, for the same `count` observers.
pub fn pair_of_lists(rng: &mut Rng, plan: PairPlan, count: usize) -> (Part, Part) {
    listed_pair(rng, count, |rng| pair(rng, plan))
}

/// Two passing parts for the same observers that join.
pub fn joinable_lists(rng: &mut Rng) -> (Part, Part) {
    let count = any_count(rng);
    listed_pair(rng, count, joinable_pair)
}

/// The same, small enough for brute force.
pub fn small_joinable_lists(rng: &mut Rng) -> (Part, Part) {
    let count = any_count(rng);
    listed_pair(rng, count, small_joinable_pair)
}

/// How a list is made another one.
#[derive(Clone, Copy, PartialEq, Eq, Debug)]
pub enum OtherList {
    /// Without its last observer.
    Front,
    /// Without its first observer.
    Back,
    /// The first observer alone.
    FirstAlone,
    /// The last observer alone.
    LastAlone,
    /// Another observer in the place of the first.
    OtherFirst,
    /// Another observer in the place of the last.
    OtherLast,
    /// Another observer in a place between; of two the list stays as it is.
    OtherBetween,
}

pub const OTHER_LISTS: [OtherList; 7] = [
    OtherList::Front,
    OtherList::Back,
    OtherList::FirstAlone,
    OtherList::LastAlone,
    OtherList::OtherFirst,
    OtherList::OtherLast,
    OtherList::OtherBetween,
];

/// The same table for another list of observers, for each of whom it passes. Where no other observer is found, the list
/// stays as it is.
pub fn with_other_list(rng: &mut Rng, part: &Part, other: OtherList) -> Part {
    let mut changed = part.clone();
    let last = part.observers.len() - 1;
    match other {
        OtherList::Front => {
            changed.observers.pop();
        }
        OtherList::Back => {
            changed.observers.remove(0);
        }
        OtherList::FirstAlone => changed.observers.truncate(1),
        OtherList::LastAlone => {
            changed.observers.drain(..last);
        }
        OtherList::OtherFirst => {
            let next = part.observers[1].level;
            if let Some(observer) = another(rng, part, &part.observers, |level| level < next, true) {
                changed.observers[0] = observer;
            }
        }
        OtherList::OtherLast => {
            let before = part.observers[last - 1].level;
            if let Some(observer) = another(rng, part, &part.observers, |level| level > before, true) {
                changed.observers[last] = observer;
            }
        }
        OtherList::OtherBetween if last > 1 => {
            let i = rng.range(1, last - 1);
            let (before, behind) = (part.observers[i - 1].level, part.observers[i + 1].level);
            let is_between = |level| before < level && level < behind;
            if let Some(observer) = another(rng, part, &part.observers, is_between, true) {
                changed.observers[i] = observer;
            }
        }
        OtherList::OtherBetween => {}
    }
    changed
}

/// A passing part of one or two states to join with another, for the same observers.
pub fn third_list_for(rng: &mut Rng, other: &Part) -> Part {
    let part = third_for(rng, other);
    let observers: Option<Vec<Observer>> =
        other.levels().iter().map(|&level| observer_for(rng, &part, level)).collect();
    match observers {
        Some(observers) => for_observers(&part, observers),
        None => third_list_for(rng, other),
    }
}

/// Parts that share a bus of identifiers, most of them for the same observers, some for fewer.
pub fn bus_of_lists(rng: &mut Rng, parts: usize, most_states: usize) -> Vec<Part> {
    let count = any_count(rng);
    loop {
        let made = bus(rng, parts, most_states);
        if let Some(mut made) = listed_alike(rng, &made, count) {
            for part in &mut made {
                if rng.chance(1, 8) {
                    let other = rng.pick(&OTHER_LISTS);
                    *part = with_other_list(rng, part, other);
                }
            }
            return made;
        }
    }
}

/// Damages the list of a record of kind 2 towards refusal 20: a count out of range, with as many columns, or observers
/// that do not rise.
pub fn damage_list(rng: &mut Rng, bytes: &mut Vec<u8>) {
    let layout = Layout::of(bytes);
    let count = layout.observers;
    if layout.form.first != First::Count || !(FEWEST_LISTED..=MOST_LISTED).contains(&count) {
        return;
    }
    if rng.chance(1, 2) {
        let wrong = rng.pick(&[0, 1, 5, 255]);
        with_count(rng, bytes, wrong);
    } else {
        let i = if rng.chance(1, 2) { count - 1 } else { rng.range(1, count - 1) };
        let equal = rng.chance(1, 2);
        misorder(bytes, i, equal);
    }
}

/// Observers number i - 1 and i of a list get one level, or change places; all others still rise.
pub fn misorder(bytes: &mut [u8], i: usize, equal: bool) {
    let layout = Layout::of(bytes);
    let (before, at) = (layout.observer_at(i - 1), layout.observer_at(i));
    if equal {
        bytes[at] = bytes[before];
    } else {
        bytes.swap(before, at);
    }
}

/// The record for so many observers: the first ones, or these and others, in rising order.
pub fn with_count(rng: &mut Rng, bytes: &mut Vec<u8>, count: usize) {
    let layout = Layout::of(bytes);
    let mut levels = observer_levels(bytes);
    let columns: Vec<Vec<u8>> = (0..layout.columns()).map(|i| column(bytes, i).to_vec()).collect();
    levels.truncate(count);
    while levels.len() < count {
        // There are 193 levels that are not bad.
        let level = if count > 100 { rng.byte() } else { any_level(rng) };
        if !levels.contains(&level) {
            levels.push(level);
        }
    }
    levels.sort();
    let mut changed = bytes[..layout.observer_at(0)].to_vec();
    changed[FIRST_AT] = count as u8;
    changed.extend_from_slice(&levels);
    for i in 0..count {
        changed.extend_from_slice(&columns[i % columns.len()]);
    }
    changed.extend_from_slice(&bytes[layout.entry_at(0)..]);
    let length = changed.len() - HEADER;
    set_length(&mut changed, length as u32);
    *bytes = changed;
}

/// Gives bad levels to one or more of the first observers of a list, or to those behind the first.
pub fn mislabel_list(rng: &mut Rng, bytes: &mut [u8]) {
    let count = Layout::of(bytes).observers;
    let behind = if rng.chance(1, 2) { count } else { rng.range(1, count) };
    let first_is_good = behind > 1 && rng.chance(1, 2);
    mislabel_observers(rng, bytes, usize::from(first_is_good)..behind);
}

/// Gives bad levels to these observers of a list, which then still rises. They begin with the first, or with the second
/// and the first gets 0x00; all good levels behind the first are above the bad ones.
pub fn mislabel_observers(rng: &mut Rng, bytes: &mut [u8], places: Range<usize>) {
    let layout = Layout::of(bytes);
    let mut levels: Vec<u8> = Vec::new();
    while levels.len() < places.len() {
        let level = bad_level(rng, 0xFF);
        if !levels.contains(&level) {
            levels.push(level);
        }
    }
    levels.sort();
    for i in 0..places.start {
        bytes[layout.observer_at(i)] = 0x00;
    }
    for (i, level) in places.zip(levels) {
        bytes[layout.observer_at(i)] = level;
    }
}

#[cfg(test)]
mod tests {
    use super::*;
    use crate::check::Verdict;
    use crate::join;
    use crate::make::any_passing;
    use crate::record::{self, first_refusal};

    #[test]
    fn lists_pass() {
        let mut rng = Rng::new(92);
        for round in 0..300 {
            let part = match round % 3 {
                0 => any_list(&mut rng),
                1 => small_list(&mut rng),
                _ => {
                    let (n, m, count) = (rng.range(1, 20), rng.range(0, 8), any_count(&mut rng));
                    staying_list(&mut rng, n, m, count)
                }
            };
            assert_eq!(check::check(&record::write(&part)), Verdict::Pass);
        }
        let bytes = record::write(&staying_list(&mut rng, 64, 32, 4));
        assert_eq!((bytes.len(), check::check(&bytes)), (16_782, Verdict::Pass));
    }

    /// The observers of a list see different things, and pass with different groupings.
    #[test]
    fn observers_differ() {
        let mut rng = Rng::new(93);
        let (mut columns, mut levels) = (0, 0);
        for _ in 0..300 {
            let part = any_list(&mut rng);
            let (first, second) = (part.view(0), part.view(1));
            columns += usize::from(first.observer.classes != second.observer.classes);
            levels += usize::from((0..part.event_count()).any(|e| first.is_low(e) != second.is_low(e)));
        }
        assert!(columns > 50 && levels > 50, "{} {}", columns, levels);
    }

    #[test]
    fn lists_break_where_they_are_meant_to() {
        let mut rng = Rng::new(94);
        for rule in 2..=5 {
            for i in 0..4 {
                let mut as_meant = 0;
                for _ in 0..400 {
                    if let Some(part) = breaking_list_at(&mut rng, rule, i, 4) {
                        assert_eq!(first_refusal(&record::write(&part)), None);
                        let found = check::first_break(&part);
                        let is_meant =
                            |broken: check::Break| broken.rule == rule && broken.observer == part.observers[i].level;
                        as_meant += usize::from(found.is_some_and(is_meant));
                    }
                }
                assert!(as_meant > 10, "rule {} at observer {}: {}", rule, i, as_meant);
            }
        }
    }

    #[test]
    fn pairs_join_unless_a_list_is_changed() {
        let mut rng = Rng::new(95);
        for _ in 0..100 {
            let (a, b) = joinable_lists(&mut rng);
            assert_eq!(join::refusal_of_pair(&a, &b), None);
            for other in OTHER_LISTS {
                let changed = with_other_list(&mut rng, &b, other);
                assert!(check::passes(&changed));
                assert_eq!(first_refusal(&record::write(&changed)), None);
                if changed != b {
                    assert_eq!(join::refusal_of_pair(&a, &changed), Some(join::JoinAnswer::Refused(9)));
                }
            }
            let third = third_list_for(&mut rng, &a);
            assert!(check::passes(&third) && third.levels() == a.levels());
        }
    }

    #[test]
    fn damaged_lists_are_refused() {
        let mut rng = Rng::new(96);
        for _ in 0..300 {
            let bytes = record::write(&any_list(&mut rng));
            let mut unordered = bytes.clone();
            damage_list(&mut rng, &mut unordered);
            assert_eq!(first_refusal(&unordered), Some(20));
            let mut mislabelled = bytes.clone();
            mislabel_list(&mut rng, &mut mislabelled);
            assert_eq!(first_refusal(&mislabelled), Some(16));
            // A record that lists no observers stays as it is.
            let one = record::write(&any_passing(&mut rng));
            let mut same = one.clone();
            damage_list(&mut rng, &mut same);
            assert_eq!(same, one);
        }
    }
}
