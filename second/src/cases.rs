//! Collections of records that hold each category often enough, by the checker's own verdict.

use crate::category::{self, Tally};
use crate::category_internal;
use crate::category_label::{self, BAD_LEVELS, GOOD_LEVELS};
use crate::category_limited;
use crate::category_list::{self, LARGEST, LARGEST_BROKEN, WRONG_COUNTS};
use crate::check;
use crate::make::{self, Wanted};
use crate::record::{self, kind_can_get, FIRST_AT, FORMS, KIND_AT, MOST_LISTED, ORDER, STATE_COUNT_AT};
use crate::rng::Rng;

/// How many inputs a collection may try before it gives up; a run then fails for want of a category.
const MOST_TRIES: usize = 60_000;

/// Keeps a record if it belongs to a category that still lacks cases.
fn keep_if_wanted(tally: &mut Tally, kept: &mut Vec<Vec<u8>>, bytes: Vec<u8>, names: &[String]) {
    let mut wanted = false;
    for name in names {
        if tally.lacks(name) {
            wanted = true;
        }
    }
    if wanted {
        for name in names {
            tally.count_if_known(name);
        }
        kept.push(bytes);
    }
}

fn tally_of(names: &[String], minimum: usize) -> Tally {
    let mut tally = Tally::new();
    for name in names {
        tally.need(name, minimum);
    }
    tally
}

/// Records for each refusal of a record, each by a small damage to a passing record.
pub fn refused(rng: &mut Rng, minimum: usize) -> Vec<Vec<u8>> {
    let mut tally = tally_of(&category::refused_names(), minimum);
    let mut kept = Vec::new();
    for round in 0..MOST_TRIES {
        if tally.too_few().is_empty() {
            break;
        }
        let n = if rng.chance(1, 10) { rng.range(9, 64) } else { rng.range(1, 8) };
        let m = if rng.chance(1, 10) { rng.range(7, 32) } else { rng.range(0, 6) };
        let refusal = ORDER[round % ORDER.len()];
        let kind = kind_for(rng, &[refusal], &[1, 1, 2, 3]);
        let mut bytes = record::write(&make::passing_of_kind(rng, kind, n, m));
        make::damage(rng, &mut bytes, refusal);
        let names = category::of_record(&bytes);
        keep_if_wanted(&mut tally, &mut kept, bytes, &names);
    }
    kept
}

/// One of these kinds of records, or the one that can get these refusals.
fn kind_for(rng: &mut Rng, refusals: &[u32], kinds: &[u16]) -> u16 {
    let can_get_all = |kind: u16| refusals.iter().all(|&refusal| kind_can_get(kind, refusal));
    let drawn = rng.pick(kinds);
    [drawn].into_iter().chain(FORMS.iter().map(|form| form.kind)).find(|&kind| can_get_all(kind)).unwrap()
}

/// Records for the categories of levels: each bad level alone, then bad ones at each place.
pub fn mislabelled(rng: &mut Rng, minimum: usize) -> Vec<Vec<u8>> {
    let mut tally = tally_of(&category_label::names(), minimum);
    let mut kept = Vec::new();
    for level in BAD_LEVELS {
        for whose in [0, rng.range(1, 3)] {
            let mut bytes = record::write(&make::passing_of_size(rng, 2, 3));
            make::label(&mut bytes, whose, level);
            kept.push(bytes);
        }
    }
    for round in 0..MOST_TRIES {
        if tally.too_few().is_empty() {
            break;
        }
        let bytes = one_mislabelled(rng, round);
        let names = category_label::of_record(&bytes);
        keep_if_wanted(&mut tally, &mut kept, bytes, &names);
    }
    kept
}

/// A record with bad levels at the places of this round, or with good ones near them, now and then with another damage.
fn one_mislabelled(rng: &mut Rng, round: usize) -> Vec<u8> {
    let m = match round % 8 {
        0 => 0,
        1 => 1,
        2 => 32,
        _ => rng.range(3, 5),
    };
    let n = rng.range(3, 5);
    let mut part = passing_or_breaking(rng, n, m);
    if rng.chance(1, 4) {
        part = make::limited(rng, &part);
    }
    let mut whose: Vec<usize> = match round % 8 {
        0 | 3 => vec![0],
        1 | 4 => vec![1],
        5 => vec![rng.range(2, m - 1)],
        2 | 6 => vec![m],
        _ => (0..=m).filter(|_| rng.chance(1, 2)).collect(),
    };
    let is_good = rng.chance(1, 4);
    if is_good {
        whose.push(0);
    }
    let mut bytes = record::write(&part);
    for place in whose {
        let level = if is_good { rng.pick(&GOOD_LEVELS) } else { make::bad_level(rng, part.observers[0].level) };
        make::label(&mut bytes, place, level);
    }
    if !is_good && rng.chance(1, 3) {
        let refusal = rng.pick(&[6, 21, 7, 8]);
        make::damage(rng, &mut bytes, refusal);
    }
    bytes
}

/// A part of this size that passes, or that is meant to break any rule.
fn passing_or_breaking(rng: &mut Rng, n: usize, m: usize) -> record::Part {
    let rule = rng.below(6) as u32;
    if rule > 0 && m >= 3 {
        let wanted = Wanted::anywhere(rng, rule);
        if let Some(part) = make::breaking(rng, wanted, n, m) {
            return part;
        }
    }
    make::passing_of_size(rng, n, m)
}

/// Two reasons to stop, the earlier one first; none stands for a break.
pub type Reasons = (u32, Option<u32>);

/// Every two reasons that a record of this kind can have.
pub fn each_two_reasons_of(kind: u16) -> Vec<Reasons> {
    let order: Vec<u32> = ORDER.into_iter().filter(|&number| kind_can_get(kind, number)).collect();
    let mut reasons = Vec::new();
    for earlier in 0..order.len() {
        for later in earlier + 1..order.len() {
            reasons.push((order[earlier], Some(order[later])));
        }
        reasons.push((order[earlier], None));
    }
    reasons
}

/// Every two reasons that some record can have.
pub fn each_two_reasons() -> Vec<Reasons> {
    let mut reasons: Vec<Reasons> = Vec::new();
    for form in FORMS {
        let mut others = each_two_reasons_of(form.kind);
        others.retain(|two| !reasons.contains(two));
        reasons.extend(others);
    }
    reasons
}

/// The refusals behind which another one can come.
pub fn earlier_refusals() -> Vec<u32> {
    ORDER[..ORDER.len() - 1].to_vec()
}

/// Two damages at once, with the reasons that are meant, on a record of kind 1 where it can have them.
pub fn twice_damaged(rng: &mut Rng) -> (Vec<u8>, Reasons) {
    let reasons = rng.pick(&each_two_reasons());
    let refusals: Vec<u32> = [Some(reasons.0), reasons.1].into_iter().flatten().collect();
    let kind = kind_for(rng, &refusals, &[1]);
    (damaged_for(rng, reasons, kind), reasons)
}

/// The same on a record of this kind.
pub fn twice_damaged_of(rng: &mut Rng, kind: u16) -> (Vec<u8>, Reasons) {
    let reasons = rng.pick(&each_two_reasons_of(kind));
    (damaged_for(rng, reasons, kind), reasons)
}

fn damaged_for(rng: &mut Rng, (earlier, later): Reasons, kind: u16) -> Vec<u8> {
    let n = rng.range(2, 6);
    let m = rng.range(2, 5);
    let mut part = make::passing_of_kind(rng, kind, n, m);
    if later.is_none() {
        part = make::changed_steps(rng, &part);
    }
    let mut bytes = record::write(&part);
    if let Some(number) = later {
        make::damage(rng, &mut bytes, number);
    }
    make::damage(rng, &mut bytes, earlier);
    bytes
}

/// Records for each rule as the first break, at first, middle and last places, and at the boundaries.
pub fn breaking(rng: &mut Rng, minimum: usize) -> Vec<Vec<u8>> {
    let mut tally = tally_of(&category::break_names(), minimum);
    let mut kept = Vec::new();
    for round in 0..MOST_TRIES {
        let too_few = tally.too_few();
        if too_few.is_empty() {
            break;
        }
        let boundaries_only = too_few.iter().all(|name| name.starts_with("break"));
        let wanted = Wanted::anywhere(rng, (round % 5) as u32 + 1);
        let made = match round % 13 {
            0 => make::breaking(rng, wanted, 64, 3),
            1 => {
                let n = rng.range(3, 5);
                make::breaking(rng, wanted, n, 32)
            }
            2 => Some(one_state_without_a_step(rng)),
            3 => Some(make::small_random_table(rng)),
            4 => {
                let n = rng.range(34, 64);
                Some(make::cut_line(rng, n))
            }
            _ => {
                let n = rng.range(3, 9);
                let m = rng.range(3, 7);
                make::breaking(rng, wanted, n, m)
            }
        };
        if boundaries_only && round % 13 > 4 {
            continue;
        }
        if let Some(part) = made {
            let bytes = record::write(&part);
            let names = category::of_record(&bytes);
            keep_if_wanted(&mut tally, &mut kept, bytes, &names);
        }
    }
    kept
}

/// One state can break rule 1 only: an input has no step.
pub fn one_state_without_a_step(rng: &mut Rng) -> record::Part {
    let m = rng.range(1, 5);
    let mut part = make::passing_of_size(rng, 1, m);
    let e = rng.below(m);
    part.steps[e][0][0] = false;
    part
}

/// Passing records at each boundary.
pub fn passing(rng: &mut Rng, minimum: usize) -> Vec<Vec<u8>> {
    let mut tally = tally_of(&category::pass_names(), minimum);
    let mut kept = Vec::new();
    for round in 0..MOST_TRIES {
        if tally.too_few().is_empty() {
            break;
        }
        let (n, m) = match round % 8 {
            0 => (1, rng.range(0, 6)),
            1 | 2 => (64, rng.range(0, 3)),
            3 => (rng.range(1, 8), 0),
            4 => (rng.range(1, 5), 32),
            5 => (rng.range(1, 8), rng.range(0, 6)),
            6 => (rng.range(33, 64), 3),
            _ => (64, 32),
        };
        if n == 64 && m == 32 && !tally.lacks("pass, 64 states and 32 events") {
            continue;
        }
        let part = if round % 8 == 6 {
            make::line(rng, n).0
        } else if rng.chance(1, 12) {
            make::full(rng, n, m)
        } else {
            make::passing_of_size(rng, n, m)
        };
        let part = if round % 8 == 2 { make::regrouped(rng, &part) } else { part };
        let bytes = record::write(&part);
        let names = category::of_record(&bytes);
        keep_if_wanted(&mut tally, &mut kept, bytes, &names);
    }
    kept
}

/// Passing records of 8 states or more and several classes, whose quiet steps matter.
pub fn quiet(rng: &mut Rng, minimum: usize) -> Vec<Vec<u8>> {
    let names = [category::QUIET_IGNORED.to_string(), category::QUIET_REMOVED.to_string()];
    let mut tally = tally_of(&names, minimum);
    let mut kept = Vec::new();
    for _ in 0..MOST_TRIES {
        if tally.too_few().is_empty() {
            break;
        }
        let bytes = record::write(&make::passing_with_quiet_steps(rng));
        let names = category::of_record(&bytes);
        keep_if_wanted(&mut tally, &mut kept, bytes, &names);
    }
    kept
}

/// Records for the categories of internal events.
pub fn internal(rng: &mut Rng, minimum: usize) -> Vec<Vec<u8>> {
    let mut tally = tally_of(&category_internal::names(), minimum);
    let mut kept = Vec::new();
    for round in 0..MOST_TRIES {
        if tally.too_few().is_empty() {
            break;
        }
        let bytes = record::write(&one_with_internal_events(rng, round));
        if let Some(judged) = category_internal::judged(&bytes, check::check(&bytes)) {
            keep_if_wanted(&mut tally, &mut kept, bytes, &judged.names());
        }
    }
    kept
}

/// A part that passes or breaks rule 4 or 5 whose quiet events are internal for the most part.
fn one_with_internal_events(rng: &mut Rng, round: usize) -> record::Part {
    let part = match round % 4 {
        0 => make::any_passing(rng),
        1 => {
            let part = make::small_passing(rng);
            make::changed_steps(rng, &part)
        }
        _ => {
            let wanted = Wanted::anywhere(rng, 4 + (round as u32 / 4) % 2);
            let n = rng.range(3, 7);
            match make::breaking(rng, wanted, n, 4) {
                Some(part) => part,
                None => make::small_passing(rng),
            }
        }
    };
    make::with_quiet_events_internal(rng, &part)
}

/// Records for the categories of kinds and of lists of observers: first some by a plan, then any.
pub fn lists(rng: &mut Rng, minimum: usize) -> Vec<Vec<u8>> {
    let mut tally = Tally::new();
    for name in category_list::names() {
        tally.need(&name, category_list::least_of(&name, minimum));
    }
    let mut kept = Vec::new();
    let mut keep = |tally: &mut Tally, bytes: Vec<u8>| {
        let names = category_list::of_record(&bytes, check::check(&bytes));
        keep_if_wanted(tally, &mut kept, bytes, &names);
    };
    for _ in 0..minimum {
        keep(&mut tally, too_long_a_list(rng));
        for bytes in other_kinds(rng) {
            keep(&mut tally, bytes);
        }
        for count in category_list::counts() {
            for bytes in damaged_lists(rng, count) {
                keep(&mut tally, bytes);
            }
        }
    }
    for round in 0..MOST_TRIES {
        if tally.too_few().is_empty() {
            break;
        }
        if round % 20 == 0 && (tally.lacks(LARGEST) || tally.lacks(LARGEST_BROKEN)) {
            let part = largest_list(rng, tally.lacks(LARGEST));
            keep(&mut tally, record::write(&part));
        } else {
            keep(&mut tally, one_list(rng, round));
        }
    }
    kept
}

/// A passing record of each kind with each other kind, described or not.
fn other_kinds(rng: &mut Rng) -> Vec<Vec<u8>> {
    let mut made = Vec::new();
    for form in FORMS {
        let (n, m) = (rng.range(1, 4), rng.range(0, 3));
        let bytes = record::write(&make::passing_of_kind(rng, form.kind, n, m));
        let undescribed =
            [0, 4, rng.range(5, 255) as u16, 257, 258, 259, rng.pick(&[256, 260]), rng.range(260, 65_535) as u16];
        for kind in undescribed.into_iter().chain(FORMS.iter().map(|form| form.kind)) {
            let mut changed = bytes.clone();
            changed[KIND_AT..KIND_AT + 2].copy_from_slice(&kind.to_le_bytes());
            made.push(changed);
        }
    }
    made
}

/// A passing record of kind 2, damaged at each place: its order, its count, its columns, its levels.
fn damaged_lists(rng: &mut Rng, count: usize) -> Vec<Vec<u8>> {
    let bytes = record::write(&make::list_of_size(rng, 3, 3, count));
    let mut made = Vec::new();
    let mut add = |rng: &mut Rng, damage: &dyn Fn(&mut Rng, &mut Vec<u8>)| {
        let mut damaged = bytes.clone();
        damage(rng, &mut damaged);
        made.push(damaged);
    };
    for i in 1..count {
        add(rng, &|_, bytes| make::misorder(bytes, i, true));
        add(rng, &|_, bytes| make::misorder(bytes, i, false));
    }
    for i in 0..count {
        add(rng, &|rng, bytes| make::misnumber(rng, bytes, i));
    }
    for places in category_list::mislabelled_places(count) {
        add(rng, &|rng, bytes| make::mislabel_observers(rng, bytes, places[0]..places[0] + places.len()));
    }
    for wrong in WRONG_COUNTS {
        add(rng, &|_, bytes| bytes[FIRST_AT] = wrong as u8);
        add(rng, &|rng, bytes| make::with_count(rng, bytes, wrong));
    }
    let wrong = rng.range(6, 254);
    add(rng, &|rng, bytes| make::with_count(rng, bytes, wrong));
    add(rng, &|rng, bytes| {
        let i = rng.range(1, count - 1);
        make::misorder(bytes, i, rng.chance(1, 2));
        make::damage(rng, bytes, 5);
    });
    made
}

/// 64 states and 255 observers: with an event or two the record is longer than the longest one.
fn too_long_a_list(rng: &mut Rng) -> Vec<u8> {
    let m = rng.range(1, 2);
    let mut bytes = record::write(&make::staying_list(rng, 64, m, MOST_LISTED));
    make::with_count(rng, &mut bytes, 255);
    bytes
}

/// A part of the largest size that passes, or one that is meant to break a rule for its last observer.
fn largest_list(rng: &mut Rng, passes: bool) -> record::Part {
    let mut part = make::staying_list(rng, 64, 32, MOST_LISTED);
    if !passes {
        part.observers[MOST_LISTED - 1].classes = make::any_grouping(rng, 64);
    }
    part
}

/// A record of kind 2: passing, breaking, or damaged in one way or two.
fn one_list(rng: &mut Rng, round: usize) -> Vec<u8> {
    let turn = round / 12;
    let count = [4, 2, 3, 4][turn % 4];
    let small = |rng: &mut Rng| record::write(&make::list_of_size(rng, 3, 3, count));
    match round % 12 {
        0 => record::write(&make::any_list(rng)),
        1 => {
            let (n, m) = if rng.chance(1, 2) { (1, rng.range(0, 4)) } else { (rng.range(1, 6), 0) };
            record::write(&make::list_of_size(rng, n, m, count))
        }
        2 => record::write(&make::breaking_list(rng)),
        3..=7 => {
            let i = turn % count;
            let rule = 2 + (turn / 4) as u32 % 4;
            match make::breaking_list_at(rng, rule, i, count) {
                Some(part) => record::write(&part),
                None => record::write(&make::breaking_list(rng)),
            }
        }
        8 => twice_damaged_of(rng, 2).0,
        9 => with_raw_count(rng),
        10 => {
            let mut bytes = small(rng);
            match turn % 7 {
                0 => misnumber_each(rng, &mut bytes),
                1 => make::mislabel_list(rng, &mut bytes),
                other => make::damage(rng, &mut bytes, [4, 5, 7, 16, 8][other - 2]),
            }
            if turn % 7 < 2 && rng.chance(1, 2) {
                make::damage_list(rng, &mut bytes);
            }
            bytes
        }
        _ => {
            let mut bytes = record::write(&make::breaking_list(rng));
            make::damage_list(rng, &mut bytes);
            bytes
        }
    }
}

fn misnumber_each(rng: &mut Rng, bytes: &mut [u8]) {
    for i in 0..record::Layout::of(bytes).columns() {
        make::misnumber(rng, bytes, i);
    }
}

/// A record of kind 2 with another count, and all else as it was, now and then with n out of range.
fn with_raw_count(rng: &mut Rng) -> Vec<u8> {
    let mut bytes = record::write(&make::any_list(rng));
    bytes[FIRST_AT] = if rng.chance(1, 2) { rng.pick(&[0, 1, 2, 3, 4, 5, 255]) } else { rng.byte() };
    if rng.chance(1, 4) {
        bytes[STATE_COUNT_AT] = rng.pick(&[0, 65, 255]);
    }
    bytes
}

/// Records for the categories of limited parts.
pub fn limited(rng: &mut Rng, minimum: usize) -> Vec<Vec<u8>> {
    let mut tally = Tally::new();
    for name in category_limited::names() {
        tally.need(&name, category_limited::least_of(&name, minimum));
    }
    let mut kept = Vec::new();
    for round in 0..MOST_TRIES {
        if tally.too_few().is_empty() {
            break;
        }
        let lacks_places = category_limited::PLACES.iter().any(|name| tally.lacks(name));
        let bytes = if round % 20 == 0 && tally.lacks(category_limited::LARGEST) {
            record::write(&make::limited_of_size(rng, 64, 32))
        } else if round % 2 == 0 && lacks_places {
            record::write(&make::breaking_behind_leaks(rng))
        } else {
            one_limited(rng, round)
        };
        let names = category_limited::of_record(&bytes, check::check(&bytes));
        keep_if_wanted(&mut tally, &mut kept, bytes, &names);
    }
    kept
}

/// A record of kind 3: passing, breaking, or damaged in one way or two.
fn one_limited(rng: &mut Rng, round: usize) -> Vec<u8> {
    let turn = round / 12;
    let (n, m) = (rng.range(3, 6), rng.range(3, 5));
    let passing = |rng: &mut Rng| record::write(&make::limited_of_size(rng, n, m));
    match round % 12 {
        0 => record::write(&make::any_limited(rng)),
        1 => {
            let (n, m) = if rng.chance(1, 2) { (1, rng.range(0, 4)) } else { (rng.range(1, 6), 0) };
            record::write(&make::limited_of_size(rng, n, m))
        }
        2 => {
            let limit = if turn % 10 == 9 { 64 } else { turn % 10 + 1 };
            let m = rng.range(0, 3);
            record::write(&make::limited_to(rng, limit, m))
        }
        3..=5 => {
            let rule = 1 + turn as u32 % 5;
            match make::breaking_limited_by(rng, rule, n, m) {
                Some(part) => record::write(&part),
                None => record::write(&make::breaking_limited(rng)),
            }
        }
        6 => record::write(&make::breaking_limited(rng)),
        7 => {
            let n = if turn % 4 == 0 { 64 } else { n };
            let mut bytes = record::write(&make::limited_of_size(rng, n, 1));
            make::damage_fine(rng, &mut bytes);
            bytes
        }
        8 => {
            let mut bytes = passing(rng);
            if rng.chance(1, 2) {
                make::exchange_columns(&mut bytes);
            } else {
                make::cross(rng, &mut bytes);
            }
            bytes
        }
        9 => twice_damaged_of(rng, 3).0,
        10 => {
            let mut bytes = passing(rng);
            if rng.chance(2, 3) {
                make::damage_fine(rng, &mut bytes);
            }
            make::damage(rng, &mut bytes, [4, 5, 6, 7, 16, 8][turn % 6]);
            bytes
        }
        _ => {
            let mut bytes = record::write(&make::breaking_limited(rng));
            make::damage_fine(rng, &mut bytes);
            bytes
        }
    }
}

/// Records on which a wrong reading of the rules would give another verdict.
pub fn misread(rng: &mut Rng, minimum: usize) -> Vec<Vec<u8>> {
    let names: Vec<String> = category::WRONG_READINGS.iter().map(|name| name.to_string()).collect();
    let mut tally = tally_of(&names, minimum);
    let mut kept = Vec::new();
    for round in 0..MOST_TRIES {
        if tally.too_few().is_empty() {
            break;
        }
        let part = match round % 4 {
            0 => make::any_passing(rng),
            1 => {
                let part = make::any_passing(rng);
                make::changed_steps(rng, &part)
            }
            2 => make::damaged_out_of_reach(rng),
            _ => {
                let rule = rng.range(1, 5) as u32;
                let wanted = Wanted::anywhere(rng, rule);
                let n = rng.range(3, 6);
                match make::breaking(rng, wanted, n, 4) {
                    Some(part) => part,
                    None => continue,
                }
            }
        };
        let bytes = record::write(&part);
        let names = category::wrong_readings_of(&bytes);
        keep_if_wanted(&mut tally, &mut kept, bytes, &names);
    }
    kept
}

#[cfg(test)]
mod tests {
    use super::*;

    fn fills(records: &[Vec<u8>], names: &[String], minimum: usize) {
        let mut tally = tally_of(names, minimum);
        for bytes in records {
            let mut names = category::of_record(bytes);
            names.extend(category_label::of_record(bytes));
            if let Some(judged) = category_internal::judged(bytes, check::check(bytes)) {
                names.extend(judged.names());
            }
            for name in names {
                tally.count_if_known(&name);
            }
        }
        assert!(tally.too_few().is_empty(), "{:?}", tally.too_few());
    }

    #[test]
    fn collections_fill_their_categories() {
        let mut rng = Rng::new(61);
        fills(&refused(&mut rng, 5), &category::refused_names(), 5);
        fills(&breaking(&mut rng, 5), &category::break_names(), 5);
        fills(&passing(&mut rng, 3), &category::pass_names(), 3);
        fills(&mislabelled(&mut rng, 5), &category_label::names(), 5);
        fills(&internal(&mut rng, 5), &category_internal::names(), 5);
        let quiet_names = [category::QUIET_IGNORED.to_string(), category::QUIET_REMOVED.to_string()];
        fills(&quiet(&mut rng, 5), &quiet_names, 5);
    }

    #[test]
    fn lists_fill_their_categories() {
        let mut rng = Rng::new(69);
        let mut tally = Tally::new();
        for name in category_list::names() {
            tally.need(&name, category_list::least_of(&name, 5));
        }
        for bytes in lists(&mut rng, 5) {
            for name in category_list::of_record(&bytes, check::check(&bytes)) {
                tally.count(&name);
            }
        }
        assert!(tally.too_few().is_empty(), "{:?}", tally.too_few());
        // The other collections too, with 20 and 21 among the refusals.
        fills(&refused(&mut rng, 5), &category::refused_names(), 5);
        fills(&mislabelled(&mut rng, 5), &category_label::names(), 5);
    }

    #[test]
    fn limited_parts_fill_their_categories() {
        let mut rng = Rng::new(107);
        let mut tally = Tally::new();
        for name in category_limited::names() {
            tally.need(&name, category_limited::least_of(&name, 5));
        }
        for bytes in limited(&mut rng, 5) {
            for name in category_limited::of_record(&bytes, check::check(&bytes)) {
                tally.count(&name);
            }
        }
        assert!(tally.too_few().is_empty(), "{:?}", tally.too_few());
    }

    /// Two damages to a record: the earlier refusal comes for each two reasons.
    #[test]
    fn records_are_damaged_twice() {
        let name = |(earlier, later): Reasons| format!("{} and {:?}", earlier, later);
        for form in FORMS {
            let mut rng = Rng::new(70);
            let names: Vec<String> = each_two_reasons_of(form.kind).into_iter().map(name).collect();
            let mut tally = tally_of(&names, 5);
            for _ in 0..4000 {
                let (bytes, reasons) = twice_damaged_of(&mut rng, form.kind);
                if record::first_refusal(&bytes) == Some(reasons.0) {
                    tally.count(&name(reasons));
                }
            }
            assert!(tally.too_few().is_empty(), "kind {}: {:?}", form.kind, tally.too_few());
        }
    }

    #[test]
    fn each_bad_level_comes_up() {
        let mut rng = Rng::new(65);
        let mut tally = tally_of(&category_label::EACH_BAD_LEVEL.map(str::to_string), 63);
        for bytes in mislabelled(&mut rng, 0) {
            if let Some((name, level)) = category_label::each_bad_level(&bytes) {
                tally.count_value(name, level);
            }
        }
        assert!(tally.too_few().is_empty(), "{:?}", tally.too_few());
    }

    #[test]
    fn wrong_readings_come_up() {
        let mut rng = Rng::new(62);
        let mut tally = Tally::new();
        for name in category::WRONG_READINGS {
            tally.need(name, 5);
        }
        for bytes in misread(&mut rng, 5) {
            for name in category::wrong_readings_of(&bytes) {
                tally.count(&name);
            }
        }
        assert!(tally.too_few().is_empty(), "{:?}", tally.too_few());
    }
}
