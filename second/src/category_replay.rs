//! Categories of scripts for `replay` and of their operations, by the checker's own answers.

use crate::answer::Answer;
use crate::bench::Call;
use crate::category;
use crate::category_join::{self, clashes};
use crate::category_kind_replay as kind;
use crate::category_limited_calls as limited_calls;
use crate::category_list_calls as list_calls;
use crate::check::{self, Verdict};
use crate::examples;
use crate::join;
use crate::record::{self, Part};
use crate::replay::{self, Done, Effect, Ending, Replay};
use crate::script::{next_operation, Next, Operation};
use crate::wrong_internal::as_outputs;

/// Is this a category that must come up most often?
pub fn is_main(name: &str) -> bool {
    name == SHARED || name == format!("load, {}", category::QUIET_IGNORED)
}

const SHARED: &str = "hookup, shared event";

/// Every category.
pub fn names() -> Vec<String> {
    let mut names = Vec::new();
    for name in category::refused_names().iter().chain(&category::break_names()).chain(&category::pass_names()) {
        names.push(format!("load, {}", name));
    }
    names.push(format!("load, {}", category::QUIET_IGNORED));
    for name in [
        SHARED,
        "clear",
        "clear behind loads",
        "clear refused 12",
        "load",
        "load refused 12",
        "load refused 15",
        "load refused 15, one byte short",
        "load, just enough room",
        "load refused 12, the record refused or broken too",
        "load refused 12, the record mislabelled too",
        "load refused for its record, no room either",
        "load refused 16, no room either",
        "load breaks, no room either",
        "hookup",
        "hookup, i = j",
        "hookup of a joined part",
        "hookup of two joined parts",
        "hookup, just enough room",
        "hookup refused 12",
        "hookup refused 13 for i",
        "hookup refused 13 for j",
        "hookup refused 13 for i and j",
        "hookup refused 13, no room either",
        "hookup refused 9",
        "hookup refused 9, no room either",
        "hookup refused 10",
        "hookup refused 10, several clashes",
        "hookup refused 10, no room either",
        "hookup refused 10, identifier 0",
        "hookup refused 10, identifier 65535",
        "hookup refused 11 by states",
        "hookup refused 11 by entries",
        "hookup refused 11, no room either",
        "hookup refused 15",
        "hookup refused 15, one byte short",
        "count",
        "count refused 12",
        "part",
        "part of a joined record",
        "part, 12",
        "part, 13",
        "shelf of 5 bytes, all refused 12",
        "shelf of 6 bytes, cleared, Z refused 15",
        "shelf of 16 bytes, cleared, Z refused 15",
        "shelf of 17 bytes, cleared, Z is part 0",
        "shelf of 0 bytes",
        "capacity 262144",
        "capacity above 262144",
        "script of 262144 bytes",
        "script longer than 262144 bytes",
        "script under four bytes",
        "script of the capacity alone",
        "truncated load, length cut",
        "truncated load, record cut",
        "truncated hookup",
        "truncated part",
        "unknown operation",
        "list of calls as on the plain bench",
        "hookup of a part that breaks with internal events made outputs",
    ] {
        names.push(name.to_string());
    }
    for name in category_join::INTERNAL {
        names.push(format!("hookup, {}", name));
    }
    for name in list_calls::pair_names().into_iter().chain(limited_calls::pair_names()) {
        names.push(format!("hookup, {}", name));
    }
    names.extend(kind::names());
    names
}

/// A record on the shelf, as the counting keeps track of it.
struct Held {
    part: Part,
    joined: bool,
}

/// The categories of a script and of each of its operations.
pub fn of_replay(script: &[u8], run: &Replay) -> Vec<String> {
    let mut names: Vec<String> = Vec::new();
    match run.ending {
        Ending::ScriptTooLong => names.push("script longer than 262144 bytes".to_string()),
        Ending::CapacityTooLarge => names.push("capacity above 262144".to_string()),
        Ending::NoCapacity => names.push("script under four bytes".to_string()),
        Ending::Unknown => names.push("unknown operation".to_string()),
        Ending::Truncated => names.push(truncated_name(script, run)),
        Ending::End => {}
    }
    let was_run = matches!(run.ending, Ending::End | Ending::Truncated | Ending::Unknown);
    if script.len() == replay::LIMIT {
        names.push("script of 262144 bytes".to_string());
    }
    if script.len() == 4 && was_run {
        names.push("script of the capacity alone".to_string());
    }
    if was_run && run.capacity == replay::LIMIT {
        names.push("capacity 262144".to_string());
    }
    if was_run && run.capacity == 0 {
        names.push("shelf of 0 bytes".to_string());
    }
    names.extend(small_shelf_name(run));
    let mut held: Vec<Held> = Vec::new();
    for done in &run.done {
        names.extend(operation_names(run.capacity, &mut held, done));
    }
    names
}

fn truncated_name(script: &[u8], run: &Replay) -> String {
    let mut at = 4;
    for _ in 0..run.done.len() {
        match next_operation(script, at) {
            Next::Operation(_, behind) => at = behind,
            _ => unreachable!(),
        }
    }
    match script[at] {
        1 if script.len() - at < 5 => "truncated load, length cut".to_string(),
        1 => "truncated load, record cut".to_string(),
        2 => "truncated hookup".to_string(),
        _ => "truncated part".to_string(),
    }
}

/// The examples of shelf length: what Z's first load behind a clear got.
fn small_shelf_name(run: &Replay) -> Option<String> {
    let mut cleared = false;
    let mut first_load = None;
    for done in &run.done {
        match (&done.operation, &done.effect) {
            (Operation::Call(Call::Clear), Effect::Answer(Answer::Cleared)) => cleared = true,
            (Operation::Call(Call::Load(record)), Effect::Answer(answer)) => {
                if (cleared || run.capacity < 6) && first_load.is_none() && *record == examples::z() {
                    first_load = Some(*answer);
                }
            }
            _ => {}
        }
    }
    match (run.capacity, cleared, first_load) {
        (5, false, Some(Answer::Refused(12))) => Some("shelf of 5 bytes, all refused 12".to_string()),
        (6, true, Some(Answer::Refused(15))) => Some("shelf of 6 bytes, cleared, Z refused 15".to_string()),
        (16, true, Some(Answer::Refused(15))) => Some("shelf of 16 bytes, cleared, Z refused 15".to_string()),
        (17, true, Some(Answer::Part(0))) => Some("shelf of 17 bytes, cleared, Z is part 0".to_string()),
        _ => None,
    }
}

/// Check's verdict on a record, by the answer of its load; none where the shelf was refused before it.
pub fn verdict_of_load(answer: Answer) -> Option<Verdict> {
    match answer {
        Answer::Refused(12) => None,
        Answer::Refused(15) | Answer::Part(_) => Some(Verdict::Pass),
        Answer::Refused(number) => Some(Verdict::Refused(number)),
        Answer::Breaks(found) => Some(Verdict::Breaks(found)),
        Answer::Cleared | Answer::Clash(_) => unreachable!(),
    }
}

/// The categories of one operation; `held` follows the records on the shelf.
fn operation_names(capacity: usize, held: &mut Vec<Held>, done: &Done) -> Vec<String> {
    let mut names: Vec<String> = Vec::new();
    // Is there room for no record at all? The shortest one has eleven bytes.
    let no_room = match done.end_before {
        Some(end) => end + 11 + 6 > capacity,
        None => false,
    };
    let room = match done.end_before {
        Some(end) => capacity - end - 6,
        None => 0,
    };
    match (&done.operation, &done.effect) {
        (Operation::Call(Call::Clear), Effect::Answer(Answer::Cleared)) => {
            names.push("clear".to_string());
            if !held.is_empty() {
                names.push("clear behind loads".to_string());
                names.extend(kind::of_clear(&parts_of(held)));
            }
            held.clear();
        }
        (Operation::Call(Call::Clear), _) => names.push("clear refused 12".to_string()),
        (Operation::Call(Call::Load(record)), Effect::Answer(answer)) => {
            let verdict = verdict_of_load(*answer).unwrap_or_else(|| check::check(record));
            names.extend(kind::of_load(record, *answer, verdict, room, no_room));
            if *answer == Answer::Refused(12) {
                names.push("load refused 12".to_string());
                if verdict != Verdict::Pass {
                    names.push("load refused 12, the record refused or broken too".to_string());
                }
                if verdict == Verdict::Refused(16) {
                    names.push("load refused 12, the record mislabelled too".to_string());
                }
                return names;
            }
            match answer {
                Answer::Part(_) => {
                    names.push("load".to_string());
                    if room == record.len() {
                        names.push("load, just enough room".to_string());
                    }
                    held.push(Held { part: record::read(record).unwrap(), joined: false });
                }
                Answer::Refused(15) => {
                    names.push("load refused 15".to_string());
                    if room + 1 == record.len() {
                        names.push("load refused 15, one byte short".to_string());
                    }
                    return names;
                }
                Answer::Refused(number) if no_room => {
                    names.push("load refused for its record, no room either".to_string());
                    if *number == 16 {
                        names.push("load refused 16, no room either".to_string());
                    }
                }
                Answer::Breaks(_) if no_room => names.push("load breaks, no room either".to_string()),
                _ => {}
            }
            for name in category::of_verdict(record, verdict) {
                names.push(format!("load, {}", name));
            }
        }
        (Operation::Call(Call::Hookup(i, j)), Effect::Answer(answer)) => {
            names.extend(hookup_names(held, *i, *j, *answer, room, no_room));
        }
        (Operation::Count, Effect::Count(Some(_))) => {
            names.push("count".to_string());
            names.extend(kind::of_count(&parts_of(held)));
        }
        (Operation::Count, _) => names.push("count refused 12".to_string()),
        (Operation::Part(i), Effect::Part(bytes)) => {
            if !bytes.is_empty() {
                names.push("part".to_string());
                let named = &held[*i as usize];
                if named.joined {
                    names.push("part of a joined record".to_string());
                }
                names.extend(kind::of_part(&named.part, named.joined));
            } else if done.end_before.is_none() {
                names.push("part, 12".to_string());
            } else {
                names.push("part, 13".to_string());
            }
        }
        _ => unreachable!(),
    }
    names
}

fn parts_of(held: &[Held]) -> Vec<&Part> {
    held.iter().map(|named| &named.part).collect()
}

fn hookup_names(held: &mut Vec<Held>, i: usize, j: usize, answer: Answer, room: usize, no_room: bool) -> Vec<String> {
    let mut names: Vec<String> = Vec::new();
    let mut add = |name: &str| names.push(name.to_string());
    if answer == Answer::Refused(12) {
        add("hookup refused 12");
        return names;
    }
    if answer == Answer::Refused(13) {
        let i_missing = i >= held.len();
        let j_missing = j >= held.len();
        if i_missing && j_missing {
            add("hookup refused 13 for i and j");
        } else if i_missing {
            add("hookup refused 13 for i");
        } else {
            add("hookup refused 13 for j");
        }
        if no_room {
            add("hookup refused 13, no room either");
        }
        let part = |i: usize| held.get(i).map(|named| &named.part);
        names.extend(kind::of_missing(part(i), part(j)));
        return names;
    }
    let a = &held[i].part;
    let b = &held[j].part;
    let of_kinds = kind::of_hookup((i, a, held[i].joined), (j, b, held[j].joined), answer, room, no_room);
    if answer != Answer::Refused(15) {
        for name in list_calls::of_pair(a, b).into_iter().chain(limited_calls::of_pair(a, b)) {
            add(&format!("hookup, {}", name));
        }
    }
    match answer {
        Answer::Refused(9) => {
            add("hookup refused 9");
            if no_room {
                add("hookup refused 9, no room either");
            }
        }
        Answer::Clash(identifier) => {
            add("hookup refused 10");
            let (by_kind, by_level) = clashes(a, b);
            if by_kind.len() + by_level > 1 {
                add("hookup refused 10, several clashes");
            }
            if no_room {
                add("hookup refused 10, no room either");
            }
            if identifier == 0 {
                add("hookup refused 10, identifier 0");
            }
            if identifier == 65_535 {
                add("hookup refused 10, identifier 65535");
            }
        }
        Answer::Refused(11) => {
            if join::too_many_states(a, b) {
                add("hookup refused 11 by states");
            } else {
                add("hookup refused 11 by entries");
            }
            if no_room {
                add("hookup refused 11, no room either");
            }
        }
        Answer::Refused(15) => {
            add("hookup refused 15");
            if room + 1 == join::joined_record(a, b).len() {
                add("hookup refused 15, one byte short");
            }
        }
        Answer::Part(_) => {
            add("hookup");
            if i == j {
                add("hookup, i = j");
            }
            let merged = join::merged_entries(a, b);
            if merged.len() < a.event_count() + b.event_count() {
                add(SHARED);
            }
            if held[i].joined || held[j].joined {
                add("hookup of a joined part");
            }
            if held[i].joined && held[j].joined {
                add("hookup of two joined parts");
            }
            if !check::passes(&as_outputs(a)) || !check::passes(&as_outputs(b)) {
                add("hookup of a part that breaks with internal events made outputs");
            }
            let bytes = join::joined_record(a, b);
            if room == bytes.len() {
                add("hookup, just enough room");
            }
            let part = record::read(&bytes).unwrap();
            for name in category_join::internal_names(a, b, &part) {
                add(&format!("hookup, {}", name));
            }
            held.push(Held { part, joined: true });
        }
        _ => unreachable!(),
    }
    names.extend(of_kinds);
    names
}
