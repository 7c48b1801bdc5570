//! Categories of operations on a shelf by the kinds of records, by the checker's own answers: those of several observers,
//! and the limited parts.

use crate::answer::Answer;
use crate::category::Names;
use crate::category_list::is_of_kind;
use crate::check::{Break, Verdict};
use crate::join;
use crate::record::{self, form_of, longest_of, Part, FORMS};

/// A kind of records that has categories of its own: in words, and with the refusal that it alone can get.
struct Sort {
    kind: u16,
    words: &'static str,
    refusal: u32,
}

const SORTS: [Sort; 2] =
    [Sort { kind: 2, words: "several observers", refusal: 20 }, Sort { kind: 3, words: "a limited part", refusal: 21 }];

impl Sort {
    fn has(&self, part: &Part) -> bool {
        form_of(part).kind == self.kind
    }

    /// The name of an operation on such a part.
    fn name(&self, what: &str) -> String {
        format!("{}, {}", what, self.words)
    }

    /// The name of an operation whose record is the longest of this kind.
    fn longest_name(&self, operation: &str) -> String {
        format!("{}, {} bytes", operation, self.longest())
    }

    fn longest(&self) -> usize {
        longest_of(FORMS.into_iter().find(|form| form.kind == self.kind).unwrap())
    }

    /// Every category of this kind.
    fn names(&self) -> Vec<String> {
        let mut names = vec![self.longest_name("load"), self.longest_name("hookup")];
        for what in [
            "load",
            "load, just enough room",
            "load refused 12, otherwise passes",
            &format!("load refused 12, refused {} too", self.refusal),
            "load refused 15",
            "load refused 15, one byte short",
            &format!("load refused {}, no room either", self.refusal),
            "load breaks, no room either",
            "hookup, i = j",
            "hookup, just enough room",
            "hookup of a joined part",
            "hookup of two joined parts",
            "hookup refused 13 for i, j is there",
            "hookup refused 13 for j, i is there",
            "hookup refused 9, no room either",
            "hookup refused 10, no room either",
            "hookup refused 11, no room either",
            "hookup refused 15",
            "hookup refused 15, one byte short",
            "hookup refused 15, room for one column",
            "count beside others",
            "part",
            "part of a joined record",
            "clear behind loads",
        ] {
            names.push(self.name(what));
        }
        names
    }
}

const LATER: &str = "load breaks at a later observer, no room either";

/// Every category but those of the pairs of parts.
pub fn names() -> Vec<String> {
    let mut names: Vec<String> = SORTS.iter().flat_map(Sort::names).collect();
    names.push(LATER.to_string());
    names
}

/// The least number of cases of a category, where most of them have that least number. Records of the largest size take
/// long.
pub fn least_of(name: &str, least: usize) -> usize {
    let is_longest = |sort: &Sort| name == sort.longest_name("load") || name == sort.longest_name("hookup");
    if SORTS.iter().any(is_longest) {
        least.div_ceil(10)
    } else {
        least
    }
}

/// The names that some kinds have, for each of them to which this applies.
fn for_sorts(applies: impl Fn(&Sort) -> bool, names: impl Fn(&Sort, &mut Names)) -> Vec<String> {
    let mut found = Names::default();
    for sort in SORTS.iter().filter(|sort| applies(sort)) {
        names(sort, &mut found);
    }
    found.0
}

/// Does the record break a rule for another observer than the first?
fn breaks_later(record: &[u8], found: Break) -> bool {
    record::read(record).unwrap().levels()[0] != found.observer
}

/// The categories of a load, given Check's verdict on its record and the bytes left for one.
pub fn of_load(record: &[u8], answer: Answer, verdict: Verdict, room: usize, no_room: bool) -> Vec<String> {
    for_sorts(
        |sort| is_of_kind(record, sort.kind),
        |sort, names| match (answer, verdict) {
            (Answer::Part(_), _) => {
                names.add(true, &sort.name("load"));
                names.add(room == record.len(), &sort.name("load, just enough room"));
                names.add(record.len() == sort.longest(), &sort.longest_name("load"));
            }
            (Answer::Refused(12), verdict) => {
                names.add(verdict == Verdict::Pass, &sort.name("load refused 12, otherwise passes"));
                let name = format!("load refused 12, refused {} too", sort.refusal);
                names.add(verdict == Verdict::Refused(sort.refusal), &sort.name(&name));
            }
            (Answer::Refused(15), _) => {
                names.add(true, &sort.name("load refused 15"));
                names.add(room + 1 == record.len(), &sort.name("load refused 15, one byte short"));
            }
            (_, Verdict::Refused(number)) => {
                let name = format!("load refused {}, no room either", number);
                names.add(no_room && number == sort.refusal, &sort.name(&name));
            }
            (_, Verdict::Breaks(found)) => {
                names.add(no_room, &sort.name("load breaks, no room either"));
                names.add(no_room && breaks_later(record, found), LATER);
            }
            _ => {}
        },
    )
}

/// The categories of a hookup by the parts that i and j name, of which one at least is missing.
pub fn of_missing(i: Option<&Part>, j: Option<&Part>) -> Vec<String> {
    for_sorts(
        |_| true,
        |sort, names| {
            names.add(j.is_some_and(|part| sort.has(part)), &sort.name("hookup refused 13 for i, j is there"));
            names.add(i.is_some_and(|part| sort.has(part)), &sort.name("hookup refused 13 for j, i is there"));
        },
    )
}

/// A part on the shelf: its number, and whether a hookup put it there.
pub type Named<'a> = (usize, &'a Part, bool);

/// The categories of a hookup of two parts, given the bytes left for a record.
pub fn of_hookup(
    (i, a, a_joined): Named,
    (j, b, b_joined): Named,
    answer: Answer,
    room: usize,
    no_room: bool,
) -> Vec<String> {
    for_sorts(
        |sort| sort.has(a) || sort.has(b),
        |sort, names| match answer {
            Answer::Part(_) => {
                let length = join::joined_record(a, b).len();
                names.add(i == j, &sort.name("hookup, i = j"));
                names.add(room == length, &sort.name("hookup, just enough room"));
                names.add(a_joined || b_joined, &sort.name("hookup of a joined part"));
                names.add(a_joined && b_joined, &sort.name("hookup of two joined parts"));
                names.add(length == sort.longest(), &sort.longest_name("hookup"));
            }
            Answer::Refused(15) => {
                let joined = join::joined_part(a, b);
                let of_one = record::write(&joined.as_kind_1()).len();
                names.add(true, &sort.name("hookup refused 15"));
                let is_short = room + 1 == record::write(&joined).len();
                names.add(is_short, &sort.name("hookup refused 15, one byte short"));
                names.add(room == of_one, &sort.name("hookup refused 15, room for one column"));
            }
            Answer::Clash(_) => names.add(no_room, &sort.name("hookup refused 10, no room either")),
            Answer::Refused(number) => {
                names.add(no_room, &sort.name(&format!("hookup refused {}, no room either", number)));
            }
            _ => {}
        },
    )
}

/// The categories of a count, a part or a clear, by the parts on the shelf.
pub fn of_count(held: &[&Part]) -> Vec<String> {
    for_sorts(
        |_| true,
        |sort, names| {
            let such = held.iter().filter(|part| sort.has(part)).count();
            names.add(0 < such && such < held.len(), &sort.name("count beside others"));
        },
    )
}

pub fn of_part(part: &Part, joined: bool) -> Vec<String> {
    for_sorts(
        |sort| sort.has(part),
        |sort, names| {
            names.add(true, &sort.name("part"));
            names.add(joined, &sort.name("part of a joined record"));
        },
    )
}

pub fn of_clear(held: &[&Part]) -> Vec<String> {
    for_sorts(
        |sort| held.iter().any(|part| sort.has(part)),
        |sort, names| names.add(true, &sort.name("clear behind loads")),
    )
}

#[cfg(test)]
mod tests {
    use super::*;
    use crate::category_replay;
    use crate::examples;
    use crate::make::Script;
    use crate::replay;

    /// The categories of this file that a script belongs to, in the order of its operations.
    fn names_of(script: &Script) -> Vec<String> {
        let mut found = category_replay::of_replay(&script.bytes, &replay::replay(&script.bytes));
        found.retain(|name| names().contains(name));
        found
    }

    /// P and Q for two observers have 56 and 26 bytes, joined they have 56. P alone would have 52.
    fn loaded(capacity: usize) -> Script {
        let mut script = Script::new(capacity);
        script.clear();
        script.load(&examples::p_for_two());
        script.load(&examples::q_for_two());
        script.hookup(0, 1);
        script
    }

    const LOADED: [&str; 2] = ["load, several observers"; 2];

    #[test]
    fn loads_by_hand() {
        let unordered = examples::p_for_two_with(&[(11, 0)]);
        let broken = record::write(&examples::t_for_two([0, 0, 0], [0, 0, 1]));
        let mut script = Script::new(6 + 56);
        script.load(&examples::p_for_two());
        script.load(&unordered);
        script.load(&examples::p());
        script.clear();
        script.load(&examples::p_for_two());
        script.load(&examples::z_for_two());
        script.load(&unordered);
        script.load(&broken);
        script.load(&examples::p_for_two_with(&[(13, 1)]));
        script.clear();
        assert_eq!(
            names_of(&script),
            [
                "load refused 12, otherwise passes, several observers",
                "load refused 12, refused 20 too, several observers",
                "load, several observers",
                "load, just enough room, several observers",
                "load refused 15, several observers",
                "load refused 20, no room either, several observers",
                "load breaks, no room either, several observers",
                "load breaks at a later observer, no room either",
                "load breaks, no room either, several observers",
                "clear behind loads, several observers",
            ]
        );
        let mut script = Script::new(6 + 55);
        script.clear();
        script.load(&examples::p_for_two());
        let short = ["load refused 15, several observers", "load refused 15, one byte short, several observers"];
        assert_eq!(names_of(&script), short);
    }

    #[test]
    fn hookups_by_hand() {
        let of = |capacity: usize| names_of(&loaded(capacity))[2..].to_vec();
        assert_eq!(of(6 + 56 + 26 + 57), [""; 0]);
        assert_eq!(of(6 + 56 + 26 + 56), ["hookup, just enough room, several observers"]);
        let no_room = "hookup refused 15, several observers";
        assert_eq!(of(6 + 56 + 26 + 55), [no_room, "hookup refused 15, one byte short, several observers"]);
        assert_eq!(of(6 + 56 + 26 + 54), [no_room]);
        assert_eq!(of(6 + 56 + 26 + 52), [no_room, "hookup refused 15, room for one column, several observers"]);
        assert_eq!(names_of(&loaded(300))[..2], LOADED);
    }

    #[test]
    fn other_operations_by_hand() {
        let mut script = loaded(300);
        script.hookup(0, 9);
        script.hookup(9, 0);
        script.hookup(0, 0);
        script.part(0);
        script.part(2);
        script.count();
        script.load(&examples::z());
        script.count();
        script.part(3);
        assert_eq!(
            names_of(&script)[2..],
            [
                "hookup refused 13 for j, i is there, several observers",
                "hookup refused 13 for i, j is there, several observers",
                "part, several observers",
                "part, several observers",
                "part of a joined record, several observers",
                "count beside others, several observers",
            ]
        );
        // Z for two joins with itself, and so does what comes of it. Then the shelf is full, and Z is of another list.
        let mut script = Script::new(6 + 3 * 14 + 11);
        script.clear();
        script.load(&examples::z_for_two());
        script.hookup(0, 0);
        script.hookup(1, 1);
        script.load(&examples::z());
        script.hookup(0, 3);
        assert_eq!(
            names_of(&script)[1..],
            [
                "hookup, i = j, several observers",
                "hookup, i = j, several observers",
                "hookup of a joined part, several observers",
                "hookup of two joined parts, several observers",
                "hookup refused 9, no room either, several observers",
            ]
        );
    }

    /// The guard has 54 bytes, Z as a limited part 12 and Z itself 11; the guard with Z has 54 again.
    #[test]
    fn limited_parts_by_hand() {
        let mut script = Script::new(6 + 54 + 12 + 11 + 54);
        script.load(&examples::guard());
        script.load(&examples::guard_with(&[(13, 2)]));
        script.clear();
        script.load(&examples::guard());
        script.load(&examples::z_limited());
        script.load(&examples::z());
        script.hookup(0, 2);
        script.load(&examples::guard_with(&[(13, 2)]));
        script.load(&examples::guard_with(&[(13, 0)]));
        script.hookup(0, 0);
        script.hookup(0, 3);
        script.hookup(0, 9);
        script.hookup(9, 0);
        script.part(3);
        script.count();
        script.clear();
        let limited = |name: &str| format!("{}, a limited part", name);
        assert_eq!(
            names_of(&script),
            [
                limited("load refused 12, otherwise passes"),
                limited("load refused 12, refused 21 too"),
                limited("load"),
                limited("load"),
                limited("hookup, just enough room"),
                limited("load refused 21, no room either"),
                limited("load breaks, no room either"),
                limited("hookup refused 10, no room either"),
                limited("hookup refused 10, no room either"),
                limited("hookup refused 13 for j, i is there"),
                limited("hookup refused 13 for i, j is there"),
                limited("part"),
                limited("part of a joined record"),
                limited("count beside others"),
                limited("clear behind loads"),
            ]
        );
        // 52 bytes would do for the guard without its fine column.
        let mut script = Script::new(6 + 54 + 11 + 52);
        script.clear();
        script.load(&examples::guard());
        script.load(&examples::z());
        script.hookup(0, 1);
        assert_eq!(
            names_of(&script)[1..],
            [limited("hookup refused 15"), limited("hookup refused 15, room for one column")]
        );
    }
}
