//! The proved entries of libhookup.a, each on the very bytes that it is given. Every verdict, joined record, closure and
//! shelf of the tool comes from here. `include/hookup.h` says what the entries answer and write.

use std::ops::Range;

use crate::level::Level;
use crate::part::Observer;

#[allow(clippy::too_many_arguments)]
mod entries {
    extern "C" {
        pub fn hookup_join(a: *const u8, alen: usize, b: *const u8, blen: usize, out: *mut u8, outlen: usize) -> u32;
        pub fn hookup_closure(record: *const u8, len: usize, out: *mut u8, outlen: usize) -> u32;
        pub fn hookup_explain(record: *const u8, len: usize, out: *mut u8, outlen: usize) -> u32;
        pub fn hookup_run(
            script: *const u8,
            len: usize,
            shelf: *mut u8,
            shelflen: usize,
            answers: *mut u8,
            answerslen: usize,
        ) -> u32;
        pub fn hookup_count(shelf: *const u8, len: usize, out: *mut u8, outlen: usize) -> u32;
        pub fn hookup_part(shelf: *const u8, len: usize, i: usize, out: *mut u8, outlen: usize) -> u32;
    }
}

/// The length of the longest record.
pub const MAX_RECORD: usize = 16_782;

const HEADER: usize = 6;
const CLASH: u32 = 10;
const BREAK: u32 = 100;
const SECOND: u32 = 1_000;
const CLOSURE_PIECE: usize = 136;
const MAX_CLOSURE: usize = 34_816;

/// The first break of a part: t is 0 for rule 1, and u for rules 1 and 2.
#[derive(Clone, Copy, PartialEq, Eq, Debug)]
pub struct Break {
    pub rule: usize,
    pub event: u16,
    pub s: usize,
    pub t: usize,
    pub u: usize,
    /// The level of the first observer for whom the rule is broken.
    pub observer: Level,
}

impl Break {
    /// Is it a break for this observer too? Rule 1 asks the same for all.
    pub fn concerns(&self, observer: &Observer) -> bool {
        self.rule == 1 || self.observer == observer.level
    }
}

/// The verdict on a record.
#[derive(Clone, Copy, PartialEq, Eq, Debug)]
pub enum Verdict {
    /// The limit is that of a limited part, and 1 of every other.
    Pass {
        limit: u64,
    },
    Refused(u32),
    Broken(Break),
}

/// Why there is no joined record.
#[derive(Clone, Copy, PartialEq, Eq, Debug)]
pub enum Obstacle {
    /// The first part, or the second, does not pass.
    Fails(Side),
    /// Refusal 10, with the smallest identifier that clashes.
    Clash(u16),
    Refused(u32),
}

#[derive(Clone, Copy, PartialEq, Eq, Debug)]
pub enum Side {
    First,
    Second,
}

impl Side {
    pub fn word(self) -> &'static str {
        match self {
            Side::First => "first",
            Side::Second => "second",
        }
    }
}

/// A state of a silent closure, and the least number of silent steps that lead to it.
#[derive(Clone, Copy, PartialEq, Eq, Debug)]
pub struct Visit {
    pub state: usize,
    pub distance: usize,
}

/// A call that may change a shelf.
#[derive(Clone, Copy, PartialEq, Eq, Debug)]
pub enum Call<'a> {
    Clear,
    Load(&'a [u8]),
    Hookup(u32, u32),
}

/// What a call answers.
#[derive(Clone, Copy, PartialEq, Eq, Debug)]
pub enum Answer {
    /// Done: the number of the new part, of Clear 0.
    Gives(u64),
    /// Refused, other than with 10.
    Refused(u32),
    /// Refusal 10, with the smallest identifier that clashes.
    Clashes(u16),
    Breaks(Break),
}

/// Numbers of eight bytes, as the entries write them.
fn numbers<const N: usize>(bytes: &[u8]) -> [u64; N] {
    std::array::from_fn(|i| u64::from_le_bytes(std::array::from_fn(|k| bytes[8 * i + k])))
}

/// Check: the verdict on any bytes.
pub fn explain(record: &[u8]) -> Verdict {
    let mut out = [0; 64];
    // Safety: the pointers have the lengths beside them, and out is no part of the record.
    let answer = unsafe { entries::hookup_explain(record.as_ptr(), record.len(), out.as_mut_ptr(), out.len()) };
    let [rule, event, s, t, u, _, observer, limit] = numbers(&out);
    match answer {
        0 => Verdict::Pass { limit },
        refusal if refusal < BREAK => Verdict::Refused(refusal),
        _ => Verdict::Broken(broken([rule, event, s, t, u, observer])),
    }
}

fn broken([rule, event, s, t, u, observer]: [u64; 6]) -> Break {
    let level = Level(observer as u8);
    Break { rule: rule as usize, event: event as u16, s: s as usize, t: t as usize, u: u as usize, observer: level }
}

/// Join: the joined record of two records, or why there is none.
pub fn join(a: &[u8], b: &[u8]) -> Result<Vec<u8>, Obstacle> {
    let mut out = vec![0; MAX_RECORD];
    // Safety: the pointers have the lengths beside them, and out is no part of a record.
    let answer = unsafe { entries::hookup_join(a.as_ptr(), a.len(), b.as_ptr(), b.len(), out.as_mut_ptr(), out.len()) };
    match answer {
        0 => {
            let body = u32::from_le_bytes([out[0], out[1], out[2], out[3]]) as usize;
            out.truncate(HEADER + body);
            Ok(out)
        }
        CLASH => Err(Obstacle::Clash(clash(a, b))),
        9 | 11 | 15 => Err(Obstacle::Refused(answer)),
        answer if answer < SECOND => Err(Obstacle::Fails(Side::First)),
        _ => Err(Obstacle::Fails(Side::Second)),
    }
}

/// The identifier of refusal 10, which Hookup tells: both parts pass, and are loaded on a shelf.
fn clash(a: &[u8], b: &[u8]) -> u16 {
    let mut shelf = vec![0; a.len() + b.len() + HEADER];
    for made in [Call::Clear, Call::Load(a), Call::Load(b)] {
        call(made, &mut shelf);
    }
    match call(Call::Hookup(0, 1), &mut shelf) {
        Answer::Clashes(identifier) => identifier,
        answer => unreachable!("Hookup answers {answer:?} where Join answers 10"),
    }
}

/// The silent closures of a record: for each observer, for each state, the states that silent steps lead to, by distance
/// and then by number. A refused record gives its refusal.
pub fn closures(record: &[u8]) -> Result<Vec<Vec<Vec<Visit>>>, u32> {
    let mut out = vec![0; MAX_CLOSURE];
    // Safety: the pointers have the lengths beside them, and out is no part of the record.
    let answer = unsafe { entries::hookup_closure(record.as_ptr(), record.len(), out.as_mut_ptr(), out.len()) };
    if answer != 0 {
        return Err(answer);
    }
    let observers = if record[4] == 2 { record[HEADER] as usize } else { 1 };
    let states = record[HEADER + 1] as usize;
    let blocks = out.chunks(states * CLOSURE_PIECE).take(observers);
    Ok(blocks.map(|block| block.chunks(CLOSURE_PIECE).map(visits).collect()).collect())
}

/// The visits of a piece: a set of eight bytes, then states and distances, 64 of each.
fn visits(piece: &[u8]) -> Vec<Visit> {
    let [set] = numbers(piece);
    let visit = |k: usize| Visit { state: piece[8 + k] as usize, distance: piece[72 + k] as usize };
    (0..set.count_ones() as usize).map(visit).collect()
}

/// The bytes of a call in a script.
pub fn script(call: Call) -> Vec<u8> {
    match call {
        Call::Clear => vec![0],
        Call::Load(record) => [&[1][..], &(record.len() as u32).to_le_bytes(), record].concat(),
        Call::Hookup(i, j) => [&[2][..], &i.to_le_bytes(), &j.to_le_bytes()].concat(),
    }
}

/// Makes one call on a shelf.
pub fn call(call: Call, shelf: &mut [u8]) -> Answer {
    let script = script(call);
    let mut answer = [0; 64];
    // Safety: the pointers have the lengths beside them, and no two of the three overlap.
    let ran = unsafe {
        entries::hookup_run(
            script.as_ptr(),
            script.len(),
            shelf.as_mut_ptr(),
            shelf.len(),
            answer.as_mut_ptr(),
            answer.len(),
        )
    };
    assert_eq!(ran, 0, "a script of one call with room for its answer is run");
    let [tag, number, event, s, t, u, observer, _] = numbers(&answer);
    match tag {
        0 => Answer::Gives(number),
        1 => Answer::Refused(number as u32),
        2 => Answer::Clashes(number as u16),
        _ => Answer::Breaks(broken([number, event, s, t, u, observer])),
    }
}

/// Count: the number of records on a shelf, or the refusal.
pub fn count(shelf: &[u8]) -> Result<u64, u32> {
    let mut out = [0; 8];
    // Safety: the pointers have the lengths beside them, and out is no part of the shelf.
    let answer = unsafe { entries::hookup_count(shelf.as_ptr(), shelf.len(), out.as_mut_ptr(), out.len()) };
    let [number] = numbers(&out);
    if answer == 0 {
        Ok(number)
    } else {
        Err(answer)
    }
}

/// Part: where record i stands on a shelf, or the refusal.
pub fn part(shelf: &[u8], i: usize) -> Result<Range<usize>, u32> {
    let mut out = [0; 16];
    // Safety: the pointers have the lengths beside them, and out is no part of the shelf.
    let answer = unsafe { entries::hookup_part(shelf.as_ptr(), shelf.len(), i, out.as_mut_ptr(), out.len()) };
    let [place, length] = numbers(&out).map(|number| number as usize);
    if answer == 0 {
        Ok(place..place + length)
    } else {
        Err(answer)
    }
}

#[cfg(test)]
mod tests {
    use std::collections::BTreeSet;

    use super::*;
    use crate::refusals;

    /// The names and numbers of include/hookup.h.
    fn header() -> Vec<(String, usize)> {
        let text = include_str!("../../include/hookup.h");
        let define = |line: &str| {
            let mut words = line.strip_prefix("#define HOOKUP_")?.split_whitespace();
            Some((words.next()?.to_string(), words.next()?.parse().ok()?))
        };
        text.lines().filter_map(define).collect()
    }

    #[test]
    fn sizes_and_answers_are_those_of_the_header() {
        let header = header();
        let of = |name: &str| header.iter().find(|(here, _)| here == name).map(|(_, number)| *number);
        let expected = [
            ("MAX_RECORD", MAX_RECORD),
            ("HEADER", HEADER),
            ("CLASH", CLASH as usize),
            ("BREAK", BREAK as usize),
            ("SECOND", SECOND as usize),
            ("CLOSURE_PIECE", CLOSURE_PIECE),
            ("MAX_CLOSURE", MAX_CLOSURE),
            ("OBSERVERS_DIFFER", 9),
            ("TOO_LARGE", 11),
            ("NO_ROOM", 15),
        ];
        for (name, number) in expected {
            assert_eq!(of(name), Some(number), "{name}");
        }
    }

    /// Each refusal has words of its own.
    #[test]
    fn every_refusal_has_words() {
        let words: BTreeSet<&str> = (1..=16).chain([20, 21]).map(refusals::words).collect();
        assert_eq!(words.len(), 18);
        assert!(!words.contains(refusals::words(0)));
    }

    /// The calls of a script, byte by byte, and what they answer; a refused call changes no byte.
    #[test]
    fn calls_on_a_shelf() {
        let lone = [5, 0, 0, 0, 1, 0, 0, 1, 0, 0, 0];
        assert_eq!(script(Call::Load(&lone[..2])), [1, 2, 0, 0, 0, 5, 0]);
        assert_eq!(script(Call::Hookup(258, 1)), [2, 2, 1, 0, 0, 1, 0, 0, 0]);
        let mut shelf = [0xAA; 28];
        assert_eq!(count(&shelf), Err(12));
        assert_eq!(call(Call::Clear, &mut shelf), Answer::Gives(0));
        assert_eq!(call(Call::Load(&lone), &mut shelf), Answer::Gives(0));
        assert_eq!(call(Call::Hookup(0, 0), &mut shelf), Answer::Gives(1));
        let before = shelf;
        assert_eq!(call(Call::Load(&lone), &mut shelf), Answer::Refused(15));
        assert_eq!(call(Call::Load(&lone[..10]), &mut shelf), Answer::Refused(2));
        assert_eq!(shelf, before);
        assert_eq!((count(&shelf), part(&shelf, 1), part(&shelf, 2)), (Ok(2), Ok(11..22), Err(13)));
        assert_eq!((explain(&lone), explain(&[])), (Verdict::Pass { limit: 1 }, Verdict::Refused(1)));
        assert_eq!(join(&lone, &[]), Err(Obstacle::Fails(Side::Second)));
        assert_eq!(closures(&lone), Ok(vec![vec![vec![Visit { state: 0, distance: 0 }]]]));
    }
}
