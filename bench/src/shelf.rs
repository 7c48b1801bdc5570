//! The shelf by hand, without a proof: runs of Clear, Load and Hookup, Count, and Part. Check and Join are those of `fast`.
//!
//! - `plain` walks over the shelf for each call, and again to each record that the call takes. It checks both records of a hookup.
//! - `sharp` walks once in a run, since each call says where the next one finds the end record. It goes to both records of a hookup in one walk, and
//!   checks no record twice, nor one that this run laid: it was checked, or it is the joined record of two that pass. Its Part finds the record on
//!   the way to the end record.

use crate::fast::{check_plain, check_sharp, join_passing, verdict, write_numbers, Obstacle, Verdict};

/// Bytes of a header, and of the end record.
const HEADER: usize = 6;

/// Bytes of the answer of a call.
const ANSWER: usize = 64;

pub fn run_plain(script: &[u8], shelf: &mut [u8], answers: &mut [u8]) -> u32 {
    run::<false>(script, shelf, answers)
}

pub fn run_sharp(script: &[u8], shelf: &mut [u8], answers: &mut [u8]) -> u32 {
    run::<true>(script, shelf, answers)
}

/// There is nothing to leave out: both versions have this one.
pub fn count(shelf: &[u8], out: &mut [u8]) -> u32 {
    match walk(shelf, |_| {}) {
        Some(end) => write_numbers(out, [end.count as u64]),
        None => 12,
    }
}

pub fn part_plain(shelf: &[u8], i: usize, out: &mut [u8]) -> u32 {
    match walk(shelf, |_| {}) {
        Some(end) if i < end.count => write_place(shelf, place(shelf, i), out),
        Some(_) => 13,
        None => 12,
    }
}

pub fn part_sharp(shelf: &[u8], i: usize, out: &mut [u8]) -> u32 {
    let mut at = 0;
    let end = walk(shelf, |before| {
        if before.count == i {
            at = before.at;
        }
    });
    match end {
        Some(end) if i < end.count => write_place(shelf, at, out),
        Some(_) => 13,
        None => 12,
    }
}

/// A number of records, and the place behind them.
#[derive(Clone, Copy)]
struct Mark {
    count: usize,
    at: usize,
}

/// Where the end record stands, if there is one. Tells where each record stands on the way.
#[inline(always)]
fn walk(shelf: &[u8], mut pass: impl FnMut(Mark)) -> Option<Mark> {
    let mut mark = Mark { count: 0, at: 0 };
    loop {
        let head = shelf.get(mark.at..)?.first_chunk::<HEADER>()?;
        if *head == [0; HEADER] {
            return Some(mark);
        }
        pass(mark);
        mark = Mark { count: mark.count + 1, at: mark.at + length(shelf, mark.at) };
    }
}

/// The length of the record at this place.
#[inline(always)]
fn length(shelf: &[u8], at: usize) -> usize {
    HEADER + u32::from_le_bytes(shelf[at..][..4].try_into().unwrap()) as usize
}

/// The place of record i, where there is one.
fn place(shelf: &[u8], i: usize) -> usize {
    (0..i).fold(0, |at, _| at + length(shelf, at))
}

fn record(shelf: &[u8], at: usize) -> &[u8] {
    &shelf[at..][..length(shelf, at)]
}

fn write_place(shelf: &[u8], at: usize, out: &mut [u8]) -> u32 {
    write_numbers(out, [at as u64, length(shelf, at) as u64])
}

/// A call of a script.
enum Call<'a> {
    Clear,
    Load(&'a [u8]),
    Hookup(usize, usize),
}

/// The first call and the script behind it, unless it is malformed.
#[inline(always)]
fn decode(script: &[u8]) -> Option<(Call<'_>, &[u8])> {
    let (first, rest) = script.split_first()?;
    match first {
        0 => Some((Call::Clear, rest)),
        1 => {
            let (len, rest) = number(rest)?;
            let (record, rest) = rest.split_at_checked(len)?;
            Some((Call::Load(record), rest))
        }
        2 => {
            let (i, rest) = number(rest)?;
            let (j, rest) = number(rest)?;
            Some((Call::Hookup(i, j), rest))
        }
        _ => None,
    }
}

/// A number of four bytes and what is behind it.
#[inline(always)]
fn number(bytes: &[u8]) -> Option<(usize, &[u8])> {
    let (number, rest) = bytes.split_first_chunk()?;
    Some((u32::from_le_bytes(*number) as usize, rest))
}

#[inline(always)]
fn run<const SHARP: bool>(script: &[u8], shelf: &mut [u8], answers: &mut [u8]) -> u32 {
    let (mut count, mut rest) = (0, script);
    while !rest.is_empty() {
        let Some((_, behind)) = decode(rest) else {
            return 99;
        };
        (count, rest) = (count + 1, behind);
    }
    if answers.len() / ANSWER < count {
        return 15;
    }
    let mut shelf = Shelf::<SHARP> { bytes: shelf, end: None, found: 0 };
    let mut slots = answers.chunks_exact_mut(ANSWER);
    rest = script;
    while let Some((call, behind)) = decode(rest) {
        write_numbers(slots.next().unwrap(), numbers(shelf.make(call)));
        rest = behind;
    }
    0
}

/// Why a call changes nothing.
enum Stop {
    Refused(u32),
    Clash(u16),
    Breaks(Verdict),
}

impl From<Obstacle> for Stop {
    fn from(obstacle: Obstacle) -> Self {
        match obstacle {
            Obstacle::Refused(number) => Stop::Refused(number),
            Obstacle::Clash(event) => Stop::Clash(event),
        }
    }
}

/// The eight numbers of an answer.
#[inline(always)]
fn numbers(answer: Result<usize, Stop>) -> [u64; 8] {
    let two = |tag, number| [tag, number, 0, 0, 0, 0, 0, 0];
    match answer {
        Ok(number) => two(0, number as u64),
        Err(Stop::Refused(number)) => two(1, number as u64),
        Err(Stop::Clash(event)) => two(2, event as u64),
        Err(Stop::Breaks(verdict)) => {
            let [s, t, u, observer] = [verdict.s, verdict.t, verdict.u, verdict.observer].map(u64::from);
            [3, verdict.number as u64 - 100, verdict.event as u64, s, t, u, observer, 0]
        }
    }
}

/// A shelf in a run.
struct Shelf<'a, const SHARP: bool> {
    bytes: &'a mut [u8],
    /// Where the end record stands, once that is known. Plain walks nevertheless.
    end: Option<Option<Mark>>,
    /// How many records were there before this run laid the others.
    found: usize,
}

impl<const SHARP: bool> Shelf<'_, SHARP> {
    #[inline(always)]
    fn make(&mut self, call: Call) -> Result<usize, Stop> {
        match call {
            Call::Clear => self.clear(),
            Call::Load(record) => self.load(record),
            Call::Hookup(i, j) => self.hookup(i, j),
        }
    }

    /// Where the end record stands, unless 12 refuses.
    fn end(&mut self) -> Result<Mark, Stop> {
        let end = match self.end {
            Some(end) if SHARP => end,
            _ => {
                let end = walk(self.bytes, |_| {});
                self.end = Some(end);
                self.found = end.map_or(0, |end| end.count);
                end
            }
        };
        end.ok_or(Stop::Refused(12))
    }

    /// The end record behind the record of this length that lies over the old one. Gives its number.
    #[inline(always)]
    fn lay_end(&mut self, end: Mark, len: usize) -> usize {
        let at = end.at + len;
        self.bytes[at..][..HEADER].fill(0);
        self.end = Some(Some(Mark { count: end.count + 1, at }));
        end.count
    }

    fn clear(&mut self) -> Result<usize, Stop> {
        self.bytes.get_mut(..HEADER).ok_or(Stop::Refused(12))?.fill(0);
        self.end = Some(Some(Mark { count: 0, at: 0 }));
        self.found = 0;
        Ok(0)
    }

    fn load(&mut self, record: &[u8]) -> Result<usize, Stop> {
        let end = self.end()?;
        let verdict = verdict::<SHARP>(record);
        match verdict.number {
            0 => {}
            number if number > 100 => return Err(Stop::Breaks(verdict)),
            number => return Err(Stop::Refused(number)),
        }
        let rest = &mut self.bytes[end.at..];
        if rest.len() < record.len() + HEADER {
            return Err(Stop::Refused(15));
        }
        rest[..record.len()].copy_from_slice(record);
        Ok(self.lay_end(end, record.len()))
    }

    fn hookup(&mut self, i: usize, j: usize) -> Result<usize, Stop> {
        let end = self.end()?;
        if i.max(j) >= end.count {
            return Err(Stop::Refused(13));
        }
        let (records, rest) = self.bytes.split_at_mut(end.at);
        let (a, b) = if SHARP { both(records, i, j) } else { (record(records, place(records, i)), record(records, place(records, j))) };
        let passes = |i, record| if SHARP { i >= self.found || check_sharp(record) == 0 } else { check_plain(record) == 0 };
        if !passes(i, a) || !(SHARP && i == j || passes(j, b)) {
            return Err(Stop::Refused(14));
        }
        let room = rest.len() - HEADER;
        let len = join_passing::<SHARP>(a, b, &mut rest[..room])?;
        Ok(self.lay_end(end, len))
    }
}

/// Records i and j, the one on the way to the other.
fn both(records: &[u8], i: usize, j: usize) -> (&[u8], &[u8]) {
    let (least, most) = (i.min(j), i.max(j));
    let first = place(records, least);
    let second = first + place(&records[first..], most - least);
    let (first, second) = (record(records, first), record(records, second));
    if i <= j {
        (first, second)
    } else {
        (second, first)
    }
}
