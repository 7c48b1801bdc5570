//! Compares the unverified versions with the proved library: answers and output bytes.

pub mod shelves;

use crate::closure::PIECE;
use crate::dice::Dice;
use crate::inputs::{span, Event, Inputs, Table, HIGH, INPUT, LOW};
use crate::Version;
use std::collections::BTreeMap;

/// Longer than any output.
const ROOM: usize = 35_000;

/// Bytes of an explanation.
const EXPLANATION: usize = 64;

/// How often each answer came, how often which level was mislabelled on purpose or which record spoilt, and how many comparisons failed. All
/// versions are compared with the first.
#[derive(Default)]
pub struct Score {
    versions: &'static [Version],
    /// What a buffer holds before a call.
    before: Vec<u8>,
    pub checks: BTreeMap<u32, usize>,
    pub explanations: BTreeMap<u32, usize>,
    pub joins: BTreeMap<u32, usize>,
    pub closures: BTreeMap<u32, usize>,
    pub runs: BTreeMap<u32, usize>,
    /// Of the calls in runs, a clash as 10, a break as 100 and the rule.
    pub clears: BTreeMap<u32, usize>,
    pub loads: BTreeMap<u32, usize>,
    pub hookups: BTreeMap<u32, usize>,
    pub counts: BTreeMap<u32, usize>,
    pub parts: BTreeMap<u32, usize>,
    pub mislabelled: BTreeMap<String, usize>,
    pub spoilt: BTreeMap<String, usize>,
    pub differences: usize,
}

impl Score {
    pub fn of(versions: &'static [Version]) -> Self {
        Score { versions, before: (0..ROOM).map(|i| (i * 7 + 3) as u8).collect(), ..Score::default() }
    }

    fn fault(&mut self, what: String) {
        self.differences += 1;
        if self.differences <= 20 {
            eprintln!("difference: {what}");
        }
    }

    pub fn check(&mut self, name: &str, record: &[u8]) -> u32 {
        let first = &self.versions[0];
        let answer = (first.check)(record);
        for version in &self.versions[1..] {
            let other = (version.check)(record);
            if other != answer {
                self.fault(format!("check of {name}: {} {answer}, {} {other}", first.name, version.name));
            }
        }
        *self.checks.entry(answer).or_default() += 1;
        answer
    }

    /// The explanation, whose answer is also Check's unless there is no room.
    pub fn explain(&mut self, name: &str, record: &[u8], room: usize) -> u32 {
        let answer = self.output(&format!("explanation of {name}"), room, |version, out| (version.explain)(record, out));
        let check = (self.versions[0].check)(record);
        let judged = check == 0 || check > 100;
        let due = if judged && room < EXPLANATION { 15 } else { check };
        if answer != due {
            self.fault(format!("explanation of {name}: {answer}, but {due} is due after Check"));
        }
        *self.explanations.entry(answer).or_default() += 1;
        answer
    }

    pub fn join(&mut self, name: &str, a: &[u8], b: &[u8], room: usize) -> u32 {
        let answer = self.output(&format!("join of {name}"), room, |version, out| (version.join)(a, b, out));
        *self.joins.entry(answer).or_default() += 1;
        answer
    }

    pub fn closure(&mut self, name: &str, record: &[u8], room: usize) -> u32 {
        let answer = self.output(&format!("closure of {name}"), room, |version, out| (version.closure)(record, out));
        *self.closures.entry(answer).or_default() += 1;
        answer
    }

    /// A call that is lent so many bytes: the answers, and every byte of a longer buffer.
    fn output(&mut self, what: &str, room: usize, call: impl Fn(&Version, &mut [u8]) -> u32) -> u32 {
        let before = std::mem::take(&mut self.before);
        let (answer, _) = self.bytes(what, &before, |version, bytes| call(version, &mut bytes[..room]));
        self.before = before;
        answer
    }

    /// A call that may change these bytes: the answers, and every byte behind it. Gives what the first version gives.
    fn bytes(&mut self, what: &str, before: &[u8], call: impl Fn(&Version, &mut [u8]) -> u32) -> (u32, Vec<u8>) {
        let mut wanted = before.to_vec();
        let first = &self.versions[0];
        let answer = call(first, &mut wanted);
        for version in &self.versions[1..] {
            let mut bytes = before.to_vec();
            let other = call(version, &mut bytes);
            if other != answer {
                self.fault(format!("{what}: {} {answer}, {} {other}", first.name, version.name));
            } else if bytes != wanted {
                let place = (0..wanted.len()).find(|&i| bytes[i] != wanted[i]).unwrap();
                self.fault(format!("{what}: byte {place} is {}, in {} {}", wanted[place], version.name, bytes[place]));
            }
        }
        (answer, wanted)
    }

    /// The timed inputs: also against the answers they are made for. Those of Check are explained too.
    pub fn timed(&mut self, inputs: &Inputs) {
        for one in &inputs.checks {
            let answer = self.check(&one.name(), &one.record);
            self.made_for(&one.name(), one.answer, answer);
        }
        for one in inputs.checks.iter().chain(&inputs.explanations) {
            let answer = self.explain(&one.name(), &one.record, ROOM);
            self.made_for(&one.name(), one.answer, answer);
        }
        for pair in &inputs.joins {
            let answer = self.join(&pair.name, &pair.a, &pair.b, ROOM);
            self.made_for(&pair.name, pair.answer, answer);
        }
        for one in &inputs.closures {
            let answer = self.closure(&one.name(), &one.record, ROOM);
            self.made_for(&one.name(), one.answer, answer);
        }
        self.timed_shelves(inputs);
    }

    fn made_for(&mut self, name: &str, wanted: u32, answer: u32) {
        if answer != wanted {
            self.fault(format!("{name}: made for {wanted}, {} {answer}", self.versions[0].name));
        }
    }

    /// Random parts of a kind, whole, damaged and mislabelled, and random bytes.
    pub fn random(&mut self, seed: u64, rounds: usize, kind: u8) {
        let dice = &mut Dice(seed);
        for round in 0..rounds {
            let (a, b) = couple(dice, kind);
            let (mut x, mut y) = (a.record(), b.record());
            self.single(dice, &format!("random part {round}"), &x, pieces(&a));
            self.join(&format!("random pair {round}"), &x, &y, room(dice, joined_len(&a, &b)));
            damage(dice, &mut x);
            self.single(dice, &format!("damaged part {round}"), &x, pieces(&a));
            self.join(&format!("damaged A {round}"), &x, &y, ROOM);
            damage(dice, &mut y);
            self.join(&format!("damaged B {round}"), &a.record(), &y, ROOM);
            if kind != 1 {
                self.spoilt(dice, round, kind, &a, &b);
            }
            self.mislabelled(dice, round, &a, b);
            let c = scattered(dice, kind);
            self.single(dice, &format!("scattered part {round}"), &c.record(), pieces(&c));
            let noise: Vec<u8> = (0..dice.below(40)).map(|_| dice.below(3) as u8).collect();
            self.single(dice, &format!("noise {round}"), &noise, 1);
        }
    }

    /// B with a mislabelled level, alone and on both sides of a join.
    fn mislabelled(&mut self, dice: &mut Dice, round: usize, a: &Table, mut b: Table) {
        let (which, due) = mislabel(dice, &mut b);
        let (x, y) = (a.record(), b.record());
        let name = format!("part {round}, mislabelled {which}");
        let answer = self.single(dice, &name, &y, pieces(&b));
        self.made_for(&name, due, answer);
        let answer = self.join(&name, &y, &x, ROOM);
        self.made_for(&name, due, answer);
        self.join(&name, &x, &y, ROOM);
        *self.mislabelled.entry(which).or_default() += 1;
    }

    /// A record of kind 2 or 3 that 5, 20, 6 or 21 refuses, alone and on both sides of a join; and now and then one of the kind's largest size.
    fn spoilt(&mut self, dice: &mut Dice, round: usize, kind: u8, a: &Table, b: &Table) {
        let (which, record, due) = if kind == 2 { spoil_list(dice, a) } else { spoil_limited(dice, a) };
        let name = format!("part {round}, spoilt {which}");
        let answer = self.single(dice, &name, &record, pieces(a));
        self.made_for(&name, due, answer);
        let answer = self.join(&name, &record, &b.record(), ROOM);
        self.made_for(&name, due, answer);
        self.join(&name, &b.record(), &record, ROOM);
        *self.spoilt.entry(which).or_default() += 1;
        if dice.one_in(20) {
            let largest = largest(dice, kind);
            let name = format!("largest part {round}");
            self.single(dice, &name, &largest.record(), pieces(&largest));
            let one = one_state(&largest);
            self.join(&name, &largest.record(), &one.record(), room(dice, largest.record().len()));
            self.join(&name, &one.record(), &largest.record(), ROOM);
        }
    }

    /// The calls on one record, which was made to have so many closures. Gives Check's answer.
    fn single(&mut self, dice: &mut Dice, name: &str, record: &[u8], pieces: usize) -> u32 {
        self.explain(name, record, room(dice, EXPLANATION));
        self.closure(name, record, room(dice, PIECE * pieces));
        self.check(name, record)
    }
}

/// A buffer's length beside the output's: shorter, just long enough, one byte too short, longer.
fn room(dice: &mut Dice, len: usize) -> usize {
    let room = match dice.below(4) {
        0 => dice.below(len + 1),
        1 => len,
        2 => len - 1,
        _ => ROOM,
    };
    room.min(ROOM)
}

/// How many closures the part has.
fn pieces(table: &Table) -> usize {
    table.n() * table.views().len()
}

/// One observer, or in kind 2 two to four in rising order.
fn observers(dice: &mut Dice, kind: u8) -> Vec<u8> {
    let mut list = vec![dice.observer()];
    if kind == 2 {
        let count = 2 + dice.below(3);
        while list.len() < count {
            list.push(dice.observer());
            list.sort();
            list.dedup();
        }
    }
    list
}

/// Two parts that often share events and often pass. Where the kind is 3, one of them may be of kind 1 and, if it is B, of kind 2.
pub fn couple(dice: &mut Dice, kind: u8) -> (Table, Table) {
    let (na, nb) = [(8, 8), (64, 1), (1, 64), (32, 2), (5, 7), (9, 7), (2, 3), (64, 2), (1, 1)][dice.below(9)];
    let list = observers(dice, kind);
    let (limited_a, limited_b) = match kind {
        3 => [(true, true), (true, true), (true, false), (false, true)][dice.below(4)],
        _ => (false, false),
    };
    let mut a = grouped(dice, na, &list, limited_a);
    let mut other = if dice.one_in(10) { observers(dice, kind) } else { list };
    if kind == 2 && dice.one_in(20) {
        // Perhaps one is left: kind 1.
        other.remove(dice.below(other.len()));
    }
    if limited_a && !limited_b && dice.one_in(10) {
        other = observers(dice, 2);
    }
    let mut b = grouped(dice, nb, &other, limited_b);
    if !dice.one_in(8) {
        share(dice, &mut a, &mut b);
    }
    (a, b)
}

/// Classes of n states, numbered by first appearance.
fn classes(dice: &mut Dice, n: usize) -> Vec<u8> {
    let most = 1 + dice.below(n);
    let k = 1 + dice.below(most);
    let mut classes = Vec::new();
    let mut seen = 0;
    for s in 0..n {
        let left = n - s;
        let class = if k - seen >= left || (seen < k && dice.one_in(2)) || seen == 0 { seen } else { dice.below(seen) };
        seen = seen.max(class + 1);
        classes.push(class as u8);
    }
    classes
}

/// The classes that these keys make, numbered by first appearance.
fn numbered<K: PartialEq>(keys: &[K]) -> Vec<u8> {
    let mut seen: Vec<&K> = Vec::new();
    let mut number = |key| {
        seen.iter().position(|&other| other == key).unwrap_or_else(|| {
            seen.push(key);
            seen.len() - 1
        })
    };
    keys.iter().map(|key| number(key) as u8).collect()
}

/// Fine classes for these: each is split by other classes, of which there may be one.
fn refined(dice: &mut Dice, column: &[u8]) -> Vec<u8> {
    let other = classes(dice, column.len());
    numbered(&column.iter().zip(other).collect::<Vec<_>>())
}

fn count(column: &[u8]) -> usize {
    column.iter().fold(0, |seen, &class| seen.max(class as usize + 1))
}

/// A part made from a machine of the first observer's classes; sometimes one row is then changed. Each further observer has the same classes,
/// or some of them are one. In a limited part the outputs and internal events lead alike from the states of a fine class alone.
fn grouped(dice: &mut Dice, n: usize, observers: &[u8], limited: bool) -> Table {
    let classes = classes(dice, n);
    let seen = count(&classes);
    let members: Vec<u64> =
        (0..seen).map(|class| (0..n).filter(|&s| classes[s] as usize == class).fold(0, |set, s| set | 1 << s)).collect();
    let mut table = Table::new(classes.clone());
    table.fine = limited.then(|| refined(dice, &classes));
    let observer = observers[0];
    table.observer = observer;
    for &observer in &observers[1..] {
        let coarse = match dice.below(4) {
            0 => vec![0; seen],
            1 => self::classes(dice, seen),
            _ => (0..seen as u8).collect(),
        };
        table.further.push((observer, classes.iter().map(|&class| coarse[class as usize]).collect()));
    }
    table.start = dice.below(n) as u8;
    let m = if dice.one_in(6) { 32 } else { dice.below(18) };
    let mut id = dice.below(4);
    let thin = dice.one_in(3);
    for _ in 0..m {
        let kind = dice.below(3) as u8;
        let level = [0x00, HIGH, 0x80, observer, dice.level(observer), dice.level(0xff)][dice.below(6)];
        let low = observers.iter().all(|observer| level >> 6 <= observer >> 6 && level & !observer & 0x3f == 0);
        // The same from every class, so that no coarser classes break a rule.
        let alike = observers.len() > 1 && !dice.one_in(5);
        let goal = if alike { dice.some(span(0..seen)) } else { 0 };
        let groups = table.fine.as_ref().filter(|_| kind != INPUT).unwrap_or(&classes);
        let goals: Vec<u64> = (0..count(groups))
            .map(|class| match (kind == INPUT, low) {
                (input, low) if alike && (low || !input) => goal,
                (true, false) => 1 << class,
                (true, true) => dice.some(span(0..seen)),
                _ if dice.one_in(3) => 0,
                _ => dice.some(span(0..seen)) & dice.some(span(0..seen)),
            })
            .collect();
        let mut rows: Vec<u64> = (0..n)
            .map(|s| {
                (0..seen).filter(|&class| goals[groups[s] as usize] >> class & 1 == 1).fold(0, |row, class| row | dice.some(members[class]))
            })
            .collect();
        if thin && kind != INPUT && dice.one_in(4) {
            rows[dice.below(n)] = 0;
        }
        table.events.push(Event { id: id as u16, kind, level, rows });
        id += 1 + dice.below(3);
    }
    if m > 0 && dice.one_in(3) {
        let e = dice.below(m);
        let s = dice.below(n);
        table.events[e].rows[s] ^= 1 << dice.below(n);
    }
    table
}

/// A part with any number of states, and few steps from each of them, or steps to all.
fn scattered(dice: &mut Dice, kind: u8) -> Table {
    let n = 1 + dice.below(64);
    let some = |dice: &mut Dice| if dice.one_in(3) { vec![0; n] } else { classes(dice, n) };
    let mut table = Table::new(some(dice));
    if kind == 2 {
        let list = observers(dice, kind);
        table.observer = list[0];
        table.further = list[1..].iter().map(|&observer| (observer, some(dice))).collect();
    }
    if kind == 3 {
        table.fine = Some(refined(dice, &table.classes));
    }
    let most = 1 + dice.below(2);
    for _ in 0..dice.below(6) {
        let kind = 1 + dice.below(2) as u8;
        let level = if dice.one_in(4) { LOW } else { HIGH };
        let few = |dice: &mut Dice| (0..dice.below(most + 1)).fold(0, |row, _| row | 1 << dice.below(n));
        let rows: Vec<u64> = (0..n).map(|_| if dice.one_in(40) { span(0..n) } else { few(dice) }).collect();
        table.add(kind, level, |s| rows[s]);
    }
    table
}

/// Makes most common identifiers an output of one and an input of the other.
fn share(dice: &mut Dice, a: &mut Table, b: &mut Table) {
    for event in &mut a.events {
        if let Some(other) = b.events.iter_mut().find(|other| other.id == event.id) {
            if dice.one_in(150) {
                continue;
            }
            other.level = event.level;
            if event.kind == INPUT {
                other.kind = 1;
            } else {
                event.kind = 1;
                other.kind = INPUT;
                let columns: Vec<&[u8]> = std::iter::once(&b.classes).chain(b.further.iter().map(|view| &view.1)).map(|c| &c[..]).collect();
                let n = b.classes.len();
                for (s, row) in other.rows.iter_mut().enumerate() {
                    let class = (0..n).filter(|&u| columns.iter().all(|c| c[u] == c[s])).fold(0, |set, u| set | 1 << u);
                    *row = dice.some(class);
                }
            }
        }
    }
}

fn joined_len(a: &Table, b: &Table) -> usize {
    let n = a.n() * b.n();
    let shared = a.events.iter().filter(|event| b.events.iter().any(|other| other.id == event.id)).count();
    let m = a.events.len() + b.events.len() - shared;
    let list = if a.further.is_empty() { 0 } else { 1 + a.further.len() };
    let fine = (a.fine.is_some() || b.fine.is_some()) as usize;
    10 + list + (1 + a.further.len() + fine) * n + 4 * m + 8 * m * n
}

/// Four observers or fine classes, 64 states and 32 events, which lead anywhere.
pub fn largest(dice: &mut Dice, kind: u8) -> Table {
    let list = [0x00, 0x40, 0x80, 0xc1];
    let same = if dice.one_in(2) { Some(classes(dice, 64)) } else { None };
    let column = |dice: &mut Dice| same.clone().unwrap_or_else(|| if dice.one_in(2) { vec![0; 64] } else { classes(dice, 64) });
    let mut table = Table::new(column(dice));
    if kind == 2 {
        table.further = list[1..].iter().map(|&observer| (observer, column(dice))).collect();
    } else {
        table.fine = Some(refined(dice, &table.classes));
    }
    table.start = dice.below(64) as u8;
    for _ in 0..32 {
        let (kind, level) = (dice.below(3) as u8, list[dice.below(4)]);
        let rows: Vec<u64> = (0..64).map(|s| if kind == INPUT && level != LOW { 1 << s } else { dice.some(u64::MAX) }).collect();
        table.add(kind, level, |s| rows[s]);
    }
    table
}

/// One state without events, of the same kind and for the same observers.
pub fn one_state(table: &Table) -> Table {
    let mut one = Table::new(vec![0]);
    one.further = table.further.iter().map(|&(observer, _)| (observer, vec![0])).collect();
    one.fine = table.fine.as_ref().map(|_| vec![0]);
    one
}

/// A class that is not the next one by first appearance for this state.
fn skip(dice: &mut Dice, column: &mut [u8]) {
    let s = dice.below(column.len());
    column[s] = count(&column[..s]) as u8 + 1 + dice.below(2) as u8;
}

/// A record of kind 3 that 5, 6 or 21 refuses, made of this part; with faults that the refusal hides. Tells what is wrong, and which answer is
/// due.
fn spoil_limited(dice: &mut Dice, table: &Table) -> (String, Vec<u8>, u32) {
    let mut table = Table { further: vec![], ..table.clone() };
    let (n, m) = (table.n(), table.events.len());
    let mut fine = table.fine.take().unwrap_or_else(|| table.classes.clone());
    if dice.one_in(2) {
        table.observer = 1 + dice.below(63) as u8;
    }
    if m > 0 && dice.one_in(2) {
        table.events[dice.below(m)].kind = 3;
    }
    let s = dice.below(n);
    let stranger = (0..s).find(|&t| table.classes[t] != table.classes[s]);
    let (which, due) = match (dice.below(4), stranger) {
        (0, _) => ("without fine classes", 5),
        (1, _) => ("class skipped", 6),
        (2, Some(t)) => {
            fine[s] = fine[t];
            fine = numbered(&fine);
            ("fine class across two", 21)
        }
        _ => ("fine class skipped", 21),
    };
    if which == "fine class skipped" || (due < 21 && dice.one_in(2)) {
        skip(dice, &mut fine);
    }
    if due == 6 || (due == 5 && dice.one_in(2)) {
        skip(dice, &mut table.classes);
    }
    table.fine = (due != 5).then_some(fine);
    let mut record = table.record();
    record[4] = 3;
    (which.to_string(), record, due)
}

/// A record of kind 2 that 5, 20 or 6 refuses, made of this part; with faults that the refusal hides. Tells what is wrong, and which answer is
/// due.
fn spoil_list(dice: &mut Dice, table: &Table) -> (String, Vec<u8>, u32) {
    let mut table = table.clone();
    let m = table.events.len();
    if dice.one_in(2) {
        table.observer = 0;
        table.further.truncate(1);
        table.further[0].0 = 1 + dice.below(63) as u8;
    }
    if m > 0 && dice.one_in(2) {
        table.events[dice.below(m)].kind = 3;
    }
    let mut views: Vec<(u8, Vec<u8>)> = table.views().into_iter().map(|(observer, classes)| (observer, classes.to_vec())).collect();
    let count = views.len();
    let i = dice.below(count);
    let (which, due) = match dice.below(6) {
        0 => {
            let count = [0, 1, 5, 6, 255][dice.below(5)];
            views = (0..count).map(|observer| (observer as u8, table.classes.clone())).collect();
            (format!("count {count}"), 20)
        }
        1 => {
            let i = 1 + dice.below(count - 1);
            views.swap(i - 1, i);
            ("falling observers".to_string(), 20)
        }
        2 => {
            let i = 1 + dice.below(count - 1);
            views[i].0 = views[i - 1].0;
            ("equal observers".to_string(), 20)
        }
        3 => ("another count".to_string(), 5),
        _ => (format!("column {}", i + 1), 6),
    };
    if due == 6 || dice.one_in(2) {
        if let Some((_, classes)) = views.get_mut(i) {
            skip(dice, classes);
        }
    }
    let views: Vec<(u8, &[u8])> = views.iter().map(|(observer, classes)| (*observer, &classes[..])).collect();
    let mut record = table.record_for(&views);
    if due == 5 {
        record[6] = [0, 1, 2, 3, 4, 5, 255].into_iter().cycle().skip(dice.below(7)).find(|&other| other != record[6]).unwrap();
    }
    (which, record, due)
}

/// Mislabels one level. Sometimes it also sets a stray bit, which 16 hides, or an unknown kind, which hides 16. Tells what it did, and which
/// answer is due.
fn mislabel(dice: &mut Dice, table: &mut Table) -> (String, u32) {
    let (n, m) = (table.n(), table.events.len());
    let (whose, level) = match dice.below(3) {
        0 if m > 0 => ("first event", &mut table.events[0].level),
        1 if m > 0 => ("last event", &mut table.events[m - 1].level),
        _ => match table.further.first_mut() {
            // Still rising: any level above 0 that is not mislabelled is above these.
            Some((level, _)) if table.observer == 0 => ("second observer", level),
            _ => ("observer", &mut table.observer),
        },
    };
    *level = 1 + dice.below(63) as u8;
    match dice.below(6) {
        0 | 1 if m > 0 && n < 64 => {
            table.events[dice.below(m)].rows[dice.below(n)] |= 1 << (n + dice.below(64 - n));
            (format!("{whose} with 8"), 16)
        }
        2 if m > 0 => {
            table.events[dice.below(m)].kind = 3;
            (format!("{whose} with 7"), 7)
        }
        _ => (whose.to_string(), 16),
    }
}

fn damage(dice: &mut Dice, record: &mut Vec<u8>) {
    for _ in 0..1 + dice.below(2) {
        let len = record.len();
        match dice.below(12) {
            0 => record.truncate(dice.below(len + 1)),
            1 => record.push(dice.next() as u8),
            2 if len > 10 => {
                // Cut, with a length that fits.
                record.truncate(6 + dice.below(len - 6));
                let body = record.len() as u32 - 6;
                record[..4].copy_from_slice(&body.to_le_bytes());
            }
            3 if len > 0 => record[dice.below(len.min(10))] ^= 1 << dice.below(8),
            4 if len > 10 => {
                let place = dice.below(4);
                record[6 + place] = [0, 1, 31, 32, 33, 63, 64, 65, 255][dice.below(9)];
            }
            5 | 6 if len > 10 => {
                let n = record[7] as usize;
                let (list, columns) = lists(record);
                let place = 10 + list + dice.below((columns * n).max(1));
                if place < len {
                    record[place] = dice.below(n.max(1)) as u8;
                }
            }
            7 | 8 if len > 10 => {
                let (list, columns) = lists(record);
                let place = 10 + list + columns * record[7] as usize + dice.below(4 * record[9].max(1) as usize);
                if place < len {
                    record[place] = dice.below(4) as u8;
                }
            }
            _ if len > 0 => {
                let place = dice.below(len);
                record[place] ^= 1 << dice.below(8);
            }
            _ => {}
        }
    }
}

/// How many bytes list observers, and how many class columns follow.
fn lists(record: &[u8]) -> (usize, usize) {
    match record[4] {
        2 => (record[6] as usize, record[6] as usize),
        3 => (0, 2),
        _ => (0, 1),
    }
}
