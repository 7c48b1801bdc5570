//! The records that are timed, and the scripts and shelves.

pub mod scripts;

use crate::dice::Dice;
use scripts::{Run, Stock};
use std::ops::Range;

pub const LOW: u8 = 0x00;
pub const HIGH: u8 = 0x40;
pub const INPUT: u8 = 0;
pub const OUTPUT: u8 = 1;
pub const INTERNAL: u8 = 2;

/// The observers of the timed lists. Each sees what the one before sees, and more.
const RANKS: [u8; 4] = [0x00, 0x40, 0x80, 0xc0];

/// High for all of them.
const ABOVE: u8 = 0xc1;

/// A part before it becomes a record. With further observers, each with its classes, the record is of kind 2; with fine classes, of kind 3.
#[derive(Clone)]
pub struct Table {
    pub observer: u8,
    pub start: u8,
    pub classes: Vec<u8>,
    pub further: Vec<(u8, Vec<u8>)>,
    pub fine: Option<Vec<u8>>,
    pub events: Vec<Event>,
}

#[derive(Clone)]
pub struct Event {
    pub id: u16,
    pub kind: u8,
    pub level: u8,
    pub rows: Vec<u64>,
}

impl Table {
    pub fn new(classes: Vec<u8>) -> Self {
        Table { observer: 0, start: 0, classes, further: Vec::new(), fine: None, events: Vec::new() }
    }

    pub fn n(&self) -> usize {
        self.classes.len()
    }

    /// Adds an event behind the others.
    pub fn add(&mut self, kind: u8, level: u8, row: impl Fn(usize) -> u64) {
        let id = self.events.last().map_or(1, |event| event.id + 1);
        let rows = (0..self.n()).map(row).collect();
        self.events.push(Event { id, kind, level, rows });
    }

    fn with(mut self, count: usize, kind: u8, level: u8, row: impl Fn(usize, usize) -> u64) -> Self {
        for e in 0..count {
            self.add(kind, level, |s| row(e, s));
        }
        self
    }

    /// The same for an observer with each of these class columns.
    fn listed(mut self, columns: Vec<Vec<u8>>) -> Self {
        let mut views = RANKS.into_iter().zip(columns);
        (self.observer, self.classes) = views.next().unwrap();
        self.further = views.collect();
        self
    }

    /// The same with these fine classes.
    fn limited(self, fine: Vec<u8>) -> Self {
        Table { fine: Some(fine), ..self }
    }

    /// The same with its classes as the fine ones, two to a class.
    fn halved(self) -> Self {
        let classes = self.classes.iter().map(|class| class / 2).collect();
        Table { fine: Some(self.classes), classes, ..self }
    }

    fn last_row(&mut self, back: usize) -> &mut u64 {
        let n = self.n();
        &mut self.events.last_mut().unwrap().rows[n - back]
    }

    /// Each observer with its classes.
    pub fn views(&self) -> Vec<(u8, &[u8])> {
        let further = self.further.iter().map(|(observer, classes)| (*observer, &classes[..]));
        std::iter::once((self.observer, &self.classes[..])).chain(further).collect()
    }

    /// The record of each observer alone.
    pub fn alone(&self) -> Vec<Vec<u8>> {
        let one = |(observer, classes): (u8, &[u8])| Table { observer, classes: classes.to_vec(), further: vec![], ..self.clone() };
        self.views().into_iter().map(|view| one(view).record()).collect()
    }

    pub fn record(&self) -> Vec<u8> {
        if !self.further.is_empty() {
            return self.record_for(&self.views());
        }
        let kind = if self.fine.is_some() { 3 } else { 1 };
        let mut bytes = vec![kind, 0, self.observer, self.n() as u8, self.start, self.events.len() as u8];
        bytes.extend(&self.classes);
        bytes.extend(self.fine.iter().flatten());
        self.behind_length(bytes)
    }

    /// The record of kind 2 with these observers and classes, be there 2 to 4 of them or not.
    pub fn record_for(&self, views: &[(u8, &[u8])]) -> Vec<u8> {
        let mut bytes = vec![2, 0, views.len() as u8, self.n() as u8, self.start, self.events.len() as u8];
        bytes.extend(views.iter().map(|view| view.0));
        bytes.extend(views.iter().flat_map(|view| view.1));
        self.behind_length(bytes)
    }

    /// These bytes, the entries and the rows behind the body's length.
    fn behind_length(&self, mut bytes: Vec<u8>) -> Vec<u8> {
        for event in &self.events {
            bytes.extend(event.id.to_le_bytes());
            bytes.extend([event.kind, event.level]);
        }
        for event in &self.events {
            for row in &event.rows {
                bytes.extend(row.to_le_bytes());
            }
        }
        let length = bytes.len() as u32 - 2;
        bytes.splice(..0, length.to_le_bytes());
        bytes
    }
}

/// A record for Check, its closures or its explanation, with the answer it is made for. With several observers it also has the record of each
/// alone.
pub struct One {
    pub family: &'static str,
    pub n: usize,
    pub m: usize,
    pub answer: u32,
    pub record: Vec<u8>,
    pub alone: Vec<Vec<u8>>,
}

impl One {
    fn new(family: &'static str, answer: u32, table: Table) -> Self {
        let alone = if table.further.is_empty() { vec![] } else { table.alone() };
        One { family, n: table.n(), m: table.events.len(), answer, record: table.record(), alone }
    }

    pub fn name(&self) -> String {
        format!("{} n={} m={}", self.family, self.n, self.m)
    }
}

/// Two records for Join, with the answer they are made for; n is the number of pairs of states. With several observers there are also the two
/// records of each alone.
pub struct Pair {
    pub family: &'static str,
    pub name: String,
    pub n: usize,
    pub answer: u32,
    pub a: Vec<u8>,
    pub b: Vec<u8>,
    pub alone: Vec<(Vec<u8>, Vec<u8>)>,
}

/// The states of a range, as a set.
pub fn span(states: Range<usize>) -> u64 {
    states.fold(0, |set, s| set | 1 << s)
}

fn own(n: usize) -> Vec<u8> {
    (0..n as u8).collect()
}

fn single(n: usize) -> Vec<u8> {
    vec![0; n]
}

/// State s and state s + n / 2 share a class.
fn pairs(n: usize) -> Vec<u8> {
    (0..n).map(|s| (s % (n / 2)) as u8).collect()
}

/// Four states share a class, one of each quarter: two of the pairs.
fn fours(n: usize) -> Vec<u8> {
    (0..n).map(|s| (s % (n / 4)) as u8).collect()
}

/// The pairs, but the last two states have classes of their own.
fn pairs_before(n: usize) -> Vec<u8> {
    let half = n / 2 - 1;
    (0..n).map(|s| if s < 2 * half { s % half } else { s - half } as u8).collect()
}

/// Each state has its own class, but the last two share one.
fn last_two(n: usize) -> Vec<u8> {
    (0..n).map(|s| s.min(n - 2) as u8).collect()
}

fn line(s: usize, end: usize) -> u64 {
    if s + 1 < end {
        1 << (s + 1)
    } else {
        0
    }
}

type Family = (&'static str, u32, fn(usize, usize) -> Table);

const FAMILIES: &[Family] = &[
    ("full output own", 0, |n, m| full(own(n), m, OUTPUT, LOW)),
    ("full output pairs", 0, |n, m| full(pairs(n), m, OUTPUT, LOW)),
    ("full output single", 0, |n, m| full(single(n), m, OUTPUT, LOW)),
    ("full input own", 0, |n, m| full(own(n), m, INPUT, LOW)),
    ("full input pairs", 0, |n, m| full(pairs(n), m, INPUT, LOW)),
    ("full input single", 0, |n, m| full(single(n), m, INPUT, LOW)),
    ("full silent own", 0, |n, m| full(own(n), m, OUTPUT, HIGH)),
    ("full silent pairs", 0, |n, m| full(pairs(n), m, INTERNAL, HIGH)),
    ("full silent single", 0, |n, m| full(single(n), m, OUTPUT, HIGH)),
    ("sparse output", 0, |n, m| Table::new(pairs(n)).with(m, OUTPUT, LOW, |e, s| turn(n, e, s))),
    ("sparse input", 0, |n, m| Table::new(pairs(n)).with(m, INPUT, LOW, |e, s| turn(n, e, s))),
    ("sparse silent", 0, |n, m| Table::new(pairs(n)).with(m, OUTPUT, HIGH, |e, s| turn(n, e, s))),
    ("sparse mixed", 0, mixed),
    ("line silent", 0, |n, m| Table::new(own(n)).with(m, INTERNAL, HIGH, |_, s| line(s, n))),
    ("line up", 0, up),
    ("line down", 0, down),
    ("line stay", 0, |n, m| Table::new(own(n)).with(1, OUTPUT, HIGH, |_, s| line(s, n)).with(m - 1, OUTPUT, LOW, |_, s| 1 << s)),
    ("line full", 0, |n, m| Table::new(own(n)).with(1, OUTPUT, HIGH, |_, s| line(s, n)).with(m - 1, OUTPUT, LOW, |_, _| span(0..n))),
    ("line twin", 0, twin),
    ("late rule 1", 101, late1),
    ("late rule 2", 102, late2),
    ("late rule 3", 103, late3),
    ("late rule 4", 104, late4),
    ("late rule 5", 105, late5),
];

/// The records whose closures are timed.
const CLOSURES: &[Family] = &[
    ("closure up", 0, up),
    ("closure down", 0, down),
    ("closure full", 0, |n, m| full(single(n), m, OUTPUT, HIGH)),
    ("closure ring", 0, |n, m| Table::new(single(n)).with(m, OUTPUT, HIGH, |_, s| turn(n, 0, s))),
    ("closure none", 0, |n, m| full(single(n), m, OUTPUT, LOW)),
    ("closure sparse", 0, sparse),
];

/// The records whose explanations are timed.
const EXPLANATIONS: &[Family] = &[
    ("explain output", 0, |n, m| full(pairs(n), m, OUTPUT, LOW)),
    ("explain up", 0, up),
    ("explain rule 1", 101, late1),
    ("explain rule 2", 102, late2),
    ("explain rule 3", 103, late3),
    ("explain rule 4", 104, late4),
    ("explain rule 5", 105, late5),
];

/// A family with two observers and one with four, which sizes are made alike.
type ListFamily = (&'static str, &'static str, u32, fn(usize, usize, usize) -> Table);

const LISTS: &[ListFamily] = &[
    ("two full output", "four full output", 0, |n, m, count| full(pairs(n), m, OUTPUT, LOW).listed(vec![pairs(n); count])),
    ("two full input", "four full input", 0, |n, m, count| full(pairs(n), m, INPUT, LOW).listed(vec![pairs(n); count])),
    ("two full silent", "four full silent", 0, |n, m, count| full(single(n), m, OUTPUT, ABOVE).listed(vec![single(n); count])),
    ("two line up", "four line up", 0, |n, m, count| up(n, m).listed(vec![single(n); count])),
    ("two sparse ranks", "four sparse ranks", 0, ranks),
    ("two columns", "four columns", 0, columns),
    ("two late rule 5", "four late rule 5", 105, late5_last),
];

/// The records with several observers whose closures are timed.
const CLOSURES_OF_LISTS: &[ListFamily] = &[
    ("closure two up", "closure four up", 0, |n, m, count| up(n, m).listed(vec![single(n); count])),
    ("closure two full", "closure four full", 0, |n, m, count| full(single(n), m, OUTPUT, ABOVE).listed(vec![single(n); count])),
    ("closure two ranks", "closure four ranks", 0, ranks),
];

/// The records with several observers whose explanations are timed.
const EXPLANATIONS_OF_LISTS: &[ListFamily] = &[
    ("explain two output", "explain four output", 0, |n, m, count| full(pairs(n), m, OUTPUT, LOW).listed(vec![pairs(n); count])),
    ("explain two rule 5", "explain four rule 5", 105, late5_last),
];

/// Limited parts: in each of the fours the two pairs are its fine classes, where nothing else is said.
const LIMITED: &[Family] = &[
    ("limited full output", 0, |n, m| full(fours(n), m, OUTPUT, LOW).limited(pairs(n))),
    ("limited full input", 0, |n, m| full(fours(n), m, INPUT, LOW).limited(pairs(n))),
    ("limited full silent", 0, |n, m| full(fours(n), m, INTERNAL, HIGH).limited(pairs(n))),
    ("limited full single", 0, |n, m| full(single(n), m, OUTPUT, LOW).limited(pairs(n))),
    ("limited full own", 0, |n, m| full(pairs(n), m, OUTPUT, LOW).limited(own(n))),
    ("limited sparse output", 0, |n, m| Table::new(fours(n)).limited(pairs(n)).with(m, OUTPUT, LOW, |e, s| turn(n, e, s))),
    ("limited sparse input", 0, |n, m| Table::new(fours(n)).limited(pairs(n)).with(m, INPUT, LOW, |e, s| turn(n, e, s))),
    ("limited sparse silent", 0, |n, m| Table::new(fours(n)).limited(pairs(n)).with(m, OUTPUT, HIGH, |e, s| turn(n, e, s))),
    ("limited sparse mixed", 0, |n, m| Table { classes: fours(n), ..mixed(n, m) }.limited(pairs(n))),
    ("limited line up", 0, |n, m| up(n, m).limited(pairs(n))),
    ("limited leak", 0, leak),
    ("limited late rule 2", 102, |n, m| late2(n, m).limited(own(n))),
    ("limited late rule 3", 103, |n, m| late3(n, m).limited(own(n))),
    ("limited late rule 4", 104, |n, m| late4(n, m).halved()),
    ("limited late rule 5", 105, |n, m| late5(n, m).halved()),
];

/// The limited parts whose closures are timed.
const CLOSURES_OF_LIMITED: &[Family] = &[
    ("closure limited up", 0, |n, m| up(n, m).limited(pairs(n))),
    ("closure limited full", 0, |n, m| full(single(n), m, OUTPUT, HIGH).limited(pairs(n))),
    ("closure limited sparse", 0, |n, m| sparse(n, m).limited(pairs(n))),
];

/// The limited parts whose explanations are timed.
const EXPLANATIONS_OF_LIMITED: &[Family] = &[
    ("explain limited output", 0, |n, m| full(fours(n), m, OUTPUT, LOW).limited(pairs(n))),
    ("explain limited leak", 0, leak),
    ("explain limited rule 4", 104, |n, m| late4(n, m).halved()),
    ("explain limited rule 5", 105, |n, m| late5(n, m).halved()),
];

/// Every kind and every observer's level, one step for each state: each observer sees other events. Inputs stay in their class where they are
/// high for one of them.
fn ranks(n: usize, m: usize, count: usize) -> Table {
    let mut table = Table::new(pairs(n));
    for e in 0..m {
        let (kind, level) = ((e % 3) as u8, [RANKS[0], RANKS[1], RANKS[2], RANKS[3], ABOVE][e / 3 % 5]);
        let far = if kind == INPUT && level != LOW { n / 2 - 1 } else { e };
        table.add(kind, level, |s| turn(n, far, s));
    }
    table.listed(vec![pairs(n); count])
}

/// Full low outputs, and another grouping for each observer.
fn columns(n: usize, m: usize, count: usize) -> Table {
    full(own(n), m, OUTPUT, LOW).listed([own(n), pairs(n), single(n), pairs_before(n)][..count].to_vec())
}

/// Breaks rule 5 as `late5` does, for the last observer alone; the others go through all of the table.
fn late5_last(n: usize, m: usize, count: usize) -> Table {
    let mut list = vec![pairs_before(n); count];
    list[count - 1] = last_two(n);
    late5(n, m).listed(list)
}

/// A part that passes by its fine classes alone: in each of the fours only the first pair has silent steps and low outputs, and high inputs lead
/// from pair to pair. The two states of a first pair differ in their closures: silent steps lead from the one to first pairs, all around, from
/// the other to a second pair.
fn leak(n: usize, m: usize) -> Table {
    let quarter = n / 4;
    let mut table = Table::new(fours(n)).limited(pairs(n));
    for e in 0..m {
        match e % 3 {
            0 => table.add(INPUT, HIGH, |s| turn(n, quarter - 1, s)),
            1 => table.add(OUTPUT, LOW, |s| [1 << s, 0, 1 << s, 0][s / quarter]),
            _ => table.add(INTERNAL, HIGH, |s| [1 << ((s + 1) % quarter), 0, 1 << ((s + 1) % quarter + quarter), 0][s / quarter]),
        }
    }
    table
}

/// Silent steps from each state to the next, in one class.
fn up(n: usize, m: usize) -> Table {
    Table::new(single(n)).with(m, INTERNAL, HIGH, |_, s| line(s, n))
}

/// Silent steps from each state to the one before, in one class.
fn down(n: usize, m: usize) -> Table {
    Table::new(single(n)).with(m, INTERNAL, HIGH, |_, s| (1 << s) >> 1)
}

/// Two random silent steps from each state, by random events.
fn sparse(n: usize, m: usize) -> Table {
    let mut table = Table::new(single(n)).with(m, OUTPUT, HIGH, |_, _| 0);
    let dice = &mut Dice(1);
    for s in (0..n).chain(0..n) {
        table.events[dice.below(m)].rows[s] |= 1 << dice.below(n);
    }
    table
}

fn full(classes: Vec<u8>, m: usize, kind: u8, level: u8) -> Table {
    let n = classes.len();
    Table::new(classes).with(m, kind, level, |_, _| span(0..n))
}

/// One step for each state, all around the ring.
fn turn(n: usize, e: usize, s: usize) -> u64 {
    1 << ((s + e + 1) % n)
}

/// Every kind and level, one step for each state.
fn mixed(n: usize, m: usize) -> Table {
    let mut table = Table::new(pairs(n));
    for e in 0..m {
        let kind = (e % 3) as u8;
        let level = if e / 3 % 2 == 0 { LOW } else { HIGH };
        let far = if kind == INPUT && level == HIGH { n / 2 - 1 } else { e };
        table.add(kind, level, |s| turn(n, far, s));
    }
    table
}

/// Two silent lines side by side; the other events stay.
fn twin(n: usize, m: usize) -> Table {
    let half = n / 2;
    let step = move |_, s| if s < half { line(s, half) } else { line(s, n) };
    Table::new(pairs(n)).with(1, INTERNAL, HIGH, step).with(m - 1, OUTPUT, LOW, |_, s| 1 << s)
}

/// The last input has no step in the last state.
fn late1(n: usize, m: usize) -> Table {
    let mut table = full(own(n), m, INPUT, LOW);
    *table.last_row(1) = 0;
    table
}

/// The last high input leaves the last state's class.
fn late2(n: usize, m: usize) -> Table {
    let classes = (0..n).map(|s| (s == n - 1) as u8).collect();
    let mut table = Table::new(classes).with(m, INPUT, HIGH, |_, s| if s < n - 1 { span(0..n - 1) } else { 1 << s });
    *table.last_row(1) |= 1 << (n - 2);
    table
}

/// The last low input leads from the last state to itself, and from the one before, of the same class, to state 0 alone.
fn late3(n: usize, m: usize) -> Table {
    let mut table = full(last_two(n), m, INPUT, LOW);
    *table.last_row(2) = 1;
    *table.last_row(1) = 1 | 1 << (n - 1);
    table
}

/// The last silent event leads out of the last state's class; the state before it has no step.
fn late4(n: usize, m: usize) -> Table {
    let mut table = Table::new(last_two(n)).with(m, OUTPUT, HIGH, |_, s| if s < n - 2 { span(0..n - 2) } else { 0 });
    *table.last_row(1) = 1 << (n - 3);
    table
}

/// The last low output leads from the last state to itself; the state before, of the same class, has no step.
fn late5(n: usize, m: usize) -> Table {
    let mut table = full(last_two(n), m, OUTPUT, LOW);
    *table.last_row(2) = 0;
    *table.last_row(1) = 1 << (n - 1);
    table
}

/// One state, no events.
fn tiny1() -> Table {
    Table::new(own(1))
}

/// Two states of one class: a high input that toggles and a low output that stays.
fn tiny2() -> Table {
    Table::new(single(2)).with(1, INPUT, HIGH, |_, s| 2 >> s).with(1, OUTPUT, LOW, |_, s| 1 << s)
}

/// Two states of one class: a silent event leads from the first to the second.
fn tiny3() -> Table {
    up(2, 1)
}

fn tinies() -> [Table; 3] {
    [tiny1(), tiny2(), tiny3()]
}

/// The tiny records with a fine class for each state.
fn limited_tinies() -> [Table; 3] {
    tinies().map(split)
}

/// A limited part with the same steps: fours with the pairs as fine classes, or in a tiny part a fine class for each state.
fn split(table: Table) -> Table {
    match table.n() {
        n @ 1..=2 => table.limited(own(n)),
        n => Table { classes: fours(n), ..table }.limited(pairs(n)),
    }
}

/// All that is timed.
pub struct Inputs {
    pub checks: Vec<One>,
    pub explanations: Vec<One>,
    pub joins: Vec<Pair>,
    pub closures: Vec<One>,
    pub runs: Vec<Run>,
    pub counts: Vec<Stock>,
    pub parts: Vec<Stock>,
}

impl Inputs {
    /// Those whose names contain the text, with records in these sizes; the explanations in the least and the largest.
    pub fn new(ns: &[usize], ms: &[usize], text: &str) -> Self {
        let ends = |sizes: &[usize]| [sizes[0], sizes[sizes.len() - 1]];
        let mut inputs = Inputs {
            checks: sized("tiny", tinies(), FAMILIES, ns, ms),
            explanations: sized("explain tiny", tinies(), EXPLANATIONS, &ends(ns), &ends(ms)),
            joins: joins(),
            closures: sized("closure tiny", tinies(), CLOSURES, ns, ms),
            runs: scripts::runs(),
            counts: scripts::counts(),
            parts: scripts::parts(),
        };
        inputs.checks.extend(listed(["two tiny", "four tiny"], LISTS, ns, ms));
        inputs.explanations.extend(listed(["explain two tiny", "explain four tiny"], EXPLANATIONS_OF_LISTS, ns, ms));
        inputs.joins.extend(joins_of_lists());
        inputs.closures.extend(listed(["closure two tiny", "closure four tiny"], CLOSURES_OF_LISTS, ns, ms));
        inputs.checks.extend(sized("limited tiny", limited_tinies(), LIMITED, ns, ms));
        inputs.explanations.extend(sized("explain limited tiny", limited_tinies(), EXPLANATIONS_OF_LIMITED, &ends(ns), &ends(ms)));
        inputs.joins.extend(joins_of_limited());
        inputs.closures.extend(sized("closure limited tiny", limited_tinies(), CLOSURES_OF_LIMITED, ns, ms));
        for ones in [&mut inputs.checks, &mut inputs.explanations, &mut inputs.closures] {
            ones.retain(|one| one.name().contains(text));
        }
        inputs.joins.retain(|pair| pair.name.contains(text));
        inputs.runs.retain(|run| run.name.contains(text));
        for stocks in [&mut inputs.counts, &mut inputs.parts] {
            stocks.retain(|stock| stock.name.contains(text));
        }
        inputs
    }
}

/// The tiny records, then each family in its sizes.
fn sized(tiny: &'static str, tinies: [Table; 3], families: &[Family], ns: &[usize], ms: &[usize]) -> Vec<One> {
    let mut ones: Vec<One> = tinies.into_iter().map(|table| One::new(tiny, 0, table)).collect();
    for &(family, answer, make) in families {
        for &n in ns {
            for &m in ms {
                ones.push(One::new(family, answer, make(n, m)));
            }
        }
    }
    ones
}

/// The tiny records for two observers and for four, then each family in the least, the middle and the largest size.
fn listed(tiny: [&'static str; 2], families: &[ListFamily], ns: &[usize], ms: &[usize]) -> Vec<One> {
    let mut sizes: Vec<(usize, usize)> =
        [(0, 0), (ns.len() / 2, ms.len() / 2), (ns.len() - 1, ms.len() - 1)].map(|(i, j)| (ns[i], ms[j])).into();
    sizes.dedup();
    let mut ones = Vec::new();
    for (k, count) in [2, 4].into_iter().enumerate() {
        for table in tinies() {
            let column = table.classes.clone();
            ones.push(One::new(tiny[k], 0, table.listed(vec![column; count])));
        }
        for &(two, four, answer, make) in families {
            ones.extend(sizes.iter().map(|&(n, m)| One::new([two, four][k], answer, make(n, m, count))));
        }
    }
    ones
}

fn joins() -> Vec<Pair> {
    let mut list = Vec::new();
    let mut push = |name: &str, answer, a: &Table, b: &Table| list.push(pair(name, answer, a, b));
    push("tiny x tiny", 0, &tiny1(), &tiny1());
    push("tiny 2 x 1, one shared", 0, &tiny2(), &reader());
    for shape in ["full", "sparse"] {
        let part = |n: usize, m: usize, kind: u8, first: u16| side(shape, n, m, kind, first);
        for (na, nb) in [(8, 8), (64, 1), (1, 64), (32, 2), (2, 32)] {
            let (a, mut b) = (part(na, 32, OUTPUT, 0), part(nb, 32, INPUT, 0));
            push(&format!("{shape} {na} x {nb}, 32 shared"), 0, &a, &b);
            if na == 8 {
                b.events[31].level = HIGH;
                b.events[31].rows = (0..nb).map(|s| 1 << s).collect();
                push(&format!("{shape} {na} x {nb}, the last of 32 clashes"), 10, &a, &b);
            }
            push(&format!("{shape} {na} x {nb}, 16 + 16"), 0, &part(na, 16, OUTPUT, 0), &part(nb, 16, INPUT, 1));
        }
        push(&format!("{shape} 64 x 1, 32 + 0"), 0, &part(64, 32, OUTPUT, 0), &tiny1());
        push(&format!("{shape} 64 x 2, too many states"), 11, &part(64, 16, OUTPUT, 0), &part(2, 16, INPUT, 1));
    }
    list
}

/// Joins of two observers and of four. B has another grouping for each second one.
fn joins_of_lists() -> Vec<Pair> {
    let mut list = Vec::new();
    for (name, count) in [("two", 2), ("four", 4)] {
        let same = |table: Table| {
            let columns = vec![table.classes.clone(); count];
            table.listed(columns)
        };
        let other = |table: Table| {
            let columns = (0..count).map(|i| if i % 2 == 0 { table.classes.clone() } else { single(table.n()) }).collect();
            table.listed(columns)
        };
        list.push(pair(&format!("{name}, tiny x tiny"), 0, &same(tiny1()), &same(tiny1())));
        for shape in ["full", "sparse"] {
            for (na, nb) in [(8, 8), (64, 1)] {
                let (a, b) = (same(side(shape, na, 32, OUTPUT, 0)), other(side(shape, nb, 32, INPUT, 0)));
                list.push(pair(&format!("{name}, {shape} {na} x {nb}, 32 shared"), 0, &a, &b));
            }
            let (a, mut b) = (same(side(shape, 8, 16, OUTPUT, 0)), other(side(shape, 8, 16, INPUT, 1)));
            list.push(pair(&format!("{name}, {shape} 8 x 8, 16 + 16"), 0, &a, &b));
            b.further.last_mut().unwrap().0 = 0xff;
            list.push(Pair { alone: vec![], ..pair(&format!("{name}, {shape} 8 x 8, the last observers differ"), 9, &a, &b) });
        }
    }
    list
}

/// Joins of limited parts with each other and with parts of kind 1; and with a list, which 9 refuses.
fn joins_of_limited() -> Vec<Pair> {
    let made = |limited: bool, table: Table| if limited { split(table) } else { table };
    let mut list = Vec::new();
    for (name, x, y) in [("limited", true, true), ("limited x one", true, false), ("one x limited", false, true)] {
        list.push(pair(&format!("{name}, tiny x tiny"), 0, &made(x, tiny1()), &made(y, tiny1())));
        for shape in ["full", "sparse"] {
            for (na, nb) in [(8, 8), (64, 1)] {
                let (a, b) = (made(x, side(shape, na, 32, OUTPUT, 0)), made(y, side(shape, nb, 32, INPUT, 0)));
                list.push(pair(&format!("{name}, {shape} {na} x {nb}, 32 shared"), 0, &a, &b));
            }
            let (a, b) = (made(x, side(shape, 8, 16, OUTPUT, 0)), made(y, side(shape, 8, 16, INPUT, 1)));
            list.push(pair(&format!("{name}, {shape} 8 x 8, 16 + 16"), 0, &a, &b));
        }
    }
    let (a, b) = (made(true, side("full", 8, 16, OUTPUT, 0)), side("full", 8, 16, INPUT, 1).listed(vec![pairs(8); 2]));
    list.push(pair("limited x two, full 8 x 8", 9, &a, &b));
    list
}

fn pair(name: &str, answer: u32, a: &Table, b: &Table) -> Pair {
    let (family, alone) = match (a.further.is_empty(), a.fine.is_some() || b.fine.is_some()) {
        (true, true) => ("join of limited", vec![]),
        (true, false) => ("join", vec![]),
        (false, _) => ("join of lists", a.alone().into_iter().zip(b.alone()).collect()),
    };
    Pair { family, name: name.to_string(), n: a.n() * b.n(), answer, a: a.record(), b: b.record(), alone }
}

/// A part of a pair, whose events have each second identifier from the first on.
fn side(shape: &str, n: usize, m: usize, kind: u8, first: u16) -> Table {
    let classes = if n == 1 { single(1) } else { pairs(n) };
    let mut table = Table::new(classes).with(m, kind, LOW, |e, s| if shape == "full" { span(0..n) } else { turn(n, e, s) });
    for (e, event) in table.events.iter_mut().enumerate() {
        event.id = first + 2 * e as u16;
    }
    table
}

/// One state that takes the output of `tiny2`.
fn reader() -> Table {
    let mut table = Table::new(own(1)).with(1, INPUT, LOW, |_, _| 1);
    table.events[0].id = 2;
    table
}
