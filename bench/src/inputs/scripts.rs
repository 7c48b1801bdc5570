//! The scripts and shelves that are timed.

use super::*;

/// A script by its calls.
#[derive(Clone, Default)]
pub struct Script(pub Vec<Vec<u8>>);

impl Script {
    pub fn clear(self) -> Self {
        self.call([0].into())
    }

    pub fn load(self, record: &[u8]) -> Self {
        self.call([&[1], &(record.len() as u32).to_le_bytes()[..], record].concat())
    }

    pub fn hookup(self, i: u32, j: u32) -> Self {
        self.call([&[2], &i.to_le_bytes()[..], &j.to_le_bytes()].concat())
    }

    /// These bytes behind the others.
    pub fn call(mut self, bytes: Vec<u8>) -> Self {
        self.0.push(bytes);
        self
    }

    pub fn bytes(&self) -> Vec<u8> {
        self.0.concat()
    }

    fn loads(self, records: impl Iterator<Item = Vec<u8>>) -> Self {
        records.fold(self, |script, record| script.load(&record))
    }

    fn hookups(self, pairs: impl Iterator<Item = (u32, u32)>) -> Self {
        pairs.fold(self, |script, (i, j)| script.hookup(i, j))
    }
}

/// A run, the shelf before it, and the bytes for its answers. It is made for an answer, and for one of each call as Check would tell it: 0, the
/// refusal, or 100 and the rule. No record has more than n states. After a run the next one finds the same: a script that changes the shelf
/// begins with Clear.
pub struct Run {
    pub family: &'static str,
    pub name: String,
    pub n: usize,
    pub answer: u32,
    pub calls: Vec<u32>,
    pub script: Vec<u8>,
    pub shelf: Vec<u8>,
    pub room: usize,
}

impl Run {
    /// A run that is made, on a shelf with room for all that it lays.
    fn new(family: &'static str, name: &str, n: usize, script: Script) -> Self {
        let calls = vec![0; script.0.len()];
        let joined = script.0.iter().filter(|call| call[0] == 2).count();
        let (script, room) = (script.bytes(), 64 * calls.len());
        let shelf = vec![0xaa; script.len() + joined * record_length(n, 32, 4) + 6];
        Run { family, name: format!("{family}, {name}"), n, answer: 0, calls, script, shelf, room }
    }

    /// The same on this shelf.
    fn on(self, shelf: Vec<u8>) -> Self {
        Run { shelf, ..self }
    }

    /// The same, made for these answers of its calls.
    fn stopped(self, calls: Vec<u32>) -> Self {
        Run { calls, ..self }
    }
}

/// Bytes of a record with so many states, events and columns, and a level for each column.
fn record_length(n: usize, m: usize, columns: usize) -> usize {
    10 + columns * (1 + n) + 4 * m + 8 * m * n
}

/// A shelf, and the number of a part for Part. It is made for an answer.
pub struct Stock {
    pub name: String,
    pub i: usize,
    pub answer: u32,
    pub shelf: Vec<u8>,
}

/// So many tiny records, and the end record.
pub fn stocked(count: usize) -> Vec<u8> {
    let records = tinies().map(|table| table.record());
    let mut shelf: Vec<u8> = records.iter().cycle().take(count).flatten().copied().collect();
    shelf.extend([0; 6]);
    shelf
}

const STOCKS: [usize; 3] = [1, 100, 10_000];

pub fn counts() -> Vec<Stock> {
    let stock = |&count: &usize| Stock { name: format!("count {count} records"), i: 0, answer: 0, shelf: stocked(count) };
    let mut list: Vec<Stock> = STOCKS.iter().map(stock).collect();
    let mut shelf = stocked(10_000);
    shelf.pop();
    list.push(Stock { name: "count 10000 records, no end".into(), i: 0, answer: 12, shelf });
    list
}

pub fn parts() -> Vec<Stock> {
    let mut list = Vec::new();
    for count in STOCKS {
        let mut places = vec![0, count / 2, count - 1, count];
        places.dedup();
        for i in places {
            let answer = if i < count { 0 } else { 13 };
            list.push(Stock { name: format!("part {i} of {count}"), i, answer, shelf: stocked(count) });
        }
    }
    list
}

pub fn runs() -> Vec<Run> {
    [loads(), full_loads(), hookups(), full_hookups(), chains(), refused_calls(), refused_runs()].into_iter().flatten().collect()
}

fn cleared() -> Script {
    Script::default().clear()
}

/// Each kind by its name: one observer, four, a limited part. Makes a part of it out of one of kind 1.
type Kind = (&'static str, fn(Table) -> Table);

const KINDS: [Kind; 3] = [
    ("kind 1", |table| table),
    ("kind 2", |table| {
        let column = table.classes.clone();
        table.listed(vec![column; 4])
    }),
    ("kind 3", split),
];

/// Tiny records behind each other.
fn loads() -> Vec<Run> {
    let script = |count, make: fn(Table) -> Table| cleared().loads(tinies().into_iter().cycle().take(count).map(|t| make(t).record()));
    let run = |count, (kind, make): Kind| Run::new("run small loads", &format!("{count} of {kind}"), 2, script(count, make));
    let mut list: Vec<Run> = [1, 10, 100, 1_000].into_iter().map(|count| run(count, KINDS[0])).collect();
    list.extend(KINDS[1..].iter().map(|&kind| run(100, kind)));
    list
}

/// Four records of 64 states and 32 events of each kind, and one of each.
fn full_loads() -> Vec<Run> {
    let mut list = Vec::new();
    for shape in ["full", "sparse"] {
        let record = |(_, make): Kind| make(side(shape, 64, 32, OUTPUT, 0)).record();
        let mut push = |name: &str, script| list.push(Run::new("run full loads", &format!("{shape}, {name}"), 64, script));
        for kind in KINDS {
            push(kind.0, cleared().loads((0..4).map(|_| record(kind))));
        }
        push("each kind", cleared().loads(KINDS.into_iter().map(record)));
    }
    list
}

/// Tiny records joined: one with itself, two with each other, and in a row what was joined last with the first.
fn hookups() -> Vec<Run> {
    let run = |name: &str, n, script: Script| Run::new("run small hookups", name, n, script);
    let one = || cleared().load(&tiny1().record());
    let two = || cleared().load(&tiny2().record()).load(&reader().record());
    let mut list = Vec::new();
    for count in [1, 10, 100] {
        list.push(run(&format!("{count} of 1 x 1 state"), 1, one().hookups((0..count).map(|_| (0, 0)))));
        list.push(run(&format!("{count} of 2 x 1 states"), 2, two().hookups((0..count).map(|_| (0, 1)))));
        list.push(run(&format!("{count} in a row"), 1, one().hookups((0..count).map(|i| (i, 0)))));
    }
    list
}

/// Two parts joined to 64 states and 32 events.
fn full_hookups() -> Vec<Run> {
    let mut list = Vec::new();
    for shape in ["full", "sparse"] {
        for (kind, make) in KINDS {
            for (na, nb) in [(8, 8), (64, 1)] {
                let [a, b] = [(na, OUTPUT), (nb, INPUT)].map(|(n, events)| make(side(shape, n, 32, events, 0)).record());
                let script = cleared().load(&a).load(&b).hookup(0, 1);
                list.push(Run::new("run full hookup", &format!("{shape} {na} x {nb}, {kind}"), 64, script));
            }
        }
    }
    list
}

/// So many stages, each hooked to those before it once it is loaded.
fn chain(stages: u16, make: fn(Table) -> Table) -> Script {
    let mut script = cleared().load(&make(stage(0)).record());
    for k in 1..stages {
        let i = 2 * k as u32;
        script = script.load(&make(stage(k)).record()).hookup(i - 2, i - 1);
    }
    script
}

/// Two states of one class: a high input that toggles, a low input from the stage before and a low output to the next one.
fn stage(k: u16) -> Table {
    let toggle = |_, s| 2_u64 >> s;
    let stay = |_, s| 1_u64 << s;
    let mut table = Table::new(single(2)).with(1, INPUT, HIGH, toggle).with(1, INPUT, LOW, stay).with(1, OUTPUT, LOW, stay);
    for (event, id) in table.events.iter_mut().zip([k, 100 + k, 101 + k]) {
        event.id = id;
    }
    table
}

/// Chains of parts as they are tried in a laboratory.
fn chains() -> Vec<Run> {
    let run =
        |stages, (kind, make): Kind| Run::new("run chain", &format!("{stages} stages, {kind}"), 1_usize << stages, chain(stages, make));
    let mut list = vec![run(2, KINDS[0]), run(3, KINDS[0])];
    list.extend(KINDS.map(|kind| run(6, kind)));
    list
}

/// Calls that are refused, or loads that break a rule; the shelf stays as it is.
fn refused_calls() -> Vec<Run> {
    let run = |name: &str, n, calls, script| Run::new("run refused calls", name, n, script).stopped(calls);
    let fill = || cleared().load(&tiny2().record());
    let mut list = Vec::new();
    for count in [100, 10_000] {
        let load = Script::default().load(&tiny1().record());
        list.push(run(&format!("15 of {count} records"), 2, vec![15], load).on(stocked(count)));
        let missing = Script::default().hookup(0, count as u32);
        list.push(run(&format!("13 of {count} records"), 2, vec![13], missing).on(stocked(count)));
    }
    list.push(run("12", 2, vec![12, 12], Script::default().load(&tiny2().record()).hookup(0, 1)).on(vec![0xaa; 100]));
    list.push(run("10, of two states", 2, vec![0, 0, 10], fill().hookup(0, 0)));
    let [a, b] = [(64, OUTPUT, 0), (2, INPUT, 1)].map(|(n, kind, first)| side("sparse", n, 16, kind, first).record());
    list.push(run("11, of 64 x 2 states", 64, vec![0, 0, 0, 11], cleared().load(&a).load(&b).hookup(0, 1)));
    list.push(run("rule 2, of 64 states", 64, vec![0, 102], cleared().load(&late2(64, 32).record())));
    list.push(run("rule 5, of 64 states", 64, vec![0, 105], cleared().load(&late5(64, 32).record())));
    list
}

/// Scripts that are not run: cut off at the end, or with a byte too few for the answers.
fn refused_runs() -> Vec<Run> {
    let loads = cleared().loads((0..1_000).map(|_| tiny2().record()));
    let mut list = Vec::new();
    for (name, n, script) in [("a chain of 6", 64, chain(6, KINDS[0].1)), ("1000 loads", 2, loads)] {
        let run = |why: &str, answer| {
            let run = Run::new("run refused", &format!("{why} of {name}"), n, script.clone());
            Run { answer, calls: vec![], ..run }
        };
        let mut cut = run("99", 99);
        cut.script.pop();
        let mut short = run("15", 15);
        short.room -= 1;
        list.extend([cut, short]);
    }
    list
}
