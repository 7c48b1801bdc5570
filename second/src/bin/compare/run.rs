//! Compares hookup_run: the number, every byte of the shelf and of the answers, and that nothing else is written. Runs one
//! behind the other on one shelf are held to one run of all their calls, and calls from a clear on to the plain bench.

use crate::load;
use crate::product::{self, Lent};
use crate::report::differ;
use crate::{Comparison, LEAST};
use second::answer::Answer;
use second::bench::{self, Call};
use second::category::Tally;
use second::category_run;
use second::category_shelf::{wrong_name, wrong_walk_name};
use second::judge::Judge;
use second::make::Script;
use second::replay::hex;
use second::run::{self, Run, ANSWER, RAN};
use second::wrong_run::{readings, that_differ, walks, Outcome};

/// The wrong readings are tried on scripts of so many calls and shelves of so many bytes at most; on larger ones they would
/// take too long.
const MOST_CALLS_MISREAD: usize = 8;
const MOST_BYTES_MISREAD: usize = 4000;

/// Begins the name of each category of levels, of internal events and of kinds.
const LOAD: &str = "run: load,";

const BENCH: &str = "run: list of calls as on the plain bench";
const CHAIN: &str = "run: runs one behind the other as one run";
const CHAIN_MALFORMED: &str = "run: the same with a run between that is refused with 99";
const CHAIN_NO_ROOM: &str = "run: the same with a run between that is refused with 15";
const NULL: [&str; 3] =
    ["run: script at a null pointer", "run: shelf at a null pointer", "run: answers at a null pointer"];

pub fn need(tally: &mut Tally) {
    for name in category_run::names() {
        tally.need(&format!("run: {}", name), LEAST);
    }
    for name in [BENCH, CHAIN, CHAIN_MALFORMED, CHAIN_NO_ROOM].into_iter().chain(NULL) {
        tally.need(name, LEAST);
    }
    load::need(tally, LOAD);
}

/// What a report shows of a run.
fn inputs<'a>(script: &'a [u8], shelf: &'a [u8], room: &'a [u8]) -> [(&'static str, &'a [u8]); 3] {
    [("script", script), ("shelf", shelf), ("length of the answers, little-endian", room)]
}

impl Comparison {
    /// One call of hookup_run, held to the second checker.
    pub fn run_script(&mut self, script: &[u8], shelf: &[u8], room: usize) {
        let before = Outcome { number: RAN, shelf: shelf.to_vec(), answers: self.pattern(room) };
        let mut right = before.clone();
        let run = run::run(script, &mut right.shelf, &mut right.answers);
        right.number = run.number;
        let mut lent = Lent::new(&mut self.rng, shelf);
        let got = self.run_on(script, &mut lent, &before.answers);
        self.same_outcome("hookup_run", script, &before, &right, &got);
        self.agrees_with_bench(script, shelf, &run, &right.shelf);
        self.count_run(script, &before, &right, &run);
    }

    /// The same with exactly the calls' answers, or a few bytes more.
    pub fn run_calls(&mut self, calls: &[Call], shelf: &[u8]) {
        let script = Script::with(calls);
        let more = if self.rng.chance(1, 4) { self.rng.range(1, 2 * ANSWER) } else { 0 };
        self.run_script(&script.bytes, shelf, ANSWER * calls.len() + more);
    }

    /// The product's run on a shelf that is lent: what it leaves behind.
    pub fn run_on(&mut self, script: &[u8], shelf: &mut Lent, answers: &[u8]) -> Outcome {
        let lent_script = Lent::new(&mut self.rng, script);
        let mut lent_answers = Lent::new(&mut self.rng, answers);
        let found = shelf.content().to_vec();
        self.count_call("hookup_run");
        let number = product::run(&lent_script, shelf, &mut lent_answers);
        let room = (answers.len() as u32).to_le_bytes();
        if !lent_script.is_unchanged() {
            differ("hookup_run wrote to the script", &inputs(script, &found, &room), "unchanged", "changed");
        }
        if !shelf.guards_are_unchanged() || !lent_answers.guards_are_unchanged() {
            let what = "hookup_run wrote outside the shelf and the answers";
            differ(what, &inputs(script, &found, &room), "unchanged", "changed");
        }
        for (lent, name) in [&lent_script, shelf, &lent_answers].into_iter().zip(NULL) {
            if lent.is_null() {
                self.tally.count(name);
            }
        }
        Outcome { number, shelf: shelf.content().to_vec(), answers: lent_answers.content().to_vec() }
    }

    fn same_outcome(&mut self, what: &str, script: &[u8], before: &Outcome, right: &Outcome, got: &Outcome) {
        let room = (before.answers.len() as u32).to_le_bytes();
        let inputs = inputs(script, &before.shelf, &room);
        if got.number != right.number {
            differ(what, &inputs, &right.number.to_string(), &got.number.to_string());
        }
        if got.answers != right.answers {
            differ(&format!("{}, answers", what), &inputs, &hex(&right.answers), &hex(&got.answers));
        }
        if got.shelf != right.shelf {
            differ(&format!("{}, shelf", what), &inputs, &hex(&right.shelf), &hex(&got.shelf));
        }
    }

    /// The second checker's own run against its plain bench, where the first call is a clear that is done.
    fn agrees_with_bench(&mut self, script: &[u8], shelf: &[u8], run: &Run, after: &[u8]) {
        if run.made.first().is_none_or(|made| made.answer != Answer::Cleared) {
            return;
        }
        let calls: Vec<Call> = run.made[1..].iter().map(|made| made.call.clone()).collect();
        let answers: Vec<Answer> = run.made.iter().map(|made| made.answer).collect();
        let (bench, expected) = bench::run(shelf.len(), &calls);
        if answers != expected || !after.starts_with(&bench.bytes()) {
            let inputs: [(&str, &[u8]); 2] = [("script", script), ("shelf", shelf)];
            differ("the second checker's run and bench", &inputs, "bench", "run");
        }
        self.tally.count(BENCH);
    }

    fn count_run(&mut self, script: &[u8], before: &Outcome, right: &Outcome, run: &Run) {
        let mut judge = Judge::default();
        let room = before.answers.len();
        let mut names = category_run::of_run(&mut judge, script, &before.shelf, room, run);
        if run.made.len() <= MOST_CALLS_MISREAD && before.shelf.len() <= MOST_BYTES_MISREAD {
            let of_calls = that_differ(&mut judge, &readings(), script, before, right);
            let of_walks = that_differ(&mut judge, &walks(), script, before, right);
            names.extend(of_calls.into_iter().map(wrong_name));
            names.extend(of_walks.into_iter().map(wrong_walk_name));
        }
        self.count_names("run:", names);
        for made in &run.made {
            if let Call::Load(record) = &made.call {
                self.count_loaded(LOAD, record, made.answer);
            }
        }
    }

    /// Runs of these scripts one behind the other on one shelf, with refused runs between, against one run of all calls.
    pub fn run_chain(&mut self, scripts: &[Vec<u8>], shelf: &[u8]) {
        let joined = scripts.concat();
        let room = ANSWER * run::calls_of(&joined).unwrap().len();
        let before = Outcome { number: RAN, shelf: shelf.to_vec(), answers: self.pattern(room) };
        let mut lent = Lent::new(&mut self.rng, shelf);
        let mut chained = Outcome { answers: Vec::new(), ..before.clone() };
        for script in scripts {
            self.refused_between(script, &mut lent);
            let room = ANSWER * run::calls_of(script).unwrap().len();
            let answers = self.pattern(room);
            let got = self.run_on(script, &mut lent, &answers);
            chained.number = chained.number.max(got.number);
            chained.answers.extend(got.answers);
            chained.shelf = got.shelf;
        }
        let mut at_once = Lent::new(&mut self.rng, shelf);
        let got = self.run_on(&joined, &mut at_once, &before.answers);
        self.same_outcome("hookup_run, runs one behind the other", &joined, &before, &got, &chained);
        let mut right = before.clone();
        right.number = run::run(&joined, &mut right.shelf, &mut right.answers).number;
        self.same_outcome("hookup_run", &joined, &before, &right, &got);
        self.tally.count(CHAIN);
    }

    /// Now and then a run that is refused: no byte of the shelf and of the answers changes.
    fn refused_between(&mut self, script: &[u8], shelf: &mut Lent) {
        let room = ANSWER * run::calls_of(script).unwrap().len();
        let (script, room, number) = match self.rng.below(3) {
            0 => ([script, &[3]].concat(), room, run::MALFORMED),
            1 if room > 0 => (script.to_vec(), room - 1, run::NO_ROOM),
            _ => return,
        };
        let before = Outcome { number, shelf: shelf.content().to_vec(), answers: self.pattern(room) };
        let got = self.run_on(&script, shelf, &before.answers);
        self.same_outcome("hookup_run, refused between others", &script, &before, &before, &got);
        self.tally.count(if number == run::MALFORMED { CHAIN_MALFORMED } else { CHAIN_NO_ROOM });
    }
}
