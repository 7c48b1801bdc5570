//! Compares the program `replay`: its whole output, a process for each script. Loads and sessions.

use crate::load;
use crate::product::run_program;
use crate::replay_run;
use crate::report::{differ, shown};
use crate::{all_examples, Comparison, LEAST, LEAST_OF_MAIN};
use second::bench::Call;
use second::cases;
use second::category::Tally;
use second::category_kind_replay;
use second::category_replay;
use second::examples;
use second::join;
use second::make::{self, Script};
use second::record;
use second::replay::{self, hex, Effect};
use second::script::Operation;

/// Begins the name of each category of levels and of internal events.
const LOAD: &str = "replay: load,";

pub fn need(tally: &mut Tally) {
    for name in category_replay::names() {
        let least = if category_replay::is_main(&name) { LEAST_OF_MAIN } else { LEAST };
        tally.need(&format!("replay: {}", name), category_kind_replay::least_of(&name, least));
    }
    load::need(tally, LOAD);
    replay_run::need(tally);
}

impl Comparison {
    pub fn replay_script(&mut self, path: &str, script: &[u8]) {
        let expected = replay::replay(script);
        self.count_call("replay");
        match run_program(path, script) {
            Err(error) => differ("replay", &[("script", script)], &shown(&expected.output), &error),
            Ok(output) => {
                if output != expected.output {
                    let lines: Vec<&[u8]> = expected.output.split(|&byte| byte == b'\n').collect();
                    let got: Vec<&[u8]> = output.split(|&byte| byte == b'\n').collect();
                    let mut line = 0;
                    while line < lines.len() && line < got.len() && lines[line] == got[line] {
                        line += 1;
                    }
                    let what = format!("replay, output line {}", line + 1);
                    differ(&what, &[("script", script)], &shown(&expected.output), &shown(&output));
                }
            }
        }
        self.agree_with_bench(script, &expected);
        for name in category_replay::of_replay(script, &expected) {
            self.tally.count_if_known(&format!("replay: {}", name));
        }
        for done in &expected.done {
            if let (Operation::Call(Call::Load(record)), Effect::Answer(answer)) = (&done.operation, &done.effect) {
                self.count_loaded(LOAD, record, *answer);
            }
        }
    }

    /// The second checker's own shelf against its plain bench, on every script.
    fn agree_with_bench(&mut self, script: &[u8], run: &replay::Replay) {
        let operations: Vec<Operation> = run.done.iter().map(|done| done.operation.clone()).collect();
        if let Some((first_clear, effects, front)) = replay::by_bench(run.capacity, &operations) {
            let on_shelf: Vec<Effect> = run.done[first_clear..].iter().map(|done| done.effect.clone()).collect();
            if effects != on_shelf {
                differ("the second checker's shelf and bench", &[("script", script)], "bench", "shelf");
            }
            let shelf_line = format!("\nshelf {}", hex(&front));
            if !String::from_utf8_lossy(&run.output).contains(&shelf_line) {
                differ("the second checker's shelf and bench at the end", &[("script", script)], "bench", "shelf");
            }
            self.tally.count("replay: list of calls as on the plain bench");
        }
    }

    /// Loads of these records, many in a script.
    pub fn replay_loads(&mut self, path: &str, records: &[Vec<u8>], capacity: usize) {
        let mut from = 0;
        while from < records.len() {
            let mut script = Script::new(capacity);
            if !self.rng.chance(1, 12) {
                script.clear();
            }
            let mut filled = 6;
            while from < records.len() && script.bytes.len() + records[from].len() < 250_000 {
                if filled + records[from].len() > capacity && capacity > 1000 {
                    script.clear();
                    filled = 6;
                }
                script.load(&records[from]);
                filled += records[from].len();
                if self.rng.chance(1, 10) {
                    script.count();
                    script.part(self.rng.below(4) as u32);
                }
                from += 1;
                if filled > 60_000 {
                    break;
                }
            }
            self.replay_script(path, &script.bytes);
        }
    }

    /// Loads of these records on a shelf that was never cleared.
    pub fn replay_uncleared(&mut self, path: &str, records: &[Vec<u8>]) {
        for some in records.chunks(50) {
            let mut script = Script::new(self.rng.below(100));
            for bytes in some.iter().filter(|bytes| bytes.len() < 1000) {
                script.load(bytes);
            }
            self.replay_script(path, &script.bytes);
        }
    }

    pub fn all_replays(&mut self, path: &str) {
        let refused = cases::refused(&mut self.rng, LEAST);
        let mislabelled = cases::mislabelled(&mut self.rng, LEAST + LEAST / 4);
        let internal = cases::internal(&mut self.rng, LEAST);
        let breaking = cases::breaking(&mut self.rng, LEAST);
        let passing = cases::passing(&mut self.rng, LEAST);
        let quiet = cases::quiet(&mut self.rng, LEAST_OF_MAIN);
        for capacity in [20_000, 6] {
            self.replay_loads(path, &all_examples(), capacity);
            self.replay_loads(path, &refused, capacity);
            self.replay_loads(path, &mislabelled, capacity);
            self.replay_loads(path, &internal, capacity);
            self.replay_loads(path, &breaking, capacity);
        }
        self.replay_uncleared(path, &mislabelled);
        self.replay_loads(path, &passing, 80_000);
        self.replay_loads(path, &quiet, 30_000);
        // Loads are refused with 12 before the first clear; a few categories lost cases to that.
        let refused = cases::refused(&mut self.rng, LEAST / 4);
        let breaking = cases::breaking(&mut self.rng, LEAST / 4);
        let passing = cases::passing(&mut self.rng, LEAST / 4);
        let quiet = cases::quiet(&mut self.rng, LEAST_OF_MAIN / 4);
        self.replay_loads(path, &refused, 3000);
        self.replay_loads(path, &breaking, 3000);
        self.replay_loads(path, &passing, 80_000);
        self.replay_loads(path, &quiet, 30_000);

        self.replay_sessions(path);
        self.replay_rooms(path);
        self.replay_small_shelves(path);
        self.replay_refused_pairs(path);
        self.replay_last_identifier(path);
        self.replay_odd_scripts(path);
        self.replays_of_lists(path);
        self.replays_of_limited(path);
        self.replays_and_runs(path);
    }

    fn replay_sessions(&mut self, path: &str) {
        for round in 0..400 {
            let capacity = match round % 4 {
                0 => self.rng.range(6, 3000),
                1 => 262_144,
                _ => self.rng.range(2000, 60_000),
            };
            let operations = self.rng.range(10, 40);
            let script = make::session(&mut self.rng, capacity, operations);
            self.replay_script(path, &script.bytes);
        }
        // Pairs and racks that join for certain, several to a script.
        for _ in 0..LEAST_OF_MAIN / 2 {
            let mut script = Script::new(60_000);
            script.clear();
            let mut number = 0;
            for _ in 0..3 {
                let (a, b) = make::small_joinable_pair(&mut self.rng);
                let first = record::read(&join::joined_record(&a, &b)).unwrap();
                let third = make::third_for(&mut self.rng, &first);
                script.load(&record::write(&a));
                script.load(&record::write(&b));
                script.hookup(number, number + 1);
                script.load(&record::write(&third));
                script.hookup(number + 2, number + 3);
                script.part(number + 2);
                script.hookup(number + 2, number + 4);
                number += 5;
            }
            // Parts without events join with themselves and with each other.
            let n = self.rng.range(1, 3);
            script.load(&examples::without_events(n));
            script.part(2);
            script.count();
            self.replay_script(path, &script.bytes);
        }
        for _ in 0..LEAST {
            let mut script = Script::new(3000);
            script.clear();
            let n = self.rng.range(1, 3);
            script.load(&examples::without_events(n));
            script.hookup(0, 0);
            script.hookup(1, 0);
            script.hookup(1, 1);
            script.part(2);
            script.part(3);
            self.replay_script(path, &script.bytes);
        }
    }
}
