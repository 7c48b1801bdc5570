//! Scripts for `replay` at the limits: full and short shelves, refused hookups, scripts that end early.

use crate::{Comparison, LEAST};
use second::bench::Call;
use second::examples;
use second::join;
use second::make::{self, Clash, Script};
use second::record;
use second::replay;

impl Comparison {
    /// Capacities just enough and one byte short, for loads and hookups.
    pub fn replay_rooms(&mut self, path: &str) {
        for _ in 0..LEAST {
            let (a, b) = make::joinable_pair(&mut self.rng);
            let (calls, total) = make::hookup_calls(&a, &b);
            for capacity in [total, total - 1] {
                self.replay_calls(path, capacity, &calls);
            }
            let mut loads = Vec::new();
            for _ in 0..self.rng.range(1, 4) {
                loads.push(Call::Load(record::write(&make::any_passing(&mut self.rng))));
            }
            let total = make::capacity_needed(&loads);
            for capacity in [total, total - 1] {
                self.replay_calls(path, capacity, &loads);
            }
            let calls = make::calls(&mut self.rng, 15);
            let total = make::capacity_needed(&calls);
            for capacity in [total, (total - 1).max(6)] {
                self.replay_calls(path, capacity, &calls);
            }
        }
    }

    pub fn replay_calls(&mut self, path: &str, capacity: usize, calls: &[Call]) {
        let mut script = Script::new(capacity);
        script.clear();
        for call in calls {
            script.call(call);
        }
        script.count();
        self.replay_script(path, &script.bytes);
    }

    /// Document 01's examples of shelf length, and shelves that are shorter.
    pub fn replay_small_shelves(&mut self, path: &str) {
        for round in 0..LEAST {
            for capacity in [0, 5, 6, 16, 17] {
                let mut script = Script::new(capacity);
                if round % 2 == 1 {
                    script.load(&examples::z());
                    script.count();
                    script.hookup(0, 0);
                    script.part(0);
                }
                script.clear();
                script.load(&examples::z());
                script.count();
                script.part(0);
                script.hookup(0, 0);
                if round % 3 == 1 {
                    script.load(&make::bad_record(&mut self.rng));
                }
                script.load(&examples::z());
                script.clear();
                script.count();
                self.replay_script(path, &script.bytes);
            }
        }
    }

    /// Clashes of the identifiers 0 and 65,535 alone.
    pub fn replay_last_identifier(&mut self, path: &str) {
        for round in 0..LEAST + 50 {
            let mut plan = self.plan(2, 2);
            plan.shared = 1;
            plan.clash = if round % 2 == 0 { Clash::Kind } else { Clash::Level };
            let (mut a, mut b) = make::pair(&mut self.rng, plan);
            let clash = join::smallest_clash(&a, &b).unwrap();
            let to = if round % 5 == 0 { 0 } else { 65_535 };
            make::rename(&mut a, clash, to);
            make::rename(&mut b, clash, to);
            let calls =
                [Call::Load(record::write(&a)), Call::Load(record::write(&b)), Call::Hookup(0, 1), Call::Hookup(1, 0)];
            self.replay_calls(path, 9000, &calls);
        }
    }

    /// Hookups refused with 9, 10, 11 and 13, on shelves with room and on full ones.
    pub fn replay_refused_pairs(&mut self, path: &str) {
        for round in 0..4 * LEAST {
            let mut plan = self.plan(1, 1);
            let (na, nb) = match round % 3 {
                0 => (64, 2),
                _ => (self.rng.range(1, 5), self.rng.range(1, 5)),
            };
            plan.na = na;
            plan.nb = nb;
            match round % 6 {
                0 | 3 => plan.only_a = 0,
                1 => plan.observers_differ = true,
                2 => plan.clash = Clash::Kind,
                4 => {
                    plan.clash = Clash::Level;
                    plan.shared = 3;
                }
                _ => {
                    plan.only_a = 17;
                    plan.only_b = self.rng.range(16, 20);
                    plan.shared = 0;
                }
            }
            let (a, b) = make::pair(&mut self.rng, plan);
            let record_a = record::write(&a);
            let record_b = record::write(&b);
            let full = record_a.len() + record_b.len() + 6;
            let capacity = if round % 2 == 0 { full } else { full + 9000 };
            // Both capacities for each kind of refusal.
            for capacity in [capacity, full] {
                let mut script = Script::new(capacity);
                script.clear();
                script.load(&record_a);
                script.load(&record_b);
                script.hookup(0, 1);
                script.hookup(1, 0);
                script.hookup(2, 0);
                script.hookup(0, 2);
                script.hookup(7, 8);
                script.hookup(u32::MAX, u32::MAX);
                script.count();
                self.replay_script(path, &script.bytes);
            }
        }
    }

    /// Scripts that end early or are out of range.
    pub fn replay_odd_scripts(&mut self, path: &str) {
        for round in 0..LEAST {
            let capacity = self.rng.range(0, 300);
            let mut script = make::session(&mut self.rng, capacity, 3);
            let whole = script.bytes.clone();
            for operation in [vec![1, 5, 0], vec![1, 5, 0, 0, 0, 1, 2], vec![2, 0, 0, 0, 0, 0, 0], vec![4, 0, 0, 0]] {
                let mut cut = whole.clone();
                cut.extend_from_slice(&operation);
                if self.rng.chance(1, 2) {
                    // Cut off somewhere behind the operation byte.
                    let behind = self.rng.below(operation.len());
                    let length = whole.len() + 1 + behind.min(operation.len() - 1);
                    cut.truncate(length);
                }
                self.replay_script(path, &cut);
            }
            let mut far = whole.clone();
            far.push(1);
            far.extend_from_slice(&u32::MAX.to_le_bytes());
            self.replay_script(path, &far);
            script.bytes.push(self.rng.range(5, 255) as u8);
            script.clear();
            self.replay_script(path, &script.bytes);
            let short = self.rng.bytes(round % 4);
            self.replay_script(path, &short);
            let alone = Script::new(self.rng.below(300));
            self.replay_script(path, &alone.bytes);
            let random_count = self.rng.below(60);
            let mut random = Script::new(self.rng.below(100)).bytes;
            random.extend_from_slice(&self.rng.bytes(random_count));
            self.replay_script(path, &random);

            let above = if round % 2 == 0 { 262_145 } else { self.rng.range(262_145, u32::MAX as usize) };
            let mut script = Script::new(above);
            script.clear();
            self.replay_script(path, &script.bytes);
            let mut script = Script::new(262_144);
            script.clear();
            script.load(&examples::z());
            self.replay_script(path, &script.bytes);
            // The longest script, and one byte more.
            let mut script = Script::new(40);
            script.clear();
            script.load(&examples::z());
            let filler = replay::LIMIT - script.bytes.len() - 5;
            let record = self.rng.bytes(filler);
            script.load(&record);
            assert_eq!(script.bytes.len(), replay::LIMIT);
            self.replay_script(path, &script.bytes);
            script.bytes.push(3);
            self.replay_script(path, &script.bytes);
        }
        // Under four bytes: every length, until the category is full.
        for round in 0..2 * LEAST {
            let short = self.rng.bytes(round % 4);
            self.replay_script(path, &short);
        }
    }
}
