//! Inputs for the categories of limited parts.

use crate::kind::{LEAST_OF_KINDS, LEAST_OF_SIDES};
use crate::{Comparison, LEAST};
use second::bench::Call;
use second::cases;
use second::closure;
use second::examples;
use second::explain::EXPLANATION;
use second::join;
use second::make::{self, Clash, Kinds, PairPlan, Script, JOINABLE_WITH_LIMITED, KINDS_WITH_LIMITED};
use second::record::{self, longest, Part};

/// The limits of two parts whose joined part has at most 64 states, with up to four more for each.
const PRODUCTS: [(usize, usize); 17] = [
    (1, 1),
    (2, 1),
    (1, 2),
    (3, 1),
    (1, 3),
    (2, 2),
    (4, 1),
    (5, 1),
    (1, 5),
    (2, 3),
    (3, 2),
    (7, 1),
    (1, 7),
    (2, 4),
    (4, 2),
    (3, 3),
    (4, 4),
];

impl Comparison {
    /// Closures of limited parts, with just enough room and with a byte less.
    pub fn closures_of_limited(&mut self) {
        for bytes in cases::limited(&mut self.rng, LEAST_OF_KINDS) {
            self.close_record(&bytes);
        }
        for _ in 0..2 * LEAST_OF_KINDS {
            let part = make::any_limited(&mut self.rng);
            let length = closure::length(&part);
            for room in [length, length - 1] {
                self.close(&record::write(&part), room);
            }
        }
    }

    /// Explanations of limited parts, of each limit.
    pub fn explanations_of_limited(&mut self) {
        for bytes in cases::limited(&mut self.rng, LEAST_OF_KINDS) {
            self.explain(&bytes, EXPLANATION);
        }
        for round in 0..10 * LEAST_OF_KINDS {
            let limit = if round % 10 == 9 { self.rng.range(9, 64) } else { round % 10 + 1 };
            let m = self.rng.range(0, 3);
            let part = make::limited_to(&mut self.rng, limit, m);
            self.explain(&record::write(&part), EXPLANATION);
        }
        for round in 0..10 * LEAST_OF_KINDS {
            if let Some(part) = make::breaking_limited_by(&mut self.rng, round as u32 % 5 + 1, 5, 4) {
                self.explain(&record::write(&part), EXPLANATION);
            }
        }
    }

    /// Joins of limited parts with parts of each kind.
    pub fn joins_of_limited(&mut self) {
        for bytes in cases::limited(&mut self.rng, LEAST_OF_SIDES) {
            let good = record::write(&make::any_of_kinds(&mut self.rng));
            self.join_pair(&bytes, &good, 100);
            self.join_pair(&good, &bytes, longest());
        }
        for kinds in KINDS_WITH_LIMITED {
            for _ in 0..3 * LEAST_OF_KINDS {
                let (a, b) = make::joinable_of_kinds(&mut self.rng, kinds);
                self.join_pair(&record::write(&a), &record::write(&b), longest());
                self.join_limited_refused(kinds);
            }
        }
        for round in 0..PRODUCTS.len() * LEAST_OF_KINDS {
            let (a, b) = self.pair_of_limits(round);
            self.join_pair(&record::write(&a), &record::write(&b), longest());
        }
        for round in 0..LEAST_OF_KINDS {
            let (a, b) = make::joinable_of_kinds(&mut self.rng, JOINABLE_WITH_LIMITED[round % 3]);
            let joined = join::joined_part(&a, &b);
            for room in [record::write(&joined).len() - 1, record::write(&joined.as_kind_1()).len()] {
                self.join_pair(&record::write(&a), &record::write(&b), room);
            }
        }
        for round in 0..LEAST_OF_KINDS {
            let (a, b) = self.longest_limited_pair(round);
            self.join_pair(&record::write(&a), &record::write(&b), longest() - round % 3);
        }
    }

    /// A plan of few events.
    fn plan_of_limited(&mut self, na: usize, nb: usize) -> PairPlan {
        let mut plan = self.plan(na, nb);
        plan.shared = 1;
        plan
    }

    /// Refusals 9, 10 and 11 of these kinds, with room and without.
    fn join_limited_refused(&mut self, kinds: Kinds) {
        let room = self.rng.pick(&[0, 100, longest()]);
        let mut of_others = self.plan_of_limited(2, 2);
        of_others.observers_differ = true;
        let mut clashing = self.plan_of_limited(2, 2);
        clashing.clash = self.rng.pick(&[Clash::Kind, Clash::Level]);
        let too_large = self.plan_of_limited(9, 8);
        for plan in [of_others, clashing, too_large] {
            let (a, b) = make::pair_of_kinds(&mut self.rng, plan, kinds);
            self.join_pair(&record::write(&a), &record::write(&b), room);
        }
    }

    /// Two parts without events for one observer, of each two limits in turn. One of limit 1 may be of kind 1.
    fn pair_of_limits(&mut self, round: usize) -> (Part, Part) {
        let (limit_a, limit_b) = PRODUCTS[round % PRODUCTS.len()];
        let mut a = make::limited_to(&mut self.rng, limit_a, 0);
        let mut b = make::limited_to(&mut self.rng, limit_b, 0);
        b.observers[0].level = a.observers[0].level;
        if limit_b == 1 && self.rng.chance(1, 2) {
            b = b.as_kind_1();
        } else if limit_a == 1 && self.rng.chance(1, 2) {
            a = a.as_kind_1();
        }
        (a, b)
    }

    /// Two parts whose joined record is the longest of kind 3.
    fn longest_limited_pair(&mut self, round: usize) -> (Part, Part) {
        let shared = self.rng.range(0, 8);
        let only_a = self.rng.range(0, 32 - shared);
        let only_b = 32 - shared - only_a;
        let plan = PairPlan { na: 8, nb: 8, only_a, only_b, shared, clash: Clash::None, observers_differ: false };
        make::pair_of_kinds(&mut self.rng, plan, JOINABLE_WITH_LIMITED[round % 3])
    }

    /// Scripts with limited parts.
    pub fn replays_of_limited(&mut self, path: &str) {
        let records = cases::limited(&mut self.rng, LEAST_OF_KINDS + LEAST_OF_KINDS / 4);
        self.replay_loads(path, &records, 80_000);
        self.replay_loads(path, &records, 6);
        self.replay_uncleared(path, &records);
        for _ in 0..LEAST {
            let capacity = self.rng.range(2000, 60_000);
            let script = make::session_on_limited(&mut self.rng, capacity, 30);
            self.replay_script(path, &script.bytes);
            let calls = make::calls_on_limited(&mut self.rng, 15);
            let total = make::capacity_needed(&calls);
            for capacity in [total, (total - 1).max(6)] {
                self.replay_calls(path, capacity, &calls);
            }
        }
        for round in 0..LEAST {
            self.replay_rooms_of_limited(path, JOINABLE_WITH_LIMITED[round % 3]);
            self.replay_racks_of_limited(path, JOINABLE_WITH_LIMITED[round % 3]);
            for kinds in KINDS_WITH_LIMITED {
                self.replay_limited_refused(path, kinds);
            }
            self.replay_limits(path);
        }
        for round in 0..LEAST / 5 {
            let (a, b) = self.longest_limited_pair(round);
            let (calls, total) = make::hookup_calls(&a, &b);
            self.replay_calls(path, total, &calls);
            let load = [Call::Load(record::write(&make::limited_of_size(&mut self.rng, 64, 32)))];
            self.replay_calls(path, make::capacity_needed(&load), &load);
        }
    }

    /// Capacities just enough, one byte short, and enough without the fine column, for a load and a hookup.
    fn replay_rooms_of_limited(&mut self, path: &str, kinds: Kinds) {
        let (a, b) = make::joinable_of_kinds(&mut self.rng, kinds);
        let (calls, total) = make::hookup_calls(&a, &b);
        let alone = total - join::joined_part(&a, &b).state_count();
        for capacity in [total, total - 1, alone] {
            self.replay_calls(path, capacity, &calls);
        }
        let load = [Call::Load(record::write(&make::any_limited(&mut self.rng)))];
        let total = make::capacity_needed(&load);
        for capacity in [total, total - 1] {
            self.replay_calls(path, capacity, &load);
        }
    }

    /// Racks of three, and a part without events that joins with itself.
    fn replay_racks_of_limited(&mut self, path: &str, kinds: Kinds) {
        let (a, b) = make::small_joinable_of_kinds(&mut self.rng, kinds);
        let first = join::joined_part(&a, &b);
        let third = make::third_limited_for(&mut self.rng, &first);
        let mut script = Script::new(80_000);
        script.clear();
        for part in [&a, &b, &third] {
            script.load(&record::write(part));
        }
        script.hookup(0, 1);
        script.hookup(3, 2);
        script.part(3);
        script.count();
        script.load(&record::write(&make::limited_of_size(&mut self.rng, 2, 0)));
        let number = 4 + u32::from(join::refusal_of_pair(&first, &third).is_none());
        script.hookup(number, number);
        script.hookup(number + 1, number + 1);
        script.hookup(number, 99);
        script.hookup(99, number);
        script.load(&examples::z());
        script.count();
        script.clear();
        self.replay_script(path, &script.bytes);
    }

    /// Pairs of these kinds that are refused with 9, 10 and 11, on a full shelf and with room, and one that joins.
    fn replay_limited_refused(&mut self, path: &str, kinds: Kinds) {
        let mut of_others = self.plan_of_limited(2, 2);
        of_others.observers_differ = true;
        let mut clashing = self.plan_of_limited(2, 2);
        clashing.clash = self.rng.pick(&[Clash::Kind, Clash::Level]);
        let plans = [of_others, clashing, self.plan_of_limited(9, 8), self.plan_of_limited(3, 2)];
        let mut calls = Vec::new();
        for plan in plans {
            let (a, b) = make::pair_of_kinds(&mut self.rng, plan, kinds);
            calls.push(Call::Load(record::write(&a)));
            calls.push(Call::Load(record::write(&b)));
        }
        let full = make::capacity_needed(&calls);
        for i in 0..plans.len() {
            calls.push(Call::Hookup(2 * i, 2 * i + 1));
        }
        for capacity in [full, 80_000] {
            self.replay_calls(path, capacity, &calls);
        }
    }

    /// Pairs of parts of each two limits, all of which join.
    fn replay_limits(&mut self, path: &str) {
        let mut calls = Vec::new();
        for i in 0..PRODUCTS.len() {
            let (a, b) = self.pair_of_limits(i);
            calls.push(Call::Load(record::write(&a)));
            calls.push(Call::Load(record::write(&b)));
            calls.push(Call::Hookup(3 * i, 3 * i + 1));
        }
        self.replay_calls(path, 80_000, &calls);
    }
}
