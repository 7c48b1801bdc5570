//! Inputs for the categories of kinds and of lists of observers.

use crate::kind::{LEAST_OF_KINDS, LEAST_OF_SIDES};
use crate::{Comparison, LEAST, MOST_TRIES};
use second::bench::Call;
use second::cases;
use second::category_list_calls::own_count_name;
use second::closure::{self, PIECE};
use second::examples;
use second::explain::EXPLANATION;
use second::join;
use second::make::{self, Clash, PairPlan, Script, OTHER_LISTS};
use second::record::{self, longest, Part, MOST_LISTED};

impl Comparison {
    /// A part for several observers: passing, meant to break, or one of which each sees more than those before.
    fn list_for_debugger(&mut self, round: usize) -> Part {
        let count = make::any_count(&mut self.rng);
        let n = self.rng.range(3, 8);
        match round % 3 {
            0 => make::any_list(&mut self.rng),
            1 => make::breaking_list(&mut self.rng),
            _ => make::seeing_more(&mut self.rng, n, count),
        }
    }

    /// Closures of several observers, in rooms of each length.
    pub fn closures_of_lists(&mut self) {
        for bytes in cases::lists(&mut self.rng, LEAST_OF_KINDS) {
            self.close_record(&bytes);
        }
        for round in 0..15 * LEAST_OF_KINDS {
            let part = self.list_for_debugger(round);
            let block = PIECE * part.state_count();
            let length = closure::length(&part);
            let room = [block, length - block, length - 1, length, length + 1][round / 3 % 5];
            self.close(&record::write(&part), room);
        }
        for _ in 0..8 * LEAST_OF_KINDS {
            let count = make::any_count(&mut self.rng);
            let n = self.rng.range(3, 8);
            let part = make::seeing_more(&mut self.rng, n, count);
            self.close(&record::write(&part), closure::length(&part));
        }
        for _ in 0..LEAST_OF_KINDS {
            let m = self.rng.range(1, 4);
            let part = make::staying_list(&mut self.rng, 64, m, MOST_LISTED);
            self.close(&record::write(&part), closure::length(&part));
        }
    }

    /// Explanations of several observers.
    pub fn explanations_of_lists(&mut self) {
        for bytes in cases::lists(&mut self.rng, LEAST_OF_KINDS) {
            self.explain(&bytes, EXPLANATION);
        }
        for round in 0..20 * LEAST_OF_KINDS {
            let part = self.list_for_debugger(round);
            self.explain(&record::write(&part), EXPLANATION);
        }
        // Until the observers that a break tells have counts of their own.
        for round in 0..MOST_TRIES {
            let lacks = |i: &usize| self.tally.lacks(&format!("explain: {}", own_count_name(*i)));
            let Some(i) = (1..=MOST_LISTED).find(lacks) else {
                break;
            };
            let part = if i == 1 {
                let n = self.rng.range(3, 8);
                Some(make::seeing_more(&mut self.rng, n, MOST_LISTED))
            } else {
                make::breaking_list_at(&mut self.rng, 4 + round as u32 % 2, i - 1, MOST_LISTED)
            };
            if let Some(part) = part {
                self.explain(&record::write(&part), EXPLANATION);
            }
        }
    }

    fn plan_of_lists(&mut self, na: usize, nb: usize) -> PairPlan {
        let mut plan = self.plan(na, nb);
        plan.shared = self.rng.range(0, 3);
        plan
    }

    /// Joins of several observers with as many, with fewer and with others.
    pub fn joins_of_lists(&mut self) {
        for bytes in cases::lists(&mut self.rng, LEAST_OF_SIDES) {
            let good = record::write(&make::any_of_kinds(&mut self.rng));
            self.join_pair(&bytes, &good, 100);
            self.join_pair(&good, &bytes, longest());
        }
        for _ in 0..6 * LEAST_OF_KINDS {
            let (a, b) = make::joinable_lists(&mut self.rng);
            self.join_parts(&a, &b);
            let other = self.rng.pick(&OTHER_LISTS);
            let fewer = make::with_other_list(&mut self.rng, &b, other);
            self.join_parts(&a, &fewer);
            self.join_parts(&fewer, &a);
        }
        for round in 0..2 * LEAST_OF_KINDS {
            let mut plan = self.plan_of_lists(2, 2);
            plan.shared = 1;
            plan.clash = if round % 2 == 0 { Clash::Kind } else { Clash::Level };
            self.join_planned(plan);
            let plan = self.plan_of_lists(9, 8);
            self.join_planned(plan);
        }
        self.joins_of_short_buffers();
        for round in 0..LEAST_OF_KINDS {
            let (a, b) = self.longest_pair();
            self.join_pair(&record::write(&a), &record::write(&b), longest() + round % 3);
        }
        self.joins_refused_without_room();
    }

    /// Two parts whose joined record is the longest there is.
    fn longest_pair(&mut self) -> (Part, Part) {
        let shared = self.rng.range(0, 8);
        let only_a = self.rng.range(0, 32 - shared);
        let only_b = 32 - shared - only_a;
        let plan = PairPlan { na: 8, nb: 8, only_a, only_b, shared, clash: Clash::None, observers_differ: false };
        make::pair_of_lists(&mut self.rng, plan, MOST_LISTED)
    }

    /// Refusals 9, 10 and 11 of several observers, two of them at a time and without room.
    fn joins_refused_without_room(&mut self) {
        for round in 0..4 * LEAST_OF_KINDS {
            let (na, nb, clash) = [(9, 8, Clash::None), (9, 8, Clash::Kind), (2, 2, Clash::Level)][round % 3];
            let mut plan = self.plan_of_lists(na, nb);
            plan.shared = plan.shared.max(1);
            plan.clash = clash;
            let count = make::any_count(&mut self.rng);
            let (a, b) = make::pair_of_lists(&mut self.rng, plan, count);
            let other = self.rng.pick(&OTHER_LISTS);
            let of_others = make::with_other_list(&mut self.rng, &b, other);
            for b in [&b, &of_others] {
                self.join_pair(&record::write(&a), &record::write(b), 0);
            }
        }
    }

    fn join_planned(&mut self, plan: PairPlan) {
        let count = make::any_count(&mut self.rng);
        let (a, b) = make::pair_of_lists(&mut self.rng, plan, count);
        self.join_parts(&a, &b);
    }

    /// Joins with buffers that are a byte short, and that would do for the first observer alone.
    fn joins_of_short_buffers(&mut self) {
        for _ in 0..LEAST_OF_KINDS {
            let (a, b) = make::joinable_lists(&mut self.rng);
            let joined = join::joined_part(&a, &b);
            let length = record::write(&joined).len();
            let alone = record::write(&joined.as_kind_1()).len();
            for room in [length - 1, alone] {
                self.join_pair(&record::write(&a), &record::write(&b), room);
            }
        }
    }

    /// Scripts with parts for several observers.
    pub fn replays_of_lists(&mut self, path: &str) {
        let records = cases::lists(&mut self.rng, LEAST_OF_KINDS + LEAST_OF_KINDS / 4);
        self.replay_loads(path, &records, 80_000);
        self.replay_loads(path, &records, 6);
        self.replay_uncleared(path, &records);
        for _ in 0..LEAST {
            let capacity = self.rng.range(2000, 60_000);
            let script = make::session_on_lists(&mut self.rng, capacity, 30);
            self.replay_script(path, &script.bytes);
            let calls = make::calls_on_lists(&mut self.rng, 15);
            let total = make::capacity_needed(&calls);
            for capacity in [total, (total - 1).max(6)] {
                self.replay_calls(path, capacity, &calls);
            }
            self.replay_rooms_of_lists(path);
        }
        for round in 0..2 * LEAST {
            self.replay_racks_of_lists(path);
            self.replay_pairs_of_lists(path, round);
        }
        for _ in 0..LEAST / 5 {
            let (a, b) = self.longest_pair();
            let (calls, total) = make::hookup_calls(&a, &b);
            self.replay_calls(path, total, &calls);
            let load = [Call::Load(record::write(&make::staying_list(&mut self.rng, 64, 32, MOST_LISTED)))];
            self.replay_calls(path, make::capacity_needed(&load), &load);
        }
    }

    /// Capacities just enough, one byte short, and enough for the first observer alone, for a load and a hookup.
    fn replay_rooms_of_lists(&mut self, path: &str) {
        let (a, b) = make::joinable_lists(&mut self.rng);
        let (calls, total) = make::hookup_calls(&a, &b);
        let joined = join::joined_part(&a, &b);
        let alone = total - record::write(&joined).len() + record::write(&joined.as_kind_1()).len();
        for capacity in [total, total - 1, alone] {
            self.replay_calls(path, capacity, &calls);
        }
        let load = [Call::Load(record::write(&a))];
        let total = make::capacity_needed(&load);
        for capacity in [total, total - 1] {
            self.replay_calls(path, capacity, &load);
        }
    }

    /// Racks of three that join for certain.
    fn replay_racks_of_lists(&mut self, path: &str) {
        let (a, b) = make::joinable_lists(&mut self.rng);
        let first = join::joined_part(&a, &b);
        let third = make::third_list_for(&mut self.rng, &first);
        let mut script = Script::new(80_000);
        script.clear();
        for part in [&a, &b, &third] {
            script.load(&record::write(part));
        }
        script.hookup(0, 1);
        script.hookup(3, 2);
        script.part(3);
        script.count();
        // A part without events joins with itself, and so does what comes of it.
        let count = make::any_count(&mut self.rng);
        script.load(&record::write(&make::list_of_size(&mut self.rng, 2, 0, count)));
        let number = 4 + u32::from(join::refusal_of_pair(&first, &third).is_none());
        script.hookup(number, number);
        script.hookup(number + 1, number + 1);
        script.hookup(number, 99);
        script.hookup(99, number);
        script.load(&examples::z());
        script.count();
        script.clear();
        self.replay_script(path, &script.bytes);
    }

    /// Pairs that are refused with 9, 10 and 11, and some that join, on a full shelf and with room.
    fn replay_pairs_of_lists(&mut self, path: &str, round: usize) {
        let mut plan = if round % 4 < 2 { self.plan_of_lists(9, 8) } else { self.plan_of_lists(3, 2) };
        if round % 2 == 1 {
            plan.shared = 1;
            plan.clash = Clash::Level;
        }
        let count = make::any_count(&mut self.rng);
        let (a, b) = make::pair_of_lists(&mut self.rng, plan, count);
        let mut calls = vec![Call::Load(record::write(&a)), Call::Load(record::write(&b))];
        for other in OTHER_LISTS {
            let other = make::with_other_list(&mut self.rng, &b, other);
            calls.push(Call::Load(record::write(&other)));
        }
        let full = make::capacity_needed(&calls);
        for i in 1..2 + OTHER_LISTS.len() {
            calls.push(Call::Hookup(0, i));
            calls.push(Call::Hookup(i, 0));
        }
        for capacity in [full, 80_000] {
            self.replay_calls(path, capacity, &calls);
        }
    }
}
