//! Inputs of hookup_run: shelves of any bytes, and scripts on them.

use crate::kind::LEAST_OF_KINDS;
use crate::{Comparison, LEAST};
use second::bench::Call;
use second::cases;
use second::check;
use second::examples;
use second::join;
use second::make::{self, Clash, Failure, Kinds, PairPlan, Script, NO_ENDS};
use second::record::{self, Part, FORMS, ORDER};
use second::run::ANSWER;

/// How often an input of each sort comes: somewhat more often than a category must.
const ROUNDS: usize = LEAST + LEAST / 4;

/// How many calls a script has where many calls are to be made on one shelf.
const CALLS: usize = 6;

/// The kinds of two parts that join.
const JOINABLE: [Kinds; 5] = [(1, 1), (2, 2), (3, 3), (1, 3), (3, 1)];

impl Comparison {
    pub fn all_runs(&mut self) {
        self.runs_on_failing_records();
        self.runs_of_pairs();
        self.runs_of_equal_numbers();
        self.runs_of_loads();
        self.runs_of_cases();
        self.runs_without_end();
        self.runs_on_short_shelves();
        self.runs_of_malformed_scripts();
        self.runs_by_room();
        self.runs_on_large_shelves();
        self.runs_on_any_bytes();
        self.runs_from_a_clear();
        self.chains();
    }

    /// Many calls on one shelf, a few in each script.
    fn run_each(&mut self, mut calls: Vec<Call>, shelf: &[u8]) {
        self.rng.shuffle(&mut calls);
        for some in calls.chunks(CALLS) {
            self.run_calls(some, shelf);
        }
    }

    /// Bytes behind the end record: a few, or enough for most records.
    fn some_behind(&mut self) -> Vec<u8> {
        let count = if self.rng.chance(1, 2) { self.rng.below(11) } else { 600 };
        self.rng.bytes(count)
    }

    /// A record of each kind for each failure, beside one that passes: each of them as i, as j, as both, and with a number
    /// that is out of range.
    fn runs_on_failing_records(&mut self) {
        for round in 0..ROUNDS {
            let kind = FORMS[round % FORMS.len()].kind;
            for form in FORMS {
                let mut records = vec![make::undescribed(&mut self.rng), make::foreign(&mut self.rng, 0)];
                for failure in make::failures_of(form.kind) {
                    records.push(make::failing(&mut self.rng, form.kind, failure));
                }
                let good = self.rng.below(records.len() + 1);
                records.insert(good, record::write(&make::passing_of_kind(&mut self.rng, kind, 2, 2)));
                let calls = self.hookups_with(records.len(), good);
                let shelf = make::shelf_of(&records, &self.some_behind());
                self.run_each(calls, &shelf);
            }
        }
    }

    /// Hookups of each record with this one, and some more.
    fn hookups_with(&mut self, count: usize, good: usize) -> Vec<Call> {
        let mut calls = Vec::new();
        for k in (0..count).filter(|&k| k != good) {
            calls.push(Call::Hookup(k, good));
            calls.push(Call::Hookup(good, k));
            let any = make::any_number(&mut self.rng, count) as usize;
            calls.push(if self.rng.chance(1, 2) { Call::Hookup(k, any) } else { Call::Hookup(any, k) });
        }
        calls
    }

    /// Pairs that join and pairs that are refused with 9, 10 and 11, beside records that fail, on shelves of each length;
    /// and the same with one part broken.
    fn runs_of_pairs(&mut self) {
        for round in 0..3 * ROUNDS {
            for (turn, kinds) in JOINABLE.into_iter().enumerate() {
                let plan = self.plan_for(round + turn);
                let (a, b) = self.pair_for(plan, kinds);
                self.run_pair(&a, &b);
                let broken = self.broken(&a);
                self.run_pair(&broken, &b);
            }
        }
    }

    /// Two parts that join, or that are refused with 9, 10, 11 by states or 11 by entries.
    fn plan_for(&mut self, round: usize) -> PairPlan {
        let (na, nb) = (self.rng.range(1, 3), self.rng.range(1, 3));
        let mut plan = self.plan(na, nb);
        match round % 5 {
            0 => {}
            1 => plan.observers_differ = true,
            2 => {
                plan.clash = self.rng.pick(&[Clash::Kind, Clash::Level]);
                plan.shared = 1;
            }
            3 => (plan.na, plan.nb, plan.only_a, plan.only_b, plan.shared) = (9, 8, 1, 0, 1),
            _ => (plan.na, plan.nb, plan.only_a, plan.only_b, plan.shared) = (1, 1, 17, 16, 0),
        }
        plan
    }

    /// A pair by this plan. An identifier that clashes is often 0 or 65,535.
    fn pair_for(&mut self, plan: PairPlan, kinds: Kinds) -> (Part, Part) {
        let (mut a, mut b) = match kinds {
            (2, 2) => make::pair_of_lists(&mut self.rng, plan, 2),
            _ => make::pair_of_kinds(&mut self.rng, plan, kinds),
        };
        if let (Some(clash), false) = (join::smallest_clash(&a, &b), self.rng.chance(1, 8)) {
            let to = self.rng.pick(&[0, 65_535]);
            make::rename(&mut a, clash, to);
            make::rename(&mut b, clash, to);
        }
        (a, b)
    }

    /// A part like this one that breaks a rule, where one is found.
    fn broken(&mut self, part: &Part) -> Part {
        let mut broken = part.clone();
        for _ in 0..20 {
            broken = make::changed_steps(&mut self.rng, part);
            if !check::passes(&broken) {
                break;
            }
        }
        broken
    }

    /// Hookups of two parts, with other records around them: on a full shelf, with a byte too few, with just enough room,
    /// and with more.
    fn run_pair(&mut self, a: &Part, b: &Part) {
        let count = self.rng.below(3);
        let mut records = make::any_records(&mut self.rng, count);
        let at = self.rng.below(count + 1);
        records.insert(at, record::write(a));
        let behind = self.rng.range(at + 1, count + 1);
        records.insert(behind, record::write(b));
        let needed = match join::refusal_of_pair(a, b) {
            None => join::joined_record(a, b).len(),
            Some(_) => 40,
        };
        let calls = [Call::Hookup(at, behind), Call::Hookup(behind, at)];
        for room in [self.rng.below(11), needed - 1, needed, needed + self.rng.range(1, 600)] {
            let shelf = make::shelf_of(&records, &self.rng.bytes(room));
            let some = if self.rng.chance(1, 2) { &calls[..] } else { &calls[..1] };
            self.run_calls(some, &shelf);
        }
    }

    /// Parts without events join with themselves.
    fn runs_of_equal_numbers(&mut self) {
        for round in 0..2 * ROUNDS {
            let n = self.rng.range(1, 4);
            let part = make::passing_of_kind(&mut self.rng, FORMS[round % FORMS.len()].kind, n, 0);
            let records: Vec<Vec<u8>> = vec![record::write(&part); 1 + round % 2];
            let last = records.len() - 1;
            let shelf = make::shelf_of(&records, &self.rng.bytes(300));
            self.run_calls(&[Call::Hookup(last, last)], &shelf);
            let all = [Call::Hookup(last, last), Call::Hookup(last + 1, 0), Call::Hookup(last + 1, last + 1)];
            self.run_calls(&all, &shelf);
        }
    }

    /// Loads of each refusal and each break, and of passing records, beside any records; and with just enough room.
    fn runs_of_loads(&mut self) {
        for _ in 0..ROUNDS {
            let mut calls = Vec::new();
            for number in ORDER {
                let kind = if number == 20 { 2 } else { 3 };
                calls.push(Call::Load(make::failing(&mut self.rng, kind, Failure::Refused(number))));
            }
            for form in FORMS {
                for rule in 1..=5 {
                    calls.push(Call::Load(make::failing(&mut self.rng, form.kind, Failure::Breaks(rule))));
                }
                calls.push(Call::Load(record::write(&make::passing_of_kind(&mut self.rng, form.kind, 2, 2))));
            }
            let count = self.rng.below(4);
            let shelf = make::shelf_of(&make::any_records(&mut self.rng, count), &self.some_behind());
            self.run_each(calls, &shelf);
            self.run_loads_by_room(count);
        }
    }

    /// Loads on a shelf with so many records, with a byte too few and with just enough room.
    fn run_loads_by_room(&mut self, count: usize) {
        let records = make::any_records(&mut self.rng, count);
        let bytes = record::write(&make::any_of_kinds(&mut self.rng));
        for room in [bytes.len() - 1, bytes.len(), bytes.len() + 1] {
            let shelf = make::shelf_of(&records, &self.rng.bytes(room));
            self.run_calls(&[Call::Load(bytes.clone())], &shelf);
        }
    }

    /// Loads of the records that hold the categories of levels, of internal events and of kinds.
    fn runs_of_cases(&mut self) {
        let mut records = cases::mislabelled(&mut self.rng, LEAST);
        records.extend(cases::internal(&mut self.rng, LEAST));
        records.extend(cases::lists(&mut self.rng, LEAST_OF_KINDS));
        records.extend(cases::limited(&mut self.rng, LEAST_OF_KINDS));
        let calls: Vec<Call> = records.into_iter().map(Call::Load).collect();
        let shelf = make::shelf_of(&[examples::z()], &vec![0; 5000]);
        self.run_each(calls, &shelf);
    }

    /// Shelves without an end record: loads and hookups, then a clear, behind which all goes on.
    fn runs_without_end(&mut self) {
        for round in 0..5 * ROUNDS {
            for no_end in NO_ENDS {
                let count = self.rng.range(1, 3);
                let records = make::any_records(&mut self.rng, count);
                let shelf = make::without_end(&mut self.rng, &records, no_end);
                let bad = make::bad_record(&mut self.rng);
                let (i, j) = (self.rng.below(count), make::any_number(&mut self.rng, count) as usize);
                let mut calls = vec![Call::Load(examples::z()), Call::Hookup(i, j), Call::Load(bad), Call::Clear];
                self.rng.shuffle(&mut calls);
                calls.truncate(1 + round % 4);
                calls.push(Call::Load(examples::z()));
                self.run_calls(&calls, &shelf);
            }
        }
    }

    /// Shelves that are too short, just long enough or a byte too short for an end record or for Z.
    fn runs_on_short_shelves(&mut self) {
        for _ in 0..ROUNDS {
            for length in [0, 5, 6, 7, 16, 17, 18] {
                let shelf = self.rng.bytes(length);
                self.run_calls(&[Call::Clear], &shelf);
                let z = Call::Load(examples::z());
                self.run_calls(&[Call::Clear, z.clone(), Call::Hookup(0, 0), Call::Clear, z, Call::Clear], &shelf);
            }
        }
    }

    /// Each operation that makes a script malformed, alone, behind calls and before them, with room for answers and without.
    fn runs_of_malformed_scripts(&mut self) {
        for _ in 0..ROUNDS {
            for (turn, operation) in make::malformed(&mut self.rng).into_iter().enumerate() {
                let count = self.rng.range(1, 3);
                let calls = make::any_calls(&mut self.rng, 2, count);
                let good = Script::with(&calls).bytes;
                let shelf = self.any_shelf(2);
                let is_whole = turn < 3;
                let tail: &[u8] = if is_whole && self.rng.chance(1, 2) { &[0] } else { &[] };
                let room = self.rng.below(2 * ANSWER);
                self.run_script(&[&operation, tail].concat(), &shelf, room);
                for room in [ANSWER * (count + 2), self.rng.below(ANSWER * count)] {
                    self.run_script(&[&good, &operation, tail].concat(), &shelf, room);
                }
            }
        }
    }

    /// A shelf of any records, so many at most, or of any bytes.
    fn any_shelf(&mut self, most: usize) -> Vec<u8> {
        if self.rng.chance(1, 4) {
            return make::any_bytes(&mut self.rng);
        }
        let count = self.rng.range(0, most);
        let records = make::any_records(&mut self.rng, count);
        let behind = make::behind_the_end(&mut self.rng);
        make::shelf_of(&records, &behind)
    }

    /// Buffers of each length for the answers, and scripts without calls.
    fn runs_by_room(&mut self) {
        for round in 0..ROUNDS {
            let count = 2 + round % 3;
            let script = Script::with(&make::any_calls(&mut self.rng, 2, count)).bytes;
            let shelf = self.any_shelf(2);
            let needed = ANSWER * count;
            let between = self.rng.range(1, needed - ANSWER - 1);
            for room in [0, between, needed - ANSWER, needed - 1, needed, needed + 1, needed + 100] {
                self.run_script(&script, &shelf, room);
            }
            for _ in 0..3 {
                let shelf = self.any_shelf(1);
                let room = self.rng.below(2 * ANSWER);
                self.run_script(&[], &shelf, 0);
                self.run_script(&[], &shelf, room);
                self.run_script(&[], &[], room);
                self.run_script(&script, &[], needed);
            }
        }
    }

    /// Shelves of many records and of many bytes.
    fn runs_on_large_shelves(&mut self) {
        for _ in 0..ROUNDS {
            let count = self.rng.range(100, 130);
            let mut records = vec![examples::z(); count];
            let other = self.rng.below(count);
            records[other] = make::any_on_shelf(&mut self.rng);
            let shelf = make::shelf_of(&records, &self.rng.bytes(100));
            let (i, j) = (self.rng.below(count), self.rng.below(count));
            let load = Call::Load(examples::z());
            self.run_calls(&[load.clone(), Call::Hookup(i, j), Call::Hookup(count, other)], &shelf);
            let shelf = make::shelf_of(&[examples::z(), make::long(&mut self.rng)], &self.rng.bytes(40));
            self.run_calls(&[load, Call::Hookup(2, 0), Call::Hookup(0, 1)], &shelf);
        }
    }

    /// Any bytes as a shelf, and any bytes as a script.
    fn runs_on_any_bytes(&mut self) {
        for _ in 0..3 * ROUNDS {
            let shelf = make::any_bytes(&mut self.rng);
            let count = self.rng.range(1, 5);
            let calls = make::any_calls(&mut self.rng, 2, count);
            self.run_calls(&calls, &shelf);
            let shelf = self.any_shelf(3);
            let calls = make::any_calls(&mut self.rng, 3, count);
            self.run_calls(&calls, &shelf);
            let length = self.rng.below(30);
            let script: Vec<u8> = (0..length).map(|_| self.rng.pick(&[0, 0, 0, 0, 1, 2, 3, 255])).collect();
            self.run_script(&script, &shelf, 10 * ANSWER);
        }
    }

    /// Lists of calls from a clear on, as the plain bench has them.
    fn runs_from_a_clear(&mut self) {
        for round in 0..2 * ROUNDS {
            let some = match round % 3 {
                0 => make::calls(&mut self.rng, 7),
                1 => make::calls_on_lists(&mut self.rng, 7),
                _ => make::calls_on_limited(&mut self.rng, 7),
            };
            let calls = [&[Call::Clear], &some[..]].concat();
            let needed = make::capacity_needed(&some);
            let length = self.rng.pick(&[needed, needed - 1, needed + 50, 900]).max(6);
            let shelf = self.rng.bytes(length);
            self.run_calls(&calls, &shelf);
        }
    }

    /// Several scripts one behind the other, on any shelf.
    fn chains(&mut self) {
        for _ in 0..2 * ROUNDS {
            let shelf = self.any_shelf(4);
            let mut scripts = Vec::new();
            for _ in 0..self.rng.range(2, 4) {
                let count = self.rng.range(0, 3);
                let calls = make::any_calls(&mut self.rng, 4, count);
                scripts.push(Script::with(&calls).bytes);
            }
            self.run_chain(&scripts, &shelf);
        }
    }
}
