//! Tries the promise about high inputs by brute force: on small passing parts, on joined ones and on racks of three,
//! where no counterexample may come up, and on parts that break a rule, where some must. It is asked for each observer of
//! a part of kind 1 or 2. Limited parts pass and are not covered: some of them must have a counterexample too.
//!
//! `promise [--seed N]`

use second::category::Tally;
use second::category_join::shared_low_events;
use second::check;
use second::examples;
use second::join;
use second::make::{self, Wanted};
use second::record::{self, Part, View, MOST_LISTED};
use second::rng::Rng;
use second::traces::{self, Bounds, Counterexample};
use second::wrong;
use second::wrong_internal::{as_outputs, reading};
use second::wrong_list;
use std::process::exit;

/// The search without a bound on lengths gives up beyond this many pairs of sets.
const MOST_PAIRS: usize = 30_000;

/// The bounded search takes the widest bounds that ask about this many questions.
const MOST_CHOICES: f64 = 20_000.0;

const BOUNDS: [Bounds; 6] = [
    Bounds { trace_length: 5, list_length: 2 },
    Bounds { trace_length: 4, list_length: 2 },
    Bounds { trace_length: 5, list_length: 1 },
    Bounds { trace_length: 4, list_length: 1 },
    Bounds { trace_length: 3, list_length: 1 },
    Bounds { trace_length: 2, list_length: 1 },
];

fn high_inputs(view: View) -> Vec<usize> {
    (0..view.event_count()).filter(|&e| view.is_input(e) && view.is_high(e)).collect()
}

fn low_event_count(view: View) -> usize {
    (0..view.event_count()).filter(|&e| traces::is_low_event(view, e)).count()
}

/// Has the trace an internal event of a low level?
fn has_low_internal(view: View, trace: &[usize]) -> bool {
    trace.iter().any(|&e| view.is_internal(e) && view.is_low(e))
}

/// About how many choices of lists the bounded search would try.
fn estimate(view: View, bounds: Bounds) -> f64 {
    let lists = traces::lists_up_to(&high_inputs(view), bounds.list_length).len();
    let mut sum = 0.0;
    let mut words = 1.0;
    let mut choices = lists as f64;
    for _ in 0..=bounds.trace_length {
        sum += words * choices;
        words *= low_event_count(view) as f64;
        choices *= lists as f64;
    }
    sum
}

fn bounds_for(view: View) -> Bounds {
    for bounds in BOUNDS {
        if estimate(view, bounds) <= MOST_CHOICES {
            return bounds;
        }
    }
    BOUNDS[BOUNDS.len() - 1]
}

/// The kinds of passing parts that are tried.
const PREFIXES: [&str; 3] = ["part", "joined", "rack of three"];

/// Those with several observers, for each of whom the promise is asked.
const PREFIXES_OF_LISTS: [&str; 3] =
    ["part of several observers", "joined of several observers", "rack of three of several observers"];

const MATCHING: &str = "matching traces checked step by step";
const SHARED_LOW: &str = "joined: a shared low event in a matching trace";
const WITH_OTHER_LIST: &str = "joined with a part of another list, both passing: counterexample found";
const WITH_BROKEN: &str = "joined with a part that breaks a rule, the other passing: counterexample found";
const LIMITED: &str = "limited part, passing: counterexample found";
const LIMITED_JOINED: &str = "joined of a limited part and another, passing: counterexample found";

/// Whether a part passes by some reading for its one observer.
type Passes = fn(View) -> bool;

/// The readings by which parts pass that do not keep the promise.
const WRONG_READINGS: [(&str, Passes); 5] = [
    ("high inputs quiet", wrong::passes_with_high_inputs_quiet),
    ("incomparable is low", wrong::passes_with_incomparable_low),
    ("rank alone", wrong::passes_by_rank_alone),
    ("low internal events under no rule", |view| reading("all quiet, low ones under no rule").passes(&view)),
    ("internal events under no rule", |view| reading("all quiet, none under a rule").passes(&view)),
];

/// The readings of lists by which parts pass that do not keep the promise for each observer.
const WRONG_READINGS_OF_LISTS: [&str; 4] = [
    "the first observer alone",
    "the last observer alone",
    "one observer is enough",
    "the first level with each column",
];

/// The categories of passing parts with this prefix, each with its least number. The last one is document 01's reading,
/// by which a trace has low internal events too: parts that pass need not keep the promise about them.
fn kinds(prefix: &str) -> [(String, usize); 5] {
    let name = |kind: &str| format!("{}: {}", prefix, kind);
    let least = if prefix == "part" || prefix == "joined" { 1000 } else { 200 };
    let least_misread = if prefix == "part" { 200 } else { 20 };
    [
        (name("all"), least),
        (name("high inputs, and low events within three steps"), least),
        (name("the same, and quiet steps matter"), 200),
        (name("the same, and low internal events within three steps"), 200),
        (name("counterexample found if low internal events are low events of a trace"), least_misread),
    ]
}

fn observer_name(prefix: &str, i: usize) -> String {
    format!("{}: observer {}", prefix, i)
}

/// The names for a rule: parts that break it, and those of them with a counterexample.
fn rule_names(rule: u32) -> (String, String) {
    (format!("breaks rule {}: tried", rule), format!("breaks rule {}: counterexample found", rule))
}

fn misread_name(reading: &str) -> String {
    format!("passes if {}: counterexample found", reading)
}

fn misread_list_name(reading: &str) -> String {
    format!("several observers, passes if {}: counterexample found", reading)
}

/// Every category with its least number.
fn needs() -> Tally {
    let mut tally = Tally::new();
    for (name, least) in PREFIXES.iter().chain(&PREFIXES_OF_LISTS).flat_map(|prefix| kinds(prefix)) {
        tally.need(&name, least);
    }
    for prefix in PREFIXES_OF_LISTS {
        for i in 1..=MOST_LISTED {
            tally.need(&observer_name(prefix, i), 200);
        }
    }
    tally.need("joined: a shared high event", 200);
    tally.need("joined: a shared low event", 200);
    tally.need(SHARED_LOW, 50);
    tally.need(MATCHING, 1000);
    for whose in ["both", "the given one alone", "the matching one alone"] {
        tally.need(&format!("{}: a low internal event in {}", MATCHING, whose), 50);
    }
    for rule in 1..=5 {
        let (tried, found) = rule_names(rule);
        tally.need(&tried, 500);
        tally.need(&found, 20);
    }
    for (reading, _) in WRONG_READINGS {
        tally.need(&misread_name(reading), 20);
    }
    for reading in WRONG_READINGS_OF_LISTS {
        tally.need(&misread_list_name(reading), 20);
    }
    tally.need(WITH_BROKEN, 20);
    tally.need(WITH_OTHER_LIST, 20);
    tally.need(LIMITED, 50);
    tally.need(LIMITED_JOINED, 20);
    tally
}

struct Run {
    rng: Rng,
    tally: Tally,
    choices: u64,
    decided: usize,
    undecided: usize,
}

fn report(view: View, found: &Counterexample) -> ! {
    println!("counterexample to the promise on a part that passes");
    println!("record {}, observer {}", second::replay::hex(&record::write(&view)), view.level());
    println!("trace (event numbers) {:?}", found.trace);
    println!("lists (event numbers) {:?}", found.lists);
    exit(1);
}

impl Run {
    /// A passing part: both searches must come back without a counterexample, and a matching trace is checked
    /// step by step for as many choices as are to be tried. These matching traces are given back.
    fn must_keep(&mut self, view: View, tries: usize) -> Vec<Vec<usize>> {
        assert!(check::break_for(view).is_none() && traces::is_covered(&view));
        let outcome = traces::search(view, bounds_for(view));
        self.choices += outcome.choices;
        if let Some(found) = outcome.counterexample {
            report(view, &found);
        }
        match traces::decide(view, MOST_PAIRS) {
            Some(Err(found)) => report(view, &found),
            Some(Ok(_)) => self.decided += 1,
            None => self.undecided += 1,
        }
        let all = traces::traces_up_to(&view, 3);
        let mut found = Vec::new();
        for _ in 0..tries {
            let trace = &all[self.rng.below(all.len())];
            found.push(self.must_match(view, trace));
        }
        found
    }

    /// A matching trace for a given one and some choice of lists.
    fn must_match(&mut self, view: View, given: &[usize]) -> Vec<usize> {
        let low = traces::low_events(view, given);
        let lists: Vec<Vec<usize>> = (0..low.len() + 1).map(|_| self.some_high_inputs(view)).collect();
        match traces::matching_trace(view, &low, &lists) {
            Some(matching) => {
                assert!(traces::is_matching_trace(view, &matching, &low, &lists));
                assert!(traces::matching_trace_exists(view, &low, &lists));
                self.count_matching(view, given, &matching);
                matching
            }
            None => report(view, &Counterexample { trace: given.to_vec(), lists }),
        }
    }

    /// Up to four high inputs.
    fn some_high_inputs(&mut self, view: View) -> Vec<usize> {
        let high_inputs = high_inputs(view);
        if high_inputs.is_empty() {
            return Vec::new();
        }
        (0..self.rng.below(5)).map(|_| self.rng.pick(&high_inputs)).collect()
    }

    /// Counts a given trace and a matching one.
    fn count_matching(&mut self, view: View, given: &[usize], matching: &[usize]) {
        self.tally.count(MATCHING);
        let whose = match (has_low_internal(view, given), has_low_internal(view, matching)) {
            (true, true) => "both",
            (true, false) => "the given one alone",
            (false, true) => "the matching one alone",
            (false, false) => return,
        };
        self.tally.count(&format!("{}: a low internal event in {}", MATCHING, whose));
    }

    /// Counts a passing part under the prefix by what makes it worth trying.
    fn count_kind(&mut self, prefix: &str, view: View) {
        let [all, low_events, quiet_steps, low_internal, misread] = kinds(prefix).map(|(name, _)| name);
        let traces = traces::traces_up_to(&view, 3);
        self.tally.count(&all);
        if !high_inputs(view).is_empty() && traces.iter().any(|trace| !traces::low_events(view, trace).is_empty()) {
            self.tally.count(&low_events);
            if !wrong::passes_without_quiet_steps(view) {
                self.tally.count(&quiet_steps);
            }
            if traces.iter().any(|trace| has_low_internal(view, trace)) {
                self.tally.count(&low_internal);
            }
        }
        let changed = as_outputs(&view);
        if self.tally.lacks(&misread) && breaks_promise(View { part: &changed, observer: view.observer }) {
            self.tally.count(&misread);
        }
    }

    fn lacks_kinds(&self, prefix: &str) -> bool {
        kinds(prefix).iter().any(|(name, _)| self.tally.lacks(name))
    }

    fn passing_parts(&mut self) {
        for _ in 0..20_000 {
            if !self.lacks_kinds("part") {
                break;
            }
            let mut part = make::small_passing(&mut self.rng);
            if self.rng.chance(1, 2) {
                part = make::with_quiet_events_internal(&mut self.rng, &part);
            }
            self.must_keep(part.view(0), 40);
            self.count_kind("part", part.view(0));
        }
    }

    /// Joined parts, and racks of three.
    fn joined_parts(&mut self) {
        for _ in 0..40_000 {
            if !self.lacks_kinds("joined") && !self.lacks_kinds("rack of three") {
                break;
            }
            let (a, b) = make::small_joinable_pair(&mut self.rng);
            let first = joined(&a, &b).unwrap();
            let matching = self.must_keep(first.view(0), 10);
            self.count_kind("joined", first.view(0));
            self.count_shared(&a, &b, first.view(0), &matching);
            let third = make::third_for(&mut self.rng, &first);
            if first.state_count() * third.state_count() <= 12 {
                if let Some(rack) = joined(&first, &third) {
                    self.must_keep(rack.view(0), 5);
                    self.count_kind("rack of three", rack.view(0));
                }
            }
        }
    }

    /// Parts for several observers, alone and joined: the promise is kept for each of them.
    fn parts_of_lists(&mut self) {
        let [alone, of_two, of_three] = PREFIXES_OF_LISTS;
        for _ in 0..20_000 {
            if !PREFIXES_OF_LISTS.into_iter().any(|prefix| self.lacks_lists(prefix)) {
                break;
            }
            if self.lacks_lists(alone) {
                let part = make::small_list(&mut self.rng);
                self.must_keep_for_each(alone, &part);
            }
            if self.lacks_lists(of_two) || self.lacks_lists(of_three) {
                let (a, b) = make::small_joinable_lists(&mut self.rng);
                let first = joined(&a, &b).unwrap();
                self.must_keep_for_each(of_two, &first);
                let third = make::third_list_for(&mut self.rng, &first);
                if let Some(rack) = joined(&first, &third) {
                    self.must_keep_for_each(of_three, &rack);
                }
            }
        }
    }

    fn lacks_lists(&self, prefix: &str) -> bool {
        self.lacks_kinds(prefix) || (1..=MOST_LISTED).any(|i| self.tally.lacks(&observer_name(prefix, i)))
    }

    /// Larger parts would take too long.
    fn must_keep_for_each(&mut self, prefix: &str, part: &Part) {
        if part.state_count() > 6 {
            return;
        }
        for (i, view) in part.views().into_iter().enumerate() {
            self.must_keep(view, 5);
            self.count_kind(prefix, view);
            self.tally.count(&observer_name(prefix, i + 1));
        }
    }

    /// Parts for several observers that a wrong reading would pass: why they must pass for each of them.
    fn misread_lists(&mut self) {
        for _ in 0..20_000 {
            if !WRONG_READINGS_OF_LISTS.iter().any(|reading| self.tally.lacks(&misread_list_name(reading))) {
                break;
            }
            let part = make::small_list(&mut self.rng);
            let changed = make::changed_steps(&mut self.rng, &part);
            self.misread_list(&changed);
        }
    }

    fn misread_list(&mut self, part: &Part) {
        if check::passes(part) {
            return;
        }
        for reading in WRONG_READINGS_OF_LISTS {
            let name = misread_list_name(reading);
            let passes = wrong_list::reading(reading).passes(part);
            if self.tally.lacks(&name) && passes && part.views().into_iter().any(breaks_promise) {
                self.tally.count(&name);
            }
        }
    }

    /// Z for another list, joined as if the lists were equal: why 9 must come.
    fn joined_with_other_lists(&mut self) {
        for _ in 0..20_000 {
            if !self.tally.lacks(WITH_OTHER_LIST) {
                break;
            }
            let part = make::small_list(&mut self.rng);
            let mut levels = part.levels();
            levels[self.rng.below(part.observers.len())] = make::any_level(&mut self.rng);
            levels.sort();
            let z = record::read(&examples::z_for(&levels));
            if z.is_ok_and(|z| join::joined_part(&z, &part).views().into_iter().any(breaks_promise)) {
                self.tally.count(WITH_OTHER_LIST);
            }
        }
    }

    /// Limited parts that pass, alone and joined: why the promise is not made for them. Those with a counterexample break
    /// a rule without their fine column.
    fn limited_parts(&mut self) {
        for _ in 0..20_000 {
            if !self.tally.lacks(LIMITED) && !self.tally.lacks(LIMITED_JOINED) {
                break;
            }
            let part = make::small_limited(&mut self.rng);
            if breaks_uncovered(&part) {
                self.tally.count(LIMITED);
                assert!(!check::passes(&part.as_kind_1()));
            }
            let other = make::third_limited_for(&mut self.rng, &part);
            if self.tally.lacks(LIMITED_JOINED) && joined(&part, &other).is_some_and(|part| breaks_uncovered(&part)) {
                self.tally.count(LIMITED_JOINED);
            }
        }
        assert!(breaks_uncovered(&record::read(&examples::guard()).unwrap()));
    }

    /// Counts a joined part by its shared events.
    fn count_shared(&mut self, a: &Part, b: &Part, joined: View, matching: &[Vec<usize>]) {
        if shares(a, b, true) {
            self.tally.count("joined: a shared high event");
        }
        if shares(a, b, false) {
            self.tally.count("joined: a shared low event");
        }
        let shared_low = shared_low_events(a, b, joined);
        for trace in matching {
            if trace.iter().any(|e| shared_low.contains(e)) {
                self.tally.count(SHARED_LOW);
            }
        }
    }

    fn broken_parts(&mut self) {
        for round in 0..40_000 {
            let lacks = |rule: u32| self.tally.lacks(&rule_names(rule).0) || self.tally.lacks(&rule_names(rule).1);
            if !(1..=5).any(lacks) {
                break;
            }
            if let Some(part) = broken(&mut self.rng, round) {
                self.broken_part(&part);
            }
        }
    }

    fn broken_part(&mut self, part: &Part) {
        if let Some(broken) = check::first_break(part) {
            let (tried, found) = rule_names(broken.rule);
            if self.tally.lacks(&tried) || self.tally.lacks(&found) {
                self.tally.count(&tried);
                if breaks_promise(part.view(0)) {
                    self.tally.count(&found);
                }
            }
        }
    }

    /// Parts that a wrong reading would pass.
    fn misread_parts(&mut self) {
        for round in 0..200_000 {
            if !WRONG_READINGS.iter().any(|(reading, _)| self.tally.lacks(&misread_name(reading))) {
                break;
            }
            if let Some(part) = misread(&mut self.rng, round) {
                self.misread_part(&part);
            }
        }
    }

    fn misread_part(&mut self, part: &Part) {
        if check::passes(part) {
            return;
        }
        for (reading, passes) in WRONG_READINGS {
            let name = misread_name(reading);
            if self.tally.lacks(&name) && passes(part.view(0)) && breaks_promise(part.view(0)) {
                self.tally.count(&name);
            }
        }
    }

    /// Joined with a part that breaks a rule: why a break must stop the join.
    fn joined_with_broken_parts(&mut self) {
        for _ in 0..20_000 {
            if !self.tally.lacks(WITH_BROKEN) {
                break;
            }
            let (a, b) = make::small_joinable_pair(&mut self.rng);
            let b = make::changed_steps(&mut self.rng, &b);
            if !check::passes(&b) && breaks_promise(joined(&a, &b).unwrap().view(0)) {
                self.tally.count(WITH_BROKEN);
            }
        }
        let parity = joined(&examples::parity_with_stop_as_output(), &examples::parity_with_stop_as_input()).unwrap();
        assert!(breaks_promise(parity.view(0)));
    }
}

/// Is there a counterexample? What is found is checked.
fn breaks_promise(view: View) -> bool {
    let bounded = traces::search(view, bounds_for(view)).counterexample;
    let decided = traces::decide(view, MOST_PAIRS);
    if let Some(found) = &bounded {
        assert!(traces::is_counterexample(view, found));
        assert!(!matches!(decided, Some(Ok(_))));
    }
    if let Some(Err(found)) = &decided {
        assert!(traces::is_counterexample(view, found));
        return true;
    }
    bounded.is_some()
}

/// Is there a counterexample for a limited part that passes?
fn breaks_uncovered(part: &Part) -> bool {
    assert!(check::passes(part) && !traces::is_covered(part));
    breaks_promise(part.view(0))
}

fn joined(a: &Part, b: &Part) -> Option<Part> {
    if join::refusal_of_pair(a, b).is_some() {
        return None;
    }
    Some(record::read(&join::joined_record(a, b)).unwrap())
}

fn shares(a: &Part, b: &Part, high: bool) -> bool {
    join::merged_entries(a, b)
        .iter()
        .any(|entry| entry.from_b.is_some() && matches!(entry.from_a, Some(e) if a.view(0).is_high(e) == high))
}

/// A small part that is meant to break a rule.
fn broken(rng: &mut Rng, round: usize) -> Option<Part> {
    if round % 2 == 0 {
        let part = make::small_passing(rng);
        return Some(make::changed_steps(rng, &part));
    }
    let rule = rng.range(1, 5) as u32;
    let wanted = Wanted::anywhere(rng, rule);
    let n = rng.range(3, 5);
    let m = rng.range(3, 5);
    make::breaking(rng, wanted, n, m)
}

/// A small part that a wrong reading might pass.
fn misread(rng: &mut Rng, round: usize) -> Option<Part> {
    match round % 3 {
        0 => Some(make::small_random_table(rng)),
        1 => broken(rng, 0),
        _ => {
            let wanted = Wanted::anywhere(rng, 4);
            let part = make::breaking(rng, wanted, 4, 4)?;
            Some(make::with_quiet_events_internal(rng, &part))
        }
    }
}

fn seed_from_arguments() -> u64 {
    let arguments: Vec<String> = std::env::args().skip(1).collect();
    match arguments.as_slice() {
        [] => 1,
        [flag, seed] if flag == "--seed" && seed.parse::<u64>().is_ok() => seed.parse().unwrap(),
        _ => {
            eprintln!("usage: promise [--seed N]");
            exit(2);
        }
    }
}

fn main() {
    let seed = seed_from_arguments();
    println!("promise: seed {}", seed);
    let mut run = Run { rng: Rng::new(seed), tally: needs(), choices: 0, decided: 0, undecided: 0 };
    run.passing_parts();
    run.joined_parts();
    run.broken_parts();
    run.misread_parts();
    run.joined_with_broken_parts();
    run.parts_of_lists();
    run.misread_lists();
    run.joined_with_other_lists();
    run.limited_parts();

    run.tally.print();
    println!("choices of lists tried on passing parts: {}", run.choices);
    println!("passing parts decided for all lengths: {}; too many sets of states: {}", run.decided, run.undecided);
    let too_few = run.tally.too_few();
    if !too_few.is_empty() {
        for name in too_few {
            println!("too few: {}", name);
        }
        exit(1);
    }
    println!("promise: kept by every passing part tried");
}
