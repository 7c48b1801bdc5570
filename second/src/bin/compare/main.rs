//! Compares the product with the second checker: the C entries, and the programs `verdict` and `replay`.
//!
//! `compare [--verdict PATH] [--replay PATH] [--seed N]`
//!
//! The same seed tries the same inputs. Each category of inputs is counted by the second checker's own answers. The run
//! stops at the first difference, and it fails where a category came up too rarely.

mod check;
mod closure;
mod explain;
mod internal;
mod inventory;
mod join;
mod kind;
mod label;
mod limited;
mod list;
mod load;
mod product;
mod replay;
mod replay_limits;
mod replay_run;
mod report;
mod run;
mod run_inputs;
mod verdict;

use second::category::Tally;
use second::examples;
use second::record;
use second::rng::Rng;
use std::collections::BTreeMap;
use std::process::exit;
use std::time::Instant;

/// The least number of cases of a category, and of the two that matter most.
const LEAST: usize = 200;
const LEAST_OF_MAIN: usize = 1000;

/// How many inputs are tried in a loop that waits for categories to fill.
const MOST_TRIES: usize = 30_000;

struct Comparison {
    rng: Rng,
    tally: Tally,
    calls: BTreeMap<&'static str, usize>,
}

impl Comparison {
    /// Makes all calls of one comparison and tells how many were compared.
    fn compare(&mut self, name: &str, seed: u64, number: u64, all_calls: impl Fn(&mut Comparison)) {
        let started = Instant::now();
        self.rng = rng_for(seed, number);
        all_calls(self);
        println!("{} compared, {} calls, {} s", name, self.calls[name], started.elapsed().as_secs());
    }

    fn count_call(&mut self, name: &'static str) {
        *self.calls.entry(name).or_default() += 1;
    }

    /// What an output buffer of that length holds before a call.
    fn pattern(&mut self, room: usize) -> Vec<u8> {
        let seed = self.rng.byte() as usize;
        let mut pattern = Vec::new();
        for i in 0..room {
            pattern.push((seed + 31 * i) as u8);
        }
        pattern
    }
}

/// Document 01's examples of records, starred or not, and those for requests i, k and l.
fn all_examples() -> Vec<Vec<u8>> {
    vec![
        examples::p(),
        examples::p_with_classes_0_1(),
        examples::p_event_1_stepless_in_1(),
        examples::p_event_2_stepless_in_1(),
        examples::p_with_event_2_internal(),
        examples::p_mute_with_event_2_internal(),
        examples::t_high_output(),
        examples::t_low_internal(),
        examples::t_low_input(),
        examples::q(),
        examples::z(),
        record::write(&examples::parity_with_stop_as_output()),
        record::write(&examples::parity_with_stop_as_input()),
        examples::p_for_two(),
        examples::q_for_two(),
        examples::z_for_two(),
        examples::z_for(&[0x00, 0x40, 0x41, 0xFF]),
        record::write(&examples::t_for_two([0, 0, 0], [0, 0, 1])),
        record::write(&examples::t_for_two([0, 0, 1], [0, 0, 1])),
        record::write(&examples::lower_rule_at_the_second()),
        examples::guard(),
        examples::guard_with(&[(13, 0)]),
        examples::z_limited(),
        examples::t_limited([0, 1, 2]),
        examples::t_limited([0, 0, 1]),
        examples::t_limited([0, 1, 0]),
    ]
}

struct Arguments {
    verdict: Option<String>,
    replay: Option<String>,
    seed: u64,
}

fn arguments() -> Arguments {
    let mut found = Arguments { verdict: None, replay: None, seed: 1 };
    let mut left = std::env::args().skip(1);
    while let Some(flag) = left.next() {
        match (flag.as_str(), left.next()) {
            ("--verdict", Some(path)) => found.verdict = Some(path),
            ("--replay", Some(path)) => found.replay = Some(path),
            ("--seed", Some(seed)) if seed.parse::<u64>().is_ok() => found.seed = seed.parse().unwrap(),
            _ => {
                eprintln!("usage: compare [--verdict PATH] [--replay PATH] [--seed N]");
                exit(2);
            }
        }
    }
    found
}

/// Each of the comparisons has its own numbers, so that leaving one out does not change the others.
fn rng_for(seed: u64, comparison: u64) -> Rng {
    Rng::new(Rng::new(seed).next().wrapping_add(comparison))
}

fn main() {
    let arguments = arguments();
    println!("compare: seed {}", arguments.seed);
    let mut run = Comparison { rng: Rng::new(0), tally: Tally::new(), calls: BTreeMap::new() };
    check::need(&mut run.tally);
    join::need(&mut run.tally);
    closure::need(&mut run.tally);
    explain::need(&mut run.tally);
    run::need(&mut run.tally);
    inventory::need(&mut run.tally);
    run.compare("hookup_check", arguments.seed, 1, |run| run.all_checks());
    run.compare("hookup_join", arguments.seed, 2, |run| run.all_joins());
    run.compare("hookup_closure", arguments.seed, 5, |run| run.all_closures());
    run.compare("hookup_explain", arguments.seed, 6, |run| run.all_explanations());
    run.compare("hookup_run", arguments.seed, 7, |run| run.all_runs());
    run.compare("hookup_count", arguments.seed, 8, |run| run.all_counts());
    run.compare("hookup_part", arguments.seed, 9, |run| run.all_parts());
    match arguments.verdict {
        Some(path) => {
            verdict::need(&mut run.tally);
            run.compare("verdict", arguments.seed, 3, |run| run.all_verdicts(&path));
        }
        None => println!("verdict not compared: no --verdict"),
    }
    match arguments.replay {
        Some(path) => {
            replay::need(&mut run.tally);
            run.compare("replay", arguments.seed, 4, |run| run.all_replays(&path));
        }
        None => println!("replay not compared: no --replay"),
    }
    run.tally.print();
    let too_few = run.tally.too_few();
    if !too_few.is_empty() {
        for name in too_few {
            println!("too few: {}", name);
        }
        exit(1);
    }
    println!("compare: no difference, {} categories", run.tally.categories());
}
