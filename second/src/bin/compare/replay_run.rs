//! The same calls through `replay` and through hookup_run: the lines and the shelf are held to the answers and the shelf.

use crate::product::{run_program, Lent};
use crate::report::{differ, shown};
use crate::{Comparison, LEAST};
use second::bench::Call;
use second::category::Tally;
use second::make::{self, Script};
use second::replay::{hex, FILL};
use second::run::ANSWER;

const SAME: &str = "replay: the same calls through hookup_run";

pub fn need(tally: &mut Tally) {
    tally.need(SAME, LEAST / 2);
}

/// The line of `replay` for an answer of hookup_run.
fn line_of(call: &Call, answer: &[u8]) -> String {
    let numbers: Vec<u64> = answer.chunks(8).map(|bytes| u64::from_le_bytes(bytes.try_into().unwrap())).collect();
    match numbers[..] {
        [0, 0, ..] if *call == Call::Clear => "0".to_string(),
        [0, number, ..] => format!("part {}", number),
        [1, number, ..] => format!("refused {}", number),
        [2, identifier, ..] => format!("refused 10 identifier {}", identifier),
        [3, rule, event, s, t, u, ..] => format!("rule {} event {} from {} to {} other {}", rule, event, s, t, u),
        _ => format!("{:?}", numbers),
    }
}

impl Comparison {
    /// Lists of calls on shelves that are just long enough for them or a byte too short.
    pub fn replays_and_runs(&mut self, path: &str) {
        for round in 0..LEAST / 2 {
            let some = match round % 3 {
                0 => make::calls(&mut self.rng, 12),
                1 => make::calls_on_lists(&mut self.rng, 12),
                _ => make::calls_on_limited(&mut self.rng, 12),
            };
            let capacity = make::capacity_needed(&some) - self.rng.below(2);
            // A call before the first clear finds no end record.
            let first = if self.rng.chance(1, 4) { vec![some[0].clone(), Call::Clear] } else { vec![Call::Clear] };
            self.replay_and_run(path, capacity, &[&first[..], &some].concat());
        }
    }

    fn replay_and_run(&mut self, path: &str, capacity: usize, calls: &[Call]) {
        let mut script = Script::new(capacity);
        for call in calls {
            script.call(call);
        }
        let mut shelf = Lent::new(&mut self.rng, &vec![FILL; capacity]);
        let answers = self.pattern(ANSWER * calls.len());
        let ran = self.run_on(&Script::with(calls).bytes, &mut shelf, &answers);
        let mut lines: Vec<String> =
            calls.iter().zip(ran.answers.chunks(ANSWER)).map(|(call, answer)| line_of(call, answer)).collect();
        lines.push(format!("shelf {}\n", hex(&ran.shelf)));
        let expected = lines.join("\n");
        self.count_call("replay");
        let output = run_program(path, &script.bytes).unwrap_or_else(|error| error.into_bytes());
        if output != expected.as_bytes() || ran.number != 0 {
            let what = "replay and hookup_run, of which the first stands for the second checker";
            differ(what, &[("script", &script.bytes)], &shown(&output), &expected);
        }
        self.tally.count(SAME);
    }
}
