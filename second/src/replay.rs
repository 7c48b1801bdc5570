//! What the program `replay` prints for a script.
//! The replay format (capacity, lines), over the operations of script.rs and the shelf calls of shelf.rs.

use crate::answer::Answer;
use crate::bench::{Bench, Call};
use crate::check::break_line;
use crate::record::u32_at;
use crate::script::{next_operation, Next, Operation};
use crate::shelf;

/// The longest script and the largest capacity.
pub const LIMIT: usize = 262_144;

/// The byte that fills the shelf at first.
pub const FILL: u8 = 0xAA;

pub fn hex(bytes: &[u8]) -> String {
    let digits: Vec<char> = "0123456789abcdef".chars().collect();
    let mut text = String::new();
    for &byte in bytes {
        text.push(digits[byte as usize / 16]);
        text.push(digits[byte as usize % 16]);
    }
    text
}

/// The line of clear, load or hookup.
pub fn answer_line(answer: Answer) -> String {
    match answer {
        Answer::Cleared => "0".to_string(),
        Answer::Part(number) => format!("part {}", number),
        Answer::Refused(number) => format!("refused {}", number),
        Answer::Clash(identifier) => format!("refused 10 identifier {}", identifier),
        Answer::Breaks(found) => break_line(found),
    }
}

pub fn count_line(count: Option<usize>) -> String {
    match count {
        Some(count) => format!("count {}", count),
        None => "refused 12".to_string(),
    }
}

pub fn part_line(bytes: &[u8]) -> String {
    if bytes.is_empty() {
        "part bytes 0".to_string()
    } else {
        format!("part bytes {} {}", bytes.len(), hex(bytes))
    }
}

/// What an operation did.
#[derive(Clone, PartialEq, Eq, Debug)]
pub enum Effect {
    Answer(Answer),
    Count(Option<usize>),
    Part(Vec<u8>),
}

/// One operation of a script with what it did and where the shelf's end record stood before.
#[derive(Clone, PartialEq, Eq, Debug)]
pub struct Done {
    pub operation: Operation,
    pub effect: Effect,
    pub end_before: Option<usize>,
}

/// How the reading of a script ended.
#[derive(Clone, Copy, PartialEq, Eq, Debug)]
pub enum Ending {
    ScriptTooLong,
    CapacityTooLarge,
    NoCapacity,
    End,
    Truncated,
    Unknown,
}

/// The whole output, and what was done, for counting.
pub struct Replay {
    pub output: Vec<u8>,
    pub capacity: usize,
    pub done: Vec<Done>,
    pub ending: Ending,
}

fn stopped(line: &str, ending: Ending) -> Replay {
    Replay { output: format!("{}\n", line).into_bytes(), capacity: 0, done: Vec::new(), ending }
}

fn line_of(effect: &Effect) -> String {
    match effect {
        Effect::Answer(answer) => answer_line(*answer),
        Effect::Count(count) => count_line(*count),
        Effect::Part(bytes) => part_line(bytes),
    }
}

/// One operation on the shelf.
fn perform(shelf: &mut [u8], operation: &Operation) -> Effect {
    match operation {
        Operation::Call(call) => Effect::Answer(shelf::call(shelf, call)),
        Operation::Count => Effect::Count(shelf::count(shelf)),
        Operation::Part(i) => Effect::Part(shelf::part(shelf, *i as usize).to_vec()),
    }
}

/// Replays a script on a fresh shelf.
pub fn replay(script: &[u8]) -> Replay {
    if script.len() > LIMIT {
        return stopped("script", Ending::ScriptTooLong);
    }
    if script.len() < 4 {
        return stopped("truncated", Ending::NoCapacity);
    }
    let capacity = u32_at(script, 0) as usize;
    if capacity > LIMIT {
        return stopped("capacity", Ending::CapacityTooLarge);
    }
    let mut shelf = vec![FILL; capacity];
    let mut text = String::new();
    let mut done = Vec::new();
    let mut at = 4;
    let ending;
    loop {
        match next_operation(script, at) {
            Next::Operation(operation, behind) => {
                let end_before = shelf::walk(&shelf).map(|walk| walk.end);
                let effect = perform(&mut shelf, &operation);
                text.push_str(&line_of(&effect));
                text.push('\n');
                done.push(Done { operation, effect, end_before });
                at = behind;
            }
            Next::End => {
                ending = Ending::End;
                break;
            }
            Next::Truncated => {
                text.push_str("truncated\n");
                ending = Ending::Truncated;
                break;
            }
            Next::Unknown => {
                text.push_str("unknown\n");
                ending = Ending::Unknown;
                break;
            }
        }
    }
    text.push_str("shelf ");
    text.push_str(&hex(&shelf));
    text.push('\n');
    Replay { output: text.into_bytes(), capacity, done, ending }
}

/// The same operations on the plain bench, from the first clear on: the effects, and the bytes that the shelf
/// must begin with. None where no clear comes or the shelf is under six bytes.
pub fn by_bench(capacity: usize, operations: &[Operation]) -> Option<(usize, Vec<Effect>, Vec<u8>)> {
    if capacity < 6 {
        return None;
    }
    let mut first_clear = None;
    for i in 0..operations.len() {
        if operations[i] == Operation::Call(Call::Clear) && first_clear.is_none() {
            first_clear = Some(i);
        }
    }
    let first_clear = first_clear?;
    let mut bench = Bench::new(capacity);
    let mut effects = Vec::new();
    for operation in &operations[first_clear..] {
        effects.push(match operation {
            Operation::Call(call) => Effect::Answer(bench.call(call)),
            Operation::Count => Effect::Count(Some(bench.records.len())),
            Operation::Part(i) => {
                if (*i as usize) < bench.records.len() {
                    Effect::Part(bench.records[*i as usize].clone())
                } else {
                    Effect::Part(Vec::new())
                }
            }
        });
    }
    Some((first_clear, effects, bench.bytes()))
}

#[cfg(test)]
mod tests {
    use super::*;
    use crate::examples;
    use crate::make::Script;
    use crate::record;

    fn text(script: &[u8]) -> String {
        String::from_utf8(replay(script).output).unwrap()
    }

    #[test]
    fn examples_of_shelf_length() {
        let mut script = Script::new(17);
        script.clear();
        script.load(&examples::z());
        assert_eq!(text(&script.bytes), "0\npart 0\nshelf 0500000001000001000000000000000000\n");
        let mut script = Script::new(16);
        script.clear();
        script.load(&examples::z());
        assert_eq!(text(&script.bytes), "0\nrefused 15\nshelf 000000000000aaaaaaaaaaaaaaaaaaaa\n");
    }

    #[test]
    fn every_kind_of_line() {
        let mut script = Script::new(200);
        script.count();
        script.part(0);
        script.load(&[]);
        script.hookup(0, 0);
        script.clear();
        script.load(&[]);
        script.load(&examples::p_with_classes_0_1());
        script.load(&examples::p());
        script.load(&examples::q());
        script.hookup(0, 2);
        script.hookup(0, 0);
        script.hookup(0, 1);
        script.hookup(0, 1);
        script.count();
        script.part(0);
        script.part(7);
        let p = hex(&examples::p());
        let q = hex(&examples::q());
        let joined = hex(&examples::p_with_event_2_internal());
        let used = 52 + 23 + 52 + 6;
        let expected = format!(
            "refused 12\npart bytes 0\nrefused 12\nrefused 12\n0\nrefused 1\nrule 2 event 1 from 0 to 1 other 0\n\
             part 0\npart 1\nrefused 13\nrefused 10 identifier 1\npart 2\npart 3\ncount 4\npart bytes 52 {}\n\
             part bytes 0\nshelf {}{}{}{}{}{}\n",
            p,
            p,
            q,
            joined,
            joined,
            "000000000000",
            "aa".repeat(200 - used - 52)
        );
        assert_eq!(text(&script.bytes), expected);
    }

    /// The line of a break tells no level.
    #[test]
    fn lines_for_lists() {
        let mut script = Script::new(200);
        script.clear();
        script.load(&examples::p_for_two());
        script.load(&record::write(&examples::t_for_two([0, 0, 0], [0, 0, 1])));
        script.load(&examples::p_for_two_with(&[(11, 0)]));
        script.load(&examples::q());
        script.hookup(0, 1);
        script.part(0);
        let front = format!("{}{}{}", hex(&examples::p_for_two()), hex(&examples::q()), "000000000000");
        let expected = format!(
            "0\npart 0\nrule 5 event 1 from 0 to 2 other 1\nrefused 20\npart 1\nrefused 9\npart bytes 56 {}\nshelf {}{}\n",
            hex(&examples::p_for_two()),
            front,
            "aa".repeat(200 - 56 - 23 - 6)
        );
        assert_eq!(text(&script.bytes), expected);
    }

    #[test]
    fn stopped_scripts() {
        assert_eq!(text(&vec![0; LIMIT + 1]), "script\n");
        assert_eq!(text(&[]), "truncated\n");
        assert_eq!(text(&[6, 0, 0]), "truncated\n");
        assert_eq!(text(&[1, 0, 4, 0]), "capacity\n");
        assert_eq!(text(&[0, 0, 0, 0]), "shelf \n");
        assert_eq!(text(&[2, 0, 0, 0, 0]), "refused 12\nshelf aaaa\n");
        assert_eq!(text(&[2, 0, 0, 0, 5, 0]), "unknown\nshelf aaaa\n");
        assert_eq!(text(&[2, 0, 0, 0, 3, 1, 1, 0, 0, 0]), "refused 12\ntruncated\nshelf aaaa\n");
        assert_eq!(text(&[0, 0, 0, 0, 2, 0, 0, 0, 0, 0, 0, 0]), "truncated\nshelf \n");
        assert_eq!(text(&[0, 0, 0, 0, 4, 0, 0, 0]), "truncated\nshelf \n");
        assert_eq!(text(&[0, 0, 0, 0, 1, 255, 255, 255, 255]), "truncated\nshelf \n");
        let full = text(&[0, 0, 4, 0]);
        assert_eq!(full.len(), 6 + 2 * LIMIT + 1);
    }
}
