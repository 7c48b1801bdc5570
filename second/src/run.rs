//! The calls of a script, made on a shelf as it is, and their answers in numbers.
//! The C header, `hookup_run`, over the operations of script.rs and the shelf calls of shelf.rs.

use crate::answer::Answer;
use crate::bench::Call;
use crate::record::push_u64;
use crate::script::{next_operation, Next, Operation};
use crate::shelf;

/// The bytes of an answer: eight numbers of eight bytes.
pub const ANSWER: usize = 64;

/// The C header, the answers of the whole: all calls are made, a script that is malformed, a buffer that is too short.
pub const RAN: u32 = 0;
pub const MALFORMED: u32 = 99;
pub const NO_ROOM: u32 = 15;

/// The calls of a script. None where it is malformed: where Count, Part or an unknown operation stands in it, or where its
/// end cuts one off.
pub fn calls_of(script: &[u8]) -> Option<Vec<Call>> {
    let mut calls = Vec::new();
    let mut at = 0;
    loop {
        match next_operation(script, at) {
            Next::Operation(Operation::Call(call), behind) => {
                calls.push(call);
                at = behind;
            }
            Next::End => return Some(calls),
            Next::Operation(Operation::Count | Operation::Part(_), _) | Next::Truncated | Next::Unknown => return None,
        }
    }
}

/// The C header, `struct hookup_answer`: the eight numbers of an answer.
pub fn numbers(answer: Answer) -> [u64; 8] {
    match answer {
        Answer::Cleared => [0, 0, 0, 0, 0, 0, 0, 0],
        Answer::Part(number) => [0, number as u64, 0, 0, 0, 0, 0, 0],
        Answer::Refused(number) => [1, number as u64, 0, 0, 0, 0, 0, 0],
        Answer::Clash(identifier) => [2, identifier as u64, 0, 0, 0, 0, 0, 0],
        Answer::Breaks(found) => [
            3,
            found.rule as u64,
            found.identifier as u64,
            found.s as u64,
            found.t as u64,
            found.u as u64,
            found.observer as u64,
            0,
        ],
    }
}

/// The bytes of an answer, the lowest of each number first.
pub fn answer_bytes(answer: Answer) -> Vec<u8> {
    let mut bytes = Vec::new();
    for number in numbers(answer) {
        push_u64(&mut bytes, number);
    }
    bytes
}

/// A call that was made, its answer, and the shelf before it.
#[derive(Clone, PartialEq, Eq, Debug)]
pub struct Made {
    pub call: Call,
    pub answer: Answer,
    pub before: Vec<u8>,
}

/// The number that the whole answers with, and the calls that were made, for counting.
#[derive(Clone, PartialEq, Eq, Debug)]
pub struct Run {
    pub number: u32,
    pub made: Vec<Made>,
}

/// Runs a script on a shelf. In this order: 99, 15, the calls. Each answer stands behind the one before it.
pub fn run(script: &[u8], shelf: &mut [u8], answers: &mut [u8]) -> Run {
    let calls = match calls_of(script) {
        Some(calls) => calls,
        None => return Run { number: MALFORMED, made: Vec::new() },
    };
    if answers.len() < ANSWER * calls.len() {
        return Run { number: NO_ROOM, made: Vec::new() };
    }
    let mut made = Vec::new();
    for (k, call) in calls.into_iter().enumerate() {
        let before = shelf.to_vec();
        let answer = shelf::call(shelf, &call);
        let bytes = answer_bytes(answer);
        for i in 0..ANSWER {
            answers[ANSWER * k + i] = bytes[i];
        }
        made.push(Made { call, answer, before });
    }
    Run { number: RAN, made }
}

#[cfg(test)]
mod tests {
    use super::*;
    use crate::check::Break;
    use crate::examples;
    use crate::make::Script;
    use crate::record;

    /// The numbers that the answers hold.
    fn told(answers: &[u8]) -> Vec<u64> {
        answers.chunks(8).map(|bytes| u64::from_le_bytes(bytes.try_into().unwrap())).collect()
    }

    /// Runs a script on a shelf with as many bytes for answers; the number, and the numbers of the answers.
    fn ran(script: &Script, shelf: &mut [u8], room: usize) -> (u32, Vec<u64>) {
        let mut answers = vec![0x77; room];
        let run = run(&script.bytes, shelf, &mut answers);
        (run.number, told(&answers))
    }

    #[test]
    fn every_answer_by_hand() {
        let mut script = Script::of_calls();
        script.load(&examples::z());
        script.clear();
        script.load(&examples::p());
        script.load(&examples::q());
        script.hookup(0, 0);
        script.hookup(0, 1);
        script.load(&record::write(&examples::t_for_two([0, 0, 0], [0, 0, 1])));
        script.hookup(3, 0);
        let mut shelf = vec![0xAA; 200];
        let (number, answers) = ran(&script, &mut shelf, 8 * ANSWER + 8);
        assert_eq!(number, 0);
        assert_eq!(answers[0..8], [1, 12, 0, 0, 0, 0, 0, 0]);
        assert_eq!(answers[8..16], [0; 8]);
        assert_eq!(answers[16..24], [0; 8]);
        assert_eq!(answers[24..32], [0, 1, 0, 0, 0, 0, 0, 0]);
        assert_eq!(answers[32..40], [2, 1, 0, 0, 0, 0, 0, 0]);
        assert_eq!(answers[40..48], [0, 2, 0, 0, 0, 0, 0, 0]);
        assert_eq!(answers[48..56], [3, 5, 1, 0, 2, 1, 0x40, 0]);
        assert_eq!(answers[56..64], [1, 13, 0, 0, 0, 0, 0, 0]);
        assert_eq!(answers[64..], [0x7777_7777_7777_7777]);
        let records = [examples::p(), examples::q(), examples::p_with_event_2_internal(), vec![0; 6]].concat();
        assert_eq!(shelf[..records.len()], records);
        assert!(shelf[records.len()..].iter().all(|&byte| byte == 0xAA));
    }

    /// The second run goes on where the first one left the shelf, and 14 can come where the shelf was changed between.
    #[test]
    fn the_first_call_need_not_be_a_clear() {
        let mut shelf = vec![0x55; 100];
        let mut first = Script::of_calls();
        first.clear();
        first.load(&examples::p());
        let mut second = Script::of_calls();
        second.load(&examples::q());
        second.hookup(0, 1);
        assert_eq!(ran(&first, &mut shelf, 2 * ANSWER).0, 0);
        let mut changed = shelf.clone();
        changed[11] = 1;
        assert_eq!(ran(&second, &mut changed, 2 * ANSWER).1[..10], [0, 1, 0, 0, 0, 0, 0, 0, 1, 14]);
        assert_eq!(ran(&second, &mut shelf, 2 * ANSWER).1[..10], [0, 1, 0, 0, 0, 0, 0, 0, 1, 15]);
        let mut longer = shelf.clone();
        longer.extend([0x55; 40]);
        let mut third = Script::of_calls();
        third.hookup(0, 1);
        assert_eq!(ran(&third, &mut longer, ANSWER).1, [0, 2, 0, 0, 0, 0, 0, 0]);
    }

    /// The number of a script without calls or one that is refused. No byte changes.
    fn refused(script: &[u8], room: usize) -> u32 {
        let mut shelf = vec![0x11; 30];
        let mut answers = vec![0x22; room];
        let run = run(script, &mut shelf, &mut answers);
        assert_eq!(shelf, vec![0x11; 30]);
        assert_eq!(answers, vec![0x22; room]);
        assert!(run.made.is_empty());
        run.number
    }

    /// Count, Part, unknown operations; then each that is cut off.
    #[test]
    fn malformed_scripts_by_hand() {
        let malformed: [&[u8]; 9] = [
            &[3],
            &[4, 0, 0, 0, 0],
            &[5],
            &[255],
            &[1],
            &[1, 1, 0, 0],
            &[1, 1, 0, 0, 0],
            &[2, 0, 0, 0, 0, 0, 0, 0],
            &[4, 0, 0],
        ];
        for bytes in malformed {
            for room in [0, 63, 64, 128, 200] {
                assert_eq!(refused(bytes, room), 99);
                assert_eq!(refused(&[&[0], bytes].concat(), room), 99);
            }
        }
        // What stands behind it does not mend it.
        for bytes in &malformed[..4] {
            assert_eq!(refused(&[bytes, &[0][..]].concat(), 200), 99);
        }
    }

    #[test]
    fn short_answers_by_hand() {
        assert_eq!(refused(&[0], 63), 15);
        assert_eq!(refused(&[0, 0], 127), 15);
        assert_eq!(refused(&[0, 0], 64), 15);
        assert_eq!(refused(&[0, 0], 0), 15);
        assert_eq!(refused(&[], 0), 0);
        assert_eq!(refused(&[], 64), 0);
    }

    #[test]
    fn numbers_of_a_break() {
        let found = Break { observer: 0xC1, rule: 4, identifier: 0x1234, s: 63, t: 1, u: 2 };
        assert_eq!(numbers(Answer::Breaks(found)), [3, 4, 0x1234, 63, 1, 2, 0xC1, 0]);
        let bytes = answer_bytes(Answer::Breaks(found));
        assert_eq!(bytes[..18], [3, 0, 0, 0, 0, 0, 0, 0, 4, 0, 0, 0, 0, 0, 0, 0, 0x34, 0x12]);
        assert_eq!(bytes.len(), ANSWER);
        assert_eq!(answer_bytes(Answer::Clash(65_535))[..11], [2, 0, 0, 0, 0, 0, 0, 0, 255, 255, 0]);
    }

    /// What a load does not take is read as calls.
    #[test]
    fn loads_of_other_lengths() {
        assert_eq!(calls_of(&[1, 1, 0, 0, 0, 0]), Some(vec![Call::Load(vec![0])]));
        assert_eq!(calls_of(&[1, 0, 0, 0, 0, 0]), Some(vec![Call::Load(Vec::new()), Call::Clear]));
    }
}
