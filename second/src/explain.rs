//! The explanation: Check's answer in eight numbers, and among them how many states were taken up.
//! Document 02, requests f, i, k and l, and the C header, `hookup_explain`.

use crate::check::{self, found_by, quiet_reaches, told, Break, Verdict};
use crate::record::{self, push_u64};

/// The bytes of an explanation: eight numbers of eight bytes.
pub const EXPLANATION: usize = 64;

/// The C header, `struct hookup_explanation`.
#[derive(Clone, Copy, PartialEq, Eq, Debug)]
pub struct Explanation {
    pub rule: u64,
    pub event: u64,
    pub s: u64,
    pub t: u64,
    pub u: u64,
    pub taken: u64,
    pub observer: u64,
    pub limit: u64,
}

#[derive(Clone, Copy, PartialEq, Eq, Debug)]
pub enum ExplainAnswer {
    /// The part passes or breaks a rule, and this was written.
    Explained(Explanation),
    /// A refusal of the record, or 15.
    Refused(u32),
}

/// Request f: the size of a quiet reach.
fn size(reach: &[bool]) -> u64 {
    let mut size = 0;
    for t in 0..reach.len() {
        if reach[t] {
            size += 1;
        }
    }
    size
}

/// Request f: the sum of the quiet reaches' sizes over all n states.
pub fn sum_of_sizes(reaches: &[Vec<bool>]) -> u64 {
    let mut sum = 0;
    for s in 0..reaches.len() {
        sum += size(&reaches[s]);
    }
    sum
}

/// Request f: the sum is reported when the record passes or breaks rule 4 or 5.
fn is_reported(verdict: Verdict) -> bool {
    match verdict {
        Verdict::Pass => true,
        Verdict::Breaks(found) => found.rule == 4 || found.rule == 5,
        Verdict::Refused(_) => false,
    }
}

/// Requests f and k: what Check reports, its verdict and how many states were taken up, for the observer told by a break
/// or for the first one where the part passes.
pub fn check_and_count(bytes: &[u8]) -> (Verdict, u64) {
    let verdict = check::check(bytes);
    if !is_reported(verdict) {
        return (verdict, 0);
    }
    let part = record::read(bytes).unwrap();
    (verdict, sum_of_sizes(&quiet_reaches(told(&part, found_by(verdict)))))
}

/// The C header: the numbers for a pass, with the part's limit.
fn of_pass(taken: u64, limit: u64) -> Explanation {
    Explanation { rule: 0, event: 0, s: 0, t: 0, u: 0, taken, observer: 0, limit }
}

/// The C header: the numbers for a break, with the level of the observer told.
fn of_break(found: Break, taken: u64) -> Explanation {
    Explanation {
        rule: found.rule as u64,
        event: found.identifier as u64,
        s: found.s as u64,
        t: found.t as u64,
        u: found.u as u64,
        taken,
        observer: found.observer as u64,
        limit: 0,
    }
}

/// The C header: the eight numbers in their order, each with its lowest byte first.
fn explanation_bytes(explanation: Explanation) -> Vec<u8> {
    let numbers = [
        explanation.rule,
        explanation.event,
        explanation.s,
        explanation.t,
        explanation.u,
        explanation.taken,
        explanation.observer,
        explanation.limit,
    ];
    let mut bytes = Vec::new();
    for number in numbers {
        push_u64(&mut bytes, number);
    }
    bytes
}

/// The C header, the whole call: the refusals of the record, then 15. The explanation goes to the buffer's start.
pub fn explain(bytes: &[u8], out: &mut [u8]) -> ExplainAnswer {
    let (verdict, taken) = check_and_count(bytes);
    let explanation = match verdict {
        Verdict::Refused(number) => return ExplainAnswer::Refused(number),
        Verdict::Pass => of_pass(taken, record::read(bytes).unwrap().limit() as u64),
        Verdict::Breaks(found) => of_break(found, taken),
    };
    if out.len() < EXPLANATION {
        return ExplainAnswer::Refused(15);
    }
    let written = explanation_bytes(explanation);
    for i in 0..EXPLANATION {
        out[i] = written[i];
    }
    ExplainAnswer::Explained(explanation)
}

/// The C header, the number for a host program: that of Check, or the refusal.
pub fn number(answer: ExplainAnswer) -> u32 {
    match answer {
        ExplainAnswer::Explained(explanation) if explanation.rule == 0 => 0,
        ExplainAnswer::Explained(explanation) => 100 + explanation.rule as u32,
        ExplainAnswer::Refused(number) => number,
    }
}

#[cfg(test)]
mod tests {
    use super::*;
    use crate::check::passes;
    use crate::examples;
    use crate::make::{self, Shape, SHAPES};
    use crate::record::{Event, Kind, Part};
    use crate::rng::Rng;

    fn count(bytes: &[u8]) -> u64 {
        check_and_count(bytes).1
    }

    /// P, Q and Z have no quiet event, or one that stays, so each state is taken up once. In T with a high output or a
    /// low internal event the quiet reaches are 0 and 2, 1, 2.
    #[test]
    fn counts_of_the_examples() {
        assert_eq!(count(&examples::p()), 2);
        assert_eq!(count(&examples::p_with_event_2_internal()), 2);
        assert_eq!(count(&examples::p_mute_with_event_2_internal()), 2);
        assert_eq!(count(&examples::q()), 1);
        assert_eq!(count(&examples::z()), 1);
        assert_eq!(count(&examples::without_events(64)), 64);
        // Rules 1, 2 and 3.
        assert_eq!(count(&examples::p_event_1_stepless_in_1()), 0);
        assert_eq!(count(&examples::p_with_classes_0_1()), 0);
        assert_eq!(count(&examples::t_low_input()), 0);
        // Rules 4 and 5.
        assert_eq!(count(&examples::t_high_output()), 4);
        assert_eq!(count(&examples::t_low_internal()), 4);
        assert_eq!(count(&examples::p_event_2_stepless_in_1()), 2);
        // Refusals.
        assert_eq!(count(&[]), 0);
        assert_eq!(count(&examples::p()[..51]), 0);
        let mut stray = examples::t_high_output();
        let last = stray.len() - 1;
        stray[last] = 0x80;
        assert_eq!(check_and_count(&stray), (Verdict::Refused(8), 0));
        assert_eq!(check_and_count(&examples::p_mislabelled()), (Verdict::Refused(16), 0));
    }

    /// States 0 and 1 in one class, 2 in another; high outputs lead from 0 to 1 and from 1 to 2. The quiet reaches have
    /// three states, two and one.
    #[test]
    fn a_count_by_hand() {
        let events = vec![Event { identifier: 7, kind: Kind::Output, level: 0x40 }];
        let mut part = Part::without_steps(0, 0, vec![0, 0, 1], events);
        part.steps[0][0][1] = true;
        part.steps[0][1][2] = true;
        assert_eq!(check_and_count(&record::write(&part)), (Verdict::Pass, 6));
        // A step that stays changes nothing, one from 2 to 0 leads from each state to each.
        part.steps[0][1][1] = true;
        assert_eq!(count(&record::write(&part)), 6);
        part.steps[0][2][0] = true;
        assert_eq!(check_and_count(&record::write(&part)), (Verdict::Pass, 9));
        // Without the step from 0 to 1 rule 4 is broken: 1 leads to 2, and 0 does not.
        part.steps[0][0][1] = false;
        part.steps[0][2][0] = false;
        let found = Break { observer: 0, rule: 4, identifier: 7, s: 1, t: 2, u: 0 };
        assert_eq!(check_and_count(&record::write(&part)), (Verdict::Breaks(found), 4));
        // An input without a step breaks rule 1, and the same quiet steps are not counted.
        part.events.push(Event { identifier: 9, kind: Kind::Input, level: 0 });
        part.steps.push(vec![vec![false; 3]; 3]);
        let found = Break { observer: 0, rule: 1, identifier: 9, s: 0, t: 0, u: 0 };
        assert_eq!(check_and_count(&record::write(&part)), (Verdict::Breaks(found), 0));
    }

    /// Request f: where not zero, at least n and at most n x n.
    #[test]
    fn counts_are_between_n_and_n_times_n() {
        let mut rng = Rng::new(75);
        let (mut zero, mut least, mut most, mut between) = (0, 0, 0, 0);
        for round in 0..1500 {
            let n = if round % 20 == 0 { 64 } else { rng.range(2, 9) };
            let m = rng.range(0, 4);
            let shape = SHAPES[round % SHAPES.len()];
            let part = match round % 3 {
                0 => make::shaped(&mut rng, shape, n, m),
                1 => make::shaped_without_inputs(&mut rng, shape, n, m),
                _ => make::passing_shaped(&mut rng, shape, n, m, round % 2 == 0),
            };
            let n = n as u64;
            let count = count(&record::write(&part));
            assert!(count == 0 || (n <= count && count <= n * n));
            if count == 0 {
                assert!(!passes(&part));
                zero += 1;
            } else if count == n {
                least += 1;
            } else if count == n * n {
                most += 1;
            } else {
                between += 1;
            }
        }
        let seen = [zero, least, most, between];
        assert!(seen.iter().all(|&times| times > 50), "{:?}", seen);
    }

    fn explained(bytes: &[u8]) -> [u64; 8] {
        let mut out = vec![0xC3; EXPLANATION + 5];
        let answer = explain(bytes, &mut out);
        assert_eq!(number(answer), check::number(check::check(bytes)));
        assert_eq!(out[EXPLANATION..], [0xC3; 5]);
        let mut numbers = [0; 8];
        for i in 0..8 {
            numbers[i] = u64::from_le_bytes(out[8 * i..8 * i + 8].try_into().unwrap());
        }
        numbers
    }

    #[test]
    fn numbers_of_the_examples() {
        assert_eq!(explained(&examples::p()), [0, 0, 0, 0, 0, 2, 0, 1]);
        assert_eq!(explained(&examples::z()), [0, 0, 0, 0, 0, 1, 0, 1]);
        assert_eq!(explained(&examples::p_event_1_stepless_in_1()), [1, 1, 1, 0, 0, 0, 0, 0]);
        assert_eq!(explained(&examples::p_with_classes_0_1()), [2, 1, 0, 1, 0, 0, 0, 0]);
        assert_eq!(explained(&examples::t_low_input()), [3, 1, 0, 2, 1, 0, 0, 0]);
        assert_eq!(explained(&examples::t_high_output()), [4, 1, 0, 2, 1, 4, 0, 0]);
        assert_eq!(explained(&examples::t_low_internal()), [4, 1, 0, 2, 1, 4, 0, 0]);
        assert_eq!(explained(&examples::p_mute_with_event_2_internal()), [0, 0, 0, 0, 0, 2, 0, 1]);
        assert_eq!(explained(&examples::p_event_2_stepless_in_1()), [5, 2, 0, 0, 1, 2, 0, 0]);
    }

    /// The observer's level is told at a break alone; an identifier has two bytes, and a count may need two.
    #[test]
    fn numbers_of_more_than_a_byte() {
        let mut bytes = examples::p_with_classes_0_1();
        // Observer 0x41, and 0x80 as event 1's level, so that it stays high. Event 1 gets identifier 0x0201, which is
        // above that of event 2: so that gets 0x0202.
        bytes[6] = 0x41;
        bytes[15] = 0x80;
        bytes[12..14].copy_from_slice(&[1, 2]);
        bytes[16..18].copy_from_slice(&[2, 2]);
        assert_eq!(explained(&bytes), [2, 0x0201, 0, 1, 0, 0, 0x41, 0]);
        bytes[11] = 0;
        assert_eq!(explained(&bytes), [0, 0, 0, 0, 0, 2, 0, 1]);

        let mut rng = Rng::new(76);
        let part = make::passing_shaped(&mut rng, Shape::Circle, 64, 1, true);
        assert_eq!(explained(&record::write(&part)), [0, 0, 0, 0, 0, 4096, 0, 1]);
    }

    /// Request k: the count belongs to the observer that a break tells, and to the first one at a pass. To the first
    /// observer T's output is quiet, and its quiet reaches are 0 and 2, 1, 2; to the second one it is not.
    #[test]
    fn numbers_of_several_observers() {
        let explained_t = |first, second| explained(&record::write(&examples::t_for_two(first, second)));
        assert_eq!(explained_t([0, 0, 0], [0, 1, 2]), [0, 0, 0, 0, 0, 4, 0, 1]);
        assert_eq!(explained_t([0, 0, 0], [0, 0, 1]), [5, 1, 0, 2, 1, 3, 0x40, 0]);
        assert_eq!(explained_t([0, 0, 1], [0, 0, 1]), [4, 1, 0, 2, 1, 4, 0, 0]);
        let part = examples::lower_rule_at_the_second();
        assert_eq!(explained(&record::write(&part)), [4, 1, 1, 0, 2, 4, 0, 0]);
        assert_eq!(explained(&examples::p_for_two()), [0, 0, 0, 0, 0, 2, 0, 1]);
        assert_eq!(explained(&examples::p_for_two_with(&[(13, 1)])), [2, 1, 0, 1, 0, 0, 0, 0]);
        assert_eq!(explained(&examples::p_for_two_with(&[(32, 0)])), [1, 1, 1, 0, 0, 0, 0, 0]);
        // Observers 0x41 and 0x81, and 0x82 as input 1's level: the first one's level is told.
        let bytes = examples::p_for_two_with(&[(10, 0x41), (11, 0x81), (19, 0x82), (13, 1)]);
        assert_eq!(explained(&bytes), [2, 1, 0, 1, 0, 0, 0x41, 0]);
        // The first in one class, the second one in two: its level is told.
        let bytes = examples::p_for_two_with(&[(10, 0x41), (11, 0x81), (19, 0x82)]);
        assert_eq!(explained(&bytes), [2, 1, 0, 1, 0, 0, 0x81, 0]);
        assert_eq!(number(explain(&examples::p_for_two_with(&[(11, 0)]), &mut [])), 20);
        assert_eq!(number(explain(&examples::p_for_two(), &mut [0; 63])), 15);
    }

    /// Request l: the limit is told at a pass, and the count is that of kind 1.
    #[test]
    fn numbers_of_limited_parts() {
        assert_eq!(explained(&examples::guard()), [0, 0, 0, 0, 0, 2, 0, 2]);
        assert_eq!(explained(&examples::z_limited()), [0, 0, 0, 0, 0, 1, 0, 1]);
        assert_eq!(explained(&examples::guard_with(&[(13, 0)])), [5, 2, 0, 0, 1, 2, 0, 0]);
        assert_eq!(explained(&examples::guard_with(&[(22, 0)])), [1, 1, 0, 0, 0, 0, 0, 0]);
        assert_eq!(explained(&examples::t_limited([0, 1, 2])), [0, 0, 0, 0, 0, 4, 0, 2]);
        assert_eq!(explained(&examples::t_limited([0, 0, 1])), [4, 1, 0, 2, 1, 4, 0, 0]);
        assert_eq!(number(explain(&examples::guard_with(&[(13, 2)]), &mut [])), 21);
        assert_eq!(number(explain(&examples::guard(), &mut [0; 63])), 15);
        let mut rng = Rng::new(78);
        for limit in [1, 3, 8, 9, 64] {
            assert_eq!(explained(&record::write(&make::limited_to(&mut rng, limit, 2)))[7], limit as u64);
        }
    }

    #[test]
    fn refusals_leave_the_buffer() {
        let p = examples::p();
        let broken = examples::p_with_classes_0_1();
        let mut out = vec![7u8; EXPLANATION];
        assert_eq!(number(explain(&p[..5], &mut out)), 1);
        assert_eq!(number(explain(&p[..5], &mut [])), 1);
        let mut stray = p.clone();
        stray[51] = 0x80;
        assert_eq!(number(explain(&stray, &mut out)), 8);
        assert_eq!(number(explain(&stray, &mut [])), 8);
        assert_eq!(number(explain(&examples::p_mislabelled(), &mut out)), 16);
        assert_eq!(number(explain(&examples::p_mislabelled(), &mut [])), 16);
        assert_eq!(number(explain(&p, &mut [])), 15);
        assert_eq!(number(explain(&broken, &mut [])), 15);
        assert_eq!(explain(&p, &mut out[1..]), ExplainAnswer::Refused(15));
        assert_eq!(explain(&broken, &mut out[1..]), ExplainAnswer::Refused(15));
        assert_eq!(out, vec![7u8; EXPLANATION]);
        assert_eq!(number(explain(&broken, &mut out)), 102);
        assert_eq!(out[..8], [2, 0, 0, 0, 0, 0, 0, 0]);
        assert_eq!(number(explain(&p, &mut out)), 0);
        assert_eq!(out[..8], [0; 8]);
    }
}
