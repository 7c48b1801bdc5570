//! The plain bench: a list of records and a capacity, fed with the calls alone.
//! Document 01, "The shelf", the paragraph on the plain bench.

use crate::answer::Answer;
use crate::check::{self, Verdict};
use crate::join::{self, JoinAnswer};
use crate::record;

#[derive(Clone, PartialEq, Eq, Debug)]
pub enum Call {
    Clear,
    Load(Vec<u8>),
    Hookup(usize, usize),
}

/// The bench after its first clear.
#[derive(Clone, PartialEq, Eq, Debug)]
pub struct Bench {
    pub capacity: usize,
    pub records: Vec<Vec<u8>>,
}

impl Bench {
    pub fn new(capacity: usize) -> Bench {
        assert!(capacity >= 6);
        Bench { capacity, records: Vec::new() }
    }

    /// Appends if what is held, the record and an end record come to no more than the capacity.
    fn append(&mut self, record: Vec<u8>) -> Answer {
        let mut total = record.len() + 6;
        for held in &self.records {
            total += held.len();
        }
        if total > self.capacity {
            return Answer::Refused(15);
        }
        self.records.push(record);
        Answer::Part(self.records.len() - 1)
    }

    pub fn clear(&mut self) -> Answer {
        self.records.clear();
        Answer::Cleared
    }

    pub fn load(&mut self, record: &[u8]) -> Answer {
        match check::check(record) {
            Verdict::Refused(number) => Answer::Refused(number),
            Verdict::Breaks(found) => Answer::Breaks(found),
            Verdict::Pass => self.append(record.to_vec()),
        }
    }

    /// The entries of the list pass, so only 13, 9, 10, 11 and 15 can come.
    pub fn hookup(&mut self, i: usize, j: usize) -> Answer {
        if i >= self.records.len() || j >= self.records.len() {
            return Answer::Refused(13);
        }
        let a = record::read(&self.records[i]).unwrap();
        let b = record::read(&self.records[j]).unwrap();
        match join::refusal_of_pair(&a, &b) {
            Some(JoinAnswer::Clash(identifier)) => Answer::Clash(identifier),
            Some(JoinAnswer::Refused(number)) => Answer::Refused(number),
            Some(_) => unreachable!(),
            None => self.append(join::joined_record(&a, &b)),
        }
    }

    pub fn call(&mut self, call: &Call) -> Answer {
        match call {
            Call::Clear => self.clear(),
            Call::Load(record) => self.load(record),
            Call::Hookup(i, j) => self.hookup(*i, *j),
        }
    }

    /// The bytes that a shelf with these records starts with.
    pub fn bytes(&self) -> Vec<u8> {
        let mut bytes = Vec::new();
        for record in &self.records {
            bytes.extend_from_slice(record);
        }
        bytes.extend_from_slice(&[0; 6]);
        bytes
    }
}

/// The whole list of calls after the first clear: the records left and every answer, the first clear's too.
pub fn run(capacity: usize, calls: &[Call]) -> (Bench, Vec<Answer>) {
    let mut bench = Bench::new(capacity);
    let mut answers = vec![bench.clear()];
    for call in calls {
        answers.push(bench.call(call));
    }
    (bench, answers)
}

#[cfg(test)]
mod tests {
    use super::*;
    use crate::examples;
    use crate::make;
    use crate::rng::Rng;
    use crate::shelf;

    #[test]
    fn the_examples() {
        let z = examples::z();
        let (bench, answers) = run(17, &[Call::Load(z.clone())]);
        assert_eq!(answers, vec![Answer::Cleared, Answer::Part(0)]);
        assert_eq!(bench.records, vec![z.clone()]);
        let (bench, answers) = run(16, &[Call::Load(z)]);
        assert_eq!(answers, vec![Answer::Cleared, Answer::Refused(15)]);
        assert!(bench.records.is_empty());
    }

    /// Demand 3, first half: shelf and bench agree on every list of calls tried.
    #[test]
    fn shelf_and_bench_agree() {
        agree_on(31, make::calls);
    }

    /// The same with parts of several observers.
    #[test]
    fn shelf_and_bench_agree_on_lists() {
        agree_on(32, make::calls_on_lists);
    }

    /// The same with limited parts.
    #[test]
    fn shelf_and_bench_agree_on_limited_parts() {
        agree_on(33, make::calls_on_limited);
    }

    fn agree_on(seed: u64, made: fn(&mut Rng, usize) -> Vec<Call>) {
        let mut rng = Rng::new(seed);
        for _ in 0..150 {
            let capacity = rng.range(6, 3000);
            let calls = made(&mut rng, 12);
            let mut bytes = rng.bytes(capacity);
            let mut answers = vec![shelf::clear(&mut bytes)];
            for call in &calls {
                answers.push(shelf::call(&mut bytes, call));
            }
            let (bench, expected) = run(capacity, &calls);
            assert_eq!(answers, expected);
            let front = bench.bytes();
            assert_eq!(&bytes[..front.len()], &front[..]);
            assert_eq!(shelf::count(&bytes), Some(bench.records.len()));
            for i in 0..bench.records.len() {
                assert_eq!(shelf::part(&bytes, i), &bench.records[i][..]);
            }
        }
    }
}
