//! What Check and Join say of records, each asked once. Categories and wrong readings of a shelf ask for the same records
//! again and again.

use crate::answer::Answer;
use crate::check::{self, Verdict};
use crate::join::{self, JoinAnswer};
use crate::record;
use std::collections::HashMap;

#[derive(Default)]
pub struct Judge {
    records: HashMap<Vec<u8>, usize>,
    verdicts: HashMap<usize, Verdict>,
    joined: HashMap<(usize, usize), Result<Vec<u8>, Answer>>,
}

impl Judge {
    /// Each record has a number.
    fn number(&mut self, bytes: &[u8]) -> usize {
        let next = self.records.len();
        match self.records.get(bytes) {
            Some(&number) => number,
            None => {
                self.records.insert(bytes.to_vec(), next);
                next
            }
        }
    }

    /// Check's verdict.
    pub fn verdict(&mut self, bytes: &[u8]) -> Verdict {
        let number = self.number(bytes);
        *self.verdicts.entry(number).or_insert_with(|| check::check(bytes))
    }

    pub fn passes(&mut self, bytes: &[u8]) -> bool {
        self.verdict(bytes) == Verdict::Pass
    }

    /// The joined record of two records, whether or not they break a rule; or 9, 10 or 11; or a record's own refusal.
    pub fn joined(&mut self, a: &[u8], b: &[u8]) -> Result<Vec<u8>, Answer> {
        let numbers = (self.number(a), self.number(b));
        self.joined.entry(numbers).or_insert_with(|| joined(a, b)).clone()
    }
}

fn joined(a: &[u8], b: &[u8]) -> Result<Vec<u8>, Answer> {
    let a = record::read(a).map_err(Answer::Refused)?;
    let b = record::read(b).map_err(Answer::Refused)?;
    match join::refusal_of_pair(&a, &b) {
        Some(JoinAnswer::Clash(identifier)) => Err(Answer::Clash(identifier)),
        Some(JoinAnswer::Refused(number)) => Err(Answer::Refused(number)),
        Some(_) => unreachable!(),
        None => Ok(join::joined_record(&a, &b)),
    }
}

#[cfg(test)]
mod tests {
    use super::*;
    use crate::examples;

    #[test]
    fn judged_by_hand() {
        let mut judge = Judge::default();
        let (p, q, z) = (examples::p(), examples::q(), examples::z());
        for _ in 0..2 {
            assert_eq!(judge.verdict(&p), Verdict::Pass);
            assert_eq!(judge.verdict(&[0; 6]), Verdict::Refused(3));
            assert!(!judge.passes(&examples::p_with_classes_0_1()));
            assert_eq!(judge.joined(&p, &q), Ok(examples::p_with_event_2_internal()));
            assert_eq!(judge.joined(&p, &p), Err(Answer::Clash(1)));
            assert_eq!(judge.joined(&examples::z_for_two(), &z), Err(Answer::Refused(9)));
            assert_eq!(judge.joined(&z, &[]), Err(Answer::Refused(1)));
            assert!(judge.joined(&examples::p_with_classes_0_1(), &q).is_ok());
        }
    }
}
