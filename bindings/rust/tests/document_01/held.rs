//! Holds what a call did to what the rule says.

use std::collections::BTreeMap;
use std::fmt::Debug;

use bbfmm::Refusal;

/// Whether two lists of floats are the same, where any NaN equals any NaN.
pub fn same_floats(left: &[f64], right: &[f64]) -> bool {
    let same = |(l, r): (&f64, &f64)| l.to_bits() == r.to_bits() || (l.is_nan() && r.is_nan());
    left.len() == right.len() && left.iter().zip(right).all(same)
}

/// The bits of floats, in which a NaN is not any NaN.
pub fn bits(floats: &[f64]) -> Vec<u64> {
    floats.iter().map(|float| float.to_bits()).collect()
}

/// How often each number was answered, 0 being done.
#[derive(Default)]
pub struct Tally {
    answers: BTreeMap<u8, usize>,
}

impl Tally {
    /// Counts an answer, and holds it to the number of the rule. Gives what the rule says, where
    /// the call was done.
    pub fn number<A, R>(
        &mut self,
        case: &dyn Debug,
        answer: &Result<A, Refusal>,
        ruled: Result<R, u8>,
    ) -> Option<R> {
        let number = answer.as_ref().err().map_or(0, |refusal| refusal.number());
        let expected = ruled.as_ref().err().copied().unwrap_or(0);
        assert_eq!(number, expected, "the number of {case:?}");
        *self.answers.entry(number).or_default() += 1;
        ruled.ok()
    }

    /// The same for a call that writes floats: every buffer is as the rule says, or after a refusal
    /// as it came.
    pub fn floats<A, const B: usize>(
        &mut self,
        case: &dyn Debug,
        answer: &Result<A, Refusal>,
        ruled: Result<[Vec<f64>; B], u8>,
        [before, after]: [&[Vec<f64>; B]; 2],
    ) {
        let expected = self.number(case, answer, ruled);
        for place in 0..B {
            let holds = match &expected {
                Some(expected) => same_floats(&after[place], &expected[place]),
                None => bits(&after[place]) == bits(&before[place]),
            };
            assert!(holds, "buffer {place} of {case:?}");
        }
    }

    /// Sees that exactly these numbers were answered, so that no test passes by asking nothing.
    pub fn reached(&self, call: &str, numbers: &[u8]) {
        println!("{call}: {:?}", self.answers);
        let answered: Vec<u8> = self.answers.keys().copied().collect();
        assert_eq!(answered, numbers, "the numbers that {call} answered");
    }
}
