//! Counts of random inputs by the question that refused them, which show that each way out of a call was taken.
use std::collections::{BTreeMap, BTreeSet};

use reference::Refusal;

use crate::agreed::number_and_place;

/// How many inputs each question refused (number 0: none did), and at how many places.
#[derive(Default)]
pub struct Tally {
    inputs: BTreeMap<u32, usize>,
    places: BTreeMap<u32, BTreeSet<usize>>,
}

impl Tally {
    pub fn note<T>(&mut self, answer: &Result<T, Refusal>) {
        let (number, place) = number_and_place(answer);
        *self.inputs.entry(number).or_default() += 1;
        self.places.entry(number).or_default().insert(place);
    }

    /// Each of these questions refused some inputs, no other did, and a good share was accepted.
    pub fn expect(&self, what: &str, questions: &[u32], some: usize) {
        let inputs = &self.inputs;
        println!("{what}: inputs by question number (0 accepted) {inputs:?}");
        let mut numbers = vec![0];
        numbers.extend(questions);
        assert!(inputs.keys().eq(&numbers), "{what}: {inputs:?}");
        assert!(inputs.values().all(|&n| n >= some), "{what}: {inputs:?}");
        let all: usize = inputs.values().sum();
        assert!(inputs[&0] >= all * 2 / 5, "{what}: {inputs:?}");
    }

    pub fn expect_places(&self, number: u32, places: &[usize]) {
        let found = &self.places[&number];
        assert!(found.iter().eq(places), "question {number}: {found:?}");
    }

    pub fn expect_many_places(&self, number: u32, at_least: usize) {
        let found = &self.places[&number];
        assert!(found.len() >= at_least, "question {number}: {found:?}");
    }
}
