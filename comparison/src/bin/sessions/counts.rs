//! Holds how often each number was the answer.

use crate::call::Answer;

/// What opening, writing, closing and the reads can answer beside 0.
const NUMBERS: [usize; 15] = [2, 5, 6, 8, 9, 14, 15, 16, 17, 18, 19, 20, 21, 22, 23];

#[derive(Default)]
pub struct Counts {
    answers: [u64; 24],
}

impl Counts {
    /// Counts the answer to one call, and hands it on.
    pub fn add(&mut self, answer: Answer) -> Answer {
        self.answers[answer.refusal as usize] += 1;
        answer
    }

    /// The numbers that were never the answer.
    pub fn missing(&self) -> Vec<usize> {
        NUMBERS.into_iter().filter(|&number| self.answers[number] == 0).collect()
    }

    /// The calls and the answers in words.
    pub fn line(&self) -> String {
        let calls: u64 = self.answers.iter().sum();
        let came = self.answers.iter().enumerate().filter(|&(_, &times)| times > 0);
        let words: Vec<String> = came.map(|(number, times)| format!("{number}: {times}")).collect();
        format!("{calls} calls, answers {}", words.join(", "))
    }
}
