//! Holds how often each number was the answer, and in which of the two files a load broke off.

/// What the calls of a pair can answer beside 0.
const NUMBERS: [usize; 24] =
    [1, 2, 3, 4, 5, 6, 7, 8, 9, 10, 11, 12, 13, 14, 15, 16, 17, 18, 19, 20, 21, 22, 23, 25];

#[derive(Default)]
pub struct Counts {
    answers: [u64; 26],
    second: u64,
}

impl Counts {
    /// Counts the answer to one call, and hands it on.
    pub fn add(&mut self, refusal: u32) -> u32 {
        self.answers[refusal as usize] += 1;
        refusal
    }

    /// Counts the answer to a load that broke off in one of the files.
    pub fn add_load(&mut self, refusal: u32, file: u32) {
        self.add(refusal);
        self.second += u64::from(file);
    }

    /// The numbers that were never the answer, and 0 where no load broke off in file 1.
    pub fn missing(&self) -> Vec<usize> {
        let never = NUMBERS.into_iter().filter(|&number| self.answers[number] == 0);
        never.chain((self.second == 0).then_some(0)).collect()
    }

    /// The calls and the answers in words.
    pub fn line(&self) -> String {
        let calls: u64 = self.answers.iter().sum();
        let came = self.answers.iter().enumerate().filter(|&(_, &times)| times > 0);
        let words: Vec<String> = came.map(|(number, times)| format!("{number}: {times}")).collect();
        let second = self.second;
        format!("{calls} calls, answers {}; {second} loads broke off in file 1", words.join(", "))
    }
}
