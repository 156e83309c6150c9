//! Holds the moments at which the power can go, what W-212 says that a load then gives, and how often each came.

use crate::cases::Closing;

/// A moment, by what the last store was.
#[derive(Clone, Copy, Debug, PartialEq, Eq)]
pub enum Moment {
    /// No store yet: the image before, which gives this answer.
    Before(u32),
    Opening,
    Session,
    Closing,
    /// A part of start_of_varheader stands, which is not 0 and not the whole.
    Wrong,
    Complete,
}

impl Moment {
    /// After so many stores of an opening over an image with this answer, which has D + 1 stores.
    pub fn of_opening(earlier: u32, d: usize, made: usize) -> Moment {
        match made {
            0 => Moment::Before(earlier),
            made if made <= d => Moment::Opening,
            _ => Moment::Session,
        }
    }

    /// After so many stores of a close: by what they have made of start_of_varheader, which was 0.
    pub fn of_closing(closing: &Closing, order: u32, made: usize) -> Moment {
        let start = closing.meta2 as u64;
        let start = if order == 0 { start.to_le_bytes() } else { start.to_be_bytes() };
        let reached = made.saturating_sub(closing.stores - start.len()).min(start.len());
        let (stored, missing) = start.split_at(reached);
        match (stored.iter().all(|&byte| byte == 0), missing.iter().all(|&byte| byte == 0)) {
            _ if made == 0 => Moment::Session,
            (true, _) => Moment::Closing,
            (false, true) => Moment::Complete,
            (false, false) => Moment::Wrong,
        }
    }

    /// What a load gives.
    pub fn number(self) -> u32 {
        match self {
            Moment::Before(number) => number,
            Moment::Opening => 1,
            Moment::Session | Moment::Closing => 10,
            Moment::Wrong => 12,
            Moment::Complete => 0,
        }
    }

    /// Its place among the names.
    fn index(self) -> usize {
        match self {
            Moment::Before(_) => 0,
            Moment::Opening => 1,
            Moment::Session => 2,
            Moment::Closing => 3,
            Moment::Wrong => 4,
            Moment::Complete => 5,
        }
    }
}

/// The moments in words, each with what is found then.
const NAMES: [&str; 6] =
    ["as before", "1 while opening", "10 in the session", "10 while closing", "12", "complete"];

#[derive(Default)]
pub struct Counts {
    pub sessions: u64,
    pub calls: u64,
    found: [u64; NAMES.len()],
}

impl Counts {
    /// Counts one cut.
    pub fn add(&mut self, moment: Moment) {
        self.found[moment.index()] += 1;
    }

    /// The moments that were never met.
    pub fn missing(&self) -> Vec<&'static str> {
        let never = NAMES.into_iter().zip(self.found).filter(|&(_, times)| times == 0);
        never.map(|(name, _)| name).collect()
    }

    /// All of it in words.
    pub fn line(&self) -> String {
        let Counts { sessions, calls, found } = self;
        let cuts: u64 = found.iter().sum();
        let words = NAMES.into_iter().zip(found).map(|(name, times)| format!("{name}: {times}"));
        let words: Vec<String> = words.collect();
        format!("{sessions} sessions, {calls} calls, {cuts} cuts, found {}", words.join(", "))
    }
}
