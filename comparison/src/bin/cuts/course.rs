//! Holds the course of one session, with the stores of each of its calls in the order that the papers give them.

use crate::both::{Answer, Both, Call};
use crate::cases::{Case, Closing, Request};
use crate::cut::{Cut, Store};
use crate::earlier::{bytes, Earlier};
use crate::moments::{Counts, Moment};
use comparison::{same, same_list};
use lapurmihi::raw::Plan;
use std::iter::once;

/// A session so far.
pub struct Course<'a> {
    case: &'a Case,
    plan: Plan,
    earlier: u32,
    both: Both,
}

impl<'a> Course<'a> {
    /// A session that is not opened yet.
    pub fn new(case: &'a Case, order: u32, format: u32, earlier: Earlier) -> Result<Self, String> {
        let Case { blocksize, k: planned, .. } = *case;
        let plan = Plan { order, version: 3, patch: -4, format, blocksize, planned };
        let both = earlier.image(case, plan);
        let both = both.map_err(|difference| format!("the earlier container, {difference}"))?;
        Ok(Course { case, plan, earlier: earlier.number(), both })
    }

    /// Cuts each call everywhere and then makes it; before and after them come calls that are refused.
    pub fn run(&mut self, counts: &mut Counts) -> Result<(), String> {
        self.refused_opening().map_err(|difference| format!("a refused opening, {difference}"))?;
        self.open(counts).map_err(|difference| format!("the opening, {difference}"))?;
        for (at, request) in self.case.requests.iter().enumerate() {
            self.write(at, request, counts)
                .map_err(|difference| format!("write {}, {difference}", at + 1))?;
        }
        self.close(counts).map_err(|difference| format!("the close, {difference}"))?;
        self.closed().map_err(|difference| format!("the closed session, {difference}"))?;
        counts.sessions += 1;
        Ok(())
    }

    fn opening(&self) -> Call<'a> {
        Call::Open { plan: self.plan, case: self.case, prefix: self.case.prefix }
    }

    /// Stores 0 into the mark's first byte, then all up to D by the offsets, and the `s` last.
    fn open(&mut self, counts: &mut Counts) -> Result<(), String> {
        let (call, d, earlier) = (self.opening(), self.case.d, self.earlier);
        let stores = |image: &[u8]| {
            let rest = (1..d).map(|at| (at, image[at]));
            once((0, 0)).chain(rest).chain(once((0, b's'))).collect()
        };
        self.cut(&call, (0, 0), stores, |made| Moment::of_opening(earlier, d, made), counts)
    }

    /// Stores the bytes in their order, where they are accepted.
    fn write(&mut self, at: usize, request: &Request, counts: &mut Counts) -> Result<(), String> {
        let &(task, length, number, place) = request;
        let bytes = bytes(at, length);
        let stored = if number == 0 { &bytes[..] } else { &[] };
        let stores = |_: &[u8]| (place..).zip(stored.iter().copied()).collect();
        let call = Call::Write { task, bytes: &bytes };
        self.cut(&call, (number, 0), stores, |_| Moment::Session, counts)
    }

    /// Stores META2, then maxchunks, then start_of_varheader.
    fn close(&mut self, counts: &mut Counts) -> Result<(), String> {
        let (fields, order) = (1076 + 16 * self.case.sizes.len(), self.plan.order);
        let closing = self.case.closings[self.plan.format as usize - 3];
        let Closing { meta2, stores, wrong } = closing;
        let moment = |made| Moment::of_closing(&closing, order, made);
        let twelve: Vec<_> = (0..=stores).filter(|&made| moment(made).number() == 12).collect();
        if twelve != wrong[order as usize] {
            return Err(format!("12 is found after {twelve:?} stores, by hand after {wrong:?}"));
        }

        let end = meta2 + stores - 12;
        let places = (meta2..end).chain(fields..fields + 12);
        let stores = |image: &[u8]| places.map(|at| (at, image[at])).collect();
        self.cut(&Call::Close, (0, end as u64), stores, moment, counts)
    }

    /// Cuts a call everywhere and then makes it. What it stores is taken from the image that the whole call leaves.
    fn cut(
        &mut self,
        call: &Call,
        wanted: Answer,
        stores: impl FnOnce(&[u8]) -> Vec<Store>,
        moment: impl Fn(usize) -> Moment,
        counts: &mut Counts,
    ) -> Result<(), String> {
        let cut = Cut::new(call, &self.both, wanted)?;
        cut.everywhere(&stores(&cut.after.ours.image), moment, counts)?;
        self.both = cut.after;
        counts.calls += 1;
        Ok(())
    }

    /// An opening that is lent one byte too few.
    fn refused_opening(&self) -> Result<(), String> {
        refused(&self.opening(), &self.both.clone().too_short(self.case), 18)
    }

    /// A write and a close of a session that is closed.
    fn closed(&self) -> Result<(), String> {
        refused(&Call::Write { task: 1, bytes: b"x" }, &self.both, 17)?;
        refused(&Call::Close, &self.both, 17)
    }
}

/// A call that is refused, whatever its budget, and then changes no byte and no cell.
fn refused(call: &Call, before: &Both, number: u32) -> Result<(), String> {
    for budget in [None, Some(0), Some(1), Some(u64::MAX)] {
        let mut both = before.clone();
        same("the answer", both.call(call, budget)?, (number, 0))?;
        same_list("the image", &both.ours.image, &before.ours.image)?;
        same_list("the table", &both.ours.table, &before.ours.table)?;
    }
    Ok(())
}
