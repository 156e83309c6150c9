//! Holds the cuts of one call: after each of its byte stores, with what is found then held to the papers.

use crate::both::{Answer, Both, Call};
use crate::moments::{Counts, Moment};
use comparison::{same, same_list};

/// A byte store: where, and what.
pub type Store = (usize, u8);

/// A call that is cut: what it starts from, what it answers, and what it leaves when it is not cut.
pub struct Cut<'a> {
    call: &'a Call<'a>,
    before: &'a Both,
    answer: Answer,
    pub after: Both,
}

impl<'a> Cut<'a> {
    /// Makes the whole call, which has this answer by the papers.
    pub fn new(call: &'a Call<'a>, before: &'a Both, wanted: Answer) -> Result<Cut<'a>, String> {
        let mut after = before.clone();
        let answer = after.call(call, None)?;
        same("the answer by the papers", answer, wanted)?;
        Ok(Cut { call, before, answer, after })
    }

    /// Cuts the call after each of its stores, and once more where none is left. They are the papers', in the order in which they are made.
    pub fn everywhere(
        &self,
        stores: &[Store],
        moment: impl Fn(usize) -> Moment,
        counts: &mut Counts,
    ) -> Result<(), String> {
        let (mut found, mut image) = (self.before.clone(), self.before.ours.image.clone());
        for made in 0..=stores.len() + 1 {
            if let Some(&(at, byte)) = made.checked_sub(1).and_then(|last| stores.get(last)) {
                image[at] = byte;
            }
            self.within(&mut found, made as u64)
                .and_then(|()| same_list("the image by the papers", &found.ours.image, &image))
                .and_then(|()| self.judge(&found, moment(made)))
                .and_then(|()| self.again(&mut found))
                .map_err(|difference| format!("{made} of {} stores, {difference}", stores.len()))?;
            counts.add(moment(made));
        }
        self.within(&mut found, u64::MAX)
            .and_then(|()| self.whole(&found))
            .map_err(|difference| format!("the greatest budget, {difference}"))
    }

    /// Makes the call within a budget: answer, record and table are the whole call's.
    fn within(&self, found: &mut Both, budget: u64) -> Result<(), String> {
        found.copy(self.before);
        same("the answer of a cut call", found.call(self.call, Some(budget))?, self.answer)?;
        found.same_but_image(&self.after)
    }

    /// What a load gives of what is found.
    fn judge(&self, found: &Both, moment: Moment) -> Result<(), String> {
        same(&format!("the load of {moment:?}"), found.load()?, moment.number())?;
        match moment {
            Moment::Complete => self.whole(found),
            _ => Ok(()),
        }
    }

    /// Makes the call again, over what is found, from the record and the table before it: all is as if it had never been cut.
    fn again(&self, found: &mut Both) -> Result<(), String> {
        found.back_to(self.before);
        same("the answer of a call made again", found.call(self.call, None)?, self.answer)?;
        self.whole(found).map_err(|difference| format!("made again, {difference}"))
    }

    /// All is as the whole call leaves it.
    fn whole(&self, found: &Both) -> Result<(), String> {
        found.same_but_image(&self.after)?;
        same_list("the whole image", &found.ours.image, &self.after.ours.image)
    }
}
