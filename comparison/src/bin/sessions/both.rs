//! Holds the one way in which every call is made: on both sides, which have to agree in the answer and in all that they leave.

use crate::call::{Answer, Call};
use crate::memory::Memory;
use crate::same::{same, same_lent, same_memory};
use crate::{library, second};

impl Memory {
    /// Makes the call on both sides, and gives the answer; the memory is then what both have left.
    pub fn call(&mut self, call: &Call) -> Result<Answer, String> {
        let before = self.clone();
        let mut ours = self.for_library();
        let answer = library::answer(call, &mut ours);
        let wanted = second::answer(call, self);
        same("the answer", answer, wanted)
            .and_then(|()| same_memory(&ours, self))
            .and_then(|()| match answer.refusal {
                0 => Ok(()),
                _ => same_lent(&ours, &before).map_err(|place| format!("after a refusal, {place}")),
            })
            .map_err(|difference| format!("{call:?}, {}, {difference}", before.lengths()))?;
        Ok(answer)
    }

    /// How much a call is lent, in words.
    fn lengths(&self) -> String {
        let (bytes, cells, buffer) = (self.image.length, self.table.length, self.buffer.length);
        format!("lent {bytes} bytes, {cells} cells and a buffer of {buffer} bytes")
    }
}
