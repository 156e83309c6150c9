//! Holds a closed pair with the fields of both files by name, and copies of it that are damaged by setting them.

use super::{close, needs, open, write};
use crate::{Container, Field, Order, Plan};

/// Both files of a closed pair; the mapping's fields are those of file 0.
#[derive(Clone)]
pub struct Forged {
    pub files: [Container; 2],
}

impl Forged {
    /// The closed pair of a session of these plans after the requests, of which refused ones count for nothing; an opening's refusal if it
    /// refuses the plans. Each image has this byte everywhere before.
    pub fn new(
        plans: &[Plan; 2],
        background: u8,
        requests: &[(u64, Vec<u8>)],
    ) -> Result<Forged, u32> {
        let needs = needs(plans)?;
        let [mut image, mut other] = needs.map(|needs| vec![background; needs.image as usize]);
        let [mut table, mut cells] = needs.map(|needs| vec![0; needs.cells as usize]);
        let mut sessions = open(plans, [&mut image, &mut other], [&mut table, &mut cells])?;
        for (rank, bytes) in requests {
            let (images, tables) = ([&mut image[..], &mut other], [&mut table[..], &mut cells]);
            let _ = write(&mut sessions, images, tables, *rank, bytes);
        }
        let lengths = close(&mut sessions, [&mut image, &mut other], [&table, &cells])?;
        image.truncate(lengths[0] as usize);
        other.truncate(lengths[1] as usize);
        let orders = plans.map(|plan| Order::from_number(plan.order).ok_or(2u32));
        let [n, others] = plans.map(|plan| plan.sizes.len());
        let file = Container::new(image, orders[0]?, n);
        Ok(Forged { files: [file, Container::new(other, orders[1]?, others)] })
    }

    /// Both images.
    pub fn images(&self) -> [&[u8]; 2] {
        [&self.files[0].bytes, &self.files[1].bytes]
    }

    /// A copy in which one file is changed.
    pub fn changed(&self, file: usize, change: impl FnOnce(&Container) -> Container) -> Forged {
        let mut copy = self.clone();
        copy.files[file] = change(&self.files[file]);
        copy
    }

    /// A copy with one field of one file set.
    pub fn with(&self, file: usize, field: Field, value: i64) -> Forged {
        self.changed(file, |container| container.with(field, value))
    }
}
