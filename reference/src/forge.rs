//! Holds the making of sound containers from plans.

use reference::{capacity, close, open, write, Container, Layout, Order, Session};

/// What an opening is given, and the byte the image is filled with before it.
#[derive(Clone)]
pub struct Plan {
    pub order: Order,
    pub version: i32,
    pub patch: i32,
    pub format: u32,
    pub blocksize: u32,
    pub ranks: Vec<u64>,
    pub sizes: Vec<u64>,
    pub prefix: Vec<u8>,
    pub k: u32,
    pub background: u8,
}

impl Plan {
    /// A plan in version 3 with blocksize 512, ranks from 0 on, K = 32 for a few tasks and 2 for many.
    pub fn new(order: Order, sizes: &[u64]) -> Plan {
        let k = if sizes.len() < 4 { 32 } else { 2 };
        let (ranks, sizes) = ((0..sizes.len() as u64).collect(), sizes.to_vec());
        let (version, patch, format, blocksize) = (1, 7, 3, 512);
        let prefix = b"data/run.sion".to_vec();
        Plan { order, version, patch, format, blocksize, ranks, sizes, prefix, k, background: 0 }
    }

    /// What a chunk of a task, counted from 0, holds.
    pub fn capacity(&self, task: usize) -> u64 {
        capacity(self.blocksize, self.sizes[task])
    }

    /// The closed container after the given requests, of which refused ones count for nothing.
    pub fn build(&self, requests: &[(u64, Vec<u8>)]) -> Container {
        self.filled(|session, image, table| {
            for (task, bytes) in requests {
                let _ = write(session, image, table, *task, bytes);
            }
        })
    }

    /// The closed container that has these chunks, each begun for its own bytes, whatever was left of the one before; there is room for all.
    pub fn of_chunks(&self, chunks: &[(u64, Vec<u8>)]) -> Container {
        let (layout, n) = (Layout::new(self.blocksize, &self.sizes), self.sizes.len());
        let mut begun = vec![0; n];
        self.filled(|session, image, table| {
            for (task, bytes) in chunks {
                let task = *task as usize - 1;
                let chunk = begun[task];
                let start = layout.chunk(task, chunk) as usize;
                image[start..start + bytes.len()].copy_from_slice(bytes);
                table[chunk as usize * n + task] = bytes.len() as i64;
                begun[task] += 1;
                session.head.counts[task] = begun[task];
            }
        })
    }

    /// The container of a session that is opened, filled and closed.
    fn filled(&self, fill: impl FnOnce(&mut Session, &mut [u8], &mut [i64])) -> Container {
        let (n, k) = (self.sizes.len(), self.k);
        let need = Layout::new(self.blocksize, &self.sizes).end(u64::from(k));
        let (mut image, mut table) =
            (vec![self.background; need as usize], vec![0; n * k as usize]);
        let number = self.order.number();
        let Plan { version, patch, format, blocksize, ranks, sizes, prefix, .. } = self;
        let opened = open(
            number, *version, *patch, *format, *blocksize, ranks, sizes, prefix, k, &mut image,
            &mut table,
        );
        let mut session = opened.expect("plans are sound");
        fill(&mut session, &mut image, &mut table);
        let length = close(&mut session, &mut image, &table).expect("the session is open");
        image.truncate(length as usize);
        Container::new(image, self.order, n)
    }
}
