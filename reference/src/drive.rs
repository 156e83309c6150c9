//! Holds the drive under a session: stores reach its image byte by byte in the order made, until a budget of them is spent.

/// An image to store into, and how many byte stores still reach it.
pub(crate) struct Drive<'a> {
    image: &'a mut [u8],
    left: u64,
}

impl<'a> Drive<'a> {
    /// A drive that the first `budget` byte stores reach.
    pub(crate) fn new(image: &'a mut [u8], budget: u64) -> Drive<'a> {
        Drive { image, left: budget }
    }

    /// Stores bytes from `at` on, the first of them first.
    pub(crate) fn put(&mut self, at: usize, bytes: &[u8]) {
        let reach = self.spend(bytes.len());
        self.image[at..at + reach].copy_from_slice(&bytes[..reach]);
    }

    /// Stores zeros from `at` up to `end`.
    pub(crate) fn clear(&mut self, at: usize, end: usize) {
        let reach = self.spend(end - at);
        self.image[at..at + reach].fill(0);
    }

    /// Spends so many stores, and gives how many of them reach the image; those that come later are lost.
    fn spend(&mut self, stores: usize) -> usize {
        let reach = usize::try_from(self.left).map_or(stores, |left| left.min(stores));
        self.left -= reach as u64;
        reach
    }
}
