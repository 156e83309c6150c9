//! Holds the two byte orders and how signed numbers are taken from and put into bytes by them.

/// The byte order of a container, never that of the computer.
#[derive(Clone, Copy, Debug, PartialEq, Eq)]
pub enum Order {
    Little,
    Big,
}

impl Order {
    /// The order a record names: 0 little, 1 big, anything else none.
    pub fn from_number(number: u32) -> Option<Order> {
        match number {
            0 => Some(Order::Little),
            1 => Some(Order::Big),
            _ => None,
        }
    }

    /// The number that names this order in a record.
    pub fn number(self) -> u32 {
        match self {
            Order::Little => 0,
            Order::Big => 1,
        }
    }

    /// The 4-byte number at `at`; 0 where the bytes do not reach.
    pub fn int(self, bytes: &[u8], at: usize) -> i32 {
        let field = array(bytes, at);
        match self {
            Order::Little => i32::from_le_bytes(field),
            Order::Big => i32::from_be_bytes(field),
        }
    }

    /// The 8-byte number at `at`; 0 where the bytes do not reach.
    pub fn long(self, bytes: &[u8], at: usize) -> i64 {
        let field = array(bytes, at);
        match self {
            Order::Little => i64::from_le_bytes(field),
            Order::Big => i64::from_be_bytes(field),
        }
    }

    /// All 8-byte numbers of `bytes`, one after the other.
    pub fn longs(self, bytes: &[u8]) -> impl Iterator<Item = i64> + '_ {
        bytes.chunks_exact(8).map(move |field| self.long(field, 0))
    }

    /// The bytes of a 4-byte number.
    pub fn int_bytes(self, value: i32) -> [u8; 4] {
        match self {
            Order::Little => value.to_le_bytes(),
            Order::Big => value.to_be_bytes(),
        }
    }

    /// The bytes of an 8-byte number.
    pub fn long_bytes(self, value: i64) -> [u8; 8] {
        match self {
            Order::Little => value.to_le_bytes(),
            Order::Big => value.to_be_bytes(),
        }
    }

    /// Puts a 4-byte number at `at`; does nothing where the bytes do not reach.
    pub fn put_int(self, bytes: &mut [u8], at: usize, value: i32) {
        put(bytes, at, self.int_bytes(value));
    }

    /// Puts an 8-byte number at `at`; does nothing where the bytes do not reach.
    pub fn put_long(self, bytes: &mut [u8], at: usize, value: i64) {
        put(bytes, at, self.long_bytes(value));
    }
}

fn array<const N: usize>(bytes: &[u8], at: usize) -> [u8; N] {
    let field = bytes.get(at..).and_then(|rest| rest.first_chunk());
    field.copied().unwrap_or([0; N])
}

fn put<const N: usize>(bytes: &mut [u8], at: usize, value: [u8; N]) {
    if let Some(field) = bytes.get_mut(at..).and_then(|rest| rest.first_chunk_mut()) {
        *field = value;
    }
}
