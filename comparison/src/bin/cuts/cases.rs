//! Holds the sessions that are cut, with their numbers as the papers give them, worked out by hand.

/// A session, and where the papers put what it stores.
pub struct Case {
    pub name: &'static str,
    pub blocksize: u32,
    pub ranks: Vec<u64>,
    pub sizes: Vec<u64>,
    pub prefix: &'static [u8],
    pub k: u32,
    pub requests: Vec<Request>,
    /// The image that it needs: D + K·G + 8n(1+K).
    pub bytes: usize,
    /// D: its opening makes one store more.
    pub d: usize,
    /// In format 3, and in format 4.
    pub closings: [Closing; 2],
}

/// A write: the task, the number of bytes, the answer, and where the bytes go if there are any and it is 0.
pub type Request = (u64, usize, u32, usize);

/// How a session ends.
#[derive(Clone, Copy)]
pub struct Closing {
    /// Where META2 starts: D + maxchunks·G.
    pub meta2: usize,
    /// The stores of a close: 8n(1+maxchunks) for META2, 4 and 8.
    pub stores: usize,
    /// The stores after which start_of_varheader is neither 0 nor right: in little order, and in big.
    pub wrong: [&'static [usize]; 2],
}

pub fn all() -> [Case; 5] {
    [p12(), three(), large(), idle(), narrow()]
}

/// The same end in both formats, with a META2 whose start has one byte that is not 0.
fn ends(meta2: usize, stores: usize) -> [Closing; 2] {
    [Closing { meta2, stores, wrong: [&[], &[]] }; 2]
}

/// G is 1536, and one chunk holds all that is written: META2 is at 3072, which is 12 times 256.
fn p12() -> Case {
    Case {
        name: "P12's session",
        blocksize: 512,
        ranks: vec![0, 1],
        sizes: vec![500, 600],
        prefix: b"",
        k: 3,
        requests: vec![(1, 300, 0, 1536), (1, 200, 0, 1836), (1, 1, 0, 2036)],
        bytes: 6208,
        d: 1536,
        closings: ends(3072, 44),
    }
}

/// G is 2048, and the chunks start at 1536, 2048 and 3072, then at 3584, 4096 and 5120. Task 3 writes nothing; some requests are refused, and
/// one is empty. META2 is at 5632, which is 22 times 256.
fn three() -> Case {
    let chunks = [(2, 600, 0, 2048), (1, 100, 0, 1536), (1, 512, 0, 3584)];
    let none = [(3, 0, 0, 0), (4, 1, 14, 0), (3, 513, 15, 0), (1, 1, 16, 0)];
    let more = [(2, 424, 0, 2648), (2, 7, 0, 4096)];
    Case {
        name: "three tasks with a prefix",
        blocksize: 512,
        ranks: vec![7, 0, 2_147_483_647],
        sizes: vec![500, 600, 20],
        prefix: b"night/three.sion",
        k: 2,
        requests: chunks.into_iter().chain(none).chain(more).collect(),
        bytes: 5704,
        d: 1536,
        closings: ends(5632, 84),
    }
}

/// META2 is at 66,048, the least start with two bytes that are not 0: 2 times 256 and 1 times 65,536. Behind META2 and maxchunks, 20 stores,
/// the first of these two is in little order the second byte of the start, and in big its sixth.
fn large() -> Case {
    Case {
        name: "META2 at 66,048",
        blocksize: 512,
        ranks: vec![9],
        sizes: vec![64_512],
        prefix: b"large",
        k: 1,
        requests: vec![(1, 40, 0, 1536)],
        bytes: 66_064,
        d: 1536,
        closings: [Closing { meta2: 66_048, stores: 28, wrong: [&[22], &[26]] }; 2],
    }
}

/// Nothing is written: no block in format 3, and in format 4 one, of 4096 bytes.
fn idle() -> Case {
    let [closing, _] = ends(4096, 20);
    Case {
        name: "a task that writes nothing",
        blocksize: 4096,
        ranks: vec![5],
        sizes: vec![1],
        prefix: b"idle",
        k: 1,
        requests: vec![],
        bytes: 8208,
        d: 4096,
        closings: [closing, Closing { meta2: 8192, stores: 28, ..closing }],
    }
}

/// 28 tasks: META1 ends at 1536, and no zeros stand between it and the first chunk. G is 14,336, and META2 at 15,872, which is 62 times 256.
fn narrow() -> Case {
    Case {
        name: "28 tasks, whose META1 ends at D",
        blocksize: 512,
        ranks: (100..128).rev().collect(),
        sizes: (1..=28).collect(),
        prefix: &[7; 1024],
        k: 1,
        requests: vec![(28, 30, 0, 15_360), (1, 5, 0, 1536)],
        bytes: 16_320,
        d: 1536,
        closings: ends(15_872, 460),
    }
}
