//! Lines of one stage: which are pending (a bitmap with a summary word), and which callback of the bank stands on each.
use crate::limits::LINES;

const WORDS: usize = LINES / 64;

/// No callback on this line.
pub const FREE: u8 = u8::MAX;
/// The clock's line counts as having a callback.
pub const CLOCK: u8 = u8::MAX - 1;

pub struct Side {
    pub stalled: bool,
    pub summary: u64,
    words: [u64; WORDS],
    pub callbacks: [u8; LINES],
    pub unhandled: Box<[u64]>,
}

impl Side {
    pub fn new() -> Side {
        Side {
            stalled: false,
            summary: 0,
            words: [0; WORDS],
            callbacks: [FREE; LINES],
            unhandled: vec![0; LINES].into_boxed_slice(),
        }
    }

    #[inline]
    pub fn insert(&mut self, line: usize) {
        let word = line / 64 % WORDS;
        self.words[word] |= 1 << (line % 64);
        self.summary |= 1 << word;
    }

    #[inline]
    pub fn remove(&mut self, line: usize) {
        let word = line / 64 % WORDS;
        self.words[word] &= !(1 << (line % 64));
        if self.words[word] == 0 {
            self.summary &= !(1 << word);
        }
    }

    /// Takes the least pending line out; there is one.
    #[inline(always)]
    pub fn pop(&mut self) -> usize {
        let word = self.summary.trailing_zeros() as usize % WORDS;
        let bits = self.words[word];
        let left = bits & bits.wrapping_sub(1);
        self.words[word] = left;
        if left == 0 {
            self.summary &= self.summary - 1;
        }
        word * 64 + bits.trailing_zeros() as usize % 64
    }
}
