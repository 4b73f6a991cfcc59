//! One way of a cross-buffer.
use crate::limits::MAX_TRANSFER;
use crate::queue::Queue;
use crate::values::Span;

/// One way of a cross-buffer. What was written stands in the arena with its call anyway, so the ring has no bytes but
/// the pieces of the arena that aren't read yet; a read that ends within the first piece copies nothing.
pub(super) struct Stream {
    /// Bytes that aren't read yet.
    pub(super) len: u16,
    pub(super) size: u16,
    pub(super) pieces: u16,
    pub(super) first: u8,
    pub(super) readers: Queue,
    pub(super) writers: Queue,
    pub(super) ring: [Span; MAX_TRANSFER],
}

impl Stream {
    pub(super) fn new(size: u16) -> Stream {
        let none = Span { start: 0, len: 0 };
        Stream {
            len: 0,
            size,
            pieces: 0,
            first: 0,
            readers: Queue::EMPTY,
            writers: Queue::EMPTY,
            ring: [none; MAX_TRANSFER],
        }
    }

    pub(super) fn fits(&self, len: u16) -> bool {
        self.len + len <= self.size
    }

    pub(super) fn can_write(&self, len: u16) -> bool {
        len == 0 || self.writers.len == 0 && self.fits(len)
    }

    #[inline]
    pub(super) fn write(&mut self, bytes: Span) {
        if bytes.len > 0 {
            self.ring[usize::from(self.first.wrapping_add(self.pieces as u8))] = bytes;
            self.pieces += 1;
            self.len += bytes.len;
        }
    }

    /// The next bytes, at most `len`.
    #[inline]
    pub(super) fn read(&mut self, len: u16, arena: &mut Vec<u8>) -> Span {
        let len = len.min(self.len);
        let piece = &mut self.ring[usize::from(self.first)];
        if len > piece.len {
            return self.gather(len, arena);
        }
        let span = Span { start: piece.start, len };
        self.len -= len;
        if len < piece.len {
            piece.start += u32::from(len);
            piece.len -= len;
        } else if len > 0 {
            self.pieces -= 1;
            self.first = self.first.wrapping_add(1);
        }
        span
    }

    /// Reads over several pieces, whose bytes go to the end of the arena.
    pub(super) fn gather(&mut self, len: u16, arena: &mut Vec<u8>) -> Span {
        let start = arena.len() as u32;
        let mut left = len;
        while left > 0 {
            let first = self.ring[usize::from(self.first)].len;
            let Span { start, len } = self.read(left.min(first), arena);
            arena.extend_from_within(start as usize..start as usize + usize::from(len));
            left -= len;
        }
        Span { start, len }
    }
}
