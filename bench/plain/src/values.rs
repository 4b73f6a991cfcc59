//! The values that calls carry. The bytes of a transfer stand in the kernel's arena, and a span names them.

#[derive(Clone, Copy, PartialEq, Eq, Debug)]
#[repr(u8)]
pub enum Stage {
    Inband,
    Oob,
}

#[derive(Clone, Copy, PartialEq, Eq, Debug)]
#[repr(u8)]
pub enum Way {
    In,
    Out,
}

#[derive(Clone, Copy, PartialEq, Eq, Debug)]
pub enum Policy {
    Fifo(u8),
    Rr { prio: u8, slice: u64 },
    Quota { group: u16, prio: u8 },
    Weak(u8),
}

impl Policy {
    pub fn base(self) -> u16 {
        match self {
            Policy::Fifo(prio) | Policy::Rr { prio, .. } => 512 + u16::from(prio),
            Policy::Quota { prio, .. } => 256 + u16::from(prio),
            Policy::Weak(prio) => u16::from(prio),
        }
    }
}

#[derive(Clone, Copy, PartialEq, Eq, Debug)]
pub enum Take {
    Any,
    Of(u32),
    Exact(u32),
}

impl Take {
    /// What is taken of `bits`; 0 where it isn't satisfied.
    #[inline]
    pub fn of(self, bits: u32) -> u32 {
        match self {
            Take::Any => bits,
            Take::Of(mask) => bits & mask,
            Take::Exact(mask) => {
                if bits & mask == mask {
                    mask
                } else {
                    0
                }
            }
        }
    }
}

/// An optional date in 12 bytes, so that a call takes 24.
#[derive(Clone, Copy)]
#[repr(C, packed(4))]
pub struct Until {
    date: u64,
    timed: bool,
}

impl Until {
    pub const NEVER: Until = Until { date: 0, timed: false };
    pub fn at(date: u64) -> Until {
        Until { date, timed: true }
    }
    #[inline]
    pub fn get(self) -> Option<u64> {
        if self.timed {
            Some(self.date)
        } else {
            None
        }
    }
}

/// Bytes in the kernel's arena.
#[derive(Clone, Copy, PartialEq, Eq, Debug)]
pub struct Span {
    pub start: u32,
    pub len: u16,
}

#[derive(Clone, Copy, PartialEq, Eq)]
pub enum MutexKind {
    Normal,
    Recursive,
    Ceiling(u8),
}

pub struct Board {
    pub threads: u16,
    pub sems: Vec<u32>,
    pub flags: Vec<u32>,
    pub xbufs: Vec<(u16, u16)>,
    pub mutexes: Vec<MutexKind>,
    pub groups: Vec<u8>,
}
