//! Callbacks, and those of the program.
use crate::values::Stage;

/// What a callback is told; those of the program look at the count alone.
#[allow(dead_code)]
#[derive(Clone, Copy)]
pub struct Fire {
    pub line: u16,
    pub stage: Stage,
    pub tag: u32,
    pub count: u64,
    pub moment: u64,
}

#[derive(Clone, Copy)]
pub enum Action {
    PostSem(u16),
    PostFlags(u16, u32),
    Propagate,
    PostOob(u16),
    StopTimer(u16),
}

#[derive(Clone, Copy)]
pub struct Answer {
    pub handled: bool,
    len: u8,
    actions: [Action; 4],
}

impl Answer {
    pub const HANDLED: Answer = Answer { handled: true, len: 0, actions: [Action::Propagate; 4] };
    pub const NONE: Answer = Answer { handled: false, ..Answer::HANDLED };

    #[inline]
    pub fn one(action: Action) -> Answer {
        Answer { handled: true, len: 1, actions: [action, Action::Propagate, Action::Propagate, Action::Propagate] }
    }

    #[inline]
    pub fn len(&self) -> usize {
        usize::from(self.len)
    }

    #[inline]
    pub fn action(&self, at: usize) -> &Action {
        &self.actions[at % 4]
    }
}

pub const POST_SEM: u8 = 1;
pub const POST_FLAGS: u8 = 2;
pub const PROPAGATE: u8 = 4;
pub const POST_OOB: u8 = 8;
pub const STOP_TIMER: u8 = 16;

pub struct Callback {
    pub kinds: u8,
    pub run: Box<dyn Fn(Fire) -> Answer + Send>,
}

impl Callback {
    pub fn new(kinds: u8, run: impl Fn(Fire) -> Answer + Send + 'static) -> Callback {
        Callback { kinds, run: Box::new(run) }
    }
}

/// The eight callbacks of the program.
pub fn program_bank() -> Vec<Callback> {
    vec![
        Callback::new(0, |_| Answer::HANDLED),
        Callback::new(POST_SEM, |_| Answer::one(Action::PostSem(0))),
        Callback::new(
            POST_SEM,
            |fire| if fire.count % 2 == 0 { Answer::one(Action::PostSem(0)) } else { Answer::HANDLED },
        ),
        Callback::new(PROPAGATE, |_| Answer::one(Action::Propagate)),
        Callback::new(POST_OOB, |_| Answer::one(Action::PostOob(4))),
        Callback::new(POST_FLAGS, |_| Answer::one(Action::PostFlags(0, 1))),
        Callback::new(
            STOP_TIMER,
            |fire| if fire.count % 2 == 0 { Answer::one(Action::StopTimer(0)) } else { Answer::NONE },
        ),
        Callback::new(0, |_| Answer::HANDLED),
    ]
}
