//! How a wait begins, and what ends it.
use super::{Kernel, On};
use crate::limits::TIMERS;
use crate::queue::at;
use crate::replies::{Packed, Refusal};
use crate::values::{Policy, Stage, Until};

impl Kernel {
    #[inline]
    pub(super) fn served(&mut self, caller: u16, on: On, reply: Packed) -> Packed {
        let wait = at(&mut self.waits, caller);
        (wait.on, wait.ended) = (on, reply);
        Packed::BEGUN
    }

    #[inline]
    pub(super) fn blocked(&mut self, caller: u16, on: On, until: Until) -> Packed {
        let wait = at(&mut self.waits, caller);
        (wait.on, wait.ended) = (on, Packed::BEGUN);
        self.sched.leave(caller);
        if let Some(date) = until.get() {
            wait.timed = true;
            self.due.set(TIMERS as u16 + caller, date);
            if date <= self.now {
                self.oob.insert(0);
            }
        }
        Packed::BEGUN
    }

    #[inline]
    pub(super) fn end_wait(&mut self, thread: u16, reply: Packed) {
        let wait = at(&mut self.waits, thread);
        wait.ended = reply;
        if wait.timed {
            wait.timed = false;
            self.due.remove(TIMERS as u16 + thread);
        }
        self.sched.wake(thread);
    }

    #[inline(always)]
    pub(super) fn finish(&mut self, caller: u16, keep: bool) -> Packed {
        let wait = at(&mut self.waits, caller);
        if matches!(wait.on, On::Nothing) {
            return Packed::refused(Refusal::Invalid);
        }
        let reply = wait.ended;
        if reply == Packed::BEGUN {
            return Packed::refused(Refusal::Again);
        }
        let got_mutex = matches!(wait.on, On::Mutex) && reply != Packed::TIMED_OUT;
        wait.on = On::Nothing;
        if let Policy::Weak(_) = self.sched.thread(caller).policy {
            if !keep && !got_mutex {
                self.sched.set_stage(caller, Stage::Inband);
            }
        }
        reply
    }
}
