//! Recorded owners, and the ranks that they hand on.
use super::{Kernel, On};
use crate::replies::{Packed, Refusal};
use crate::values::Until;

impl Kernel {
    #[inline(always)]
    pub(super) fn claim(&mut self, caller: u16, mutex: u16, owner: u16, until: Until) -> Packed {
        if !self.owners.knows(mutex) || owner >= self.count {
            return Packed::refused(Refusal::Unknown);
        }
        sure!(self.needs_attached(caller));
        sure!(self.needs_attached(owner));
        if owner == caller || self.owners.owner(mutex).is_some_and(|recorded| recorded != owner) {
            return Packed::refused(Refusal::Invalid);
        }
        sure!(self.needs_oob(caller));
        let sched = &mut self.sched;
        sure!(self.owners.claim(mutex, caller, owner, &mut |thread, rank| sched.boost(thread, rank)));
        self.blocked(caller, On::Mutex, until)
    }

    #[inline(always)]
    pub(super) fn release(&mut self, caller: u16, mutex: u16) -> Packed {
        if !self.owners.knows(mutex) {
            return Packed::refused(Refusal::Unknown);
        }
        let sched = &mut self.sched;
        let (next, more) = sure!(self.owners.release(mutex, caller, &mut |thread, rank| sched.boost(thread, rank)));
        if let Some(thread) = next {
            self.end_wait(thread, Packed::DONE);
        }
        Packed::handed(next, more)
    }

    pub(super) fn raise(&mut self, caller: u16, mutex: u16) -> Packed {
        if !self.owners.knows(mutex) {
            return Packed::refused(Refusal::Unknown);
        }
        if !self.owners.has_ceiling(mutex) {
            return Packed::refused(Refusal::Invalid);
        }
        sure!(self.needs_attached(caller));
        let sched = &mut self.sched;
        sure!(self.owners.raise(mutex, caller, &mut |thread, rank| sched.boost(thread, rank)));
        Packed::DONE
    }
}
