//! Semaphores and flag groups.
use super::{Kernel, On, Sem};
use crate::limits::{NONE, SEM_MAXIMUM};
use crate::queue::at;
use crate::replies::{Packed, Refusal};
use crate::values::{Stage, Take, Until};

impl Kernel {
    #[inline]
    pub(super) fn try_get(&mut self, sem: u16) -> Packed {
        let count = &mut known!(self.sems.get_mut(usize::from(sem))).count;
        if *count == 0 {
            return Packed::refused(Refusal::Again);
        }
        *count -= 1;
        Packed::DONE
    }

    #[inline]
    pub(super) fn peek(&self, sem: u16) -> Packed {
        let Sem { count, waiters } = known!(self.sems.get(usize::from(sem)));
        Packed::count(if waiters.len > 0 { -i64::from(waiters.len) } else { i64::from(*count) })
    }

    #[inline]
    pub(super) fn peek_flags(&self, flags: u16) -> Packed {
        Packed::bits(known!(self.flags.get(usize::from(flags))).bits)
    }

    #[inline]
    pub(super) fn put(&mut self, number: u16) -> Packed {
        let sem = known!(self.sems.get_mut(usize::from(number)));
        if sem.waiters.len > 0 {
            let head = sem.waiters.head;
            sem.waiters.remove(&mut self.waits, head);
            self.end_wait(head, Packed::DONE);
        } else if sem.count < SEM_MAXIMUM {
            sem.count += 1;
        } else {
            return Packed::refused(Refusal::Range);
        }
        Packed::DONE
    }

    #[inline(always)]
    pub(super) fn begin_get(&mut self, caller: u16, number: u16, until: Until) -> Packed {
        let sem = known!(self.sems.get_mut(usize::from(number)));
        let thread = self.sched.thread(caller);
        if !thread.attached {
            return Packed::refused(Refusal::Invalid);
        }
        if thread.stage != Stage::Oob {
            return Packed::refused(Refusal::WrongStage);
        }
        if sem.count > 0 {
            sem.count -= 1;
            return self.served(caller, On::Sem(number), Packed::DONE);
        }
        sem.waiters.push_by_rank(&mut self.waits, caller, self.owners.rank(caller));
        self.blocked(caller, On::Sem(number), until)
    }

    #[inline(always)]
    pub(super) fn post_flags(&mut self, number: u16, bits: u32) -> Packed {
        let group = known!(self.flags.get_mut(usize::from(number)));
        if bits == 0 {
            return Packed::refused(Refusal::Invalid);
        }
        group.bits |= bits;
        if group.waiters.len > 0 {
            self.serve_flags(number);
        }
        Packed::DONE
    }

    pub(super) fn serve_flags(&mut self, number: u16) {
        let mut next = self.flags[usize::from(number)].waiters.head;
        while next != NONE {
            let thread = next;
            let wait = at(&mut self.waits, thread);
            next = wait.link.next;
            let On::Flags(_, kind) = wait.on else { return };
            let group = &mut self.flags[usize::from(number)];
            let taken = kind.of(group.bits);
            if taken != 0 {
                group.bits &= !taken;
                group.waiters.remove(&mut self.waits, thread);
                self.end_wait(thread, Packed::bits(taken));
                if self.flags[usize::from(number)].bits == 0 {
                    return;
                }
            }
        }
    }

    #[inline(always)]
    pub(super) fn begin_take(&mut self, caller: u16, number: u16, kind: Take, until: Until) -> Packed {
        let group = known!(self.flags.get_mut(usize::from(number)));
        sure!(mask_of(kind));
        let thread = self.sched.thread(caller);
        if !thread.attached {
            return Packed::refused(Refusal::Invalid);
        }
        if thread.stage != Stage::Oob {
            return Packed::refused(Refusal::WrongStage);
        }
        let taken = kind.of(group.bits);
        if taken != 0 {
            group.bits &= !taken;
            return self.served(caller, On::Flags(number, kind), Packed::bits(taken));
        }
        group.waiters.push_by_rank(&mut self.waits, caller, self.owners.rank(caller));
        self.blocked(caller, On::Flags(number, kind), until)
    }

    pub(super) fn try_take(&mut self, flags: u16, kind: Take) -> Packed {
        let bits = &mut known!(self.flags.get_mut(usize::from(flags))).bits;
        sure!(mask_of(kind));
        let taken = kind.of(*bits);
        if taken == 0 {
            return Packed::refused(Refusal::Again);
        }
        *bits &= !taken;
        Packed::bits(taken)
    }
}

#[inline]
pub(super) fn mask_of(kind: Take) -> Result<(), Refusal> {
    match kind {
        Take::Of(0) | Take::Exact(0) => Err(Refusal::Invalid),
        _ => Ok(()),
    }
}
