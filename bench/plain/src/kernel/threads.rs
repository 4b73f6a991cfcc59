//! Threads and their policies.
use super::Kernel;
use crate::limits::SECOND;
use crate::replies::{Packed, Refusal};
use crate::values::{Policy, Stage};

impl Kernel {
    #[inline]
    pub(super) fn needs_attached(&self, caller: u16) -> Result<(), Refusal> {
        if self.sched.thread(caller).attached {
            Ok(())
        } else {
            Err(Refusal::Invalid)
        }
    }

    #[inline]
    pub(super) fn rank_of(&self, thread: u16) -> Packed {
        if thread >= self.count {
            return Packed::refused(Refusal::Unknown);
        }
        sure!(self.needs_attached(thread));
        Packed::number(u64::from(self.owners.rank(thread)).into())
    }

    #[inline]
    pub(super) fn needs_oob(&self, caller: u16) -> Result<(), Refusal> {
        if self.sched.thread(caller).stage == Stage::Oob {
            Ok(())
        } else {
            Err(Refusal::WrongStage)
        }
    }

    pub(super) fn check_policy(&self, policy: Policy) -> Result<(), Refusal> {
        let good = match policy {
            Policy::Fifo(prio) => (1..=99).contains(&prio),
            Policy::Rr { prio, slice } => (1..=99).contains(&prio) && (1..=SECOND).contains(&slice),
            Policy::Quota { group, .. } if usize::from(group) >= self.sched.groups() => return Err(Refusal::Unknown),
            Policy::Quota { prio, .. } => (1..=99).contains(&prio),
            Policy::Weak(prio) => prio <= 99,
        };
        if good {
            Ok(())
        } else {
            Err(Refusal::Range)
        }
    }

    pub(super) fn attach(&mut self, caller: u16, policy: Policy, stage: Stage) -> Packed {
        sure!(self.check_policy(policy));
        if self.sched.thread(caller).attached {
            return Packed::refused(Refusal::Busy);
        }
        let sched = &mut self.sched;
        self.owners.set_base(caller, policy.base(), &mut |thread, rank| sched.boost(thread, rank));
        self.sched.attach(caller, policy, stage);
        Packed::DONE
    }

    pub(super) fn detach(&mut self, caller: u16) -> Packed {
        sure!(self.needs_attached(caller));
        if self.owners.owns_some(caller) {
            return Packed::refused(Refusal::Busy);
        }
        self.sched.detach(caller);
        Packed::DONE
    }

    pub(super) fn set_policy(&mut self, caller: u16, policy: Policy) -> Packed {
        sure!(self.check_policy(policy));
        sure!(self.needs_attached(caller));
        let sched = &mut self.sched;
        self.owners.set_base(caller, policy.base(), &mut |thread, rank| sched.boost(thread, rank));
        self.sched.set_policy(caller, policy);
        Packed::DONE
    }

    #[inline(always)]
    pub(super) fn set_stage(&mut self, caller: u16, stage: Stage) -> Packed {
        sure!(self.needs_attached(caller));
        self.sched.set_stage(caller, stage);
        Packed::DONE
    }
}
