//! How a call is made: by families, and the commoner calls each by a function of its own.
use super::{Kernel, On};
use crate::calls::Call;
use crate::limits::LINES;
use crate::queue::at;
use crate::replies::{Packed, Refusal};

impl Kernel {
    #[inline(always)]
    pub(super) fn perform(&mut self, caller: u16, call: &Call) -> Packed {
        if caller >= self.count {
            return Packed::refused(Refusal::Unknown);
        }
        if !matches!(at(&mut self.waits, caller).on, On::Nothing) && !matches!(call, Call::Finish { .. }) {
            return Packed::refused(Refusal::Busy);
        }
        self.perform_on_lines(caller, call)
    }

    #[inline(always)]
    fn perform_on_lines(&mut self, caller: u16, call: &Call) -> Packed {
        match *call {
            Call::Request { line, stage, callback, tag } => self.request(line, stage, callback, tag),
            Call::Free { line, stage } => self.free(line, stage),
            Call::Arrive { line } => self.arrive(line),
            Call::Post { line, .. } if usize::from(line) >= LINES => Packed::refused(Refusal::Unknown),
            Call::Post { stage, line } => {
                self.post(stage, line);
                Packed::DONE
            }
            Call::Stall { stage } => self.stall(stage, true),
            Call::Unstall { stage } => self.stall(stage, false),
            _ => self.perform_on_clock(caller, call),
        }
    }

    #[inline(always)]
    fn perform_on_clock(&mut self, caller: u16, call: &Call) -> Packed {
        match *call {
            Call::Tick { delta } => self.tick(delta),
            Call::Now => Packed::number(self.now),
            Call::NewTimer { callback, tag } => self.new_timer(callback, tag),
            Call::StartTimer { timer, date, interval } => self.start_timer(timer, date, interval),
            Call::StopTimer { timer } => self.stop_timer(timer),
            Call::DropTimer { timer } => self.drop_timer(timer),
            Call::Overruns { timer } => self.overruns(timer),
            _ => self.perform_on_threads(caller, call),
        }
    }

    #[inline(always)]
    fn perform_on_threads(&mut self, caller: u16, call: &Call) -> Packed {
        match *call {
            Call::Attach { policy, stage } => self.attach(caller, policy, stage),
            Call::Detach => self.detach(caller),
            Call::SetPolicy { policy } => self.set_policy(caller, policy),
            Call::SetStage { stage } => self.set_stage(caller, stage),
            Call::Pick => Packed::chosen(self.sched.pick()),
            Call::RankOf { thread } => self.rank_of(thread),
            _ => self.perform_on_elements(caller, call),
        }
    }

    #[inline(always)]
    fn perform_on_elements(&mut self, caller: u16, call: &Call) -> Packed {
        match *call {
            Call::TryGet { sem } => self.try_get(sem),
            Call::Put { sem } => self.put(sem),
            Call::Peek { sem } => self.peek(sem),
            Call::TryTake { flags, kind } => self.try_take(flags, kind),
            Call::PostFlags { flags, bits } => self.post_flags(flags, bits),
            Call::PeekFlags { flags } => self.peek_flags(flags),
            Call::Write { xbuf, way, bytes } => self.write(caller, xbuf, way, bytes),
            Call::Read { xbuf, way, len } => self.read(caller, xbuf, way, len),
            Call::Room { xbuf, way } => self.room(xbuf, way),
            Call::Release { mutex } => self.release(caller, mutex),
            Call::Raise { mutex } => self.raise(caller, mutex),
            _ => self.perform_on_waits(caller, call),
        }
    }

    #[inline(always)]
    fn perform_on_waits(&mut self, caller: u16, call: &Call) -> Packed {
        match *call {
            Call::BeginGet { sem, until } => self.begin_get(caller, sem, until),
            Call::BeginTake { flags, kind, until } => self.begin_take(caller, flags, kind, until),
            Call::BeginWrite { xbuf, way, bytes, until } => self.begin_write(caller, xbuf, way, bytes, until),
            Call::BeginRead { xbuf, way, len, until } => self.begin_read(caller, xbuf, way, len, until),
            Call::Claim { mutex, owner, until } => self.claim(caller, mutex, owner, until),
            Call::Finish { keep } => self.finish(caller, keep),
            // All other calls are of the families above.
            _ => Packed::refused(Refusal::Invalid),
        }
    }

    // The commoner calls, each from its dispatch to its entry without a way back.

    #[inline(never)]
    pub(super) fn call_finish(&mut self, caller: u16, call: &Call) -> Packed {
        let reply = match *call {
            Call::Finish { keep } => self.finish(caller, keep),
            _ => Packed::refused(Refusal::Busy),
        };
        self.over(caller, call, reply)
    }

    #[inline(never)]
    pub(super) fn call_put(&mut self, caller: u16, call: &Call) -> Packed {
        let Call::Put { sem } = *call else { return self.apply_slowly(caller, call) };
        let reply = self.put(sem);
        self.over(caller, call, reply)
    }

    #[inline(never)]
    pub(super) fn call_arrive(&mut self, caller: u16, call: &Call) -> Packed {
        let Call::Arrive { line } = *call else { return self.apply_slowly(caller, call) };
        let reply = self.arrive(line);
        self.over(caller, call, reply)
    }

    #[inline(never)]
    pub(super) fn call_tick(&mut self, caller: u16, call: &Call) -> Packed {
        let Call::Tick { delta } = *call else { return self.apply_slowly(caller, call) };
        let reply = self.tick(delta);
        self.over(caller, call, reply)
    }

    #[inline(never)]
    pub(super) fn call_begin_get(&mut self, caller: u16, call: &Call) -> Packed {
        let Call::BeginGet { sem, until } = *call else { return self.apply_slowly(caller, call) };
        let reply = self.begin_get(caller, sem, until);
        self.over(caller, call, reply)
    }

    #[inline(never)]
    pub(super) fn call_post_flags(&mut self, caller: u16, call: &Call) -> Packed {
        let Call::PostFlags { flags, bits } = *call else { return self.apply_slowly(caller, call) };
        let reply = self.post_flags(flags, bits);
        self.over(caller, call, reply)
    }

    #[inline(never)]
    pub(super) fn call_begin_take(&mut self, caller: u16, call: &Call) -> Packed {
        let Call::BeginTake { flags, kind, until } = *call else { return self.apply_slowly(caller, call) };
        let reply = self.begin_take(caller, flags, kind, until);
        self.over(caller, call, reply)
    }

    #[inline(never)]
    pub(super) fn call_write(&mut self, caller: u16, call: &Call) -> Packed {
        let Call::Write { xbuf, way, bytes } = *call else { return self.apply_slowly(caller, call) };
        let reply = self.write(caller, xbuf, way, bytes);
        self.over(caller, call, reply)
    }

    #[inline(never)]
    pub(super) fn call_read(&mut self, caller: u16, call: &Call) -> Packed {
        let Call::Read { xbuf, way, len } = *call else { return self.apply_slowly(caller, call) };
        let reply = self.read(caller, xbuf, way, len);
        self.over(caller, call, reply)
    }

    #[inline(never)]
    pub(super) fn call_claim(&mut self, caller: u16, call: &Call) -> Packed {
        let Call::Claim { mutex, owner, until } = *call else { return self.apply_slowly(caller, call) };
        let reply = self.claim(caller, mutex, owner, until);
        self.over(caller, call, reply)
    }

    #[inline(never)]
    pub(super) fn call_release(&mut self, caller: u16, call: &Call) -> Packed {
        let Call::Release { mutex } = *call else { return self.apply_slowly(caller, call) };
        let reply = self.release(caller, mutex);
        self.over(caller, call, reply)
    }

    #[inline(never)]
    pub(super) fn call_set_stage(&mut self, caller: u16, call: &Call) -> Packed {
        let Call::SetStage { stage } = *call else { return self.apply_slowly(caller, call) };
        let reply = self.set_stage(caller, stage);
        self.over(caller, call, reply)
    }
}
