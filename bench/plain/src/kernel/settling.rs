//! Lines, and the plays behind a call.
use super::Kernel;
use crate::callbacks::{Action, Answer, Fire, POST_OOB, PROPAGATE};
use crate::calls::Play;
use crate::limits::{LINES, MAX_INBAND};
use crate::lines::{Side, CLOCK, FREE};
use crate::replies::{Packed, Refusal};
use crate::values::Stage;

impl Kernel {
    #[inline(always)]
    pub(super) fn arrive(&mut self, line: u16) -> Packed {
        if usize::from(line) >= LINES {
            return Packed::refused(Refusal::Unknown);
        }
        if self.oob.callbacks[usize::from(line)] != FREE {
            self.oob.insert(line.into());
        } else {
            self.post(Stage::Inband, line);
        }
        Packed::DONE
    }

    #[inline]
    pub(super) fn side(&mut self, stage: Stage) -> &mut Side {
        if stage == Stage::Oob {
            &mut self.oob
        } else {
            &mut self.inband
        }
    }

    pub(super) fn request(&mut self, line: u16, stage: Stage, callback: u8, tag: u32) -> Packed {
        let place = known!(self.bank.get_mut(usize::from(callback)));
        if usize::from(line) >= LINES {
            return Packed::refused(Refusal::Unknown);
        }
        let (side, forbidden) = match stage {
            Stage::Oob => (&mut self.oob, POST_OOB),
            Stage::Inband => (&mut self.inband, PROPAGATE),
        };
        if line == 0 || place.kinds & forbidden != 0 {
            return Packed::refused(Refusal::Invalid);
        }
        if side.callbacks[usize::from(line)] != FREE || place.is_out {
            return Packed::refused(Refusal::Busy);
        }
        side.callbacks[usize::from(line)] = callback;
        (place.is_out, place.count, place.tag) = (true, 0, tag);
        Packed::DONE
    }

    pub(super) fn free(&mut self, line: u16, stage: Stage) -> Packed {
        if usize::from(line) >= LINES {
            return Packed::refused(Refusal::Unknown);
        }
        if line == 0 {
            return Packed::refused(Refusal::Invalid);
        }
        let side = self.side(stage);
        let callback = std::mem::replace(&mut side.callbacks[usize::from(line)], FREE);
        if callback == FREE {
            return Packed::refused(Refusal::Unknown);
        }
        side.remove(line.into());
        self.bank[usize::from(callback)].is_out = false;
        Packed::DONE
    }

    /// `line` is a line.
    #[inline]
    pub(super) fn post(&mut self, stage: Stage, line: u16) {
        let side = self.side(stage);
        if side.callbacks[usize::from(line) % LINES] != FREE {
            side.insert(line.into());
        } else {
            let spurious = &mut self.spurious[usize::from(line) % LINES];
            *spurious = spurious.saturating_add(1);
        }
    }

    #[inline]
    pub(super) fn settle(&mut self) {
        if self.oob.stalled {
            return;
        }
        let mut inband_plays = 0;
        loop {
            if self.oob.summary != 0 {
                self.play_line::<true>();
            } else if self.inband.summary != 0
                && inband_plays < MAX_INBAND
                && !self.inband.stalled
                && self.sched.none_eligible()
            {
                inband_plays += 1;
                self.play_line::<false>();
            } else {
                return;
            }
        }
    }

    /// Plays the least pending line of a stage.
    #[inline(always)]
    pub(super) fn play_line<const OOB: bool>(&mut self) {
        let (side, stage) = if OOB { (&mut self.oob, Stage::Oob) } else { (&mut self.inband, Stage::Inband) };
        let line = side.pop();
        let callback = side.callbacks[line];
        if OOB && callback == CLOCK {
            return self.play_clock();
        }
        let place = &mut self.bank[usize::from(callback)];
        place.count = place.count.saturating_add(1);
        let count = place.count;
        let answer = (place.run)(Fire { line: line as u16, stage, tag: place.tag, count, moment: self.now });
        self.plays.push(Play::Line { line: line as u16, stage, handled: answer.handled, count });
        if answer.handled {
            self.carry_out(&answer, line as u16);
        } else {
            let unhandled = &mut side.unhandled[line];
            *unhandled = unhandled.saturating_add(1);
        }
    }

    /// `line` is the line that is played; of a timer there are no posts.
    #[inline(always)]
    pub(super) fn carry_out(&mut self, answer: &Answer, line: u16) {
        for at in 0..answer.len() {
            // By reference: an action is written by its parts, and a load of all of it would wait for their stores.
            match answer.action(at) {
                Action::Propagate => self.post(Stage::Inband, line),
                Action::PostOob(other) if usize::from(*other) < LINES => self.post(Stage::Oob, *other),
                action => self.carry_out_other(action),
            }
        }
    }

    #[inline(never)]
    pub(super) fn carry_out_other(&mut self, action: &Action) {
        // What would be refused does nothing.
        match *action {
            Action::PostSem(sem) => drop(self.put(sem)),
            Action::PostFlags(flags, bits) => drop(self.post_flags(flags, bits)),
            Action::StopTimer(timer) => drop(self.stop_timer(timer)),
            Action::Propagate | Action::PostOob(_) => {}
        }
    }

    pub(super) fn stall(&mut self, stage: Stage, is_stalled: bool) -> Packed {
        self.side(stage).stalled = is_stalled;
        Packed::DONE
    }
}
