//! The clock, its timers, and what falls due.
use super::{Kernel, On, Timer, TimerState};
use crate::callbacks::{Fire, POST_OOB, PROPAGATE};
use crate::calls::Play;
use crate::limits::{SECOND, TIMERS};
use crate::queue::at;
use crate::replies::{Packed, Refusal};
use crate::values::Stage;

impl Kernel {
    #[inline(never)]
    pub(super) fn play_clock(&mut self) {
        self.plays.push(Play::Clock);
        while let Some(slot) = self.due.first(self.now) {
            if usize::from(slot) < TIMERS {
                self.fire_timer(slot);
            } else {
                self.time_out(slot - TIMERS as u16);
            }
        }
    }

    pub(super) fn fire_timer(&mut self, number: u16) {
        let timer = &mut self.timers[usize::from(number)];
        let mut missed = 0;
        if timer.interval > 0 {
            let late = self.now - timer.date;
            if late >= timer.interval {
                missed = late / timer.interval;
            }
            let step = missed.checked_add(1).and_then(|periods| timer.interval.checked_mul(periods));
            let next = step.and_then(|step| timer.date.checked_add(step));
            if let Some(date) = next {
                timer.date = date;
                self.due.set(number, date);
            } else {
                timer.state = TimerState::Ended;
                self.due.remove(number);
            }
        } else {
            timer.state = TimerState::Idle;
            self.due.remove(number);
        }
        timer.overruns = timer.overruns.saturating_add(missed);
        let place = &mut self.bank[usize::from(timer.callback)];
        place.count = place.count.saturating_add(1);
        let count = place.count;
        let answer = (place.run)(Fire { line: 0, stage: Stage::Oob, tag: place.tag, count, moment: self.now });
        self.plays.push(Play::Timer { timer: number as u8, handled: answer.handled, count, missed });
        if answer.handled {
            self.carry_out(&answer, 0);
        }
    }

    pub(super) fn time_out(&mut self, thread: u16) {
        self.plays.push(Play::Deadline { thread });
        self.end_wait(thread, Packed::TIMED_OUT);
        match at(&mut self.waits, thread).on {
            On::Nothing => {}
            On::Sem(sem) => self.sems[usize::from(sem)].waiters.remove(&mut self.waits, thread),
            On::Flags(flags, _) => self.flags[usize::from(flags)].waiters.remove(&mut self.waits, thread),
            On::Write { xbuf, way, .. } => {
                self.xbufs[usize::from(xbuf)][way as usize].writers.remove(&mut self.waits, thread);
                self.serve(xbuf, way);
            }
            On::Read { xbuf, way, .. } => {
                self.xbufs[usize::from(xbuf)][way as usize].readers.remove(&mut self.waits, thread);
            }
            On::Mutex => {
                let sched = &mut self.sched;
                self.owners.drop_waiter(thread, &mut |thread, rank| sched.boost(thread, rank));
            }
        }
    }

    #[inline(always)]
    pub(super) fn tick(&mut self, delta: u64) -> Packed {
        let Some(now) = self.now.checked_add(delta) else { return Packed::refused(Refusal::Range) };
        self.sched.charge(delta);
        self.now = now;
        if now >= self.next_second {
            self.new_second();
        }
        if self.due.first(now).is_some() {
            self.oob.insert(0);
        }
        Packed::DONE
    }

    #[cold]
    pub(super) fn new_second(&mut self) {
        let second = self.now / SECOND;
        self.next_second = (second + 1).saturating_mul(SECOND);
        if second > self.second {
            self.second = second;
            self.sched.refill();
        }
    }

    pub(super) fn new_timer(&mut self, callback: u8, tag: u32) -> Packed {
        let place = known!(self.bank.get_mut(usize::from(callback)));
        if place.kinds & (PROPAGATE | POST_OOB) != 0 {
            return Packed::refused(Refusal::Invalid);
        }
        if place.is_out {
            return Packed::refused(Refusal::Busy);
        }
        let number = self.taken_timers.trailing_ones() as usize;
        if number >= TIMERS {
            return Packed::refused(Refusal::Limit);
        }
        self.taken_timers |= 1 << number;
        self.timers[number] = Timer::new(callback);
        (place.is_out, place.count, place.tag) = (true, 0, tag);
        Packed::number((number as u64).into())
    }

    #[inline]
    pub(super) fn known_timer(&self, timer: u16) -> Result<(), Refusal> {
        if usize::from(timer) < TIMERS && self.taken_timers >> timer & 1 != 0 {
            Ok(())
        } else {
            Err(Refusal::Unknown)
        }
    }

    pub(super) fn start_timer(&mut self, timer: u16, date: u64, interval: u64) -> Packed {
        sure!(self.known_timer(timer));
        let record = &mut self.timers[usize::from(timer)];
        (record.date, record.interval, record.overruns, record.state) = (date, interval, 0, TimerState::Running);
        self.due.set(timer, date);
        if date <= self.now {
            self.oob.insert(0);
        }
        Packed::DONE
    }

    #[inline]
    pub(super) fn stop_timer(&mut self, timer: u16) -> Packed {
        sure!(self.known_timer(timer));
        let record = &mut self.timers[usize::from(timer)];
        if record.state == TimerState::Running {
            self.due.remove(timer);
        }
        record.state = TimerState::Idle;
        Packed::DONE
    }

    pub(super) fn drop_timer(&mut self, timer: u16) -> Packed {
        sure!(self.known_timer(timer));
        self.stop_timer(timer);
        self.taken_timers &= !(1 << timer);
        let callback = self.timers[usize::from(timer)].callback;
        self.bank[usize::from(callback)].is_out = false;
        Packed::DONE
    }

    pub(super) fn overruns(&self, timer: u16) -> Packed {
        sure!(self.known_timer(timer));
        Packed::number(self.timers[usize::from(timer)].overruns)
    }
}
