//! Cross-buffers.
use super::stream::Stream;
use super::MAX_READ;
use super::{Kernel, On};
use crate::limits::MAX_TRANSFER;
use crate::queue::at;
use crate::replies::{Packed, Refusal};
use crate::values::{Span, Stage, Until, Way};

impl Kernel {
    #[inline]
    pub(super) fn stream(&mut self, xbuf: u16, way: Way) -> Result<&mut Stream, Refusal> {
        Ok(&mut self.xbufs.get_mut(usize::from(xbuf)).ok_or(Refusal::Unknown)?[way as usize])
    }

    #[inline]
    pub(super) fn needs_end(&self, caller: u16, way: Way, writes: bool) -> Result<(), Refusal> {
        let needed = if (way == Way::In) == writes { Stage::Inband } else { Stage::Oob };
        if self.sched.thread(caller).stage == needed {
            Ok(())
        } else {
            Err(Refusal::WrongStage)
        }
    }

    /// What was read may leave too little room for the next call.
    #[inline]
    pub(super) fn mind_room(&mut self) {
        if self.arena.capacity() - self.arena.len() < MAX_READ {
            self.fence = self.history.len() + 1;
        }
    }

    /// Serves readers and writers at the heads of their queues until neither can be.
    pub(super) fn serve(&mut self, xbuf: u16, way: Way) {
        loop {
            let stream = &mut self.xbufs[usize::from(xbuf)][way as usize];
            if stream.readers.len > 0 && stream.len > 0 {
                let head = stream.readers.head;
                let On::Read { len, .. } = at(&mut self.waits, head).on else { return };
                stream.readers.remove(&mut self.waits, head);
                let span = stream.read(len, &mut self.arena);
                self.mind_room();
                self.end_wait(head, Packed::bytes(span));
            } else if stream.writers.len > 0 {
                let head = stream.writers.head;
                let On::Write { bytes, .. } = at(&mut self.waits, head).on else { return };
                if !stream.fits(bytes.len) {
                    return;
                }
                stream.writers.remove(&mut self.waits, head);
                stream.write(bytes);
                self.end_wait(head, Packed::DONE);
            } else {
                return;
            }
        }
    }

    #[inline(always)]
    pub(super) fn write(&mut self, caller: u16, xbuf: u16, way: Way, bytes: Span) -> Packed {
        sure!(self.stream(xbuf, way));
        sure!(self.needs_end(caller, way, true));
        let stream = &mut self.xbufs[usize::from(xbuf)][way as usize];
        if bytes.len > stream.size {
            return Packed::refused(Refusal::TooBig);
        }
        if !stream.can_write(bytes.len) {
            return Packed::refused(Refusal::Again);
        }
        stream.write(bytes);
        self.serve(xbuf, way);
        Packed::DONE
    }

    #[inline(always)]
    pub(super) fn read(&mut self, caller: u16, xbuf: u16, way: Way, len: u16) -> Packed {
        sure!(self.stream(xbuf, way));
        if usize::from(len) > MAX_TRANSFER {
            return Packed::refused(Refusal::Range);
        }
        sure!(self.needs_end(caller, way, false));
        let stream = &mut self.xbufs[usize::from(xbuf)][way as usize];
        if len > 0 && stream.len == 0 {
            return Packed::refused(Refusal::Again);
        }
        let span = stream.read(len, &mut self.arena);
        self.mind_room();
        self.serve(xbuf, way);
        Packed::bytes(span)
    }

    pub(super) fn begin_write(&mut self, caller: u16, xbuf: u16, way: Way, bytes: Span, until: Until) -> Packed {
        sure!(self.stream(xbuf, way));
        sure!(self.needs_attached(caller));
        sure!(self.needs_end(caller, way, true));
        let stream = &mut self.xbufs[usize::from(xbuf)][way as usize];
        if bytes.len > stream.size {
            return Packed::refused(Refusal::TooBig);
        }
        let on = On::Write { xbuf, way, bytes };
        if stream.can_write(bytes.len) {
            stream.write(bytes);
            self.serve(xbuf, way);
            return self.served(caller, on, Packed::DONE);
        }
        stream.writers.push(&mut self.waits, caller);
        self.blocked(caller, on, until)
    }

    pub(super) fn begin_read(&mut self, caller: u16, xbuf: u16, way: Way, len: u16, until: Until) -> Packed {
        sure!(self.stream(xbuf, way));
        if usize::from(len) > MAX_TRANSFER {
            return Packed::refused(Refusal::Range);
        }
        sure!(self.needs_attached(caller));
        sure!(self.needs_end(caller, way, false));
        let stream = &mut self.xbufs[usize::from(xbuf)][way as usize];
        let on = On::Read { xbuf, way, len };
        if len == 0 || stream.len > 0 {
            let span = stream.read(len, &mut self.arena);
            self.mind_room();
            self.serve(xbuf, way);
            return self.served(caller, on, Packed::bytes(span));
        }
        stream.readers.push(&mut self.waits, caller);
        self.blocked(caller, on, until)
    }

    pub(super) fn room(&self, xbuf: u16, way: Way) -> Packed {
        let stream = &known!(self.xbufs.get(usize::from(xbuf)))[way as usize];
        Packed::number(u64::from(stream.size - stream.len))
    }
}
