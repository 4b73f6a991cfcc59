//! The texts of calls, by families.
use crate::calls::Call;
use crate::kernel::Kernel;
use crate::play_texts::Line;

fn word<'a>(out: &'a mut Vec<u8>, word: &str) -> Line<'a> {
    Line(out).word(word, "")
}

/// A call as a trace has it: its word and its keys.
pub fn put_call(out: &mut Vec<u8>, kernel: &Kernel, call: Call) {
    match call {
        Call::Request { line, stage, callback, tag } => {
            word(out, "request").key(" line=", line).stage(stage).key(" callback=", callback).key(" tag=", tag)
        }
        Call::Free { line, stage } => word(out, "free").key(" line=", line).stage(stage),
        Call::Arrive { line } => word(out, "arrive").key(" line=", line),
        Call::Post { stage, line } => word(out, "post").stage(stage).key(" line=", line),
        Call::Stall { stage } => word(out, "stall").stage(stage),
        Call::Unstall { stage } => word(out, "unstall").stage(stage),
        _ => return put_clock_call(out, kernel, call),
    };
}

fn put_clock_call(out: &mut Vec<u8>, kernel: &Kernel, call: Call) {
    match call {
        Call::Tick { delta } => word(out, "tick").key(" delta=", delta),
        Call::Now => word(out, "now"),
        Call::NewTimer { callback, tag } => word(out, "new_timer").key(" callback=", callback).key(" tag=", tag),
        Call::StartTimer { timer, date, interval } => {
            word(out, "start_timer").key(" timer=", timer).key(" date=", date).key(" interval=", interval)
        }
        Call::StopTimer { timer } => word(out, "stop_timer").key(" timer=", timer),
        Call::DropTimer { timer } => word(out, "drop_timer").key(" timer=", timer),
        Call::Overruns { timer } => word(out, "overruns").key(" timer=", timer),
        _ => return put_thread_call(out, kernel, call),
    };
}

fn put_thread_call(out: &mut Vec<u8>, kernel: &Kernel, call: Call) {
    match call {
        Call::Attach { policy, stage } => word(out, "attach").policy(policy).stage(stage),
        Call::Detach => word(out, "detach"),
        Call::SetPolicy { policy } => word(out, "set_policy").policy(policy),
        Call::SetStage { stage } => word(out, "set_stage").stage(stage),
        Call::Pick => word(out, "pick"),
        Call::RankOf { thread } => word(out, "rank_of").key(" thread=", thread),
        _ => return put_element_call(out, kernel, call),
    };
}

fn put_element_call(out: &mut Vec<u8>, kernel: &Kernel, call: Call) {
    match call {
        Call::TryGet { sem } => word(out, "try_get").key(" sem=", sem),
        Call::Put { sem } => word(out, "put").key(" sem=", sem),
        Call::Peek { sem } => word(out, "peek").key(" sem=", sem),
        Call::TryTake { flags, kind } => word(out, "try_take").key(" flags=", flags).kind(kind),
        Call::PostFlags { flags, bits } => word(out, "post_flags").key(" flags=", flags).key(" bits=", bits),
        Call::PeekFlags { flags } => word(out, "peek_flags").key(" flags=", flags),
        Call::Write { xbuf, way, bytes } => word(out, "write").key(" xbuf=", xbuf).way(way).bytes(kernel, bytes),
        Call::Read { xbuf, way, len } => word(out, "read").key(" xbuf=", xbuf).way(way).key(" len=", len),
        Call::Room { xbuf, way } => word(out, "room").key(" xbuf=", xbuf).way(way),
        Call::Release { mutex } => word(out, "release").key(" mutex=", mutex),
        Call::Raise { mutex } => word(out, "raise").key(" mutex=", mutex),
        _ => return put_wait(out, kernel, call),
    };
}

fn put_wait(out: &mut Vec<u8>, kernel: &Kernel, call: Call) {
    match call {
        Call::BeginGet { sem, until } => word(out, "begin_get").key(" sem=", sem).until(until),
        Call::BeginTake { flags, kind, until } => word(out, "begin_take").key(" flags=", flags).kind(kind).until(until),
        Call::BeginWrite { xbuf, way, bytes, until } => {
            word(out, "begin_write").key(" xbuf=", xbuf).way(way).bytes(kernel, bytes).until(until)
        }
        Call::BeginRead { xbuf, way, len, until } => {
            word(out, "begin_read").key(" xbuf=", xbuf).way(way).key(" len=", len).until(until)
        }
        Call::Claim { mutex, owner, until } => {
            word(out, "claim").key(" mutex=", mutex).key(" owner=", owner).until(until)
        }
        Call::Finish { keep } => word(out, "finish").word(" keep=", if keep { "true" } else { "false" }),
        // All other calls are of the families above.
        _ => return,
    };
}
