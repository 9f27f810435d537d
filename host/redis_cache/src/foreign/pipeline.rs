//! Planning, resolving and pushes. What is said above of every call holds here too; the plan, send and answer buffers are lent
//! by `&mut`.

use crate::Cause;
use crate::lent::{Counts, Now, PlanRefusal, Planned, Resolved, Responses, Settings};

/// `redis_cache_plan_return` of the header.
#[repr(C)]
struct PlanReturn {
    cause: u64,
    at: u64,
    plan: u64,
    send: u64,
    offset: u64,
    count: u64,
}

/// `redis_cache_resolve_return` of the header.
#[repr(C)]
struct ResolveReturn {
    cause: u64,
    answer: u64,
    refused: u64,
}

/// `redis_cache_served_return` of the header.
#[repr(C)]
struct ServedReturn {
    cause: u64,
    answer: u64,
    replies: u64,
}

unsafe extern "C" {
    fn redis_cache_plan(
        arena: *mut u8,
        arena_length: usize,
        size: u64,
        mode: u64,
        ttl: u64,
        clock: u64,
        epoch: u64,
        record: *const u8,
        record_length: usize,
        counts: *mut Counts,
        plan: *mut u8,
        plan_length: usize,
        send: *mut u8,
        send_length: usize,
    ) -> PlanReturn;

    fn redis_cache_resolve(
        arena: *mut u8,
        arena_length: usize,
        size: u64,
        mode: u64,
        ttl: u64,
        clock: u64,
        epoch: u64,
        plan: *const u8,
        plan_length: usize,
        replies: *const u8,
        replies_length: usize,
        answer: *mut u8,
        answer_length: usize,
    ) -> ResolveReturn;

    fn redis_cache_served(
        plan: *const u8,
        plan_length: usize,
        answer: *mut u8,
        answer_length: usize,
    ) -> ServedReturn;

    fn redis_cache_push(
        arena: *mut u8,
        arena_length: usize,
        size: u64,
        mode: u64,
        ttl: u64,
        push: *const u8,
        push_length: usize,
        counts: *mut Counts,
    ) -> u64;
}

/// What a resolving reads.
pub(crate) struct Replies<'a> {
    pub plan: &'a [u8],
    pub replies: &'a [u8],
}

pub(crate) fn plan<'a>(
    arena: &mut [u8],
    settings: Settings,
    now: Now,
    record: &[u8],
    counts: &mut Counts,
    (plan, send): (&'a mut [u8], &'a mut [u8]),
) -> Result<Planned<'a>, PlanRefusal> {
    // SAFETY: arena, record, counts and the two buffers are lent as above.
    let planned = unsafe {
        redis_cache_plan(
            arena.as_mut_ptr(),
            arena.len(),
            settings.size,
            settings.mode,
            settings.default_ttl,
            now.clock,
            now.epoch,
            record.as_ptr(),
            record.len(),
            counts,
            plan.as_mut_ptr(),
            plan.len(),
            send.as_mut_ptr(),
            send.len(),
        )
    };
    Cause::refuses(planned.cause).map_err(|cause| PlanRefusal {
        cause,
        offset: (cause == Cause::BadRecord).then_some(planned.at),
    })?;
    Ok(Planned {
        plan: front(plan, planned.plan),
        send: front(send, planned.send),
        responses: Responses {
            offset: planned.offset,
            count: planned.count,
        },
    })
}

pub(crate) fn resolve<'a>(
    arena: &mut [u8],
    settings: Settings,
    now: Now,
    given: Replies<'_>,
    answer: &'a mut [u8],
) -> Result<Resolved<'a>, Cause> {
    // SAFETY: arena, plan, replies and the answer buffer are lent as above.
    let resolved = unsafe {
        redis_cache_resolve(
            arena.as_mut_ptr(),
            arena.len(),
            settings.size,
            settings.mode,
            settings.default_ttl,
            now.clock,
            now.epoch,
            given.plan.as_ptr(),
            given.plan.len(),
            given.replies.as_ptr(),
            given.replies.len(),
            answer.as_mut_ptr(),
            answer.len(),
        )
    };
    Cause::refuses(resolved.cause)?;
    Ok(Resolved {
        answer: front(answer, resolved.answer),
        refused: resolved.refused,
    })
}

pub(crate) fn served<'a>(plan: &[u8], answer: &'a mut [u8]) -> Result<Option<&'a [u8]>, Cause> {
    // SAFETY: plan and answer buffer are lent as above.
    let served =
        unsafe { redis_cache_served(plan.as_ptr(), plan.len(), answer.as_mut_ptr(), answer.len()) };
    Cause::refuses(served.cause)?;
    Ok((served.replies == 0).then(|| front(answer, served.answer)))
}

/// The bytes of a buffer that the library says it has written.
fn front(buffer: &[u8], written: u64) -> &[u8] {
    let written = usize::try_from(written).expect("a buffer's length");
    &buffer[..written]
}

pub(crate) fn push(
    arena: &mut [u8],
    settings: Settings,
    push: &[u8],
    counts: &mut Counts,
) -> Result<(), Cause> {
    // SAFETY: arena, push and counts are lent as above.
    Cause::refuses(unsafe {
        redis_cache_push(
            arena.as_mut_ptr(),
            arena.len(),
            settings.size,
            settings.mode,
            settings.default_ttl,
            push.as_ptr(),
            push.len(),
            counts,
        )
    })
}
