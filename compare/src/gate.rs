//! The library's three calls. All that is unsafe stands here.
use crate::planner::boundary::{DecideBytes, PlanBytes, ReadBytes, SearchBytes};
use std::ptr;

extern "C" {
    fn gate_read(
        file: *const u8,
        file_len: usize,
        size: *mut u8,
        size_len: usize,
        rows: *mut u8,
        rows_len: usize,
        firsts: *mut u8,
        firsts_len: usize,
        outcomes: *mut u8,
        outcomes_len: usize,
    ) -> u32;

    fn gate_decide(
        size: *const u8,
        size_len: usize,
        rows: *const u8,
        rows_len: usize,
        firsts: *const u8,
        firsts_len: usize,
        outcomes: *const u8,
        outcomes_len: usize,
        ranks: *mut u8,
        ranks_len: usize,
        commands: *mut u8,
        commands_len: usize,
        marks: *mut u8,
        marks_len: usize,
        scratch: *mut u8,
        scratch_len: usize,
        tally: *mut u8,
        tally_len: usize,
    ) -> u32;

    fn gate_search(
        size: *const u8,
        size_len: usize,
        rows: *const u8,
        rows_len: usize,
        firsts: *const u8,
        firsts_len: usize,
        outcomes: *const u8,
        outcomes_len: usize,
        start: usize,
        commands: *mut u8,
        commands_len: usize,
        scratch: *mut u8,
        scratch_len: usize,
        answer: *mut u8,
        answer_len: usize,
    ) -> u32;
}

/// An empty slice goes out as a null pointer, which a C program may pass for it.
fn from(slice: &[u8]) -> *const u8 {
    if slice.is_empty() {
        ptr::null()
    } else {
        slice.as_ptr()
    }
}

fn to(slice: &mut [u8]) -> *mut u8 {
    if slice.is_empty() {
        ptr::null_mut()
    } else {
        slice.as_mut_ptr()
    }
}

pub fn read(file: &[u8], out: ReadBytes) -> u32 {
    // SAFETY: each pointer comes with the length of the slice that it is of, and the slices do not overlap.
    unsafe {
        gate_read(
            from(file),
            file.len(),
            to(out.size),
            out.size.len(),
            to(out.rows),
            out.rows.len(),
            to(out.firsts),
            out.firsts.len(),
            to(out.outcomes),
            out.outcomes.len(),
        )
    }
}

pub fn decide(plan: PlanBytes, out: DecideBytes) -> u32 {
    // SAFETY: as in `read`.
    unsafe {
        gate_decide(
            from(plan.size),
            plan.size.len(),
            from(plan.rows),
            plan.rows.len(),
            from(plan.firsts),
            plan.firsts.len(),
            from(plan.outcomes),
            plan.outcomes.len(),
            to(out.ranks),
            out.ranks.len(),
            to(out.commands),
            out.commands.len(),
            to(out.marks),
            out.marks.len(),
            to(out.scratch),
            out.scratch.len(),
            to(out.tally),
            out.tally.len(),
        )
    }
}

pub fn search(plan: PlanBytes, start: usize, out: SearchBytes) -> u32 {
    // SAFETY: as in `read`.
    unsafe {
        gate_search(
            from(plan.size),
            plan.size.len(),
            from(plan.rows),
            plan.rows.len(),
            from(plan.firsts),
            plan.firsts.len(),
            from(plan.outcomes),
            plan.outcomes.len(),
            start,
            to(out.commands),
            out.commands.len(),
            to(out.scratch),
            out.scratch.len(),
            to(out.answer),
            out.answer.len(),
        )
    }
}
