//! The C interface of the library under test, and safe calls over slices.
//!
//! Each call on plan bytes leaves four figures: refusal number, position,
//! first value and second value; unused figures are 0. A planner call leaves
//! eight, an explanation ten. A default schedule, which the interface calls a
//! house, is 32 numbers and a count.

use crate::default_schedule::Numbers;
use crate::explanation::{self, Lists};
use crate::planner::{self, Memory, Request};

/// What a call on plan bytes leaves: refusal number, position, first and
/// second value.
pub type Figures = [u64; 4];

extern "C" {
    fn secondcoop_read_plan_number(
        bytes: *const u8,
        bytes_length: usize,
        at: usize,
        figures: *mut u64,
    );
    fn secondcoop_read_job_number(
        bytes: *const u8,
        bytes_length: usize,
        at: usize,
        figures: *mut u64,
    );
    fn secondcoop_write_plan_number(
        out: *mut u8,
        out_length: usize,
        at: usize,
        value: u32,
        figures: *mut u64,
    );
    fn secondcoop_check_plan(bytes: *const u8, bytes_length: usize, figures: *mut u64);
    fn secondcoop_read_plan(
        bytes: *const u8,
        bytes_length: usize,
        tails: *mut u32,
        tails_length: usize,
        heads: *mut u32,
        heads_length: usize,
        costs: *mut u32,
        costs_length: usize,
        classes: *mut u32,
        classes_length: usize,
        figures: *mut u64,
    );
    fn secondcoop_write_plan(
        vertices: u32,
        tails: *const u32,
        tails_length: usize,
        heads: *const u32,
        heads_length: usize,
        costs: *const u32,
        costs_length: usize,
        classes: *const u32,
        classes_length: usize,
        out: *mut u8,
        out_length: usize,
        figures: *mut u64,
    );
    fn secondcoop_standard_house(numbers: *mut u32, count: *mut u32);
    fn secondcoop_load_house(
        sheet: *const u32,
        sheet_length: usize,
        numbers: *mut u32,
        count: *mut u32,
    ) -> u32;
    fn secondcoop_plan(
        bytes: *const u8,
        bytes_length: usize,
        start: u32,
        goal: u32,
        barred: u32,
        anchor: *const u32,
        anchor_length: usize,
        guides: *const u32,
        guides_length: usize,
        guide_count: u32,
        schedule: *const u32,
        schedule_length: usize,
        house: *const u32,
        house_length: usize,
        budget: u32,
        route: *mut u32,
        route_length: usize,
        log: *mut u32,
        log_length: usize,
        work: *mut u32,
        work_length: usize,
        wide: *mut u64,
        wide_length: usize,
        figures: *mut u64,
    );
    fn secondcoop_explain(
        bytes: *const u8,
        bytes_length: usize,
        start: u32,
        goal: u32,
        barred: u32,
        anchor: *const u32,
        anchor_length: usize,
        guides: *const u32,
        guides_length: usize,
        guide_count: u32,
        schedule: *const u32,
        schedule_length: usize,
        house: *const u32,
        house_length: usize,
        budget: u32,
        route: *mut u32,
        route_length: usize,
        log: *mut u32,
        log_length: usize,
        work: *mut u32,
        work_length: usize,
        wide: *mut u64,
        wide_length: usize,
        places: *mut u32,
        places_length: usize,
        lanes: *mut u32,
        lanes_length: usize,
        figures: *mut u64,
    );
    fn secondcoop_bench_text(
        job: *const u8,
        job_length: usize,
        text: *mut u8,
        text_length: usize,
    ) -> usize;
    fn secondcoop_explain_text(
        job: *const u8,
        job_length: usize,
        text: *mut u8,
        text_length: usize,
    ) -> usize;
}

/// What the figures and the words around them hold before a call.
const GUARD: u64 = 0xA5A5_5A5A_C3C3_3C3C;

/// Figures between guards.
#[repr(C)]
struct GuardedFigures<const N: usize> {
    before: [u64; 2],
    figures: [u64; N],
    after: [u64; 2],
}

/// Runs a call with guarded figures.
#[inline]
fn figures_of<const N: usize>(call: impl FnOnce(*mut u64)) -> [u64; N] {
    let mut guarded = GuardedFigures {
        before: [GUARD; 2],
        figures: [GUARD; N],
        after: [GUARD; 2],
    };
    let all: *mut GuardedFigures<N> = &mut guarded;
    // SAFETY: the pointer is that of the live figures.
    call(unsafe { &raw mut (*all).figures }.cast());
    // One by one: a list of both takes longer than the shortest call.
    let whole = guarded.before == [GUARD; 2] && guarded.after == [GUARD; 2];
    assert!(whole, "figures written out of bounds");
    guarded.figures
}

#[inline]
pub fn read_plan_number(bytes: &[u8], at: usize) -> Figures {
    // SAFETY: the pointers and lengths are those of live slices.
    figures_of(|figures| unsafe {
        secondcoop_read_plan_number(bytes.as_ptr(), bytes.len(), at, figures)
    })
}

#[inline]
pub fn read_job_number(bytes: &[u8], at: usize) -> Figures {
    // SAFETY: as above.
    figures_of(|figures| unsafe {
        secondcoop_read_job_number(bytes.as_ptr(), bytes.len(), at, figures)
    })
}

pub fn write_plan_number(out: &mut [u8], at: usize, value: u32) -> Figures {
    // SAFETY: as above, and `out` is lent mutably.
    figures_of(|figures| unsafe {
        secondcoop_write_plan_number(out.as_mut_ptr(), out.len(), at, value, figures)
    })
}

pub fn check_plan(bytes: &[u8]) -> Figures {
    // SAFETY: the pointers and lengths are those of live slices.
    figures_of(|figures| unsafe { secondcoop_check_plan(bytes.as_ptr(), bytes.len(), figures) })
}

pub fn read_plan(
    bytes: &[u8],
    tails: &mut [u32],
    heads: &mut [u32],
    costs: &mut [u32],
    classes: &mut [u32],
) -> Figures {
    // SAFETY: as above, and the lists are lent mutably and are disjoint.
    figures_of(|figures| unsafe {
        secondcoop_read_plan(
            bytes.as_ptr(),
            bytes.len(),
            tails.as_mut_ptr(),
            tails.len(),
            heads.as_mut_ptr(),
            heads.len(),
            costs.as_mut_ptr(),
            costs.len(),
            classes.as_mut_ptr(),
            classes.len(),
            figures,
        )
    })
}

pub fn write_plan(
    vertices: u32,
    tails: &[u32],
    heads: &[u32],
    costs: &[u32],
    classes: &[u32],
    out: &mut [u8],
) -> Figures {
    // SAFETY: as above, and `out` is lent mutably.
    figures_of(|figures| unsafe {
        secondcoop_write_plan(
            vertices,
            tails.as_ptr(),
            tails.len(),
            heads.as_ptr(),
            heads.len(),
            costs.as_ptr(),
            costs.len(),
            classes.as_ptr(),
            classes.len(),
            out.as_mut_ptr(),
            out.len(),
            figures,
        )
    })
}

/// The default schedule until a sheet is accepted.
pub fn standard_schedule(numbers: &mut Numbers, count: &mut u32) {
    // SAFETY: the pointers are those of live numbers, lent mutably.
    unsafe { secondcoop_standard_house(numbers.as_mut_ptr(), count) }
}

/// Loads a sheet for the default schedule: 0, or the refusal's number.
pub fn load_default_schedule(sheet: &[u32], numbers: &mut Numbers, count: &mut u32) -> u32 {
    // SAFETY: as above, and pointer and length are those of a live slice.
    unsafe { secondcoop_load_house(sheet.as_ptr(), sheet.len(), numbers.as_mut_ptr(), count) }
}

/// A planner call.
pub fn plan(request: &Request, memory: Memory) -> planner::Figures {
    // SAFETY: as above, and the memory is lent mutably and is disjoint.
    figures_of(|figures| unsafe {
        secondcoop_plan(
            request.bytes.as_ptr(),
            request.bytes.len(),
            request.start,
            request.goal,
            request.barred,
            request.anchor.as_ptr(),
            request.anchor.len(),
            request.guides.as_ptr(),
            request.guides.len(),
            request.guide_count,
            request.schedule.as_ptr(),
            request.schedule.len(),
            request.default_schedule.as_ptr(),
            request.default_schedule.len(),
            request.budget,
            memory.route.as_mut_ptr(),
            memory.route.len(),
            memory.log.as_mut_ptr(),
            memory.log.len(),
            memory.work.as_mut_ptr(),
            memory.work.len(),
            memory.wide.as_mut_ptr(),
            memory.wide.len(),
            figures,
        )
    })
}

/// An explanation: a planner call that lists, where it gives no route, what
/// can be reached and which barred lanes leave that.
pub fn explain(request: &Request, memory: Memory, lists: Lists) -> explanation::Figures {
    // SAFETY: as above, and the lists are lent mutably and are disjoint.
    figures_of(|figures| unsafe {
        secondcoop_explain(
            request.bytes.as_ptr(),
            request.bytes.len(),
            request.start,
            request.goal,
            request.barred,
            request.anchor.as_ptr(),
            request.anchor.len(),
            request.guides.as_ptr(),
            request.guides.len(),
            request.guide_count,
            request.schedule.as_ptr(),
            request.schedule.len(),
            request.default_schedule.as_ptr(),
            request.default_schedule.len(),
            request.budget,
            memory.route.as_mut_ptr(),
            memory.route.len(),
            memory.log.as_mut_ptr(),
            memory.log.len(),
            memory.work.as_mut_ptr(),
            memory.work.len(),
            memory.wide.as_mut_ptr(),
            memory.wide.len(),
            lists.places.as_mut_ptr(),
            lists.places.len(),
            lists.lanes.as_mut_ptr(),
            lists.lanes.len(),
            figures,
        )
    })
}

/// What the bench program prints for a job's bytes: the length of the text,
/// whose first bytes are written as far as there is room.
pub fn bench_text(job: &[u8], text: &mut [u8]) -> usize {
    // SAFETY: as above, and `text` is lent mutably.
    unsafe { secondcoop_bench_text(job.as_ptr(), job.len(), text.as_mut_ptr(), text.len()) }
}

/// The explanation of a job's bytes as lines: the length of the text, whose
/// first bytes are written as far as there is room.
pub fn explain_text(job: &[u8], text: &mut [u8]) -> usize {
    // SAFETY: as above.
    unsafe { secondcoop_explain_text(job.as_ptr(), job.len(), text.as_mut_ptr(), text.len()) }
}
