//! The library under test, through its C interface, as the C header declares
//! it (`build.rs`).

/// The header's constants and calls.
pub mod header {
    include!(concat!(env!("OUT_DIR"), "/header.rs"));
}

use header::{
    sulgrach_breaking_rows, sulgrach_check, sulgrach_check_classes, sulgrach_list, sulgrach_page,
    sulgrach_replay, sulgrach_with_labels, sulgrach_without_labels,
};

// The types of the calls as they are relied on here. Types of functions must
// agree exactly, so that a `const` too many or too few in the header does not
// go unseen.
type Check =
    unsafe extern "C" fn(*const u8, usize, *mut u32, usize, *mut u32, usize, u64, *mut u64, usize) -> u32;
type CheckClasses = unsafe extern "C" fn(
    *const u8,
    usize,
    *const u8,
    usize,
    *mut u32,
    usize,
    *mut u32,
    usize,
    u64,
    *mut u64,
    usize,
) -> u32;
type List = unsafe extern "C" fn(
    *const u8,
    usize,
    *mut u32,
    usize,
    *mut u32,
    usize,
    u64,
    *mut u16,
    usize,
    *mut u8,
    usize,
    *mut u64,
    usize,
) -> u32;
type Replay = unsafe extern "C" fn(*const u8, usize, *const u8, usize) -> u32;
type Page = unsafe extern "C" fn(*const u8, usize, *const u32, usize, *mut u8, usize, *mut u64, usize) -> u32;
type BreakingRows = unsafe extern "C" fn(
    *const u8,
    usize,
    *mut u32,
    usize,
    *mut u32,
    usize,
    *mut u8,
    usize,
    *mut u64,
    usize,
) -> u32;
type Convert = unsafe extern "C" fn(*const u8, usize, *mut u8, usize, *mut u64, usize) -> u32;
const _: (Check, CheckClasses, List, Replay, Page, BreakingRows, Convert, Convert) = (
    sulgrach_check,
    sulgrach_check_classes,
    sulgrach_list,
    sulgrach_replay,
    sulgrach_page,
    sulgrach_breaking_rows,
    sulgrach_with_labels,
    sulgrach_without_labels,
);

pub const KEPT: u32 = header::SULGRACH_KEPT;
pub const BROKEN: u32 = header::SULGRACH_BROKEN;
pub const SPENT: u32 = header::SULGRACH_SPENT;
pub const DONE: u32 = header::SULGRACH_DONE;

/// The code of a refusal by any call but replay.
pub fn refused(refusal: u32) -> u32 {
    header::SULGRACH_REFUSED + refusal
}

/// 0, or the number of the refusal.
pub fn replay(plan: &[u8], listing: &[u8]) -> u32 {
    // SAFETY: both buffers live through the call and are only read.
    unsafe { sulgrach_replay(plan.as_ptr(), plan.len(), listing.as_ptr(), listing.len()) }
}

/// The code of the answer; the count of rounds goes into `rounds[0]`.
pub fn check(plan: &[u8], first: &mut [u32], second: &mut [u32], limit: u64, rounds: &mut [u64]) -> u32 {
    // SAFETY: the buffers live through the call, and the ones written to are
    // exclusively borrowed and apart from each other.
    unsafe {
        sulgrach_check(
            plan.as_ptr(),
            plan.len(),
            first.as_mut_ptr(),
            first.len(),
            second.as_mut_ptr(),
            second.len(),
            limit,
            rounds.as_mut_ptr(),
            rounds.len(),
        )
    }
}

/// The code of the answer; the count of rounds goes into `rounds[0]`.
pub fn check_classes(
    plan: &[u8],
    classes: &[u8],
    first: &mut [u32],
    second: &mut [u32],
    limit: u64,
    rounds: &mut [u64],
) -> u32 {
    // SAFETY: as for `check`; plan and classes are only read.
    unsafe {
        sulgrach_check_classes(
            plan.as_ptr(),
            plan.len(),
            classes.as_ptr(),
            classes.len(),
            first.as_mut_ptr(),
            first.len(),
            second.as_mut_ptr(),
            second.len(),
            limit,
            rounds.as_mut_ptr(),
            rounds.len(),
        )
    }
}

/// The code of the answer; the count of rounds goes into `numbers[0]`, the
/// length of a broken plan's listing into `numbers[1]`.
pub fn list(
    plan: &[u8],
    first: &mut [u32],
    second: &mut [u32],
    limit: u64,
    index: &mut [u16],
    out: &mut [u8],
    numbers: &mut [u64],
) -> u32 {
    // SAFETY: as for `check`.
    unsafe {
        sulgrach_list(
            plan.as_ptr(),
            plan.len(),
            first.as_mut_ptr(),
            first.len(),
            second.as_mut_ptr(),
            second.len(),
            limit,
            index.as_mut_ptr(),
            index.len(),
            out.as_mut_ptr(),
            out.len(),
            numbers.as_mut_ptr(),
            numbers.len(),
        )
    }
}

/// The code of the answer; the page's length goes into `numbers[0]`.
pub fn page(plan: &[u8], table: &[u32], out: &mut [u8], numbers: &mut [u64]) -> u32 {
    // SAFETY: as for `check`; plan and table are only read.
    unsafe {
        sulgrach_page(
            plan.as_ptr(),
            plan.len(),
            table.as_ptr(),
            table.len(),
            out.as_mut_ptr(),
            out.len(),
            numbers.as_mut_ptr(),
            numbers.len(),
        )
    }
}

/// The code of the answer; the number of rows that remain goes into
/// `numbers[0]`.
pub fn breaking_rows(
    plan: &[u8],
    first: &mut [u32],
    second: &mut [u32],
    rows: &mut [u8],
    numbers: &mut [u64],
) -> u32 {
    // SAFETY: as for `check`.
    unsafe {
        sulgrach_breaking_rows(
            plan.as_ptr(),
            plan.len(),
            first.as_mut_ptr(),
            first.len(),
            second.as_mut_ptr(),
            second.len(),
            rows.as_mut_ptr(),
            rows.len(),
            numbers.as_mut_ptr(),
            numbers.len(),
        )
    }
}

/// The code of the answer; the length of the plan in its new form goes into
/// `numbers[0]`.
pub fn with_labels(plan: &[u8], out: &mut [u8], numbers: &mut [u64]) -> u32 {
    convert(sulgrach_with_labels, plan, out, numbers)
}

/// The code of the answer; the length of the plan in its old form goes into
/// `numbers[0]`.
pub fn without_labels(plan: &[u8], out: &mut [u8], numbers: &mut [u64]) -> u32 {
    convert(sulgrach_without_labels, plan, out, numbers)
}

fn convert(call: Convert, plan: &[u8], out: &mut [u8], numbers: &mut [u64]) -> u32 {
    // SAFETY: as for `check`; the plan is only read.
    unsafe {
        call(plan.as_ptr(), plan.len(), out.as_mut_ptr(), out.len(), numbers.as_mut_ptr(), numbers.len())
    }
}
