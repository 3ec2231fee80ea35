//! How often a call of each side takes memory, and how much.
//!
//! The linker has each call of the C allocator go through the functions here (`--wrap`), on both
//! sides alike. Timing is done by another program, which counts nothing.

use ipx_bench::rows::{PASSES, all, check_row, pass};
use std::ffi::{c_int, c_void};
use std::sync::atomic::{AtomicU64, Ordering::Relaxed};

static CALLS: AtomicU64 = AtomicU64::new(0);
static BYTES: AtomicU64 = AtomicU64::new(0);

fn count(bytes: usize) {
    CALLS.fetch_add(1, Relaxed);
    BYTES.fetch_add(bytes as u64, Relaxed);
}

unsafe extern "C" {
    fn __real_malloc(size: usize) -> *mut c_void;
    fn __real_calloc(count: usize, size: usize) -> *mut c_void;
    fn __real_realloc(block: *mut c_void, size: usize) -> *mut c_void;
    fn __real_posix_memalign(block: *mut *mut c_void, align: usize, size: usize) -> c_int;
    fn __real_free(block: *mut c_void);
}

/// # Safety
/// As C's `malloc`.
#[unsafe(no_mangle)]
pub unsafe extern "C" fn __wrap_malloc(size: usize) -> *mut c_void {
    count(size);
    // SAFETY: the caller's.
    unsafe { __real_malloc(size) }
}

/// # Safety
/// As C's `calloc`.
#[unsafe(no_mangle)]
pub unsafe extern "C" fn __wrap_calloc(items: usize, size: usize) -> *mut c_void {
    count(items * size);
    // SAFETY: the caller's.
    unsafe { __real_calloc(items, size) }
}

/// # Safety
/// As C's `realloc`.
#[unsafe(no_mangle)]
pub unsafe extern "C" fn __wrap_realloc(block: *mut c_void, size: usize) -> *mut c_void {
    count(size);
    // SAFETY: the caller's.
    unsafe { __real_realloc(block, size) }
}

/// # Safety
/// As C's `posix_memalign`.
#[unsafe(no_mangle)]
pub unsafe extern "C" fn __wrap_posix_memalign(
    block: *mut *mut c_void,
    align: usize,
    size: usize,
) -> c_int {
    count(size);
    // SAFETY: the caller's.
    unsafe { __real_posix_memalign(block, align, size) }
}

/// # Safety
/// As C's `free`.
#[unsafe(no_mangle)]
pub unsafe extern "C" fn __wrap_free(block: *mut c_void) {
    // SAFETY: the caller's.
    unsafe { __real_free(block) }
}

/// Allocations and bytes of so many rounds.
fn counted(calls: &dyn Fn(u32) -> u64, rounds: u32) -> (f64, f64) {
    let before = (CALLS.load(Relaxed), BYTES.load(Relaxed));
    std::hint::black_box(calls(rounds));
    let after = (CALLS.load(Relaxed), BYTES.load(Relaxed));
    ((after.0 - before.0) as f64, (after.1 - before.1) as f64)
}

/// Allocations and bytes a call, without those that make the router or the pair of links.
fn a_call(calls: &dyn Fn(u32) -> u64, a_round: u32) -> (f64, f64) {
    const ROUNDS: u32 = 2;
    let (none, all) = (counted(calls, 0), counted(calls, ROUNDS));
    let calls = f64::from(ROUNDS * a_round);
    ((all.0 - none.0) / calls, (all.1 - none.1) / calls)
}

/// Stops the program unless the proved pair of links takes one block for each call that offers, for
/// the list that its units are cut into. So `poll`, `receive` and `take` take none. The first two
/// rounds do not count: in them a link takes room that it keeps.
fn check_pass(offered: usize, buffers: u16) {
    const ROUNDS: u32 = 2;
    let row = pass((offered, buffers));
    let offers = row.calls.div_ceil(offered as u32);
    let (first, all) = (counted(&*row.ours, ROUNDS), counted(&*row.ours, 2 * ROUNDS));
    let (blocks, wanted) = (all.0 - first.0, f64::from(ROUNDS * offers));
    assert!(
        blocks == wanted,
        "{}: {blocks} blocks for {wanted} offers",
        row.name
    );
}

fn main() {
    for (offered, buffers) in PASSES {
        check_pass(offered, buffers);
    }
    println!("no memory: poll, receive and take of links\n");
    println!(
        "{:<44} {:>12} {:>12} {:>12} {:>12}",
        "memory a call", "ours", "plain Rust", "ours bytes", "plain bytes"
    );
    for row in all() {
        check_row(&row);
        let ours = a_call(&*row.ours, row.calls);
        let theirs = a_call(&*row.theirs, row.calls);
        println!(
            "{:<44} {:>12.2} {:>12.2} {:>12.1} {:>12.1}",
            row.name, ours.0, theirs.0, ours.1, theirs.1
        );
    }
}
