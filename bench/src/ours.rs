//! The proved router, links and endpoints, by the functions that `crates/ipx_bench` exports.

use crate::inputs::{Pace, Records};

unsafe extern "C" {
    fn ipx_bench_decode(datagrams: *const u8, count: usize, size: usize, rounds: u32) -> u64;

    fn ipx_bench_receive(
        heard: *const u8,
        heard_count: usize,
        heard_size: usize,
        records: *const u8,
        count: usize,
        size: usize,
        rounds: u32,
        apart: u64,
        period: u64,
    ) -> u64;

    fn ipx_bench_receive_each(
        heard: *const u8,
        heard_count: usize,
        heard_size: usize,
        records: *const u8,
        count: usize,
        size: usize,
        rounds: u32,
        apart: u64,
        period: u64,
        times: *mut u64,
        room: usize,
    ) -> u64;

    fn ipx_bench_in_place(
        heard: *const u8,
        heard_count: usize,
        heard_size: usize,
        records: *mut u8,
        count: usize,
        size: usize,
        rounds: u32,
    ) -> u64;

    fn ipx_bench_tell(heard: *const u8, count: usize, size: usize, rounds: u32) -> u64;

    fn ipx_bench_tell_sixteen(heard: *const u8, count: usize, size: usize, rounds: u32) -> u64;

    fn ipx_bench_known(heard: *const u8, count: usize, size: usize, rounds: u32) -> u64;

    fn ipx_bench_answers(
        records: *const u8,
        count: usize,
        size: usize,
        out: *mut u8,
        room: usize,
    ) -> usize;

    fn ipx_bench_pass(
        bytes: *const u8,
        count: usize,
        offered: usize,
        buffers: u16,
        rounds: u32,
    ) -> u64;

    fn ipx_bench_deliver(
        bytes: *const u8,
        count: usize,
        size: usize,
        buffers: u16,
        rounds: u32,
    ) -> u64;

    fn ipx_bench_talk(
        bytes: *const u8,
        count: usize,
        size: usize,
        buffers: u16,
        altered: u8,
        out: *mut u8,
        room: usize,
    ) -> usize;

    fn ipx_bench_play(
        script: *const u8,
        count: usize,
        size: usize,
        buffers: u16,
        out: *mut u8,
        room: usize,
    ) -> usize;
}

pub fn decode(datagrams: &[u8], size: usize, rounds: u32) -> u64 {
    // SAFETY: the pointer and the length are one slice, which is only read.
    unsafe { ipx_bench_decode(datagrams.as_ptr(), datagrams.len(), size, rounds) }
}

pub fn receive(heard: &Records, records: &Records, rounds: u32, pace: Pace) -> u64 {
    // SAFETY: each pointer and the length behind it are one slice, which is only read.
    unsafe {
        ipx_bench_receive(
            heard.bytes.as_ptr(),
            heard.bytes.len(),
            heard.size,
            records.bytes.as_ptr(),
            records.bytes.len(),
            records.size,
            rounds,
            pace.apart,
            pace.period,
        )
    }
}

/// The same, and how many nanoseconds each record of each round took.
pub fn receive_each(
    heard: &Records,
    records: &Records,
    rounds: u32,
    pace: Pace,
) -> (u64, Vec<u64>) {
    let mut times = vec![0; rounds as usize * records.count()];
    // SAFETY: each pointer and the length behind it are one slice. The last is this function's own,
    // and the others are only read.
    let digest = unsafe {
        ipx_bench_receive_each(
            heard.bytes.as_ptr(),
            heard.bytes.len(),
            heard.size,
            records.bytes.as_ptr(),
            records.bytes.len(),
            records.size,
            rounds,
            pace.apart,
            pace.period,
            times.as_mut_ptr(),
            times.len(),
        )
    };
    (digest, times)
}

pub fn in_place(heard: &Records, records: &Records, rounds: u32) -> u64 {
    let mut bytes = records.bytes.clone();
    // SAFETY: each pointer and the length behind it are one slice. The first is only read, and the
    // second is this function's own.
    unsafe {
        ipx_bench_in_place(
            heard.bytes.as_ptr(),
            heard.bytes.len(),
            heard.size,
            bytes.as_mut_ptr(),
            bytes.len(),
            records.size,
            rounds,
        )
    }
}

pub fn tell(heard: &Records, rounds: u32) -> u64 {
    // SAFETY: the pointer and the length are one slice, which is only read.
    unsafe { ipx_bench_tell(heard.bytes.as_ptr(), heard.bytes.len(), heard.size, rounds) }
}

/// The same by a router of sixteen ports.
pub fn tell_sixteen(heard: &Records, rounds: u32) -> u64 {
    // SAFETY: the pointer and the length are one slice, which is only read.
    unsafe { ipx_bench_tell_sixteen(heard.bytes.as_ptr(), heard.bytes.len(), heard.size, rounds) }
}

pub fn known(heard: &Records, rounds: u32) -> u64 {
    // SAFETY: the pointer and the length are one slice, which is only read.
    unsafe { ipx_bench_known(heard.bytes.as_ptr(), heard.bytes.len(), heard.size, rounds) }
}

/// What a new router answers to each record, and what it tells then, as bytes.
pub fn answers(records: &Records) -> Vec<u8> {
    let mut out = vec![0; 1 << 24];
    // SAFETY: each pointer and the length behind it are one slice. The first is only read, and the
    // second is this function's own.
    let count = unsafe {
        ipx_bench_answers(
            records.bytes.as_ptr(),
            records.bytes.len(),
            records.size,
            out.as_mut_ptr(),
            out.len(),
        )
    };
    assert!(count <= out.len(), "the answers take {count} bytes");
    out.truncate(count);
    out
}

pub fn pass(bytes: &[u8], offered: usize, buffers: u16, rounds: u32) -> u64 {
    // SAFETY: the pointer and the length are one slice, which is only read.
    unsafe { ipx_bench_pass(bytes.as_ptr(), bytes.len(), offered, buffers, rounds) }
}

pub fn deliver(bytes: &[u8], size: usize, buffers: u16, rounds: u32) -> u64 {
    // SAFETY: the pointer and the length are one slice, which is only read.
    unsafe { ipx_bench_deliver(bytes.as_ptr(), bytes.len(), size, buffers, rounds) }
}

/// What two new hosts with so many buffers say when bytes are sent in messages of a size.
pub fn talk(bytes: &[u8], size: usize, buffers: u16, altered: bool) -> Vec<u8> {
    let mut out = vec![0; 1 << 24];
    // SAFETY: each pointer and the length behind it are one slice. The first is only read, and the
    // second is this function's own.
    let count = unsafe {
        ipx_bench_talk(
            bytes.as_ptr(),
            bytes.len(),
            size,
            buffers,
            altered.into(),
            out.as_mut_ptr(),
            out.len(),
        )
    };
    assert!(count <= out.len(), "the answers take {count} bytes");
    out.truncate(count);
    out
}

/// What a new pair of links with so many buffers answers to a script, as bytes.
pub fn played(script: &[u8], size: usize, buffers: u16) -> Vec<u8> {
    let mut out = vec![0; 1 << 24];
    // SAFETY: each pointer and the length behind it are one slice. The first is only read, and the
    // second is this function's own.
    let count = unsafe {
        ipx_bench_play(
            script.as_ptr(),
            script.len(),
            size,
            buffers,
            out.as_mut_ptr(),
            out.len(),
        )
    };
    assert!(count <= out.len(), "the answers take {count} bytes");
    out.truncate(count);
    out
}
