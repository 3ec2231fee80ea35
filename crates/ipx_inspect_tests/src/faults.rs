//! A read or write fault is status 1, and nothing more is written after it.

use crate::texts::{CHECKED, FIELDS, FORWARD, FRAMES, HEARD, PACKET, STATION, VECTOR};
use faulty_io::Failing;
use ipx_inspect::{do_check, do_hop, do_show, do_show_frames};
use std::alloc::Global;

/// Whether `hop` gives this answer and has written this text, if its reader fails after `left`
/// calls.
fn hop_reads(alloc: Global, left: usize, answer: Result<u8, u8>, text: &str) -> bool {
    let mut written = Vec::new(alloc);
    let is = do_hop(alloc, &mut Failing::new(PACKET, left), &mut written) == answer;
    is && written.as_slice() == text.as_bytes()
}

fn hop_writes(alloc: Global, left: usize) -> Result<u8, u8> {
    let mut reader = PACKET.as_bytes();
    do_hop(alloc, &mut reader, &mut Failing::new("", left))
}

fn show_frames_reads(alloc: Global, left: usize, answer: Result<u8, u8>, text: &str) -> bool {
    let mut written = Vec::new(alloc);
    let mut reader = Failing::new(FRAMES, left);
    let is = do_show_frames(alloc, STATION, &mut reader, &mut written) == answer;
    is && written.as_slice() == text.as_bytes()
}

fn show_frames_writes(alloc: Global, left: usize) -> Result<u8, u8> {
    let mut reader = FRAMES.as_bytes();
    do_show_frames(alloc, STATION, &mut reader, &mut Failing::new("", left))
}

fn check_reads(alloc: Global, left: usize, answer: Result<u8, u8>, text: &str) -> bool {
    let mut written = Vec::new(alloc);
    let is = do_check(alloc, &mut Failing::new(VECTOR, left), &mut written) == answer;
    is && written.as_slice() == text.as_bytes()
}

fn check_writes(alloc: Global, left: usize) -> Result<u8, u8> {
    let mut reader = VECTOR.as_bytes();
    do_check(alloc, &mut reader, &mut Failing::new("", left))
}

/// The packet is 60 bytes of text and one empty read.
#[test]
fn hop_with_a_failing_reader(rt: HostRuntime) {
    for left in 0..61 {
        assert!(rt; hop_reads(rt.alloc(), left, Err(1), ""), "{left}");
    }
    assert!(rt; hop_reads(rt.alloc(), 61, Ok(0), FORWARD));
}

/// The line has 84 bytes.
#[test]
fn hop_with_a_failing_writer(rt: HostRuntime) {
    for left in 0..84 {
        assert_eq!(rt; hop_writes(rt.alloc(), left), Err(1));
    }
    assert_eq!(rt; hop_writes(rt.alloc(), 84), Ok(0));
}

/// The lines have 87 bytes.
#[test]
fn show_with_a_failing_writer(rt: HostRuntime) {
    for left in 0..87 {
        let answer = do_show(rt.alloc(), PACKET, &mut Failing::new("", left));
        assert_eq!(rt; answer, Err(1));
    }
    let answer = do_show(rt.alloc(), PACKET, &mut Failing::new("", 87));
    assert_eq!(rt; answer, Ok(0));
    assert_eq!(rt; FIELDS.len(), 87);
}

/// The lines are 92 bytes of text and one empty read.
#[test]
fn show_frames_with_a_failing_reader(rt: HostRuntime) {
    for left in 0..93 {
        assert!(rt; show_frames_reads(rt.alloc(), left, Err(1), ""), "{left}");
    }
    assert!(rt; show_frames_reads(rt.alloc(), 93, Ok(1), HEARD));
}

#[test]
fn show_frames_with_a_failing_writer(rt: HostRuntime) {
    for left in 0..HEARD.len() {
        assert_eq!(rt; show_frames_writes(rt.alloc(), left), Err(1));
    }
    assert_eq!(rt; show_frames_writes(rt.alloc(), HEARD.len()), Ok(1));
}

/// The vector is 6 bytes and one empty read.
#[test]
fn check_with_a_failing_reader(rt: HostRuntime) {
    for left in 0..7 {
        assert!(rt; check_reads(rt.alloc(), left, Err(1), ""), "{left}");
    }
    assert!(rt; check_reads(rt.alloc(), 7, Ok(0), CHECKED));
}

/// Its line has 19 bytes.
#[test]
fn check_with_a_failing_writer(rt: HostRuntime) {
    for left in 0..19 {
        assert_eq!(rt; check_writes(rt.alloc(), left), Err(1));
    }
    assert_eq!(rt; check_writes(rt.alloc(), 19), Ok(0));
}
