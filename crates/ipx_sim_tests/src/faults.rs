//! A read or write fault is status 1, and nothing more is written after it.

use faulty_io::Failing;
use ipx_sim::do_sim;
use std::alloc::Global;

const SCRIPT: &str = "tick 7\n";

const TOLD: &str = "now 7\nfresh yes\n";

/// Whether `sim` gives this answer and has written this text, if its reader fails after `left`
/// calls.
fn sim_reads(alloc: Global, left: usize, answer: Result<u8, u8>, text: &str) -> bool {
    let mut written = Vec::new(alloc);
    let is = do_sim(alloc, &mut Failing::new(SCRIPT, left), &mut written) == answer;
    is && written.as_slice() == text.as_bytes()
}

fn sim_writes(alloc: Global, left: usize) -> Result<u8, u8> {
    let mut reader = SCRIPT.as_bytes();
    do_sim(alloc, &mut reader, &mut Failing::new("", left))
}

/// The script is 7 bytes and one empty read.
#[test]
fn sim_with_a_failing_reader(rt: HostRuntime) {
    for left in 0..8 {
        assert!(rt; sim_reads(rt.alloc(), left, Err(1), ""), "{left}");
    }
    assert!(rt; sim_reads(rt.alloc(), 8, Ok(0), TOLD));
}

/// The lines have 16 bytes.
#[test]
fn sim_with_a_failing_writer(rt: HostRuntime) {
    for left in 0..16 {
        assert_eq!(rt; sim_writes(rt.alloc(), left), Err(1));
    }
    assert_eq!(rt; sim_writes(rt.alloc(), 16), Ok(0));
}
