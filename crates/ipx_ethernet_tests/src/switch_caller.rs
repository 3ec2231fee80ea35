//! How a caller forwards a frame that came from one of three remotes.

use crate::switch_fixture::{CAME, FIRST, PORT, SECOND, frame};
use ipx_ethernet::Switch;
use std::test::Fail;

/// Which of three remotes get a frame from the remote `giver`, and how many bytes of it go to the
/// core of the port.
pub fn give(
    switch: &mut Switch,
    giver: usize,
    bytes: &[u8],
    now: u64,
) -> ([bool; 3], Option<usize>) {
    let (onward, packet) = switch.hear(giver, bytes, now);
    let takers = [onward.is_to(0), onward.is_to(1), onward.is_to(2)];
    (takers, packet.ok().map(|packet| packet.len()))
}

#[test]
fn frames_of_three_ends(rt: HostRuntime) -> Result<(), Fail> {
    let mut switch = Switch::new(rt.alloc(), PORT, true)?;
    // To a station that is not known yet: to both others.
    let first = frame(SECOND, FIRST);
    assert_eq!(rt;
        give(&mut switch, 0, &first, 1000),
        ([false, true, true], None)
    );
    // Its answer goes only to the remote of the first station.
    let answer = frame(FIRST, SECOND);
    assert_eq!(rt;
        give(&mut switch, 1, &answer, 1010),
        ([true, false, false], None)
    );
    // A frame for the port goes only to its core.
    assert_eq!(rt; give(&mut switch, 0, &CAME, 1020), ([false; 3], Some(30)));
    assert_eq!(rt; switch.passed(), 2);
    assert_eq!(rt; switch.counts().not_ours, 2);
    assert_eq!(rt; switch.counts().handed_on, 1);
    Ok(())
}
