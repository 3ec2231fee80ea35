//! Remotes that are not joined.

use crate::switch_caller::give;
use crate::switch_fixture::{CAME, FIRST, PORT, SECOND, frame};
use ipx_ethernet::{Egress, Switch};
use ipx_wire::Node;
use std::test::Fail;

/// Nothing is forwarded between remotes. The port sends a frame for a station only to its remote.
#[test]
fn ends_separate(rt: HostRuntime) -> Result<(), Fail> {
    let mut switch = Switch::new(rt.alloc(), PORT, false)?;
    assert_eq!(rt;
        give(&mut switch, 0, &frame(SECOND, FIRST), 0),
        ([false; 3], None)
    );
    let all = frame(Node::BROADCAST, SECOND);
    assert_eq!(rt; give(&mut switch, 1, &all, 0), ([false; 3], Some(30)));
    assert_eq!(rt; give(&mut switch, 0, &CAME, 0), ([false; 3], Some(30)));
    assert_eq!(rt; switch.passed(), 0);
    assert_eq!(rt; switch.egress_for(SECOND, 0), Egress::ToOne(1));
    assert_eq!(rt; switch.egress_for(Node::BROADCAST, 0), Egress::ToAll);
    Ok(())
}
