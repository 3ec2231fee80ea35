//! A switch is made while memory is refused.

use crate::switch_caller::give;
use crate::switch_fixture::{FIRST, PORT, SECOND, frame};
use ipx_ethernet::{Egress, Switch};
use std::test::Fail;

/// If memory is refused there is no switch, and the next try makes one.
#[test]
fn refused_switch(rt: HostRuntime) -> Result<(), Fail> {
    let mut switch = match Switch::new(rt.alloc(), PORT, true) {
        Ok(switch) => switch,
        Err(_) => Switch::new(rt.alloc(), PORT, true)?,
    };
    give(&mut switch, 0, &frame(SECOND, FIRST), 0);
    assert_eq!(rt; switch.egress_for(FIRST, 0), Egress::ToOne(0));
    Ok(())
}
