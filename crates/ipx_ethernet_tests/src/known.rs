//! For how long a station is known, and how many are.

use crate::switch_caller::give;
use crate::switch_fixture::{FIRST, PORT, SECOND, frame};
use ipx_ethernet::{Egress, Switch};
use ipx_wire::Node;
use std::test::Fail;

/// Five minutes after its last frame a station is not known any more.
#[test]
fn for_five_minutes(rt: HostRuntime) -> Result<(), Fail> {
    let mut switch = Switch::new(rt.alloc(), PORT, true)?;
    give(&mut switch, 0, &frame(SECOND, FIRST), 7);
    give(&mut switch, 0, &frame(SECOND, FIRST), 1000);
    assert_eq!(rt; switch.egress_for(FIRST, 300_999), Egress::ToOne(0));
    assert_eq!(rt; switch.egress_for(FIRST, 301_000), Egress::ToAll);
    // If the clock went back, a station is not known, because its age is not.
    assert_eq!(rt; switch.egress_for(FIRST, 999), Egress::ToAll);
    give(&mut switch, 0, &frame(SECOND, FIRST), 50);
    assert_eq!(rt; switch.egress_for(FIRST, 50), Egress::ToOne(0));
    assert_eq!(rt; switch.egress_for(FIRST, 300_050), Egress::ToAll);
    assert_eq!(rt; switch.stations().len(), 1);
    Ok(())
}

/// A frame for a station that is no longer known goes to each of the others again.
#[test]
fn frames_for_an_old_station(rt: HostRuntime) -> Result<(), Fail> {
    let mut switch = Switch::new(rt.alloc(), PORT, true)?;
    give(&mut switch, 0, &frame(SECOND, FIRST), 1000);
    let answer = frame(FIRST, SECOND);
    assert_eq!(rt;
        give(&mut switch, 1, &answer, 300_999),
        ([true, false, false], None)
    );
    assert_eq!(rt;
        give(&mut switch, 1, &answer, 301_000),
        ([true, false, true], None)
    );
    // It was known at the remote that the frame came from: the frame stays there, until the station
    // is no longer known.
    give(&mut switch, 1, &frame(SECOND, FIRST), 302_000);
    assert_eq!(rt; give(&mut switch, 1, &answer, 601_999), ([false; 3], None));
    assert_eq!(rt;
        give(&mut switch, 1, &answer, 602_000),
        ([true, false, true], None)
    );
    Ok(())
}

/// A station that moved is known at its new remote.
#[test]
fn at_its_last_end(rt: HostRuntime) -> Result<(), Fail> {
    let mut switch = Switch::new(rt.alloc(), PORT, true)?;
    give(&mut switch, 0, &frame(SECOND, FIRST), 0);
    give(&mut switch, 2, &frame(SECOND, FIRST), 1);
    assert_eq!(rt; switch.egress_for(FIRST, 1), Egress::ToOne(2));
    assert_eq!(rt; switch.stations().len(), 1);
    Ok(())
}

/// The address of the station with this number.
fn station(number: u16) -> Node {
    let [high, low] = number.to_be_bytes();
    Node([2, 0, 0, 1, high, low])
}

/// Of 1,025 stations the one that was heard longest ago is not known any more.
#[test]
fn a_full_table(rt: HostRuntime) -> Result<(), Fail> {
    let mut switch = Switch::new(rt.alloc(), PORT, true)?;
    for number in 0..1024 {
        give(
            &mut switch,
            1,
            &frame(SECOND, station(number)),
            u64::from(number),
        );
    }
    // The first one is heard again, so that the second was heard longest ago.
    give(&mut switch, 1, &frame(SECOND, station(0)), 1024);
    assert_eq!(rt; switch.stations().len(), 1024);
    give(&mut switch, 1, &frame(SECOND, station(1024)), 1025);
    assert_eq!(rt; switch.stations().len(), 1024);
    assert_eq!(rt; switch.egress_for(station(0), 1025), Egress::ToOne(1));
    assert_eq!(rt; switch.egress_for(station(1), 1025), Egress::ToAll);
    assert_eq!(rt; switch.egress_for(station(2), 1025), Egress::ToOne(1));
    assert_eq!(rt; switch.egress_for(station(1024), 1025), Egress::ToOne(1));
    Ok(())
}

/// If all stations of a full table were heard in one millisecond, those heard first are removed.
#[test]
fn two_in_one_millisecond(rt: HostRuntime) -> Result<(), Fail> {
    let mut switch = Switch::new(rt.alloc(), PORT, true)?;
    for number in 0..1024 {
        give(&mut switch, 1, &frame(SECOND, station(number)), 7);
    }
    give(&mut switch, 0, &frame(SECOND, station(1024)), 7);
    assert_eq!(rt; switch.egress_for(station(0), 7), Egress::ToAll);
    assert_eq!(rt; switch.egress_for(station(1), 7), Egress::ToOne(1));
    give(&mut switch, 2, &frame(SECOND, station(1025)), 7);
    assert_eq!(rt; switch.egress_for(station(1), 7), Egress::ToAll);
    assert_eq!(rt; switch.egress_for(station(2), 7), Egress::ToOne(1));
    assert_eq!(rt; switch.egress_for(station(1024), 7), Egress::ToOne(0));
    assert_eq!(rt; switch.egress_for(station(1025), 7), Egress::ToOne(2));
    assert_eq!(rt; switch.stations().len(), 1024);
    Ok(())
}
