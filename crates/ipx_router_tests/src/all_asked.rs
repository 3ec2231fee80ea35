//! Requests for all routes or services: the entries of the replies, their order, and the number of
//! packets.

use crate::fixture::{hears, lengths, replies_to, three_ports};
use crate::order::{full_of_routes, full_of_services};
use crate::services::query;
use std::test::Fail;

/// Networks 44, 5 and 15, of 3, 1 and 2 hops, from node 00007f000009 of network 22.
const NETWORKS_44_5_15: &str = "ffff0038000100000022ffffffffffff04530000002200007f00000904530002\
    000000440003000400000005000100020000001500020003";

/// A request for all routes on port 1, and on port 2.
const ALL_ROUTES_1: &str =
    "ffff0028000100000011ffffffffffff04530000001100007f00000340010001ffffffffffffffff";

const ALL_ROUTES_2: &str =
    "ffff0028000100000022ffffffffffff04530000002200007f00000340010001ffffffffffffffff";

/// Networks 5, 15, 22, 33 and 44: those of the other ports are in order among the learned ones.
const IN_ORDER: &str = "1 00007f000003 \
ffff004800010000001100007f00000340010000001100007f00000104530002\
00000005000200030000001500030004000000220001000100000033000100010000004400040005\n";

#[test]
fn own_networks_among_others(rt: HostRuntime) -> Result<(), Fail> {
    let alloc = rt.alloc();
    let mut router = three_ports(alloc)?;
    assert!(rt; hears(alloc, &mut router, NETWORKS_44_5_15, 3)?);
    assert_eq!(rt;
        replies_to(alloc, &mut router, 1, ALL_ROUTES_1)?.as_str(),
        IN_ORDER
    );
    Ok(())
}

/// Whether there are so many packets of one length, followed by one of another.
fn are_full_but_the_last(sizes: &[usize], many: usize, full: usize, last: usize) -> bool {
    let front = sizes.iter().take(many).all(|size| *size == full);
    front && sizes[many..] == [last]
}

/// 1,024 networks and those of two ports: 20 packets of 50, and one of 26.
#[test]
fn all_of_a_full_table_of_routes(rt: HostRuntime) -> Result<(), Fail> {
    let alloc = rt.alloc();
    let mut router = full_of_routes(alloc)?;
    let sizes = lengths(alloc, &mut router, 1, ALL_ROUTES_1)?;
    assert!(rt; are_full_but_the_last(&sizes, 20, 432, 240));
    let back = lengths(alloc, &mut router, 2, ALL_ROUTES_2)?;
    assert_eq!(rt; back.as_slice(), [48].as_slice());
    Ok(())
}

/// 4,096 services: 585 packets of 7, and one of 1.
#[test]
fn all_of_a_full_table_of_services(rt: HostRuntime) -> Result<(), Fail> {
    let alloc = rt.alloc();
    let mut router = full_of_services(alloc)?;
    let sizes = lengths(alloc, &mut router, 1, &query(alloc, 0x11, 1, "ffff")?)?;
    assert!(rt; are_full_but_the_last(&sizes, 585, 480, 96));
    assert!(rt; lengths(alloc, &mut router, 2, &query(alloc, 0x22, 1, "ffff")?)?.is_empty());
    Ok(())
}
