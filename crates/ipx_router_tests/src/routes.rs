//! Worked cases of routes, with literal bytes.

use crate::fixture::{
    NETWORK_44, TO_NETWORK_44, answer, onward_text, replies_to, text_of, three_ports, told_text,
};
use ipx_router::{NewFault, Outcome, Reason, Router};
use ipx_wire::Network;
use std::alloc::Global;
use std::process::Abort;
use std::test::Fail;

/// What the router of `route_rows` advertises first.
const TOLD: &str = "\
1 ffffffffffff ffff0038000100000011ffffffffffff04530000001100007f00000104530002000000220001000100000033000100010000004400020004
2 ffffffffffff ffff0030000100000022ffffffffffff04530000002200007f0000020453000200000011000100020000003300010002
3 ffffffffffff ffff0038000100000033ffffffffffff04530000003300007f00000604530002000000110001000100000022000100010000004400020004
";

#[test]
fn route_rows(rt: HostRuntime) -> Result<(), Fail> {
    let alloc = rt.alloc();
    let mut router = three_ports(alloc)?;
    let heard = answer(alloc, &mut router, 2, NETWORK_44, 0)?;
    assert!(rt; matches!(heard, Outcome::Heard(1)));
    assert_eq!(rt; told_text(alloc, &mut router, 0)?.as_str(), TOLD);
    is_told_each_minute(&rt, alloc, &mut router)?;
    goes_on_while_young(&rt, alloc, &mut router)
}

fn is_told_each_minute(rt: &impl Abort, alloc: Global, router: &mut Router) -> Result<(), Fail> {
    assert!(rt; router.tell(alloc, 59_999)?.is_empty());
    assert_eq!(rt; router.tell(alloc, 60_000)?.len(), 3);
    Ok(())
}

fn goes_on_while_young(rt: &impl Abort, alloc: Global, router: &mut Router) -> Result<(), Fail> {
    let onward = onward_text(alloc, &answer(alloc, router, 1, TO_NETWORK_44, 60_000)?)?;
    assert_eq!(rt;
        onward.as_str(),
        "2 00007f000009 ffff001e01000000004400007f00000540000000001100007f0000034001\n"
    );
    let late = answer(alloc, router, 1, TO_NETWORK_44, 180_000)?;
    assert!(rt; matches!(late, Outcome::Dropped(Reason::NoRoute(Network(0x44)))));
    Ok(())
}

#[test]
fn printed_networks(rt: HostRuntime) -> Result<(), Fail> {
    let alloc = rt.alloc();
    let reason = Reason::NoRoute(Network(0x1a2b));
    let text = format!(in alloc; "{reason}")?;
    assert_eq!(rt; text.as_str(), "no route to network 00001a2b");
    let fault = NewFault::TwinNetwork(Network(0xab));
    let text = format!(in alloc; "{fault}")?;
    assert_eq!(rt; text.as_str(), "two ports on network 000000ab");
    Ok(())
}

/// Networks 44, 99, 22 and 44 again, asked on port 1 from socket 4001.
const ASKED: &str = "ffff0040000100000011ffffffffffff04530000001100007f00000340010001\
00000044ffffffff00000099ffffffff00000022ffffffff00000044ffffffff";

#[test]
fn asked_routes(rt: HostRuntime) -> Result<(), Fail> {
    let alloc = rt.alloc();
    let mut router = three_ports(alloc)?;
    answer(alloc, &mut router, 2, NETWORK_44, 0)?;
    let told = replies_to(alloc, &mut router, 1, ASKED)?;
    assert_eq!(rt;
        told.as_str(),
        "\
1 00007f000003 ffff003800010000001100007f00000340010000001100007f00000104530002000000440002000400000022000100010000004400020004
"
    );
    Ok(())
}

#[test]
fn starting(rt: HostRuntime) -> Result<(), Fail> {
    let alloc = rt.alloc();
    let router = three_ports(alloc)?;
    let asked = router.start(alloc)?;
    assert_eq!(rt; asked.len(), 6);
    assert_eq!(rt;
        text_of(alloc, &asked[..2])?.as_str(),
        "\
1 ffffffffffff ffff0028000100000011ffffffffffff04530000001100007f00000104530001ffffffffffffffff
1 ffffffffffff ffff0022000400000011ffffffffffff04520000001100007f00000104520001ffff
"
    );
    Ok(())
}
