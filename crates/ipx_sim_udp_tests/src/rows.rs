//! Scripts and what they print.

use ipx_carrier::UdpDatagrams;
use ipx_sim_udp::do_udp;
use log::{Log, warn};
use std::alloc::Global;
use std::net::Net;
use std::process::Abort;
use std::test::Fail;

/// Two routers between two hosts.
const SITE: &str = "host a 11 00007f000003 00007f000001
host b 33 00007f000007 00007f000006 listen 4000 8
router r 11 00007f000001 1 22 00007f000002 1
router s 22 00007f000004 1 33 00007f000006 1
";

/// A connection through both routers, and a message.
const MESSAGE: &str = "pump 100
dial a 4001 33 00007f000007 4000 8
pump 100
send 0 00 616263
pump 100
";

/// Runs a script at a UDP port, and compares its status and output.
fn prints<R: Net + Log + Abort>(
    rt: &R,
    alloc: Global,
    script: &str,
    port: u16,
    expected: (Result<u8, u8>, &str),
) -> Result<(), Fail> {
    let mut text = Vec::new(alloc);
    let mut input = script.as_bytes();
    let status = do_udp(rt, alloc, &mut input, &mut text, port);
    assert_eq!(rt; std::str::from_utf8(&text)?, expected.1);
    assert_eq!(rt; status, expected.0);
    Ok(())
}

/// A UDP port that is free at each address of the two routers and hosts: this one, or, as it then
/// says, one after those that other rows use.
fn free_port<R: Net + Log + Abort>(rt: &R, alloc: Global, first: u16) -> u16 {
    let addresses = [1, 2, 3, 4, 6, 7].map(|last| [127, 0, 0, last]);
    let mut port = first;
    for next in first + 27..first + 127 {
        if UdpDatagrams::bind(rt, alloc, &addresses, port).is_ok() {
            return port;
        }
        warn!(rt; "port {} of UDP is taken on this machine: the test takes another", port);
        port = next;
    }
    panic!(rt;
        "a hundred ports of UDP from {} on are taken on this machine",
        first
    )
}

#[test]
fn udp_row(rt: HostRuntime) -> Result<(), Fail> {
    let alloc = rt.alloc();
    let script = format!(in alloc; "{SITE}{MESSAGE}")?;
    let ends = "end 0 a Live in 1 out 0 next 0001\nend 1 b Live in 0 out 1 next 0000\n";
    let port = free_port(&rt, alloc, 20_213);
    prints(&rt, alloc, &script, port, (Ok(0), ends))
}

#[test]
fn where_a_port_is_taken_another_is(rt: HostRuntime) -> Result<(), Fail> {
    let alloc = rt.alloc();
    let port = free_port(&rt, alloc, 20_320);
    let taken = UdpDatagrams::bind(&rt, alloc, &[[127, 0, 0, 7]], port)?;
    assert!(rt; free_port(&rt, alloc, port) > port);
    std::mem::drop(taken);
    Ok(())
}

#[test]
fn a_port_in_use(rt: HostRuntime) -> Result<(), Fail> {
    let alloc = rt.alloc();
    let taken = UdpDatagrams::bind(&rt, alloc, &[[127, 0, 0, 3]], 20_214)?;
    let expected = (Err(1), "fault (39) Device\n");
    prints(&rt, alloc, SITE, 20_214, expected)?;
    std::mem::drop(taken);
    Ok(())
}

#[test]
fn refusals_and_faults_go_on(rt: HostRuntime) -> Result<(), Fail> {
    let alloc = rt.alloc();
    let lines = "send 0 00 78\ndial a 4001 33 00007f000007 4000 8\nsend 0 00 78\nclose 3\n";
    let script = format!(in alloc; "{SITE}{lines}")?;
    let expected = "fault (34) NoSuchEnd\nrefused (25) NotLive\nfault (34) NoSuchEnd
end 0 a Opening in 0 out 0 next 0000\n";
    prints(&rt, alloc, &script, 20_215, (Ok(1), expected))
}

#[test]
fn a_close(rt: HostRuntime) -> Result<(), Fail> {
    let alloc = rt.alloc();
    let script = format!(in alloc; "{SITE}{MESSAGE}close 0\npump 100\n")?;
    let expected = "ok
end 0 a Confirmed in 1 out 0 next 0002
end 1 b PeerEnded in 0 out 1 next 0000\n";
    prints(&rt, alloc, &script, 20_216, (Ok(0), expected))
}

#[test]
fn lines_of_other_kinds_are_bad(rt: HostRuntime) -> Result<(), Fail> {
    let alloc = rt.alloc();
    for line in [
        "take 0",
        "run 1",
        "tick 1",
        "poll a",
        "deliver 0 a",
        "release 0",
        "dial a",
    ] {
        let script = format!(in alloc; "{SITE}\n{line}\npump 1\n")?;
        prints(&rt, alloc, &script, 20_217, (Ok(2), "line 6 bad\n"))?;
    }
    Ok(())
}

#[test]
fn nodes_without_an_address_are_bad(rt: HostRuntime) -> Result<(), Fail> {
    let alloc = rt.alloc();
    let own = "host a 11 00017f000003 00007f000001\n";
    prints(&rt, alloc, own, 20_218, (Ok(2), "line 1 bad\n"))?;
    let router = "\nhost a 11 00007f000003 01007f000001\n";
    prints(&rt, alloc, router, 20_218, (Ok(2), "line 2 bad\n"))?;
    let port = "router r 11 00007f000001 1 22 00017f000002 1\n";
    prints(&rt, alloc, port, 20_218, (Ok(2), "line 1 bad\n"))
}

#[test]
fn a_packet_without_an_address_is_not_sent(rt: HostRuntime) -> Result<(), Fail> {
    let alloc = rt.alloc();
    let script =
        "host a 11 00007f000003 00007f000001\ndial a 4001 11 000100000005 4000 8\npump 1\n";
    let expected = "end 0 a Opening in 0 out 0 next 0000\n";
    prints(&rt, alloc, script, 20_219, (Ok(0), expected))
}
