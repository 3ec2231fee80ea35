//! UDP sockets on the loopback interface.

use crate::fixture::site;
use ipx_carrier::{Datagrams, DeviceFault};
use ipx_sockets::{BindFault, Senders, UdpSockets};
use std::test::Fail;

const HERE: &str = "\
[[port]]
network = \"00000001\"
address = \"127.0.91.1\"
udp_port = 21391
peers = [\"127.0.91.2\"]
";

const THERE: &str = "\
[[port]]
network = \"00000001\"
address = \"127.0.91.2\"
udp_port = 21391
peers = [\"127.0.91.1\"]
";

const HOLDER: &str = "\
[[port]]
network = \"00000001\"
address = \"127.0.91.3\"
udp_port = 21391
peers = []
";

const IN_USE: &str = "\
[[port]]
network = \"00000001\"
address = \"127.0.91.6\"
udp_port = 21391
peers = []
[[port]]
network = \"00000002\"
address = \"127.0.91.3\"
udp_port = 21391
peers = []
";

const FIRST: &str = "\
[[port]]
network = \"00000001\"
address = \"127.0.91.4\"
udp_port = 21391
peers = [\"127.0.91.5\"]
";

const SECOND: &str = "\
[[port]]
network = \"00000001\"
address = \"127.0.91.5\"
udp_port = 21391
peers = [\"127.0.91.4\"]
";

/// Reads from port 1 until a datagram came, at most 100,000 times.
fn wait_for(device: &mut UdpSockets, room: &mut [u8]) -> Result<Option<usize>, DeviceFault> {
    for _turn in 0..100000u32 {
        if device.ports() == 0 || device.failures() > 1000 {
            return Err(DeviceFault);
        }
        device.mark_all();
        if let Some(count) = device.receive(0, room)? {
            return Ok(Some(count));
        }
    }
    Ok(None)
}

/// Reads from port 1 once.
fn receive(device: &mut UdpSockets, room: &mut [u8]) -> Result<Option<usize>, DeviceFault> {
    if device.ports() == 0 || device.failures() > 1000 {
        return Err(DeviceFault);
    }
    device.receive(0, room)
}

fn send(device: &mut UdpSockets, to: [u8; 4], bytes: &[u8]) -> Result<(), DeviceFault> {
    if device.ports() == 0 || device.failures() > 1000 {
        return Err(DeviceFault);
    }
    device.send(0, to, bytes)
}

fn bound(rt: &HostRuntime, text: &str) -> Result<UdpSockets, BindFault> {
    let Some(site) = site(rt.alloc(), text) else {
        return Err(BindFault::OutOfMemory);
    };
    UdpSockets::bind(rt, rt.alloc(), &site.ports)
}

#[test]
fn tells_who_sent(rt: HostRuntime) -> Result<(), Fail> {
    let mut here = bound(&rt, HERE)?;
    let mut there = bound(&rt, THERE)?;
    assert!(rt; there.sender() == None);
    send(&mut here, [127, 0, 91, 2], b"abc")?;
    let mut room = [0; 1536];
    assert!(rt; wait_for(&mut there, &mut room)? == Some(3));
    assert!(rt; there.sender() == Some([127, 0, 91, 1]));
    Ok(())
}

/// A port is read only if it is marked, and one that has nothing loses its mark.
#[test]
fn a_port_without_a_mark_is_not_asked(rt: HostRuntime) -> Result<(), Fail> {
    let mut here = bound(&rt, FIRST)?;
    let mut there = bound(&rt, SECOND)?;
    let mut room = [0; 1536];
    assert!(rt; there.marks().is_marked(0));
    assert!(rt; receive(&mut there, &mut room)? == None);
    assert!(rt; !there.marks().is_any_marked());
    send(&mut here, [127, 0, 91, 5], b"abc")?;
    assert!(rt; receive(&mut there, &mut room)? == None);
    there.set_ready(1);
    assert!(rt; receive(&mut there, &mut room)? == None);
    assert!(rt; wait_for(&mut there, &mut room)? == Some(3));
    assert!(rt; there.marks().is_marked(0));
    Ok(())
}

#[test]
fn names_the_port_that_is_in_use(rt: HostRuntime) -> Result<(), Fail> {
    let holder = bound(&rt, HOLDER)?;
    let Err(fault) = bound(&rt, IN_USE) else {
        panic!(rt; "both are bound");
    };
    assert!(rt; holder.ports() == 1);
    let text = format!(in rt.alloc(); "{fault}")?;
    assert!(rt;
        text.as_str()
            == "port 2: bind 127.0.91.3:21391: Address already in use (os error 98); another program uses it, perhaps another ipx"
    );
    Ok(())
}
