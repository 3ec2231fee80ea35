//! A device of sockets, over the loopback interface.

use ipx_carrier::{Datagrams, DeviceFault, UdpDatagrams};
use std::process::Abort;
use std::test::Fail;

/// A UDP port that nothing else uses.
const PORT: u16 = 20_913;

/// The first and the last address are of two devices that exchange datagrams.
const HERE: [u8; 4] = [127, 0, 0, 41];

const THERE: [u8; 4] = [127, 0, 0, 42];

/// Asks a device for a datagram until there is one, or the tries are used up.
fn wait_for(device: &mut UdpDatagrams, room: &mut [u8]) -> Result<Option<usize>, DeviceFault> {
    for _ in 0..100_000_u32 {
        if device.ports() == 0 || device.failures() > 1000 {
            return Ok(None);
        }
        if let Some(count) = device.receive(0, room)? {
            return Ok(Some(count));
        }
    }
    Ok(None)
}

/// Sends bytes from the first port of a device. A device without ports sends nothing.
fn send(device: &mut UdpDatagrams, to: [u8; 4], bytes: &[u8]) -> Result<(), DeviceFault> {
    if device.ports() == 0 || device.failures() > 1000 {
        return Ok(());
    }
    device.send(0, to, bytes)
}

/// Asks a device once.
fn ask(device: &mut UdpDatagrams, room: &mut [u8]) -> Result<Option<usize>, DeviceFault> {
    if device.ports() == 0 || device.failures() > 1000 {
        return Ok(None);
    }
    device.receive(0, room)
}

#[test]
fn one_datagram_comes_once(rt: HostRuntime) -> Result<(), Fail> {
    let alloc = rt.alloc();
    let mut here = UdpDatagrams::bind(&rt, alloc, &[HERE], PORT)?;
    let mut there = UdpDatagrams::bind(&rt, alloc, &[THERE], PORT)?;
    let mut room = [0; 1536];
    assert!(rt; ask(&mut there, &mut room)? == None);
    send(&mut here, THERE, b"abc")?;
    assert!(rt; wait_for(&mut there, &mut room)? == Some(3));
    assert!(rt; room[..3] == b"abc"[..]);
    assert!(rt; ask(&mut there, &mut room)? == None);
    assert!(rt; ask(&mut here, &mut room)? == None);
    Ok(())
}

#[test]
fn an_address_in_use_is_a_fault(rt: HostRuntime) -> Result<(), Fail> {
    let alloc = rt.alloc();
    let first = UdpDatagrams::bind(&rt, alloc, &[HERE], PORT + 1)?;
    assert_eq!(rt; first.ports(), 1);
    let second = UdpDatagrams::bind(&rt, alloc, &[HERE], PORT + 1);
    assert!(rt; second.is_err());
    Ok(())
}

/// A device of two sockets, bound once more if memory was refused: no socket stays open.
#[test]
fn refused_bind(rt: HostRuntime) -> Result<(), Fail> {
    let alloc = rt.alloc();
    let device = match UdpDatagrams::bind(&rt, alloc, &[HERE, THERE], PORT + 2) {
        Ok(device) => device,
        Err(_) => UdpDatagrams::bind(&rt, alloc, &[HERE, THERE], PORT + 2)?,
    };
    assert_eq!(rt; device.ports(), 2);
    assert_eq!(rt; device.failures(), 0);
    Ok(())
}
