//! Services that several ports advertise unchanged, byte by byte.

use crate::fixture::{hears, line_of, port};
use crate::services::services;
use ipx_router::{NewFault, Reply, Router};
use std::alloc::{AllocError, Global};
use std::test::Fail;

/// The 47 bytes of a name after its first letter.
const ZEROS: &str = "\
0000000000000000000000000000000000000000000000000000000000000000000000000000000000000000000000";

/// A router with ports on networks 11, 22, 33 and 55.
fn four_ports(alloc: Global) -> Result<Router, NewFault> {
    let ports = [
        port(0x11, 1, 1),
        port(0x22, 2, 2),
        port(0x33, 6, 1),
        port(0x55, 4, 1),
    ];
    match Vec::from_slice(alloc, &ports) {
        Ok(ports) => Router::new(alloc, ports),
        Err(_) => Err(NewFault::OutOfMemory),
    }
}

/// The packets of services among those that are advertised, as text.
fn services_told(alloc: Global, told: &[Reply]) -> Result<String, Fail> {
    let mut text = String::new(alloc);
    for reply in told {
        if reply.bytes[16..18] == [0x04, 0x52] {
            text.push_str(&line_of(alloc, reply)?)?;
        }
    }
    Ok(text)
}

/// The packet that advertises on a port so many services, named by letters from this one on. Each
/// has one hop more than it was learned with.
fn packet(alloc: Global, number: u8, first: u8, count: u8) -> Result<String, AllocError> {
    let place = match number {
        1 => "0000001100007f000001",
        3 => "0000003300007f000006",
        _ => "0000005500007f000004",
    };
    let (network, node) = place.split_at(8);
    let length = hex::encode(alloc, (32 + 64 * count as u16).to_be_bytes())?;
    let mut text = format!(in alloc;
        "{number} ffffffffffff ffff{length}0004{network}ffffffffffff0452{network}{node}04520002"
    )?;
    for letter in first..first + count {
        let letter = hex::encode(alloc, [letter])?;
        text.push_str(&format!(in alloc; "0004{letter}{ZEROS}0000004400000000000104510003")?)?;
    }
    text.push_str("\n")?;
    Ok(text)
}

#[test]
fn nine_services_at_three_ports(rt: HostRuntime) -> Result<(), Fail> {
    let alloc = rt.alloc();
    let mut router = four_ports(alloc)?;
    assert!(rt; hears(alloc, &mut router, &services(alloc, b'A', 7, 2)?, 7)?);
    assert!(rt; hears(alloc, &mut router, &services(alloc, b'H', 2, 2)?, 2)?);
    let told = router.tell(alloc, 0)?;
    let mut expected = String::new(alloc);
    for number in [1, 3, 4] {
        expected.push_str(&packet(alloc, number, b'A', 7)?)?;
        expected.push_str(&packet(alloc, number, b'H', 2)?)?;
    }
    assert_eq!(rt; services_told(alloc, &told)?.as_str(), expected.as_str());
    Ok(())
}
