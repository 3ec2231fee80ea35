//! Sites that are drawn from a seed: 2 to 4 hosts, and up to 3 routers.

use crate::draws::Dice;
use crate::processes::{Process, port};
use crate::sites::Site;
use ipx_router::Port;
use ipx_wire::Node;
use std::alloc::Global;
use std::test::Fail;

/// The ports of a router: on a network that is there already, and on a new one.
fn ports_of(alloc: Global, dice: &mut Dice, router: usize) -> Result<Vec<Port>, Fail> {
    let old = 0x11 + dice.place(router + 1) as u32;
    let new = 0x12 + router as u32;
    let ports = vec![in alloc; port(old, router, 0), port(new, router, 1)]?;
    Ok(ports)
}

/// Adds routers, and all their packets pass. Of three, some learn the way to a network only from a
/// second advertisement.
fn add_routers(
    alloc: Global,
    dice: &mut Dice,
    site: &mut Site,
    routers: usize,
) -> Result<(), Fail> {
    for router in 0..routers {
        let ports = ports_of(alloc, dice, router)?;
        site.processes.push(Process::router(alloc, ports)?)?;
    }
    site.settle(alloc)?;
    if routers == 3 {
        for router in site.processes.iter_mut() {
            router.now += 60_000;
        }
        site.settle(alloc)?;
    }
    Ok(())
}

/// The node of some router on the network of a port. If there is none, a node that nobody has.
fn router_near(site: &Site, at: Port) -> Node {
    let mut ports = site
        .processes
        .iter()
        .flat_map(|process| process.ports.iter());
    let router = ports.find(|port| port.network == at.network);
    router.map_or(port(0, 14, 0).node, |port| port.node)
}

/// Adds hosts, each on some network.
fn add_hosts(alloc: Global, dice: &mut Dice, site: &mut Site, hosts: usize) -> Result<(), Fail> {
    let routers = site.processes.len();
    for number in routers..routers + hosts {
        let at = port(0x11 + dice.place(routers + 1) as u32, number, 0);
        let router = router_near(site, at);
        let buffers = 1 + dice.below(8) as u16;
        let host = Process::host(alloc, at, router, buffers)?;
        site.processes.push(host)?;
    }
    Ok(())
}

/// Fills a site with routers that know the way, and hosts. Their clocks differ. A small site has at
/// most one router.
pub fn fill(alloc: Global, dice: &mut Dice, site: &mut Site, is_small: bool) -> Result<(), Fail> {
    let (routers, hosts) = if is_small {
        ([0, 0, 0, 0, 0, 0, 0, 1][dice.place(8)], 2 + dice.place(2))
    } else {
        (dice.place(4), 2 + dice.place(3))
    };
    add_routers(alloc, dice, site, routers)?;
    add_hosts(alloc, dice, site, hosts)?;
    for process in site.processes.iter_mut() {
        process.now += dice.below(1_000_000);
    }
    Ok(())
}
