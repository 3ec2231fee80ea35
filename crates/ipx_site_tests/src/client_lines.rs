//! Clients that connect to ipxnet ports and those that are gone: what is logged at a look, and what
//! waits.

use ipx_site::{ClientLog, PortClient};
use ipx_wire::Node;
use std::alloc::{AllocError, Global};
use std::net::{Ipv4Addr, SocketAddrV4};
use std::test::Fail;

/// The node of the client at this UDP port.
fn node_of(udp_port: u16) -> Node {
    let [high, low] = udp_port.to_be_bytes();
    Node([198, 51, 100, 7, high, low])
}

/// The client at this UDP port of 198.51.100.7.
fn client(port: usize, udp_port: u16) -> PortClient {
    let place = SocketAddrV4::new(Ipv4Addr::new(198, 51, 100, 7), udp_port);
    PortClient {
        port,
        place,
        node: node_of(udp_port),
    }
}

/// The clients of a port at these UDP ports.
fn clients(alloc: Global, port: usize, udp_ports: &[u16]) -> Result<Vec<PortClient>, AllocError> {
    let mut all = Vec::new(alloc);
    for udp_port in udp_ports {
        all.push(client(port, *udp_port))?;
    }
    Ok(all)
}

/// How many clients are logged as gone, and as connected, at looks at which these are there.
fn counts(
    alloc: Global,
    told: &mut ClientLog,
    there: &[PortClient],
) -> Result<(usize, usize), AllocError> {
    let news = told.look(alloc, there)?;
    Ok((news.gone.len(), news.came.len()))
}

#[test]
fn comes_and_goes(rt: HostRuntime) -> Result<(), Fail> {
    let alloc = rt.alloc();
    let mut told = ClientLog::new(alloc);
    assert_eq!(rt; counts(alloc, &mut told, &[])?, (0, 0));
    let both = clients(alloc, 2, &[48199, 48200])?;
    let news = told.look(alloc, &both)?;
    assert!(rt; news.gone.is_empty() && news.came.as_slice() == both.as_slice());
    assert_eq!(rt; counts(alloc, &mut told, &both)?, (0, 0));
    // The client that was heard last is last in the list: nobody came or is gone.
    let other_order = clients(alloc, 2, &[48200, 48199])?;
    assert_eq!(rt; counts(alloc, &mut told, &other_order)?, (0, 0));
    let news = told.look(alloc, &both[1..])?;
    assert!(rt; news.came.is_empty() && news.gone.as_slice() == [client(2, 48199)].as_slice());
    // The same place at another port, and with another node, is another client.
    let mut others = clients(alloc, 3, &[48199])?;
    others.push(PortClient {
        node: Node([2, 0, 0, 0, 0xbc, 0x48]),
        ..client(2, 48200)
    })?;
    let news = told.look(alloc, &others)?;
    assert!(rt; news.gone.as_slice() == [client(2, 48200)].as_slice());
    assert!(rt; news.came.as_slice() == others.as_slice());
    assert_eq!(rt; counts(alloc, &mut told, &[])?, (2, 0));
    assert_eq!(rt; counts(alloc, &mut told, &[])?, (0, 0));
    Ok(())
}

/// At most ten at a look, those that are gone first, the others later. A client that left before it
/// was logged is never logged.
#[test]
fn ten_at_a_look(rt: HostRuntime) -> Result<(), Fail> {
    let alloc = rt.alloc();
    let mut many = Vec::new(alloc);
    for place in 0..25_u16 {
        many.push(client(1, 1000 + place))?;
    }
    let mut told = ClientLog::new(alloc);
    let first = told.look(alloc, &many)?;
    assert!(rt; first.gone.is_empty() && first.came.as_slice() == &many[..10]);
    let second = told.look(alloc, &many)?;
    assert!(rt; second.gone.is_empty() && second.came.as_slice() == &many[10..20]);
    // The clients after the twentieth leave before anything was logged of them, with the first
    // three.
    let left = told.look(alloc, &many[3..20])?;
    assert!(rt; left.gone.as_slice() == &many[..3] && left.came.is_empty());
    // Seventeen are gone and five came: ten, ten and two lines.
    let wanted = [(10, 0), (7, 3), (0, 2), (0, 0)];
    for counted in wanted {
        assert_eq!(rt; counts(alloc, &mut told, &many[20..])?, counted);
    }
    Ok(())
}

/// If out of memory nothing is logged, and all of it is logged later.
#[test]
fn refused_client_lines(rt: HostRuntime) -> Result<(), Fail> {
    let alloc = rt.alloc();
    let both = match clients(alloc, 2, &[48199, 48200]) {
        Ok(both) => both,
        Err(_) => clients(alloc, 2, &[48199, 48200])?,
    };
    let mut told = ClientLog::new(alloc);
    let news = match told.look(alloc, &both) {
        Ok(news) => news,
        Err(_) => told.look(alloc, &both)?,
    };
    assert!(rt; news.came.as_slice() == both.as_slice());
    let counted = match counts(alloc, &mut told, &both) {
        Ok(counted) => counted,
        Err(_) => counts(alloc, &mut told, &both)?,
    };
    assert_eq!(rt; counted, (0, 0));
    Ok(())
}
