//! Hosts and routers that run each by itself, with clocks of their own.

use ipx_carrier::{Core, HostCore, RouterCore};
use ipx_router::{Port, Router};
use ipx_wire::{Network, Node, Socket};
use spx_messages::Endpoint;
use std::alloc::Global;
use std::test::Fail;

/// The socket at which hosts listen.
pub const LISTENING: Socket = Socket(0x4000);

/// A port of process 0 has the node 00007f000010 and so on, one of process 1 00007f000020.
pub fn port(network: u32, process: usize, number: usize) -> Port {
    Port {
        network: Network(network),
        node: Node([0, 0, 0x7f, 0, 0, (16 * (process + 1) + number) as u8]),
        cost: 1,
    }
}

#[derive(Drop)]
enum AnyCore {
    Host(HostCore),
    Router(RouterCore),
}

/// A host or a router.
#[derive(Drop)]
pub struct Process {
    core: AnyCore,
    pub ports: Vec<Port>,
    /// The time of its clock, in milliseconds.
    pub now: u64,
    /// Whether it is over: then it hears and gives nothing.
    pub is_over: bool,
    /// Whether it was called, or its clock moved, since it had nothing to give.
    pub is_awake: bool,
    /// The id that it gave last. Ids are given upwards from 1.
    pub last_id: u16,
    /// How many of its dials were not answered.
    pub opening: u16,
}

impl Process {
    fn new(core: AnyCore, ports: Vec<Port>) -> Process {
        Process {
            core,
            ports,
            now: 0,
            is_over: false,
            is_awake: true,
            last_id: 0,
            opening: 0,
        }
    }

    /// A host that listens, with this many buffers. Its packets for other networks go to a router.
    pub fn host(alloc: Global, at: Port, router: Node, buffers: u16) -> Result<Process, Fail> {
        let mut endpoint = Endpoint::new(alloc, at.network, at.node, router);
        endpoint.listen(alloc, LISTENING, buffers)?;
        let core = AnyCore::Host(HostCore::new(endpoint));
        Ok(Process::new(core, vec![in alloc; at]?))
    }

    /// A router that knows only its own networks.
    pub fn router(alloc: Global, ports: Vec<Port>) -> Result<Process, Fail> {
        let router = Router::new(alloc, ports.clone()?)?;
        let core = AnyCore::Router(RouterCore::new(alloc, router));
        Ok(Process::new(core, ports))
    }

    pub fn is_host(&self) -> bool {
        matches!(&self.core, AnyCore::Host(_))
    }

    pub fn hear(&mut self, alloc: Global, port: usize, bytes: &[u8]) -> Result<(), Fail> {
        self.is_awake = true;
        match &mut self.core {
            AnyCore::Host(core) => core.hear(alloc, port, bytes, self.now)?,
            AnyCore::Router(core) => core.hear(alloc, port, bytes, self.now)?,
        }
        Ok(())
    }

    pub fn next(
        &mut self,
        alloc: Global,
        room: &mut [u8],
    ) -> Result<Option<(usize, Node, usize)>, Fail> {
        let given = match &mut self.core {
            AnyCore::Host(core) => core.next(alloc, self.now, room)?,
            AnyCore::Router(core) => core.next(alloc, self.now, room)?,
        };
        self.is_awake = given.is_some();
        Ok(given)
    }

    pub fn as_endpoint(&self) -> Option<&Endpoint> {
        match &self.core {
            AnyCore::Host(core) => Some(core.as_endpoint()),
            AnyCore::Router(_) => None,
        }
    }

    /// The endpoint of a host, for a call on it.
    pub fn endpoint(&mut self) -> Option<&mut Endpoint> {
        self.is_awake = true;
        match &mut self.core {
            AnyCore::Host(core) => Some(core.endpoint()),
            AnyCore::Router(_) => None,
        }
    }

    /// Whether there is a connection with the next id, which a request made.
    pub fn has_begun_another(&self) -> bool {
        let next = self.last_id + 1;
        self.as_endpoint()
            .is_some_and(|endpoint| endpoint.state(next).is_ok())
    }
}
