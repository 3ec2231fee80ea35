//! Two hosts on one network, as the tests use them, and the datagrams that pass between them.

ghost use Rattle.std.specs.Prelude.{◌≡◌, ◌≤◌, IfSome, length};

use ipx_wire::{Address, Network, Node, OutOfMemory, Socket};
use spx_link::{Received, Sent, State};
use spx_messages::{Arrived, EndFault, Endpoint, Message, Taken};
use std::alloc::Global;
use std::process::Abort;
use std::test::Fail;

const NETWORK: Network = Network(0x11);

const NEAR: Node = Node([0, 0, 0x7f, 0, 0, 3]);

const FAR: Node = Node([0, 0, 0x7f, 0, 0, 4]);

const ROUTER: Node = Node([0, 0, 0x7f, 0, 0, 2]);

const FROM: Socket = Socket(0x4001);

const TO: Socket = Socket(0x4000);

/// The size of the buffer for a packet.
pub const ROOM: usize = 576;

/// A host. Its time is always 0. A call without an id uses id 1.
#[derive(Drop)]
pub struct Host {
    endpoint: Endpoint,
    alloc: Global,
}

impl Host {
    /// The host that asks for connections.
    pub fn near(alloc: Global) -> Host {
        let endpoint = Endpoint::new(alloc, NETWORK, NEAR, ROUTER);
        Host { endpoint, alloc }
    }

    /// The host that is asked.
    pub fn far(alloc: Global) -> Host {
        let endpoint = Endpoint::new(alloc, NETWORK, FAR, ROUTER);
        Host { endpoint, alloc }
    }

    /// Listens at a socket.
    pub fn listen(&mut self, socket: u16) -> Result<(), OutOfMemory> {
        self.endpoint.listen(self.alloc, Socket(socket), 8)
    }

    /// Asks the far host for a connection.
    pub fn dial(&mut self) -> Result<u16, EndFault> {
        let there = Address {
            network: NETWORK,
            node: FAR,
            socket: TO,
        };
        self.endpoint.dial(self.alloc, FROM, there, 8, 0)
    }

    pub fn send(&mut self, sent: &Message) -> Result<(), EndFault> {
        self.send_over(1, sent)
    }

    /// Sends over a link.
    pub fn send_over(&mut self, id: u16, sent: &Message) -> Result<(), EndFault> {
        self.endpoint.send(self.alloc, id, sent)
    }

    pub fn close(&mut self) -> Result<(), EndFault> {
        self.endpoint.close(self.alloc, 1)
    }

    pub fn take(&mut self) -> Result<Taken, EndFault> {
        self.endpoint.take(self.alloc, 1)
    }

    /// The message that a take gives, if it gives one.
    pub fn take_whole(&mut self) -> Result<Option<Message>, EndFault> {
        let taken = self.take()?;
        Ok(whole(taken))
    }

    /// Sets the window of a link, and whether it retransmits manually.
    pub fn pace(&mut self, id: u16, window: u16, manual: bool) -> Result<(), EndFault> {
        self.endpoint.pace(id, window, manual)
    }

    /// Asks a link to retransmit the unit at an index.
    pub fn again(&mut self, id: u16, place: u16) -> Result<(), EndFault> {
        self.endpoint.again(id, place)
    }

    pub fn release(&mut self, id: u16) -> Result<(), EndFault> {
        self.endpoint.release(id)
    }

    pub fn state(&self, id: u16) -> Result<State, EndFault> {
        self.endpoint.state(id)
    }

    /// Whether everything is acknowledged, including the end.
    pub fn is_all_acked(&self, id: u16) -> Result<bool, EndFault> {
        self.endpoint.is_all_acked(id)
    }

    /// The number of held units.
    pub fn held(&self) -> Result<u16, EndFault> {
        Ok(self.endpoint.numbers(1)?.held)
    }

    /// The stream of the unit that is taken next.
    pub fn next_stream(&self) -> Result<Option<u8>, EndFault> {
        Ok(self.endpoint.peek(1)?.map(|unit| unit.stream))
    }

    pub fn sent(&self) -> Option<(u16, Sent)> {
        self.endpoint.sent()
    }

    pub fn heard(&self) -> Option<u16> {
        self.endpoint.heard()
    }

    pub fn next_due(&self) -> Option<u64> {
        self.endpoint.next_due()
    }

    /// Its answer to a datagram.
    pub fn receive(&mut self, bytes: &[u8]) -> Result<Arrived, OutOfMemory> {
        self.endpoint.receive(self.alloc, bytes, 0)
    }

    /// The same. If memory is refused, the datagram is passed again.
    pub fn hear(&mut self, bytes: &[u8]) -> Result<Arrived, OutOfMemory> {
        match self.receive(bytes) {
            Ok(arrived) => Ok(arrived),
            Err(_) => self.receive(bytes),
        }
    }

    /// Writes the packet that it gives to the buffer, and gives its length.
    pub fn poll(&mut self, room: &mut [u8]) -> Option<usize>
        requires { 576 ≤ length room.old }
        ensures { IfSome result (λ count. count ≤ 576) }
    {
        let (_, count) = self.endpoint.poll(0, room)?;
        Some(count)
    }

    /// Whether a packet that it gives goes to the far host.
    pub fn speaks_to_far(&mut self, room: &mut [u8]) -> bool
        requires { 576 ≤ length room.old }
    {
        match self.endpoint.poll(0, room) {
            Some((node, _)) => node == FAR,
            None => false,
        }
    }

    /// Whether it gives a packet.
    pub fn speaks(&mut self) -> bool {
        let mut room = [0; ROOM];
        self.poll(&mut room).is_some()
    }

    /// Listens at the socket of the tests. If memory is refused, it is tried again.
    pub fn opens(&mut self) -> Result<(), OutOfMemory> {
        if self.listen(TO.0).is_err() {
            self.listen(TO.0)?;
        }
        Ok(())
    }

    /// Asks the far host for a connection. If memory is refused, it is tried again.
    pub fn dial_at_last(&mut self) -> Result<u16, EndFault> {
        match self.dial() {
            Ok(id) => Ok(id),
            Err(_) => self.dial(),
        }
    }
}

/// The message that was taken, if one was.
pub fn whole(taken: Taken) -> Option<Message> {
    match taken {
        Taken::Whole(message) => Some(message),
        _other => None,
    }
}

/// Passes the packet that a host gives to the other one. `None` if it gives none.
pub fn passes(from: &mut Host, to: &mut Host) -> Result<Option<Arrived>, OutOfMemory> {
    let mut room = [0; ROOM];
    let Some(count) = from.poll(&mut room) else {
        return Ok(None);
    };
    let bytes = &room[..count];
    Ok(Some(to.hear(bytes)?))
}

/// Connects the near host with the far one. After that, each has link 1.
pub fn joins(rt: &impl Abort, near: &mut Host, far: &mut Host) -> Result<(), Fail> {
    far.opens()?;
    assert_eq!(rt; near.dial_at_last()?, 1);
    let asked = passes(near, far)?;
    assert_eq!(rt; asked, Some(Arrived::Accepted(1)));
    let replied = passes(far, near)?;
    assert_eq!(rt; replied, Some(Arrived::Link(1, Received::Joined)));
    Ok(())
}
