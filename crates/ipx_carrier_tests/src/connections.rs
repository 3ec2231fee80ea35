//! Connections as their users see them: what was handed in, and what was taken.

use crate::processes::{LISTENING, Process};
use crate::sites::{Letter, Site};
use ipx_wire::{Address, Socket, decode, decode_spx};
use spx_messages::{Message, Taken};
use std::alloc::Global;
use std::test::Fail;

/// The socket from which hosts dial.
const DIALING: Socket = Socket(0x4001);

/// A connection of a host, from its dial, or from the request that made it.
#[derive(Drop)]
pub struct Connection {
    pub host: usize,
    pub id: u16,
    pub is_caller: bool,
    /// The connection whose packet made or joined it.
    pub partner: Option<usize>,
    pub released: bool,
    pub closed: bool,
    /// Whether the end of its peer was taken.
    pub ended: bool,
    pub given: Vec<Message>,
    pub taken: Vec<Message>,
}

impl Connection {
    pub fn new(alloc: Global, host: usize, id: u16, is_caller: bool) -> Connection {
        Connection {
            host,
            id,
            is_caller,
            partner: None,
            released: false,
            closed: false,
            ended: false,
            given: Vec::new(alloc),
            taken: Vec::new(alloc),
        }
    }
}

fn are_equal(one: &Message, other: &Message) -> bool {
    one.stream == other.stream && one.body.as_slice() == other.body.as_slice()
}

/// Whether a message was handed in at a place.
fn is_at(given: &[Message], place: usize, message: &Message) -> bool {
    given.get(place).is_some_and(|it| are_equal(it, message))
}

/// Whether the last message that was taken was handed in at its place.
pub fn is_last_right(given: &[Message], taken: &[Message]) -> bool {
    taken
        .last()
        .is_none_or(|message| is_at(given, taken.len() - 1, message))
}

/// The place of the first message taken that was not handed in there. `None` if what was taken is
/// a prefix of what was handed in.
pub fn first_wrong(given: &[Message], taken: &[Message]) -> Option<usize> {
    for (place, message) in taken.iter().enumerate() {
        if !is_at(given, place, message) {
            return Some(place);
        }
    }
    None
}

/// Connections, as what hosts hear begins and joins them.
impl Site {
    /// Notes the connection that a letter made or joined.
    pub fn note(&mut self, alloc: Global, letter: Letter) -> Result<(), Fail> {
        let process = &mut self.processes[letter.to];
        if process.has_begun_another() {
            let who = self.begin(alloc, letter.to, false)?;
            self.connections[who].partner = self.sender_of(letter.number);
            return Ok(());
        }
        if process.opening == 0 {
            return Ok(());
        }
        let heard = process.as_endpoint().and_then(|it| it.heard());
        let Some(who) = heard.and_then(|id| self.current(letter.to, id)) else {
            return Ok(());
        };
        if self.connections[who].partner.is_none() {
            self.connections[who].partner = self.sender_of(letter.number);
            self.processes[letter.to].opening -= 1;
        }
        Ok(())
    }

    /// A connection with the next id of a host.
    fn begin(&mut self, alloc: Global, host: usize, is_caller: bool) -> Result<usize, Fail> {
        let process = &mut self.processes[host];
        process.last_id += 1;
        let connection = Connection::new(alloc, host, process.last_id, is_caller);
        self.connections.push(connection)?;
        Ok(self.connections.len() - 1)
    }

    /// The connection that has this id of a host now.
    fn current(&self, host: usize, id: u16) -> Option<usize> {
        self.connections
            .iter()
            .position(|it| it.host == host && it.id == id && !it.released)
    }

    /// The connection that made a datagram: the last one with the address and id in it.
    fn sender_of(&self, number: usize) -> Option<usize> {
        let packet = decode(self.bytes_of(number)).ok()?;
        let (header, _) = decode_spx(packet.body).ok()?;
        let from = packet.header.from;
        self.connections.iter().rposition(|it| {
            let home = &self.processes[it.host].ports[0];
            it.id == header.from_id && home.network == from.network && home.node == from.node
        })
    }

    /// The connection at the other end: each was made or joined by a packet of the other.
    pub fn peer(&self, who: usize) -> Option<usize> {
        let peer = self.connections[who].partner?;
        let other = &self.connections[peer];
        if other.partner == Some(who) && other.is_caller != self.connections[who].is_caller {
            Some(peer)
        } else {
            None
        }
    }

    /// A host is over, and a new one starts at its address.
    pub fn restart(&mut self, number: usize, host: Process) {
        for connection in self.connections.iter_mut() {
            if connection.host == number {
                connection.released = true;
            }
        }
        self.processes[number] = host;
    }
}

/// The calls of users.
impl Site {
    /// A host asks another one for a connection. The result is its number.
    pub fn dial(
        &mut self,
        alloc: Global,
        host: usize,
        to: usize,
        buffers: u16,
    ) -> Result<usize, Fail> {
        let there = self.processes[to].ports[0];
        let to = Address {
            network: there.network,
            node: there.node,
            socket: LISTENING,
        };
        let process = &mut self.processes[host];
        let now = process.now;
        if let Some(endpoint) = process.endpoint() {
            endpoint.dial(alloc, DIALING, to, buffers, now)?;
        }
        process.opening += 1;
        self.begin(alloc, host, true)
    }

    /// Hands a message in. The result is whether the connection was open.
    pub fn send(&mut self, alloc: Global, who: usize, message: Message) -> Result<bool, Fail> {
        let connection = &mut self.connections[who];
        let Some(endpoint) = self.processes[connection.host].endpoint() else {
            return Ok(false);
        };
        if endpoint.send(alloc, connection.id, &message).is_err() {
            return Ok(false);
        }
        connection.given.push(message)?;
        Ok(true)
    }

    /// Queues the end of a connection, if it is open.
    pub fn close(&mut self, alloc: Global, who: usize) {
        let connection = &mut self.connections[who];
        if let Some(endpoint) = self.processes[connection.host].endpoint() {
            if endpoint.close(alloc, connection.id).is_ok() {
                connection.closed = true;
            }
        }
    }

    /// Takes a unit. The result is whether there was one.
    pub fn take(&mut self, alloc: Global, who: usize) -> Result<bool, Fail> {
        let connection = &mut self.connections[who];
        let Some(endpoint) = self.processes[connection.host].endpoint() else {
            return Ok(false);
        };
        match endpoint.take(alloc, connection.id)? {
            Taken::Nothing => return Ok(false),
            Taken::Part => {}
            Taken::Whole(message) => connection.taken.push(message)?,
            Taken::PeerEnd => connection.ended = true,
        }
        Ok(true)
    }

    pub fn release(&mut self, who: usize) -> Result<(), Fail> {
        let connection = &mut self.connections[who];
        let process = &mut self.processes[connection.host];
        if let Some(endpoint) = process.endpoint() {
            endpoint.release(connection.id)?;
            connection.released = true;
        }
        if connection.is_caller && connection.partner.is_none() {
            process.opening -= 1;
        }
        Ok(())
    }

    /// Whether all units of a connection are acknowledged, and its end.
    pub fn is_all_acked(&self, who: usize) -> bool {
        let connection = &self.connections[who];
        let endpoint = self.processes[connection.host].as_endpoint();
        !connection.released
            && connection.closed
            && endpoint.is_some_and(|it| it.is_all_acked(connection.id).unwrap_or(false))
    }
}
