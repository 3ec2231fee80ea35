//! A host that asks a router what it knows.

use crate::ipx::{Place, read};
use crate::tables::{NEAREST_RESPONSE, RESPONSE, networks, query_for_nearest, request, types};
use std::cell::Cell;
use std::io;
use std::net::UdpSocket;
use std::thread;
use std::time::{Duration, Instant};

/// After this silence a router is asked again: it starts, or waits for a processor.
const SILENCE: Duration = Duration::from_millis(2);
/// Between an answer and the next question for the same.
const PAUSE: Duration = Duration::from_micros(500);
/// The sockets at which it asks, one after the other, so that no answer is taken for another one's.
const FIRST_SOCKET: u16 = 0x4100;
const SOCKETS: u16 = 0x1000;
/// The bytes of a route in a response, and of a response's operation.
const ROUTE: usize = 8;
const OPERATION: usize = 2;
/// Of so many service types one is asked for, from the last one to the first one. A router answers a
/// node 32 queries for the nearest service at once, and then two a second.
const STEP: usize = 117;

pub struct Asker<'a> {
    socket: &'a UdpSocket,
    from: Place,
    /// The router's address there, and the port of UDP.
    router: (String, u16),
    /// Another network of the router, which it knows at any time.
    network: u32,
    asked: Cell<u16>,
}

/// What is asked for: a network, or the nearest service of a type.
#[derive(Clone, Copy, Debug)]
pub enum Asked {
    Network(u32),
    Service(u16),
}

impl<'a> Asker<'a> {
    pub fn new(
        socket: &'a UdpSocket,
        from: Place,
        router: (String, u16),
        network: u32,
    ) -> io::Result<Self> {
        socket.set_read_timeout(Some(SILENCE))?;
        Ok(Asker {
            socket,
            from,
            router,
            network,
            asked: Cell::new(0),
        })
    }

    fn send(&self, bytes: &[u8]) -> io::Result<()> {
        let (address, port) = &self.router;
        self.socket.send_to(bytes, (address.as_str(), *port))?;
        Ok(())
    }

    /// Whether the router knows it, or nothing where no answer came. Behind the question goes one
    /// whose answer is known: where that comes alone, there is no other.
    fn is_known(&self, what: Asked) -> io::Result<Option<bool>> {
        self.asked.set((self.asked.get() + 1) % SOCKETS);
        let from = self.from.at(FIRST_SOCKET + self.asked.get());
        let mut networks = vec![self.network];
        match what {
            Asked::Network(network) => networks.push(network),
            Asked::Service(kind) => self.send(&query_for_nearest(from, kind))?,
        }
        self.send(&request(from, &networks))?;
        self.hear(from.socket)
    }

    /// What the first answer to this socket says.
    fn hear(&self, socket: u16) -> io::Result<Option<bool>> {
        let end = Instant::now() + SILENCE;
        let mut room = [0; 1536];
        while Instant::now() < end {
            let count = match self.socket.recv(&mut room) {
                Ok(count) => count,
                Err(error) if error.kind() == io::ErrorKind::WouldBlock => continue,
                Err(error) => return Err(error),
            };
            match read(&room[..count]) {
                Some((to, body)) if to == socket && body.starts_with(&NEAREST_RESPONSE) => {
                    return Ok(Some(true));
                }
                Some((to, body)) if to == socket && body.starts_with(&RESPONSE) => {
                    return Ok(Some(body.len() == OPERATION + 2 * ROUTE));
                }
                _ => {}
            }
        }
        Ok(None)
    }

    /// Waits until the router knows it, and answers when it said so, where at first it did not.
    pub fn wait(&self, what: Asked, end: Instant) -> io::Result<Option<Instant>> {
        let mut is_new = false;
        while Instant::now() < end {
            match self.is_known(what)? {
                Some(true) => return Ok(is_new.then(Instant::now)),
                Some(false) => {
                    is_new = true;
                    thread::sleep(PAUSE);
                }
                None => {}
            }
        }
        let text = format!("a router does not come to know {what:x?}");
        Err(io::Error::new(io::ErrorKind::TimedOut, text))
    }

    /// Waits until the router knows all that fills its tables, and answers since when it does at
    /// least. Of each response of routes one entry is asked for, and then of some of services, the
    /// last one first.
    pub fn wait_for_all(&self, end: Instant) -> io::Result<Instant> {
        let services = types().rev().step_by(STEP).map(Asked::Service);
        let mut known = None;
        for what in networks().map(Asked::Network).chain(services) {
            let waited = self.wait(what, end)?;
            known = waited.or(known).or_else(|| Some(Instant::now()));
        }
        Ok(known.unwrap_or(end))
    }
}
