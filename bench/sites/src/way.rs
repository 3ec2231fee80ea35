//! From a host on one port of a router to a host on another one.

use crate::area::Area;
use crate::ipx::{EXCHANGE, HEADER, Place, packet, read};
use crate::sockets::lost;
use crate::world::{Process, World};
use std::io;
use std::net::UdpSocket;
use std::time::{Duration, Instant};

/// The socket of the host that packets go to, and that of the one that they come from.
const SOCKET: u16 = 0x4000;
const FROM_SOCKET: u16 = 0x5000;
/// The bytes of a packet that has a number.
const SIZE: usize = 64;
/// After this silence a packet is lost.
pub const SILENCE: Duration = Duration::from_millis(20);

pub struct Way {
    pub sender: UdpSocket,
    pub receiver: UdpSocket,
    from: Place,
    to: Place,
    port: u16,
}

impl Way {
    /// From the last host of one port of an area to the last host of another one.
    pub fn new(world: &World, area: &Area, from: u8, to: u8) -> io::Result<Way> {
        let sender = UdpSocket::bind((area.host(from, area.hosts), world.port))?;
        let receiver = UdpSocket::bind((area.host(to, area.hosts), world.port))?;
        Way::over(world, area, from, to, sender, receiver)
    }

    /// The same over sockets that are there.
    pub fn over(
        world: &World,
        area: &Area,
        from: u8,
        to: u8,
        sender: UdpSocket,
        receiver: UdpSocket,
    ) -> io::Result<Way> {
        receiver.set_read_timeout(Some(SILENCE))?;
        Ok(Way {
            sender,
            receiver,
            from: area.place(from, area.hosts, FROM_SOCKET),
            to: area.place(to, area.hosts, SOCKET),
            port: world.port,
        })
    }

    /// The least packet of this way.
    pub fn least(&self) -> Vec<u8> {
        packet(EXCHANGE, self.to, self.from, &[])
    }

    /// Whether a datagram is the least packet of a way.
    pub fn is_least(datagram: &[u8]) -> bool {
        read(datagram).is_some_and(|(socket, body)| socket == SOCKET && body.is_empty())
    }

    /// The number of a datagram that is a packet with one.
    pub fn number(datagram: &[u8]) -> Option<u32> {
        let (socket, body) = read(datagram)?;
        let number = body.first_chunk::<4>()?;
        (socket == SOCKET && datagram.len() == SIZE).then(|| u32::from_be_bytes(*number))
    }

    /// Sends the packet of a number to an address.
    pub fn send(&self, by: &str, number: u32) -> io::Result<()> {
        let mut body = number.to_be_bytes().to_vec();
        body.resize(SIZE - HEADER, 0);
        let bytes = packet(EXCHANGE, self.to, self.from, &body);
        self.sender.send_to(&bytes, (by, self.port)).map(|_| ())
    }

    /// Gets the packet of a number, or nothing within the time of silence.
    pub fn get(&self, number: u32) -> io::Result<bool> {
        let end = Instant::now() + SILENCE;
        let mut room = [0; 1536];
        while Instant::now() < end {
            match self.receiver.recv(&mut room) {
                Ok(count) if Way::number(&room[..count]) == Some(number) => return Ok(true),
                Err(error) if error.kind() != io::ErrorKind::WouldBlock => return Err(error),
                _ => {}
            }
        }
        Ok(false)
    }

    /// How many datagrams found no room so far at the host that gets packets.
    pub fn lost_by_the_host(&self) -> io::Result<u64> {
        let address = self.receiver.local_addr()?;
        lost(&[address.ip().to_string()], address.port())
    }

    /// Waits until packets pass by an address, for five seconds at most.
    pub fn wait(&self, by: &str) -> io::Result<()> {
        let end = Instant::now() + Duration::from_secs(5);
        while Instant::now() < end {
            self.send(by, 0)?;
            if self.get(0)? {
                return Ok(());
            }
        }
        Err(io::Error::new(
            io::ErrorKind::TimedOut,
            format!("nothing passes by {by}"),
        ))
    }
}

/// The plain loop beside a router of an area, to a host there.
pub fn plain_loop(world: &World, area: &Area, to: u8) -> io::Result<Process> {
    let me = std::env::current_exe()?;
    let port = world.port.to_string();
    let (came, goes, to) = (area.plain(1), area.plain(2), area.host(to, area.hosts));
    world.start(&me, &["floor", &came, &goes, &to, &port])
}
