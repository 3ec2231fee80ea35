//! A client of an ipxnet server. It registers and sends as DOSBox does.

use crate::ipx::{EVERYBODY, EXCHANGE, HEADER, Place, packet, read};
use crate::sockets::{lost, set_room};
use std::io;
use std::net::{Ipv4Addr, SocketAddrV4, UdpSocket};
use std::time::{Duration, Instant};

/// The socket of registrations, and that of the game.
const REGISTERING: u16 = 2;
const GAME: u16 = 0x4000;
/// The bytes of a broadcast.
pub const SIZE: usize = 100;
/// The number of a broadcast that only shows who is there. No other one has it.
const HELLO: u32 = 0;
/// As long as DOSBox waits for the answer to its registration.
const PATIENCE: Duration = Duration::from_secs(5);
/// After this silence a broadcast is lost.
pub const SILENCE: Duration = Duration::from_millis(500);
/// The receive buffer that is asked for, in bytes: that of a port of `ipx route`.
const ROOM: i32 = 4_194_304;

pub struct Client {
    socket: UdpSocket,
    place: Place,
}

impl Client {
    /// Registers once, since DOSBox's server takes each registration for a new client.
    pub fn connect(server: SocketAddrV4) -> io::Result<Client> {
        let socket = UdpSocket::bind((Ipv4Addr::LOCALHOST, 0))?;
        set_room(&socket, ROOM)?;
        socket.connect(server)?;
        socket.set_read_timeout(Some(PATIENCE))?;
        let nobody = Place {
            network: 0,
            node: [0; 6],
            socket: REGISTERING,
        };
        socket.send(&packet(0, nobody, nobody, &[]))?;
        let mut answer = [0; 1536];
        let count = socket.recv(&mut answer)?;
        let place = place_in(&answer[..count])
            .ok_or_else(|| io::Error::other("the answer to a registration is too short"))?;
        socket.set_read_timeout(Some(SILENCE))?;
        let client = Client { socket, place };
        client.hello()?;
        Ok(client)
    }

    /// Sends the broadcast of a number.
    pub fn send(&self, number: u32) -> io::Result<()> {
        let mut body = number.to_be_bytes().to_vec();
        body.resize(SIZE - HEADER, 0);
        let bytes = packet(EXCHANGE, self.place.everybody(GAME), self.place, &body);
        self.socket.send(&bytes).map(|_| ())
    }

    /// Shows that it is there. A port of `ipx route` has no client that sent nothing, and forgets
    /// one after minutes of silence.
    pub fn hello(&self) -> io::Result<()> {
        self.send(HELLO)
    }

    /// The number of the next broadcast, or nothing after the time of silence.
    pub fn next(&self) -> io::Result<Option<u32>> {
        let mut room = [0; 1536];
        loop {
            match self.socket.recv(&mut room) {
                Ok(count) => match number(&room[..count]) {
                    None | Some(HELLO) => {}
                    number => return Ok(number),
                },
                Err(error) if error.kind() == io::ErrorKind::WouldBlock => return Ok(None),
                Err(error) => return Err(error),
            }
        }
    }

    /// Gets the broadcast of a number, or nothing within the time of silence.
    pub fn get(&self, wanted: u32) -> io::Result<bool> {
        let end = Instant::now() + SILENCE;
        while Instant::now() < end {
            match self.next()? {
                Some(number) if number == wanted => return Ok(true),
                Some(_) => {}
                None => return Ok(false),
            }
        }
        Ok(false)
    }

    /// How many datagrams found no room here so far.
    pub fn lost(&self) -> io::Result<u64> {
        let address = self.socket.local_addr()?;
        lost(&[address.ip().to_string()], address.port())
    }
}

/// The network and node that the answer to a registration gives, with the socket of the game.
fn place_in(answer: &[u8]) -> Option<Place> {
    Some(Place {
        network: u32::from_be_bytes(answer.get(6..10)?.try_into().ok()?),
        node: answer.get(10..16)?.try_into().ok()?,
        socket: GAME,
    })
}

/// The number of a datagram that is a broadcast.
fn number(datagram: &[u8]) -> Option<u32> {
    let (socket, body) = read(datagram)?;
    let number = body.first_chunk::<4>()?;
    let is_broadcast = datagram.len() == SIZE && datagram[10..16] == EVERYBODY;
    (socket == GAME && is_broadcast).then(|| u32::from_be_bytes(*number))
}
