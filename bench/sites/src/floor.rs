//! The plain loop: what no router can be faster than.

use std::io;
use std::net::UdpSocket;

/// Receives at one address and sends what came from another one, to a third, at one port of UDP.
pub fn forward(words: &[String]) -> io::Result<()> {
    let [from, by, to, port] = words else {
        return Err(io::ErrorKind::InvalidInput.into());
    };
    let port = port.parse::<u16>().map_err(io::Error::other)?;
    let came = UdpSocket::bind((from.as_str(), port))?;
    let goes = UdpSocket::bind((by.as_str(), port))?;
    let to = (
        to.parse::<std::net::Ipv4Addr>().map_err(io::Error::other)?,
        port,
    );
    let mut room = [0; 1536];
    loop {
        let (count, _) = came.recv_from(&mut room)?;
        goes.send_to(&room[..count], to)?;
    }
}
