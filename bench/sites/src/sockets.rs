//! What the system tells of sockets.

use std::ffi::{c_int, c_void};
use std::fs;
use std::io;
use std::net::{Ipv4Addr, UdpSocket};
use std::os::fd::AsRawFd;

/// The names that Linux has for the size of a receive buffer.
const SOL_SOCKET: c_int = 1;
const SO_RCVBUF: c_int = 8;

unsafe extern "C" {
    fn setsockopt(
        socket: c_int,
        level: c_int,
        name: c_int,
        value: *const c_void,
        size: u32,
    ) -> c_int;
}

/// Asks for a receive buffer of so many bytes. The system gives less if its limit is lower.
pub fn set_room(socket: &UdpSocket, bytes: c_int) -> io::Result<()> {
    let value = (&raw const bytes).cast::<c_void>();
    let size = size_of::<c_int>() as u32;
    // SAFETY: the socket is open, and the value is a number of that size until the call returns.
    let status = unsafe { setsockopt(socket.as_raw_fd(), SOL_SOCKET, SO_RCVBUF, value, size) };
    if status == 0 {
        Ok(())
    } else {
        Err(io::Error::last_os_error())
    }
}

/// Whether a socket has the port, at some address.
pub fn is_bound(port: u16) -> io::Result<bool> {
    let end = format!(":{port:04X}");
    let table = fs::read_to_string("/proc/net/udp")?;
    let mut places = table
        .lines()
        .filter_map(|line| line.split_whitespace().nth(1));
    Ok(places.any(|place| place.ends_with(&end)))
}

/// How many datagrams the sockets of these addresses lost so far, since they found no room there.
pub fn lost(addresses: &[String], port: u16) -> io::Result<u64> {
    let places = addresses
        .iter()
        .map(|address| {
            let ip = address.parse::<Ipv4Addr>().map_err(io::Error::other)?;
            Ok(format!(
                "{:08X}:{port:04X}",
                u32::from_ne_bytes(ip.octets())
            ))
        })
        .collect::<io::Result<Vec<_>>>()?;
    let table = fs::read_to_string("/proc/net/udp")?;
    let of_line = |line: &str| {
        let mut words = line.split_whitespace();
        let place = words.nth(1)?;
        let lost = words.next_back()?.parse::<u64>().ok()?;
        places.iter().any(|it| it == place).then_some(lost)
    };
    Ok(table.lines().filter_map(of_line).sum())
}

/// Takes what waits at a socket that does not block, and answers how much that was.
pub fn drain(socket: &UdpSocket) -> io::Result<u64> {
    let mut room = [0; 1536];
    let mut count = 0;
    loop {
        match socket.recv(&mut room) {
            Ok(_) => count += 1,
            Err(error) if error.kind() == io::ErrorKind::WouldBlock => return Ok(count),
            Err(error) => return Err(error),
        }
    }
}
