//! The addresses of one router, apart from those of all others: of its ports, and of the hosts
//! there.

use crate::ipx::Place;
use crate::world::Port;

/// A router of so many ports, each with so many hosts as its peers. Ports and hosts count from 1.
#[derive(Clone, Copy)]
pub struct Area {
    pub number: u8,
    pub ports: u8,
    pub hosts: u8,
}

impl Area {
    pub fn router(&self, port: u8) -> String {
        format!("127.{}.{port}.1", self.number)
    }

    pub fn host(&self, port: u8, host: u8) -> String {
        format!("127.{}.{port}.{}", self.number, host + 1)
    }

    /// An address of a plain loop beside the router.
    pub fn plain(&self, port: u8) -> String {
        format!("127.{}.255.{port}", self.number)
    }

    pub fn network(&self, port: u8) -> u32 {
        u32::from(self.number) << 8 | u32::from(port)
    }

    pub fn place(&self, port: u8, host: u8, socket: u16) -> Place {
        Place::new(self.network(port), &self.host(port, host), socket)
    }

    /// The port of the router's file.
    pub fn port(&self, port: u8) -> Port {
        let hosts = (1..=self.hosts).map(|host| self.host(port, host));
        Port::new(self.network(port), self.router(port), hosts)
    }

    /// All ports of the router's file.
    pub fn all(&self) -> Vec<Port> {
        (1..=self.ports).map(|port| self.port(port)).collect()
    }
}
