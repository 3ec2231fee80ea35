//! Hosts and routers, and the datagrams between them. The caller decides which of these arrive, how
//! often, and when.

use crate::connections::Connection;
use crate::processes::Process;
use std::alloc::Global;
use std::test::Fail;

/// The last byte of the node that is every node.
const ALL: u8 = 0xff;

/// The room that a core wants for a packet.
const ROOM: usize = 1536;

/// How many bytes of datagrams there is space for at first, and how much is added.
const SPACE: usize = 65_536;

/// A datagram on a network, and the process that gave it. `None` if it came from outside.
#[derive(Clone, Copy)]
pub struct Datagram {
    pub from: Option<usize>,
    network: u32,
    /// The last byte of the node that it is for.
    to: u8,
    start: usize,
    end: usize,
}

/// A datagram on its way to a port of a process, by its number in the mail.
#[derive(Clone, Copy)]
pub struct Letter {
    pub number: usize,
    pub to: usize,
    port: usize,
}

/// Processes, the datagrams that they sent, and the connections of the hosts.
#[derive(Drop)]
pub struct Site {
    pub processes: Vec<Process>,
    pub mail: Vec<Datagram>,
    pub connections: Vec<Connection>,
    bytes: Vec<u8>,
}

impl Site {
    pub fn new(alloc: Global) -> Result<Site, Fail> {
        let mut bytes = Vec::new(alloc);
        bytes.resize(SPACE, 0)?;
        Ok(Site {
            processes: Vec::new(alloc),
            mail: Vec::new(alloc),
            connections: Vec::new(alloc),
            bytes,
        })
    }

    /// Nothing is there any more.
    pub fn clear(&mut self) {
        self.processes.clear();
        self.mail.clear();
        self.connections.clear();
    }

    pub fn bytes_of(&self, number: usize) -> &[u8] {
        let datagram = self.mail[number];
        &self.bytes[datagram.start..datagram.end]
    }

    /// The place after the bytes of all datagrams, where there is room for one more.
    fn make_room(&mut self) -> Result<usize, Fail> {
        let start = self.mail.last().map_or(0, |last| last.end);
        if self.bytes.len() < start + ROOM {
            self.bytes.resize(start + SPACE, 0)?;
        }
        Ok(start)
    }

    /// A process gives its next datagram, if there is one. The result is its number in the mail.
    pub fn give(&mut self, alloc: Global, from: usize) -> Result<Option<usize>, Fail> {
        let start = self.make_room()?;
        let process = &mut self.processes[from];
        if process.is_over {
            process.is_awake = false;
            return Ok(None);
        }
        let Some((port, to, count)) = process.next(alloc, &mut self.bytes[start..])? else {
            return Ok(None);
        };
        self.mail.push(Datagram {
            from: Some(from),
            network: process.ports[port].network.0,
            to: to.0[5],
            start,
            end: start + count,
        })?;
        Ok(Some(self.mail.len() - 1))
    }

    /// A process hears a datagram at its first port that no process gave.
    pub fn inject(&mut self, alloc: Global, to: usize, bytes: &[u8]) -> Result<(), Fail> {
        let start = self.make_room()?;
        let end = start + bytes.len();
        self.bytes[start..end].copy_from_slice(bytes);
        let port = self.processes[to].ports[0];
        self.mail.push(Datagram {
            from: None,
            network: port.network.0,
            to: port.node.0[5],
            start,
            end,
        })?;
        let number = self.mail.len() - 1;
        let port = 0;
        self.deliver(alloc, Letter { number, to, port })
    }

    /// A letter to a process that is on the network of a datagram, whomever that is for.
    pub fn letter_to(&self, number: usize, to: usize) -> Option<Letter> {
        let network = self.mail[number].network;
        let ports = &self.processes[to].ports;
        let port = ports.iter().position(|port| port.network.0 == network)?;
        Some(Letter { number, to, port })
    }

    /// The letter to the one process that a datagram is for, if it is on that network.
    fn only_letter(&self, number: usize) -> Option<Letter> {
        let datagram = self.mail[number];
        let to = usize::from(datagram.to / 16).checked_sub(1)?;
        let port = usize::from(datagram.to % 16);
        let there = self.processes.get(to)?.ports.get(port)?;
        if there.network.0 != datagram.network {
            return None;
        }
        Some(Letter { number, to, port })
    }

    /// Adds a letter to each process that a datagram is for: one, or all but its sender.
    pub fn address(&self, number: usize, letters: &mut Vec<Letter>) -> Result<(), Fail> {
        let datagram = self.mail[number];
        if datagram.to != ALL {
            if let Some(letter) = self.only_letter(number) {
                letters.push(letter)?;
            }
            return Ok(());
        }
        for to in 0..self.processes.len() {
            let letter = self.letter_to(number, to);
            if let (Some(letter), true) = (letter, datagram.from != Some(to)) {
                letters.push(letter)?;
            }
        }
        Ok(())
    }

    /// A process hears the datagram of a letter.
    pub fn deliver(&mut self, alloc: Global, letter: Letter) -> Result<(), Fail> {
        let process = &mut self.processes[letter.to];
        if process.is_over {
            return Ok(());
        }
        let datagram = self.mail[letter.number];
        let bytes = &self.bytes[datagram.start..datagram.end];
        process.hear(alloc, letter.port, bytes)?;
        self.note(alloc, letter)
    }

    /// Letters with all that a process gives at its time.
    pub fn give_all(&mut self, alloc: Global, from: usize) -> Result<Vec<Letter>, Fail> {
        let mut letters = Vec::new(alloc);
        while let Some(number) = self.give(alloc, from)? {
            self.address(number, &mut letters)?;
        }
        Ok(letters)
    }

    /// Delivers what each process gives in turn. The result is whether there was anything.
    fn round(&mut self, alloc: Global) -> Result<bool, Fail> {
        let before = self.mail.len();
        for from in 0..self.processes.len() {
            for letter in self.give_all(alloc, from)? {
                self.deliver(alloc, letter)?;
            }
        }
        Ok(before < self.mail.len())
    }

    /// Delivers everything, until no process gives anything.
    pub fn settle(&mut self, alloc: Global) -> Result<(), Fail> {
        while self.round(alloc)? {}
        Ok(())
    }
}
