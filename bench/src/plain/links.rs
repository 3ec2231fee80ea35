//! The links of a host, by their ids.

use super::link::Link;
use super::spx::SpxHeader;
use super::wire::{Address, Socket};

const MOST_LINKS: usize = 16;
const IDS: u16 = 0xfffe;

#[derive(Debug)]
pub struct TooMany;

/// The links of a host, at most 16. Their ids are from 0001 to FFFE.
#[derive(Debug, Default)]
pub struct Links {
    last: u16,
    links: Vec<Link>,
}

impl Links {
    pub fn dial(
        &mut self,
        socket: Socket,
        to: Address,
        buffers: u16,
        now: u64,
    ) -> Result<u16, TooMany> {
        let id = self.next_id()?;
        self.links.push(Link::dial(id, socket, to, buffers, now));
        Ok(id)
    }

    pub fn accept(
        &mut self,
        socket: Socket,
        from: Address,
        request: &SpxHeader,
        buffers: u16,
        now: u64,
    ) -> Result<u16, TooMany> {
        let id = self.next_id()?;
        let link = Link::accept(id, socket, from, request, buffers, now);
        self.links.push(link);
        Ok(id)
    }

    pub fn get(&self, id: u16) -> Option<&Link> {
        self.links.iter().find(|link| link.own() == id)
    }

    pub fn get_mut(&mut self, id: u16) -> Option<&mut Link> {
        self.links.iter_mut().find(|link| link.own() == id)
    }

    /// The first id after the one last given that is free.
    fn next_id(&mut self) -> Result<u16, TooMany> {
        if self.links.len() >= MOST_LINKS {
            return Err(TooMany);
        }
        loop {
            self.last = self.last % IDS + 1;
            if self.get(self.last).is_none() {
                return Ok(self.last);
            }
        }
    }
}
