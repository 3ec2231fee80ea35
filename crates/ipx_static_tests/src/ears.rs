//! A core of two ports that records what it receives.

use ipx_carrier::Core;
use ipx_wire::{Node, OutOfMemory};
use std::alloc::Global;
use std::test::Fail;

/// A datagram that was received.
#[derive(Drop)]
pub struct Heard {
    pub port: usize,
    pub now: u64,
    pub bytes: Vec<u8>,
}

/// A core that records what it receives, and gives no packets. It runs out of memory for the
/// datagram of this position, if there is one.
#[derive(Drop)]
pub struct Ears {
    pub heard: Vec<Heard>,
    pub asked: u32,
    hear_out_of_memory: Option<usize>,
}

impl Ears {
    /// A core that has received nothing.
    pub fn new(alloc: Global, hear_out_of_memory: Option<usize>) -> Ears {
        Ears {
            heard: Vec::new(alloc),
            asked: 0,
            hear_out_of_memory,
        }
    }

    /// What it received, as text: a line for each datagram, with the port, the time, and the bytes
    /// in hex.
    pub fn text(&self, alloc: Global) -> Result<String, Fail> {
        let mut text = String::new(alloc);
        for heard in self.heard.iter() {
            let (port, now) = (heard.port, heard.now);
            let bytes = hex::encode(alloc, heard.bytes.as_slice())?;
            text.push_str(&format!(in alloc; "{port} {now} {bytes}\n")?)?;
        }
        Ok(text)
    }

    /// The length and the time of each datagram that it received.
    pub fn sizes(&self, alloc: Global) -> Result<String, Fail> {
        let mut text = String::new(alloc);
        for heard in self.heard.iter() {
            let (now, size) = (heard.now, heard.bytes.len());
            text.push_str(&format!(in alloc; "{now}:{size} ")?)?;
        }
        Ok(text)
    }
}

impl Core for Ears {
    ghost use Rattle.std.specs.Prelude.{◌≡◌};

    ghost port_count = { λ c. 2 };

    ghost hears = { λ old port bytes now new. Unit {0} };

    ghost gives = { λ old now given new. Unit {0} };

    ghost hear_out_of_memory = { λ old port bytes now new. Unit {0} };

    ghost next_out_of_memory = { λ old now new. ⊥ };

    fn ports(&self) -> usize {
        2
    }

    fn hear(
        &mut self,
        alloc: Global,
        port: usize,
        bytes: &[u8],
        now: u64,
    ) -> Result<(), OutOfMemory> {
        if self.hear_out_of_memory == Some(self.heard.len()) {
            self.hear_out_of_memory = None;
            return Err(OutOfMemory);
        }
        let mut kept = Vec::new(alloc);
        kept.extend_from_slice(bytes)?;
        self.heard.push(Heard {
            port,
            now,
            bytes: kept,
        })?;
        Ok(())
    }

    fn next(
        &mut self,
        _alloc: Global,
        _now: u64,
        _room: &mut [u8],
    ) -> Result<Option<(usize, Node, usize)>, OutOfMemory> {
        self.asked += 1;
        Ok(None)
    }
}
