//! A core that counts what it hears, and that first runs out of memory `refused` times.

use ipx_carrier::Core;
use ipx_wire::{Node, OutOfMemory};
use std::alloc::Global;

#[derive(Drop)]
pub struct Ears {
    pub heard: u32,
    pub refused: u32,
}

impl Core for Ears {
    ghost use Rattle.std.specs.Prelude.{◌≡◌};

    ghost port_count = { λ c. 1 };

    ghost hears = { λ old port bytes now new. Unit {0} };

    ghost gives = { λ old now given new. new ≡ old };

    ghost hear_out_of_memory = { λ old port bytes now new. Unit {0} };

    ghost next_out_of_memory = { λ old now new. ⊥ };

    fn ports(&self) -> usize {
        1
    }

    fn hear(
        &mut self,
        _alloc: Global,
        _port: usize,
        _bytes: &[u8],
        _now: u64,
    ) -> Result<(), OutOfMemory> {
        if self.refused > 0 {
            self.refused -= 1;
            return Err(OutOfMemory);
        }
        self.heard += 1;
        Ok(())
    }

    fn next(
        &mut self,
        _alloc: Global,
        _now: u64,
        _room: &mut [u8],
    ) -> Result<Option<(usize, Node, usize)>, OutOfMemory> {
        Ok(None)
    }
}
