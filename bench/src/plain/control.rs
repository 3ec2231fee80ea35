//! RIP and SAP bodies.

use super::wire::{Address, Network};

#[derive(Clone, Copy, Debug, PartialEq, Eq)]
pub enum ControlFault {
    NoOperation,
    UnknownOperation(u16),
    TooManyEntries(usize),
    QueryShort(usize),
}

#[derive(Clone, Copy, Debug, PartialEq, Eq)]
pub struct RipEntry {
    pub network: Network,
    pub hops: u16,
    pub ticks: u16,
}

impl RipEntry {
    pub const SIZE: usize = 8;

    fn from_bytes(bytes: &[u8; 8]) -> Self {
        let [a, b, c, d, e, f, g, h] = *bytes;
        RipEntry {
            network: Network(u32::from_be_bytes([a, b, c, d])),
            hops: u16::from_be_bytes([e, f]),
            ticks: u16::from_be_bytes([g, h]),
        }
    }

    pub fn write_to(&self, out: &mut Vec<u8>) {
        out.extend_from_slice(&self.network.0.to_be_bytes());
        out.extend_from_slice(&self.hops.to_be_bytes());
        out.extend_from_slice(&self.ticks.to_be_bytes());
    }
}

#[derive(Clone, Copy, Debug, PartialEq, Eq)]
pub struct ServiceEntry {
    pub kind: u16,
    pub name: [u8; 48],
    pub at: Address,
    pub hops: u16,
}

impl ServiceEntry {
    pub const SIZE: usize = 64;

    fn from_bytes(bytes: &[u8; 64]) -> Self {
        ServiceEntry {
            kind: u16::from_be_bytes([bytes[0], bytes[1]]),
            name: bytes[2..50].try_into().unwrap(),
            at: Address::from_bytes(bytes[50..62].try_into().unwrap()),
            hops: u16::from_be_bytes([bytes[62], bytes[63]]),
        }
    }

    pub fn write_to(&self, out: &mut Vec<u8>) {
        out.extend_from_slice(&self.kind.to_be_bytes());
        out.extend_from_slice(&self.name);
        self.at.write_to(out);
        out.extend_from_slice(&self.hops.to_be_bytes());
    }
}

/// A RIP body, whose entries are read as they are asked for.
pub enum Rip<'a> {
    Request(&'a [[u8; RipEntry::SIZE]]),
    Response(&'a [[u8; RipEntry::SIZE]]),
}

/// A SAP body, whose services are read as they are asked for.
pub enum Sap<'a> {
    Query { nearest: bool, kind: u16 },
    Response(&'a [[u8; ServiceEntry::SIZE]]),
}

pub fn routes(entries: &[[u8; RipEntry::SIZE]]) -> impl Iterator<Item = RipEntry> + '_ {
    entries.iter().map(RipEntry::from_bytes)
}

pub fn services(entries: &[[u8; ServiceEntry::SIZE]]) -> impl Iterator<Item = ServiceEntry> + '_ {
    entries.iter().map(ServiceEntry::from_bytes)
}

fn operation(body: &[u8]) -> Result<(u16, &[u8]), ControlFault> {
    let (first, rest) = body
        .split_first_chunk::<2>()
        .ok_or(ControlFault::NoOperation)?;
    Ok((u16::from_be_bytes(*first), rest))
}

fn at_most<T>(entries: &[T], most: usize) -> Result<&[T], ControlFault> {
    if entries.len() > most {
        return Err(ControlFault::TooManyEntries(entries.len()));
    }
    Ok(entries)
}

pub fn decode_rip(body: &[u8]) -> Result<Rip<'_>, ControlFault> {
    let (operation, rest) = operation(body)?;
    let (entries, _) = rest.as_chunks::<{ RipEntry::SIZE }>();
    match operation {
        1 => Ok(Rip::Request(at_most(entries, 50)?)),
        2 => Ok(Rip::Response(at_most(entries, 50)?)),
        n => Err(ControlFault::UnknownOperation(n)),
    }
}

pub fn decode_sap(body: &[u8]) -> Result<Sap<'_>, ControlFault> {
    let (operation, rest) = operation(body)?;
    match operation {
        1 | 3 => {
            let (kind, _) = rest
                .split_first_chunk::<2>()
                .ok_or(ControlFault::QueryShort(body.len()))?;
            Ok(Sap::Query {
                nearest: operation == 3,
                kind: u16::from_be_bytes(*kind),
            })
        }
        2 | 4 => {
            let (entries, _) = rest.as_chunks::<{ ServiceEntry::SIZE }>();
            Ok(Sap::Response(at_most(entries, 7)?))
        }
        n => Err(ControlFault::UnknownOperation(n)),
    }
}
