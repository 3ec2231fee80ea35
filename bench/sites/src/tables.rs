//! What fills a router's tables, as its neighbours tell it, and what asks for it.

use crate::ipx::{EXCHANGE, Place, packet};

pub const RIP: u16 = 0x453;
pub const SAP: u16 = 0x452;
/// The packet type of RIP.
const ROUTING: u8 = 1;
const REQUEST: [u8; 2] = [0, 1];
pub const RESPONSE: [u8; 2] = [0, 2];
const NEAREST_QUERY: [u8; 2] = [0, 3];
pub const NEAREST_RESPONSE: [u8; 2] = [0, 4];
/// As many networks and services as a router may know, and as many as a response holds.
const NETWORKS: u32 = 1024;
const NETWORKS_A_RESPONSE: u32 = 50;
pub const SERVICES: u16 = 4096;
const SERVICES_A_RESPONSE: u16 = 7;
/// How many responses hold all services.
pub const RESPONSES: u16 = SERVICES.div_ceil(SERVICES_A_RESPONSE);
const FIRST_NETWORK: u32 = 0x0010_0000;
const FIRST_TYPE: u16 = 0x1000;
/// The hops with which something is told, and those that say that it is gone.
pub const NEAR: u16 = 1;
pub const GONE: u16 = 16;

/// The first network of each response that tells of all of them.
pub fn networks() -> impl Iterator<Item = u32> {
    (FIRST_NETWORK..FIRST_NETWORK + NETWORKS).step_by(NETWORKS_A_RESPONSE as usize)
}

/// The service types, of which each response has its own.
pub fn types() -> impl DoubleEndedIterator<Item = u16> {
    FIRST_TYPE..FIRST_TYPE + RESPONSES
}

/// The responses of RIP that tell of all networks.
pub fn routes(from: Place) -> Vec<Vec<u8>> {
    let entry = |network: u32| [network.to_be_bytes(), [0, 1, 0, 1]].concat();
    networks()
        .map(|first| {
            let behind = (first + NETWORKS_A_RESPONSE).min(FIRST_NETWORK + NETWORKS);
            let body = (first..behind).fold(RESPONSE.to_vec(), |body, network| {
                [body, entry(network)].concat()
            });
            packet(ROUTING, from.everybody(RIP), from.at(RIP), &body)
        })
        .collect()
}

/// A service as an entry of SAP: type, name, network, node, socket and hops.
fn entry(number: u16, hops: u16) -> Vec<u8> {
    let kind = FIRST_TYPE + number / SERVICES_A_RESPONSE;
    let mut bytes = kind.to_be_bytes().to_vec();
    bytes.extend(format!("SERVICE-{number:04}").bytes());
    bytes.resize(50, 0);
    bytes.extend(FIRST_NETWORK.to_be_bytes());
    bytes.extend([0, 0, 0, 0, 0, 1, 4, 0x51]);
    bytes.extend(hops.to_be_bytes());
    bytes
}

/// The responses of SAP that tell of all services.
pub fn services(from: Place, hops: u16) -> Vec<Vec<u8>> {
    let numbers = (0..SERVICES).collect::<Vec<_>>();
    numbers
        .chunks(SERVICES_A_RESPONSE.into())
        .map(|numbers| {
            let body = numbers.iter().fold(RESPONSE.to_vec(), |body, number| {
                [body, entry(*number, hops)].concat()
            });
            packet(EXCHANGE, from.everybody(SAP), from.at(SAP), &body)
        })
        .collect()
}

/// A request for these networks.
pub fn request(from: Place, networks: &[u32]) -> Vec<u8> {
    let body = networks.iter().fold(REQUEST.to_vec(), |body, network| {
        [body, network.to_be_bytes().to_vec(), vec![0xff; 4]].concat()
    });
    packet(ROUTING, from.everybody(RIP), from, &body)
}

/// A query for all services.
pub fn query_for_all(from: Place) -> Vec<u8> {
    let body = [REQUEST, [0xff; 2]].concat();
    packet(EXCHANGE, from.everybody(SAP), from, &body)
}

/// A query for the nearest service of a type.
pub fn query_for_nearest(from: Place, kind: u16) -> Vec<u8> {
    let body = [NEAREST_QUERY, kind.to_be_bytes()].concat();
    packet(EXCHANGE, from.everybody(SAP), from, &body)
}
