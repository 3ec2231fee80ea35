//! A plain, safe router of the same contracts, and plain, safe links and endpoints, to be measured
//! beside the proved ones.
//!
//! Of the calls of the proved links these have, of the same contracts, the ones that are measured
//! or compared: dial, accept, get, offer, end, poll, receive, peek, take, owe_reply and lose. They
//! lack those by which a host finds its links and lets go of them: find, accepted, after and
//! release. Of the calls of the proved endpoints these have new, listen, dial, send, take, poll,
//! receive, sent and heard; they keep their links themselves.

pub mod control;
pub mod endpoint;
pub mod known;
pub mod link;
pub mod links;
pub mod offers;
pub mod router;
pub mod spx;
pub mod wire;
