//! Tests of the files of a site, with literal lines, of accepted senders, of waiting and of log
//! lines. They call what `ipx_site` makes public, and no crate depends on this one.
#![tactic(auto)]

#[cfg(test)]
mod access_list_metrics;
#[cfg(test)]
mod again;
#[cfg(test)]
mod client_lines;
#[cfg(test)]
mod fault_lines;
#[cfg(test)]
mod faults;
#[cfg(test)]
mod files;
#[cfg(test)]
mod fixture;
#[cfg(test)]
mod frame_lines;
#[cfg(test)]
mod internetworks;
#[cfg(test)]
mod ipxnet_files;
#[cfg(test)]
mod ipxnet_metrics;
#[cfg(test)]
mod metrics;
#[cfg(test)]
mod metrics_page;
#[cfg(test)]
mod moments;
#[cfg(test)]
mod peers;
#[cfg(test)]
mod peers_of_players;
#[cfg(test)]
mod players;
#[cfg(test)]
mod port_metrics;
#[cfg(test)]
mod rate_limiter;
#[cfg(test)]
mod refused;
#[cfg(test)]
mod refused_device;
#[cfg(test)]
mod sockets;
#[cfg(test)]
mod statics;
#[cfg(test)]
mod tunnel_lines;
#[cfg(test)]
mod tunnels;
#[cfg(test)]
mod waiting;
#[cfg(test)]
mod wires;
