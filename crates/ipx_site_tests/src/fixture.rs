//! Helpers for several tests.

use ipx_config::{ConfigError, HostConfig, RouterConfig, read_host, read_site};
use std::alloc::{AllocError, Global};

/// The line of the fault of a router's file, or `none`.
pub fn site_line(alloc: Global, text: &str) -> Result<String, AllocError> {
    match read_site(alloc, text) {
        Ok(_) => String::from_str(alloc, "none"),
        Err(fault) => line_of(alloc, &fault),
    }
}

/// The line of the fault of a host's file, or `none`.
pub fn host_line(alloc: Global, text: &str) -> Result<String, AllocError> {
    match read_host(alloc, text) {
        Ok(_) => String::from_str(alloc, "none"),
        Err(fault) => line_of(alloc, &fault),
    }
}

fn line_of(alloc: Global, fault: &ConfigError) -> Result<String, AllocError> {
    format!(in alloc; "{fault}")
}

/// The file of a router that has no fault.
pub fn site(alloc: Global, text: &str) -> Option<RouterConfig> {
    read_site(alloc, text).ok()
}

/// The file of a host that has no fault.
pub fn host(alloc: Global, text: &str) -> Option<HostConfig> {
    read_host(alloc, text).ok()
}
