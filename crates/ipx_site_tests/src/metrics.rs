//! The metrics in the Prometheus text format.

use ipx_carrier::OutcomeCounters;
use ipx_rate_limits::{DirectedDrops, QueryDrops};
use ipx_site::Metrics;
use ipx_sockets::{DropCount, FilterDrops};
use ipx_source_checks::{SourceDropCount, SourceDrops};
use std::alloc::AllocError;

/// Metrics of a router, each with a different number.
pub const METRICS: Metrics = Metrics {
    heard: 1,
    sent: 2,
    outcomes: OutcomeCounters {
        forwarded: 3,
        answered: 4,
        heard: 5,
        bad: 6,
        propagated: 7,
        not_ours: 8,
        no_route: 9,
        hop_limit: 10,
        bad_control: 11,
        table_full: 12,
    },
    last_table_full: None,
    queue_full: 13,
    unmapped: 14,
    kept: FilterDrops {
        unknown_senders: DropCount {
            count: 15,
            last: None,
        },
        spoofed: DropCount {
            count: 23,
            last: None,
        },
        not_a_router: DropCount {
            count: 24,
            last: None,
        },
        mismatch: None,
    },
    rate_limited: QueryDrops {
        count: 25,
        last: None,
    },
    rate_limited_ip: None,
    directed: DirectedDrops {
        count: 32,
        last: None,
    },
    source_drops: SourceDrops {
        forwarded_control: SourceDropCount {
            count: 33,
            last: None,
            network: None,
        },
        group_source: SourceDropCount {
            count: 35,
            last: None,
            network: None,
        },
        looped_source: SourceDropCount {
            count: 34,
            last: None,
            network: None,
        },
    },
    refused: 16,
    last_refused: None,
    frame_unknown_senders: 26,
    frame_last_unknown: None,
    ipxnet_unknown_senders: DropCount {
        count: 36,
        last: None,
    },
    ipxnet_full: 37,
    ipxnet_full_of_address: 38,
    ipxnet_rate_limited: 39,
    ipxnet_last_limited: None,
    ipxnet_busy: 40,
    unframed: 27,
    other_encapsulation: 28,
    device_faults: 17,
    last_not_sent: None,
    memory_faults: 18,
    file_faults: 19,
    last_file_fault: None,
    queue: 29,
    routes: 20,
    services: 21,
    seconds: 22,
};

/// Lines of the text.
const LINES: [&str; 30] = [
    "ipx_receive_packets_total 1\n",
    "ipx_transmit_packets_total 2\n",
    "ipx_outcomes_total{outcome=\"forwarded\"} 3\n",
    "ipx_outcomes_total{outcome=\"answered\"} 4\n",
    "ipx_outcomes_total{outcome=\"heard\"} 5\n",
    "ipx_dropped_total{reason=\"bad\"} 6\n",
    "ipx_dropped_total{reason=\"propagated\"} 7\n",
    "ipx_dropped_total{reason=\"not_ours\"} 8\n",
    "ipx_dropped_total{reason=\"no_route\"} 9\n",
    "ipx_dropped_total{reason=\"hop_limit\"} 10\n",
    "ipx_dropped_total{reason=\"bad_control\"} 11\n",
    "ipx_dropped_total{reason=\"table_full\"} 12\n",
    "ipx_dropped_total{reason=\"queue_full\"} 13\n",
    "ipx_dropped_total{reason=\"unmapped\"} 14\n",
    "ipx_unknown_senders_total 15\n",
    "ipx_filtered_total{reason=\"spoofed_source\"} 23\n",
    "ipx_filtered_total{reason=\"not_a_router\"} 24\n",
    "ipx_filtered_total{reason=\"rate_limited\"} 25\n",
    "ipx_filtered_total{reason=\"directed_broadcast\"} 32\n",
    "ipx_filtered_total{reason=\"forwarded_control\"} 33\n",
    "ipx_filtered_total{reason=\"group_source\"} 35\n",
    "ipx_filtered_total{reason=\"looped_source\"} 34\n",
    "ipx_egress_filtered_total 16\n",
    "ipx_errors_total{kind=\"device\"} 17\n",
    "ipx_errors_total{kind=\"memory\"} 18\n",
    "ipx_errors_total{kind=\"file\"} 19\n",
    "ipx_send_queue_packets 29\n",
    "ipx_routes 20\n",
    "ipx_services 21\n",
    "ipx_uptime_seconds 22\n",
];

const START: &str = "\
# HELP ipx_receive_packets_total Datagrams that the router itself processed, none between two \
players or two remotes.
# TYPE ipx_receive_packets_total counter
ipx_receive_packets_total 1
";

#[test]
fn metrics_in_text(rt: HostRuntime) -> Result<(), AllocError> {
    let text = METRICS.text(rt.alloc())?;
    assert!(rt; text.as_str().starts_with(START));
    assert!(rt; LINES.iter().all(|line| text.as_str().contains(*line)));
    Ok(())
}
