//! When a starting router repeats its requests, and when a cause is logged.

use ipx_site::discovery_retry;
use ipx_sockets::ThrottledLog;

#[test]
fn asks_six_times(rt: HostRuntime) {
    assert_eq!(rt; discovery_retry(0), Some(1000));
    assert_eq!(rt; discovery_retry(5), Some(32_000));
    assert_eq!(rt; discovery_retry(6), None);
}

#[test]
fn tells_a_cause_once_a_minute(rt: HostRuntime) {
    let mut cause = ThrottledLog::new();
    assert_eq!(rt; cause.tell(0, 5), None);
    assert_eq!(rt; cause.tell(3, 5), Some(3));
    assert_eq!(rt; cause.tell(4, 60_004), None);
    assert_eq!(rt; cause.next(4), Some(60_005));
    assert_eq!(rt; cause.tell(4, 60_005), Some(1));
    assert_eq!(rt; cause.next(4), None);
}
