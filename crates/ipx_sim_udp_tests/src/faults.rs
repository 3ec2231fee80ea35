//! A read or write fault is status 1, and nothing more is written after it.

use faulty_io::Failing;
use ipx_carrier::UdpDatagrams;
use ipx_sim_udp::do_udp;
use log::Log;
use std::alloc::Global;
use std::net::Net;
use std::test::Fail;

/// Two hosts of one network: a connection that is closed, an end that is no longer live, and an end
/// that does not exist.
const SCRIPT: &str = "host a 11 00007f000003 00007f000001
host b 11 00007f000004 00007f000001 listen 4000 8
dial a 4001 11 00007f000004 4000 8
pump 3
close 0
pump 3
close 0
close 9
";

const TOLD: &str = "ok
refused (26) Ended
fault (34) NoSuchEnd
end 0 a Confirmed in 0 out 0 next 0001
end 1 b PeerEnded in 0 out 0 next 0000
";

/// A first line that is bad.
const BAD: &str = "host a 11 00017f000003 00007f000001\n";

/// One host.
const HOST: &str = "host a 11 00007f000003 00007f000001\n";

/// Whether `udp` gives this answer and has written this text, if its reader fails after `left`
/// calls.
fn udp_reads<R: Net + Log>(
    rt: &R,
    alloc: Global,
    left: usize,
    answer: Result<u8, u8>,
    text: &str,
) -> bool {
    let mut reader = Failing::new(SCRIPT, left);
    let mut written = Vec::new(alloc);
    let is = do_udp(rt, alloc, &mut reader, &mut written, 20_221) == answer;
    is && !reader.is_called_again() && written.as_slice() == text.as_bytes()
}

/// Whether `udp` gives this answer, if its writer fails after `left` calls.
fn udp_writes<R: Net + Log>(
    rt: &R,
    alloc: Global,
    script: &str,
    port: u16,
    left: usize,
    answer: Result<u8, u8>,
) -> bool {
    let mut reader = script.as_bytes();
    let mut writer = Failing::new("", left);
    let is = do_udp(rt, alloc, &mut reader, &mut writer, port) == answer;
    is && !writer.is_called_again()
}

/// Each byte of the script is read, and then its end.
#[test]
fn udp_with_a_failing_reader(rt: HostRuntime) {
    for left in 0..=SCRIPT.len() {
        assert!(rt; udp_reads(&rt, rt.alloc(), left, Err(1), ""), "{left}");
    }
    let whole = SCRIPT.len() + 1;
    assert!(rt; udp_reads(&rt, rt.alloc(), whole, Ok(1), TOLD));
}

#[test]
fn udp_with_a_failing_writer(rt: HostRuntime) {
    for left in 0..TOLD.len() {
        let told = udp_writes(&rt, rt.alloc(), SCRIPT, 20_222, left, Err(1));
        assert!(rt; told, "{left}");
    }
    let told = udp_writes(&rt, rt.alloc(), SCRIPT, 20_222, TOLD.len(), Ok(1));
    assert!(rt; told);
}

/// The line of a bad line has 11 bytes.
#[test]
fn a_bad_line_with_a_failing_writer(rt: HostRuntime) {
    for left in 0..11 {
        let told = udp_writes(&rt, rt.alloc(), BAD, 20_223, left, Err(1));
        assert!(rt; told, "{left}");
    }
    assert!(rt; udp_writes(&rt, rt.alloc(), BAD, 20_223, 11, Ok(2)));
}

/// The line of a port in use has 18 bytes, and its status is 1.
#[test]
fn a_port_in_use_with_a_failing_writer(rt: HostRuntime) -> Result<(), Fail> {
    let alloc = rt.alloc();
    let taken = UdpDatagrams::bind(&rt, alloc, &[[127, 0, 0, 3]], 20_224)?;
    for left in 0..=18 {
        let told = udp_writes(&rt, alloc, HOST, 20_224, left, Err(1));
        assert!(rt; told, "{left}");
    }
    std::mem::drop(taken);
    Ok(())
}
