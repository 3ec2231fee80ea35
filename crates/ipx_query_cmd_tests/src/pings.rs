//! Lines of pings, also when out of memory.

use ipx_query_cmd::{PingAnswer, PingEvent, news_to_text, totals_to_line};
use ipx_wire::{Address, Network, Node, Socket};
use std::test::Fail;

const LISTENER: Address = Address {
    network: Network(0x22),
    node: Node([0, 0, 0x0a, 2, 0, 0x1e]),
    socket: Socket(0x4002),
};

fn answered(number: u32, tenths: u64, routers: u8) -> Option<PingEvent> {
    Some(PingEvent::Answered(PingAnswer {
        number,
        tenths,
        routers,
    }))
}

/// One router is singular, and any other number is plural.
#[test]
fn lines_of_a_ping(rt: HostRuntime) -> Result<(), Fail> {
    let alloc = rt.alloc();
    let text = news_to_text(alloc, LISTENER, answered(1, 312, 2))?;
    let wanted = "00000022 00000a02001e 4002: answer 1 in 31.2 ms, 2 routers\n";
    assert_eq!(rt; text.as_str(), wanted);
    let text = news_to_text(alloc, LISTENER, answered(65_535, 9, 1))?;
    let wanted = "00000022 00000a02001e 4002: answer 65535 in 0.9 ms, 1 router\n";
    assert_eq!(rt; text.as_str(), wanted);
    let text = news_to_text(alloc, LISTENER, answered(2, 10_000, 0))?;
    let wanted = "00000022 00000a02001e 4002: answer 2 in 1000.0 ms, 0 routers\n";
    assert_eq!(rt; text.as_str(), wanted);
    let text = news_to_text(alloc, LISTENER, Some(PingEvent::Unanswered(3)))?;
    assert_eq!(rt; text.as_str(), "00000022 00000a02001e 4002: no answer 3\n");
    assert_eq!(rt; news_to_text(alloc, LISTENER, None)?.as_str(), "");
    Ok(())
}

/// The mean is rounded down to a tenth; without an answer there are no times.
#[test]
fn the_line_after_all(rt: HostRuntime) -> Result<(), Fail> {
    let alloc = rt.alloc();
    let text = totals_to_line(alloc, 4, 3, &[312, 309, 310])?;
    let wanted = "4 sent, 3 answered, min 30.9 ms, avg 31.0 ms, max 31.2 ms\n";
    assert_eq!(rt; text.as_str(), wanted);
    let text = totals_to_line(alloc, 2, 2, &[10, 13])?;
    let wanted = "2 sent, 2 answered, min 1.0 ms, avg 1.1 ms, max 1.3 ms\n";
    assert_eq!(rt; text.as_str(), wanted);
    let text = totals_to_line(alloc, 2, 2, &[u64::MAX, u64::MAX])?;
    let wanted = "2 sent, 2 answered, min 1844674407370955161.5 ms, \
        avg 1844674407370955161.5 ms, max 1844674407370955161.5 ms\n";
    assert_eq!(rt; text.as_str(), wanted);
    let text = totals_to_line(alloc, 4, 0, &[])?;
    assert_eq!(rt; text.as_str(), "4 sent, 0 answered\n");
    Ok(())
}

/// If a call runs out of memory, the same call then succeeds. Run this with each allocation
/// refused.
#[test]
fn refused_ping_lines(rt: HostRuntime) -> Result<(), Fail> {
    let alloc = rt.alloc();
    let news = answered(1, 312, 2);
    let text = match news_to_text(alloc, LISTENER, news) {
        Ok(text) => text,
        Err(_) => news_to_text(alloc, LISTENER, news)?,
    };
    let wanted = "00000022 00000a02001e 4002: answer 1 in 31.2 ms, 2 routers\n";
    assert_eq!(rt; text.as_str(), wanted);
    let text = match totals_to_line(alloc, 4, 1, &[312]) {
        Ok(text) => text,
        Err(_) => totals_to_line(alloc, 4, 1, &[312])?,
    };
    let wanted = "4 sent, 1 answered, min 31.2 ms, avg 31.2 ms, max 31.2 ms\n";
    assert_eq!(rt; text.as_str(), wanted);
    Ok(())
}
