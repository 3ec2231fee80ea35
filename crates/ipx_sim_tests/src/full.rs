//! What `sim` prints if a host, a table or a message is full. The scripts are too long for rows.

use ipx_sim::do_sim;
use std::alloc::Global;
use std::process::Abort;
use std::test::Fail;

/// What a script with this status prints.
fn printed(rt: &impl Abort, alloc: Global, script: &str, status: u8) -> Result<String, Fail> {
    let mut text = Vec::new(alloc);
    let mut input = script.as_bytes();
    assert_eq!(rt; do_sim(alloc, &mut input, &mut text), Ok(status));
    Ok(String::from_str(alloc, std::str::from_utf8(&text)?)?)
}

/// Whether a script has this status, and these last lines.
fn ends_with(
    rt: &impl Abort,
    alloc: Global,
    script: &str,
    status: u8,
    last: &str,
) -> Result<bool, Fail> {
    Ok(printed(rt, alloc, script, status)?.ends_with(last))
}

/// A text, repeated this many times.
fn repeated(alloc: Global, text: &str, count: u32) -> Result<String, Fail> {
    let mut all = String::new(alloc);
    for _ in 0..count {
        all.push_str(text)?;
    }
    Ok(all)
}

const THREE_HOSTS: &str = "host a 11 00007f000003 00007f000001
host b 11 00007f000004 00007f000001 listen 4000 8
host c 11 00007f000005 00007f000001
";

/// The lines of ends at the end of a script, from this number on.
fn live_ends(alloc: Global, host: &str, first: u32) -> Result<String, Fail> {
    let mut lines = String::new(alloc);
    for end in first..first + 16 {
        let line = format!(in alloc; "end {end} {host} Live in 0 out 0 next 0000 begins yes\n")?;
        lines.push_str(&line)?;
    }
    Ok(lines)
}

/// A host with sixteen connections does not accept another host's request.
#[test]
fn a_host_that_is_full(rt: HostRuntime) -> Result<(), Fail> {
    let alloc = rt.alloc();
    let dials = repeated(alloc, "dial a 4001 11 00007f000004 4000 8\n", 16)?;
    let script = format!(in alloc;
        "{THREE_HOSTS}{dials}run 10\ndial c 4001 11 00007f000004 4000 8\npoll c\ndeliver 32 b\n"
    )?;
    let near = live_ends(alloc, "a", 0)?;
    let far = live_ends(alloc, "b", 16)?;
    let last = format!(in alloc;
        "no-room\n{near}{far}end 32 c Opening in 0 out 0 next 0000 begins yes\nfresh yes\n"
    )?;
    assert!(rt; ends_with(&rt, alloc, &script, 0, &last)?);
    Ok(())
}

/// A RIP response of fifty networks to the router, and its delivery.
fn fifty_networks(alloc: Global, number: u32) -> Result<String, Fail> {
    let mut text = String::from_str(
        alloc,
        "inject 22 00007f000002 ffff01b0000100000022ffffffffffff04530000002200007f00000904530002",
    )?;
    for place in 0..50 {
        let network = 1000 + 50 * number + place;
        text.push_str(&format!(in alloc; "{network:08x}00010001")?)?;
    }
    text.push_str(&format!(in alloc; "\ndeliver {number} r.2\n")?)?;
    Ok(text)
}

/// Twenty responses are learned, and the next one does not fit the table whole.
#[test]
fn a_table_that_is_full(rt: HostRuntime) -> Result<(), Fail> {
    let alloc = rt.alloc();
    let mut script = String::from_str(alloc, "router r 11 00007f000001 1 22 00007f000002 1\n")?;
    for number in 0..21 {
        script.push_str(&fifty_networks(alloc, number)?)?;
    }
    let text = printed(&rt, alloc, &script, 0)?;
    let heard = text.lines().filter(|line| *line == "heard 50");
    assert_eq!(rt; heard.count(), 20);
    assert!(rt; text.ends_with("dropped (24) TableFull\nfresh yes\n"));
    Ok(())
}

const TWO_HOSTS: &str = "host a 11 00007f000003 00007f000001
host b 11 00007f000004 00007f000001 listen 4000 8
dial a 4001 11 00007f000004 4000 8
run 10
";

/// What comes before and after the sequence number of a unit that ends no message.
const UNIT: &str = "ffff024000050000001100007f00000440000000001100007f0000034001400000010001";

const LAST_OF_OVERLONG: &str = "end 1 kept
refused (31) Overlong
end 0 a Live in 0 out 0 next 0000 begins yes
end 1 b Lost in 0 out 0 next 0000 begins yes
fresh yes
";

/// 122 forged units of 534 bytes are parts of a message, and the next one makes it too long.
#[test]
fn a_message_that_is_too_long(rt: HostRuntime) -> Result<(), Fail> {
    let alloc = rt.alloc();
    let body = repeated(alloc, "61", 534)?;
    let mut script = String::from_str(alloc, TWO_HOSTS)?;
    for sequence in 0..123_u32 {
        let parcel = sequence + 2;
        script.push_str(&format!(in alloc;
            "inject 11 00007f000004 {UNIT}{sequence:04x}00000007{body}\ndeliver {parcel} b\ntake 1\n"
        )?)?;
    }
    assert!(rt; ends_with(&rt, alloc, &script, 1, LAST_OF_OVERLONG)?);
    Ok(())
}
