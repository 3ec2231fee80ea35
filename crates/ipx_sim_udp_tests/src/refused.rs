//! A script over sockets if memory is refused: its usual lines up to there, and then out of memory
//! in the layer that needed it. Run it with each request refused.

use ipx_sim_udp::do_udp;
use std::alloc::Global;
use std::test::Fail;

/// Two hosts of one network: a connection, and a message.
const SCRIPT: &str = "host a 11 00007f000003 00007f000001
host b 11 00007f000004 00007f000001 listen 4000 8
dial a 4001 11 00007f000004 4000 8
pump 3
send 0 00 616263
pump 3
";

/// The script is run to its end.
const USUAL: &str = "end 0 a Live in 1 out 0 next 0001\nend 1 b Live in 0 out 1 next 0000\n";

/// An end needs memory as it is dialled, and there is none.
const NO_END: &str = "refused (27) OutOfMemory\nfault (34) NoSuchEnd\n";

/// An end needs memory for a message, which it does not accept.
const NO_MESSAGE: &str = "refused (27) OutOfMemory
end 0 a Live in 0 out 0 next 0000
end 1 b Live in 0 out 0 next 0000
";

/// An end needs memory as a message is taken, which it keeps.
const NOT_TAKEN: &str = "refused (27) OutOfMemory
end 0 a Live in 1 out 0 next 0001
end 1 b Live in 0 out 0 next 0000
";

/// Out of memory anywhere else ends the script: in the command, or in a device.
const NO_MEMORY: &str = "fault (14) OutOfMemory\n";

const NO_DEVICE: &str = "fault (39) Device\n";

/// The possible outcomes of a script: its answer, and what it prints.
const OUTCOMES: [(Result<u8, u8>, &str); 6] = [
    (Ok(0), USUAL),
    (Ok(1), NO_END),
    (Ok(1), NO_MESSAGE),
    (Ok(1), NOT_TAKEN),
    (Err(1), NO_MEMORY),
    (Err(1), NO_DEVICE),
];

fn is_known(answer: Result<u8, u8>, text: &[u8]) -> bool {
    OUTCOMES.iter().any(|outcome| outcome.0 == answer && outcome.1.as_bytes() == text)
}

/// A buffer for what is printed, made once more if memory was refused.
fn room_at_last(alloc: Global) -> Result<Vec<u8>, Fail> {
    match Vec::with_capacity(alloc, 512) {
        Ok(room) => Ok(room),
        Err(_) => Ok(Vec::with_capacity(alloc, 512)?),
    }
}

#[test]
fn refused_udp(rt: HostRuntime) -> Result<(), Fail> {
    let mut text = room_at_last(rt.alloc())?;
    let mut input = SCRIPT.as_bytes();
    let answer = do_udp(&rt, rt.alloc(), &mut input, &mut text, 20_220);
    assert!(rt; is_known(answer, text.as_slice()));
    Ok(())
}
