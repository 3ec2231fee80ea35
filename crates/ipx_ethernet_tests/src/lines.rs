//! The frames of a file, one line of hex each, and how each is read. `tests/system/ethernet/frames`
//! writes that file; if there is none, nothing is read.

use crate::fixture::STATION;
use ipx_ethernet::decode_frame;
use std::fs;
use std::test::Fail;

#[test]
fn frames_of_a_file(rt: HostRuntime) -> Result<(), Fail> {
    let Ok(text) = fs::read_to_string(&rt, "frames.hex") else {
        return Ok(());
    };
    for line in text.lines() {
        let bytes = hex::decode(rt.alloc(), line.as_bytes())?;
        match decode_frame(&bytes, STATION) {
            Ok((frame, encapsulation)) => {
                let packet = hex::encode(rt.alloc(), frame.packet)?;
                println!(rt; "read {encapsulation} {} {packet}", frame.from)?;
            }
            Err(fault) => println!(rt; "fault {}", fault.number())?,
        }
    }
    Ok(())
}
