//! The widest window: 8,192 units.

use crate::end::{End, joined, one_unit, unit};
use spx_link::Sent;
use std::alloc::Global;
use std::process::Abort;
use std::test::Fail;

/// 9,000 units for a peer with 8,192 buffers: 8,192 are sent and the next one waits. 500 ms later
/// the first is sent again.
#[test]
fn window_rows(rt: HostRuntime) -> Result<(), Fail> {
    let mut end = joined(&rt, rt.alloc(), 0x1fff)?;
    offers(&mut end, rt.alloc())?;
    sends_a_window(&rt, &mut end);
    assert_eq!(rt; end.sent(499), None);
    assert_eq!(rt; end.poll(500), Some((Sent::Again, unit(0, 0))));
    Ok(())
}

fn offers(end: &mut End, alloc: Global) -> Result<(), Fail> {
    for _ in 0..9000u16 {
        end.offer(one_unit(alloc, 0)?)?;
    }
    Ok(())
}

fn sends_a_window(rt: &impl Abort, end: &mut End) {
    for seq in 0..8192u16 {
        assert_eq!(rt; end.poll(0), Some((Sent::Unit, unit(0, seq))));
    }
    assert_eq!(rt; end.sent(0), None);
    assert_eq!(rt;
        end.numbers().map(|numbers| (numbers.out, numbers.room)),
        Some((8192, 0))
    );
}
