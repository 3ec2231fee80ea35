//! Out of memory: each command answers as usual, or says that memory ran out, whichever request is
//! refused. The writer has its memory before.

use crate::texts::{CHECKED, FIELDS, FORWARD, FRAMES, HEARD, NO_MEMORY, PACKET, STATION, VECTOR};
use ipx_inspect::{do_check, do_hop, do_show, do_show_frames};

/// Whether the status fits what was written: the usual lines, or that memory ran out.
fn is_told(answer: Result<u8, u8>, written: &[u8], lines: &str) -> bool {
    match answer {
        Ok(status) => status == 0 && written == lines.as_bytes(),
        Err(status) => status == 1 && written == NO_MEMORY.as_bytes(),
    }
}

/// The same for frames, of which one is refused: that memory ran out may follow their first lines.
fn is_told_after(answer: Result<u8, u8>, written: &[u8]) -> bool {
    match answer {
        Ok(status) => status == 1 && written == HEARD.as_bytes(),
        Err(status) => {
            let told = status == 1 && written.ends_with(NO_MEMORY.as_bytes());
            let before = written.len().saturating_sub(NO_MEMORY.len());
            told && HEARD.as_bytes().starts_with(&written[..before])
        }
    }
}

#[test]
fn refused_hop(rt: HostRuntime) {
    if let Ok(mut written) = Vec::with_capacity(rt.alloc(), 256) {
        let mut reader = PACKET.as_bytes();
        let answer = do_hop(rt.alloc(), &mut reader, &mut written);
        assert!(rt; is_told(answer, written.as_slice(), FORWARD));
    }
}

#[test]
fn refused_show(rt: HostRuntime) {
    if let Ok(mut written) = Vec::with_capacity(rt.alloc(), 256) {
        let answer = do_show(rt.alloc(), PACKET, &mut written);
        assert!(rt; is_told(answer, written.as_slice(), FIELDS));
    }
}

#[test]
fn refused_show_frames(rt: HostRuntime) {
    if let Ok(mut written) = Vec::with_capacity(rt.alloc(), 256) {
        let mut reader = FRAMES.as_bytes();
        let answer = do_show_frames(rt.alloc(), STATION, &mut reader, &mut written);
        assert!(rt; is_told_after(answer, written.as_slice()));
    }
}

#[test]
fn refused_check(rt: HostRuntime) {
    if let Ok(mut written) = Vec::with_capacity(rt.alloc(), 256) {
        let mut reader = VECTOR.as_bytes();
        let answer = do_check(rt.alloc(), &mut reader, &mut written);
        assert!(rt; is_told(answer, written.as_slice(), CHECKED));
    }
}
