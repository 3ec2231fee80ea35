//! Out of memory. Run it with each request refused.

use crate::fixture::ask;
use crate::routers::{has_service, router, statics, way};
use std::test::Fail;

/// Whichever request is refused, the route and the service are there two minutes later.
#[test]
fn refused_memory_for_words(rt: HostRuntime) -> Result<(), Fail> {
    let alloc = rt.alloc();
    let mut core = match router(alloc, 1) {
        Ok(core) => core,
        Err(_) => router(alloc, 1)?,
    };
    let mut refused = 0;
    for now in [0, 60_000, 120_000] {
        if ask(alloc, &mut core, now).is_err() {
            refused += 1;
        }
    }
    assert!(rt; refused <= 1);
    assert!(rt; way(&core, 120_000) == statics());
    assert!(rt; has_service(&core, 120_000));
    Ok(())
}
