//! Marks of ports, if memory is refused.

use ipx_carrier::ReadySet;
use std::test::Fail;

#[test]
fn marks_of_three_ports(rt: HostRuntime) -> Result<(), Fail> {
    let mut marks = ReadySet::all(rt.alloc(), 2)?;
    marks.add()?;
    assert_eq!(rt; marks.ports(), 3);
    marks.clear_ready(0);
    marks.clear_ready(2);
    marks.clear_ready(3);
    assert!(rt; !marks.is_marked(0) && marks.is_marked(1) && !marks.is_marked(2));
    assert!(rt; marks.is_any_marked() && !marks.is_marked(3));
    marks.clear_ready(1);
    assert!(rt; !marks.is_any_marked());
    marks.set_ready(2);
    marks.set_ready(3);
    assert!(rt; !marks.is_marked(0) && !marks.is_marked(1) && marks.is_marked(2));
    marks.mark_all();
    assert!(rt; marks.is_marked(0) && marks.is_marked(1) && !marks.is_marked(3));
    assert!(rt; !ReadySet::new(rt.alloc()).is_any_marked());
    Ok(())
}

/// If memory is refused for one more port, the others are as they were.
#[test]
fn refused_marks(rt: HostRuntime) -> Result<(), Fail> {
    let alloc = rt.alloc();
    let mut marks = match ReadySet::all(alloc, 2) {
        Ok(marks) => marks,
        Err(_) => ReadySet::all(alloc, 2)?,
    };
    marks.clear_ready(1);
    if marks.add().is_err() {
        assert_eq!(rt; marks.ports(), 2);
        marks.add()?;
    }
    assert_eq!(rt; marks.ports(), 3);
    assert!(rt; marks.is_marked(0) && !marks.is_marked(1) && marks.is_marked(2));
    Ok(())
}
