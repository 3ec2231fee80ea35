//! What the tests read, and what is then written.

use ipx_wire::Node;

pub const PACKET: &str = "ffff001e00000000002200007f00000540000000001100007f0000034001";

pub const FORWARD: &str =
    "forward 2 00007f000005 ffff001e01000000002200007f00000540000000001100007f0000034001\n";

pub const FIELDS: &str =
    "ipx hops 0 kind 0 body 0\nto 00000022 00007f000005 4000\nfrom 00000011 00007f000003 4001\n";

/// A frame that the station receives, and a byte.
pub const FRAMES: &str = "0200000000010200000000428137ffff001e0004000000220200000000014002\
                          000000110200000000424002\nff\n";

pub const STATION: Node = Node([2, 0, 0, 0, 0, 1]);

pub const HEARD: &str = "frame ethernet-ii to 020000000001 from 020000000042\n\
                         ipx hops 0 kind 4 body 0\n\
                         to 00000022 020000000001 4002\n\
                         from 00000011 020000000042 4002\n\
                         refused (40) FrameShort 1\n";

pub const VECTOR: &str = "bad 1 ";

pub const CHECKED: &str = "checked 1 failed 0\n";

pub const NO_MEMORY: &str = "fault (14) OutOfMemory\n";
