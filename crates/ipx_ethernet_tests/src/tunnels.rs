//! Datagrams of VXLAN and L2TPv3, with literal bytes. Those of sessions are as QEMU sends them, and those of
//! VXLAN as Linux does.

use ipx_tunnels::{
    Cookie, MAX_HEADER_SIZE, Session, Tunnel, TunnelFault, Vni, peer_strips_what_was_put,
    tunnels_are_apart,
};
use std::process::Abort;
use std::test::Fail;

/// What a tunnel sends before the frame `abc`, and a datagram that it takes for the same frame.
#[derive(Clone, Copy)]
struct Row {
    tunnel: Tunnel,
    sent: &'static [u8],
    taken: &'static [u8],
}

const SESSION: Session = Session {
    id: 0x5566_7788,
    peer_id: 0x1122_3344,
    cookie: Cookie::Absent,
    peer_cookie: Cookie::Absent,
    sublayer: false,
};

const WITH_COOKIES: Session = Session {
    cookie: Cookie::Short([0xa1, 0xa2, 0xa3, 0xa4]),
    peer_cookie: Cookie::Long([0xb1, 0xb2, 0xb3, 0xb4, 0xb5, 0xb6, 0xb7, 0xb8]),
    ..SESSION
};

const WITH_SUBLAYER: Session = Session {
    cookie: Cookie::Long([0xa1, 0xa2, 0xa3, 0xa4, 0xa5, 0xa6, 0xa7, 0xa8]),
    sublayer: true,
    ..SESSION
};

const ROWS: [Row; 5] = [
    Row {
        tunnel: Tunnel::Plain,
        sent: b"abc",
        taken: b"abc",
    },
    Row {
        tunnel: Tunnel::Vxlan(Vni([0x12, 0x34, 0x56])),
        sent: b"\x08\0\0\0\x12\x34\x56\0abc",
        taken: b"\x08\xff\xff\xff\x12\x34\x56\xffabc",
    },
    Row {
        tunnel: Tunnel::L2tpv3(SESSION),
        sent: b"\0\x03\0\0\x11\x22\x33\x44abc",
        taken: b"\x7f\xf3\xff\xff\x55\x66\x77\x88abc",
    },
    Row {
        tunnel: Tunnel::L2tpv3(WITH_COOKIES),
        sent: b"\0\x03\0\0\x11\x22\x33\x44\xb1\xb2\xb3\xb4\xb5\xb6\xb7\xb8abc",
        taken: b"\0\x03\0\0\x55\x66\x77\x88\xa1\xa2\xa3\xa4abc",
    },
    Row {
        tunnel: Tunnel::L2tpv3(WITH_SUBLAYER),
        sent: b"\0\x03\0\0\x11\x22\x33\x44\0\0\0\0abc",
        taken: b"\0\x03\0\0\x55\x66\x77\x88\xa1\xa2\xa3\xa4\xa5\xa6\xa7\xa8\x40\0\0\x01abc",
    },
];

#[test]
fn sent_and_taken(rt: HostRuntime) {
    for Row {
        tunnel,
        sent,
        taken,
    } in ROWS {
        let mut out = [0x5a; 64];
        let count = tunnel.put(b"abc", &mut out);
        assert!(rt; count == Some(sent.len()));
        assert_eq!(rt; &out[..sent.len()], sent);
        assert!(rt; out[sent.len()..].iter().all(|byte| *byte == 0x5a));
        assert!(rt; sent.len() <= 3 + MAX_HEADER_SIZE);
        assert!(rt; tunnel.strip(taken) == Ok(b"abc".as_slice()));
    }
}

#[test]
fn nothing_is_put_where_it_does_not_fit(rt: HostRuntime) {
    for Row { tunnel, sent, .. } in ROWS {
        let mut out = [0x5a; 64];
        assert!(rt; tunnel.put(b"abc", &mut out[..sent.len() - 1]) == None);
        assert!(rt; out.iter().all(|byte| *byte == 0x5a));
        assert!(rt; tunnel.put(b"abc", &mut out[..sent.len()]) == Some(sent.len()));
    }
}

/// Checks why a tunnel does not take a datagram.
fn refuses(rt: &impl Abort, tunnel: Tunnel, datagram: &[u8], fault: TunnelFault) {
    assert!(rt; tunnel.strip(datagram) == Err(fault));
}

#[test]
fn other_vxlan(rt: HostRuntime) {
    let tunnel = Tunnel::Vxlan(Vni([0, 0, 42]));
    assert!(rt; tunnel.strip(b"\x08\0\0\0\0\0\x2a\0") == Ok(b"".as_slice()));
    refuses(&rt, tunnel, b"", TunnelFault::Short(0));
    refuses(&rt, tunnel, b"\x08\0\0\0\0\0\x2a", TunnelFault::Short(7));
    // The flags of other forms: GPE, and a group policy.
    refuses(
        &rt,
        tunnel,
        b"\x0c\0\0\0\0\0\x2a\0abc",
        TunnelFault::NotVxlan(0x0c),
    );
    refuses(
        &rt,
        tunnel,
        b"\x88\0\0\0\0\0\x2a\0abc",
        TunnelFault::NotVxlan(0x88),
    );
    refuses(
        &rt,
        tunnel,
        b"\0\0\0\0\0\0\x2a\0abc",
        TunnelFault::NotVxlan(0),
    );
    // Another number, and the same one with its lowest byte first.
    refuses(
        &rt,
        tunnel,
        b"\x08\0\0\0\0\0\x2b\0abc",
        TunnelFault::OtherVni(Vni([0, 0, 43])),
    );
    refuses(
        &rt,
        tunnel,
        b"\x08\0\0\0\x2a\0\0\0abc",
        TunnelFault::OtherVni(Vni([42, 0, 0])),
    );
    refuses(
        &rt,
        tunnel,
        b"\x08\0\0\0\0\0\0\x2aabc",
        TunnelFault::OtherVni(Vni([0, 0, 0])),
    );
}

#[test]
fn other_sessions(rt: HostRuntime) {
    let tunnel = Tunnel::L2tpv3(SESSION);
    assert!(rt; tunnel.strip(b"\0\x03\0\0\x55\x66\x77\x88") == Ok(b"".as_slice()));
    refuses(
        &rt,
        tunnel,
        b"\0\x03\0\0\x55\x66\x77",
        TunnelFault::Short(7),
    );
    refuses(
        &rt,
        tunnel,
        b"\x80\x03\0\0\x55\x66\x77\x88abc",
        TunnelFault::Control,
    );
    refuses(
        &rt,
        tunnel,
        b"\xc8\x03\0\0\x55\x66\x77\x88abc",
        TunnelFault::Control,
    );
    refuses(
        &rt,
        tunnel,
        b"\0\x02\0\0\x55\x66\x77\x88abc",
        TunnelFault::OtherVersion(2),
    );
    refuses(
        &rt,
        tunnel,
        b"\0\x30\0\0\x55\x66\x77\x88abc",
        TunnelFault::OtherVersion(0),
    );
    // What it sends itself.
    let own = TunnelFault::OtherSession(0x1122_3344);
    refuses(&rt, tunnel, b"\0\x03\0\0\x11\x22\x33\x44abc", own);
    let reversed = TunnelFault::OtherSession(0x8877_6655);
    refuses(&rt, tunnel, b"\0\x03\0\0\x88\x77\x66\x55abc", reversed);
}

#[test]
fn other_cookies(rt: HostRuntime) {
    let tunnel = Tunnel::L2tpv3(WITH_SUBLAYER);
    let other = TunnelFault::OtherCookie;
    // Each half of it, and all of it a byte early.
    refuses(
        &rt,
        tunnel,
        b"\0\x03\0\0\x55\x66\x77\x88\xa1\xa2\xa3\xa4\0\0\0\0\0\0\0\0abc",
        other,
    );
    refuses(
        &rt,
        tunnel,
        b"\0\x03\0\0\x55\x66\x77\x88\0\0\0\0\xa5\xa6\xa7\xa8\0\0\0\0abc",
        other,
    );
    refuses(
        &rt,
        tunnel,
        b"\0\x03\0\0\x55\x66\x77\x88\xa2\xa3\xa4\xa5\xa6\xa7\xa8\0\0\0\0abc",
        other,
    );
    // The sublayer is a part of the header.
    let short = b"\0\x03\0\0\x55\x66\x77\x88\xa1\xa2\xa3\xa4\xa5\xa6\xa7\xa8\0\0\0";
    refuses(&rt, tunnel, short, TunnelFault::Short(19));
}

#[test]
fn numbers_of_networks(rt: HostRuntime) -> Result<(), Fail> {
    assert!(rt; Vni::new(0x12_3456) == Some(Vni([0x12, 0x34, 0x56])));
    assert!(rt; Vni::new(0xff_ffff) == Some(Vni([0xff, 0xff, 0xff])));
    assert!(rt; Vni::new(0x100_0000) == None);
    assert_eq!(rt; Vni([0x12, 0x34, 0x56]).number(), 0x12_3456);
    assert_eq!(rt;
        format!(in rt.alloc(); "{}", Vni([0, 1, 0]))?.as_str(),
        "256"
    );
    peer_strips_what_was_put();
    tunnels_are_apart();
    Ok(())
}

#[test]
fn texts_of_faults(rt: HostRuntime) -> Result<(), Fail> {
    let rows = [
        (TunnelFault::Short(7), "7 bytes, fewer than the header has"),
        (
            TunnelFault::NotVxlan(0x0c),
            "no vxlan: its first byte is 0c, and not 08",
        ),
        (TunnelFault::OtherVni(Vni([0, 0, 43])), "vxlan of vni 43"),
        (TunnelFault::Control, "a control message of l2tp"),
        (TunnelFault::OtherVersion(2), "l2tp of version 2, and not 3"),
        (TunnelFault::OtherSession(2), "l2tpv3 of session 2"),
        (TunnelFault::OtherCookie, "l2tpv3 with another cookie"),
    ];
    for (fault, text) in rows {
        assert_eq!(rt; format!(in rt.alloc(); "{fault}")?.as_str(), text);
    }
    Ok(())
}

#[test]
fn texts_of_tunnels(rt: HostRuntime) -> Result<(), Fail> {
    let rows = [
        (Tunnel::Plain, "no tunnel"),
        (Tunnel::Vxlan(Vni([0, 1, 0])), "vxlan of vni 256"),
        (Tunnel::L2tpv3(WITH_COOKIES), "l2tpv3 of session 1432778632"),
    ];
    for (tunnel, text) in rows {
        assert_eq!(rt; format!(in rt.alloc(); "{tunnel}")?.as_str(), text);
    }
    Ok(())
}

/// A random number generator (Marsaglia's xorshift).
fn draw(state: &mut u64) -> u64 {
    *state ^= *state << 13;
    *state ^= *state >> 7;
    *state ^= *state << 17;
    *state
}

/// No random datagram is a frame of a tunnel.
#[test]
fn random_datagrams(rt: HostRuntime) {
    let mut state = 0x9e37_79b9_7f4a_7c15;
    for Row { tunnel, .. } in ROWS {
        if tunnel == Tunnel::Plain {
            continue;
        }
        for _ in 0..100_000_u32 {
            let mut datagram = [0; 48];
            for part in datagram.chunks_mut(8) {
                part.copy_from_slice(&draw(&mut state).to_le_bytes());
            }
            let size = (draw(&mut state) % 49) as usize;
            assert!(rt; tunnel.strip(&datagram[..size]).is_err());
        }
    }
}
