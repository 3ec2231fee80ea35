//! The list of a router's ipxnet clients as text, and which texts are read.

use ipx_table_dump::{ClientPlace, MAX_CLIENT_PLACES, clients_of_text, clients_to_text};
use ipx_wire::Network;
use std::alloc::{AllocError, Global};
use std::net::{Ipv4Addr, SocketAddrV4};
use std::test::Fail;

const TEXT: &str = "client 0000d05b 203.0.113.9:48199\n\
    client 00ab0c22 10.0.255.1:7\n\
    end 2\n";

fn two() -> [ClientPlace; 2] {
    [
        ClientPlace {
            network: Network(0xd05b),
            place: SocketAddrV4::new(Ipv4Addr::new(203, 0, 113, 9), 48199),
        },
        ClientPlace {
            network: Network(0xab_0c22),
            place: SocketAddrV4::new(Ipv4Addr::new(10, 0, 255, 1), 7),
        },
    ]
}

/// How many clients are read of a text, if it lists some.
fn read_of(alloc: Global, text: &str) -> Result<Option<usize>, AllocError> {
    Ok(clients_of_text(alloc, text.as_bytes())?.map(|clients| clients.len()))
}

/// A line for each, and one with their number.
#[test]
fn written(rt: HostRuntime) -> Result<(), Fail> {
    assert_eq!(rt; clients_to_text(rt.alloc(), &two())?.as_str(), TEXT);
    assert_eq!(rt; clients_to_text(rt.alloc(), &[])?.as_str(), "end 0\n");
    Ok(())
}

#[test]
fn read_again(rt: HostRuntime) -> Result<(), Fail> {
    let Some(clients) = clients_of_text(rt.alloc(), TEXT.as_bytes())? else {
        assert!(rt; false);
        return Ok(());
    };
    assert_eq!(rt; clients.as_slice(), two().as_slice());
    assert_eq!(rt; read_of(rt.alloc(), "end 0\n")?, Some(0));
    Ok(())
}

/// A text that was cut anywhere gives none.
#[test]
fn cut(rt: HostRuntime) -> Result<(), Fail> {
    for end in 0..TEXT.len() {
        assert!(rt; clients_of_text(rt.alloc(), &TEXT.as_bytes()[..end])?.is_none());
    }
    Ok(())
}

/// Nor does one with another number, another word, more after its end, or numbers in another form.
#[test]
fn others(rt: HostRuntime) -> Result<(), Fail> {
    let texts = [
        "end 1\n",
        "client 0000d05b 203.0.113.9:48199\nend 2\n",
        "client 0000d05b 203.0.113.9:48199\nend 0\n",
        "player 0000d05b 203.0.113.9:48199\nend 1\n",
        "client 0000d05b 203.0.113.9:48199\nend 1\nend 1\n",
        "client 0000d05b 203.0.113.9:48199\nend 1\n\n",
        "client 0000D05B 203.0.113.9:48199\nend 1\n",
        "client 0000d05b 203.0.113.9:048199\nend 1\n",
        "client 0000d05b  203.0.113.9:48199\nend 1\n",
        "client 0000d05b 203.0.113.256:1\nend 1\n",
        "client 0000d05b 203.0.113.9:65536\nend 1\n",
        "client d05b 203.0.113.9:48199\nend 1\n",
        "client 0000d05b 203.0.113.9:48199\r\nend 1\r\n",
    ];
    for text in texts {
        assert_eq!(rt; read_of(rt.alloc(), text)?, None);
    }
    Ok(())
}

/// At most 1,024 are read.
#[test]
fn how_many(rt: HostRuntime) -> Result<(), Fail> {
    let mut clients = Vec::new(rt.alloc());
    for port in 1..=1024 {
        clients.push(ClientPlace {
            network: Network(0xffff_ffff),
            place: SocketAddrV4::new(Ipv4Addr::new(255, 255, 255, 255), 60000 + port),
        })?;
    }
    let text = clients_to_text(rt.alloc(), &clients)?;
    assert_eq!(rt; text.len(), 38_921);
    assert_eq!(rt; read_of(rt.alloc(), &text)?, Some(MAX_CLIENT_PLACES));
    clients.push(clients[0])?;
    let text = clients_to_text(rt.alloc(), &clients)?;
    assert_eq!(rt; read_of(rt.alloc(), &text)?, None);
    Ok(())
}
