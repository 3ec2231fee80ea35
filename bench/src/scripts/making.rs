//! The scripts, made by a fixed rule.

use super::{Chance, Cut, FAR, NEAR, Script};
use crate::plain::spx::{MOST_DATA, ROOM};

/// The first bytes of packets: without marks, with one, two and all of them.
const MARKS: [u8; 6] = [0x00, 0x10, 0x40, 0x80, 0x50, 0xd0];

/// Bytes of a fixed rule.
pub fn bytes(count: usize) -> Vec<u8> {
    (0..count).map(|i| (i * 7 % 251) as u8).collect()
}

/// All scripts. The first passes so many bytes with as many units offered in turn.
pub fn scripts(count: usize, offered: usize, buffers: u16) -> impl Iterator<Item = Script> {
    [passing(count, offered, buffers), wrapping(), crowded()]
        .into_iter()
        .chain(all_altered())
        .chain([0, 1, 2].map(silent))
        .chain(MARKS.map(|control| made(control, 0xfe)))
        .chain(MARKS.map(|control| made(control, 0xff)))
        .chain((1..=200).map(disturbed))
}

/// Bytes pass over wires that lose nothing.
fn passing(count: usize, offered: usize, buffers: u16) -> Script {
    let mut script = Script::new(ROOM, buffers);
    script.pass(&bytes(count), Cut::units(MOST_DATA), offered);
    script
}

/// Units of one byte pass until their numbers are about to wrap. Then wires lose packets.
fn wrapping() -> Script {
    const PASSED: u16 = 65_530;
    let cut = Cut {
        size: 1,
        stream: 1,
        last: true,
    };
    let mut script = Script::new(40, 8);
    script.pass(&bytes(PASSED.into()), cut, 8);
    script.disturb(4000, &mut Chance(1));
    let sent = script.pair.near.link().map(|link| link.numbers().next);
    let came = script.pair.far.link().map(|link| link.numbers().expected);
    let wrapped = |number: Option<u16>| number.is_some_and(|number| number < PASSED);
    assert!(wrapped(sent) && wrapped(came), "no wrap: {sent:?} {came:?}");
    script
}

/// Calls by chance, with a seed for each script.
fn disturbed(seed: u64) -> Script {
    let buffers = [1, 2, 8, 8192][seed as usize % 4];
    let mut script = Script::new(ROOM + 4, buffers);
    script.disturb(1500, &mut Chance(seed * 0x9e37_79b9));
    script
}

/// Nobody answers: the request, a unit or a probe is sent ten times, as `which` says.
fn silent(which: u8) -> Script {
    let mut script = Script::new(ROOM, 1);
    if which > 0 {
        script.carry_all(FAR);
        script.offer(NEAR, b"abc", Cut::units(1));
        script.poll(NEAR);
    }
    if which > 1 {
        script.hand_over_next(FAR);
        script.carry_all(FAR);
    }
    script.wait_in_vain();
    script
}

/// A unit comes with other marks and on another stream than it was sent with, and once more. Both
/// ends go on and end the connection.
fn made(control: u8, stream: u8) -> Script {
    let mut script = Script::new(ROOM, 2);
    script.carry_all(FAR);
    script.offer(NEAR, b"abcdef", Cut::units(3));
    script.poll(NEAR);
    let mut packet = script.wires[NEAR][0].clone();
    packet[..2].copy_from_slice(&[control, stream]);
    script.hand_over(FAR, &packet);
    script.hand_over(FAR, &packet);
    script.turn_while_units_come();
    script.end(FAR);
    script.end(NEAR);
    script.turn_while_units_come();
    script
}

/// A reply, a unit, an end and a confirmation, each altered before it comes as it is.
fn altered(alter: impl Fn(&mut Vec<u8>)) -> Script {
    let mut script = Script::new(ROOM, 2);
    script.poll(FAR);
    script.hand_over_both(NEAR, &alter);
    script.offer(NEAR, b"ab", Cut::units(1));
    for _ in 0..2 {
        script.poll(NEAR);
        script.hand_over_both(FAR, &alter);
    }
    script.take(FAR);
    script.poll(FAR);
    script.hand_over_both(NEAR, &alter);
    script.end(NEAR);
    script.poll(NEAR);
    script.hand_over_both(FAR, &alter);
    script.take(FAR);
    script.take(FAR);
    script.poll(FAR);
    script.hand_over_both(NEAR, &alter);
    script
}

/// Each bit of a header altered, then ids that no link has, and data where there was none.
fn all_altered() -> impl Iterator<Item = Script> {
    let bits = (0..96).map(|bit| altered(|packet| packet[bit / 8] ^= 1 << (bit % 8)));
    let ids = [0, 0xfe, 0xff]
        .into_iter()
        .map(|id| altered(|packet| packet[2..4].copy_from_slice(&[0xff, id])));
    let data = [altered(|packet| packet.extend(b"data"))];
    bits.chain(ids).chain(data)
}

/// An allocation over the most units that may be outstanding, and more units than that.
fn crowded() -> Script {
    let mut script = Script::new(2800, 8);
    script.poll(FAR);
    let mut reply = script.wires[FAR][0].clone();
    reply[10] = 0x20;
    script.hand_over(NEAR, &reply);
    script.offer_each(&bytes(8400), 525, Cut::units(1));
    script.poll_all(NEAR);
    let out = script.pair.near.link().map(|link| link.numbers().out);
    assert_eq!(out, Some(8192), "fewer units are outstanding than may be");
    script
}
