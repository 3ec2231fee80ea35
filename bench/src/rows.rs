//! What is measured: calls of both routers, of both pairs of links and of both pairs of hosts on
//! the same inputs.

use crate::inputs::{
    AT_ONCE, FIRST_LEARNED, LEAD, PORT_NETWORKS, Pace, Records, asking, fifty_of, others, packets,
    refused, routes, routes_and_services, routes_and_services_by_key, told_and_withdrawn,
};
use crate::plain::endpoint::MOST_BYTES;
use crate::plain::spx::MOST_DATA;
use crate::scripts::{Met, Script, bytes, scripts};
use crate::{hosts, ours, pairs, theirs};
use std::hint::black_box;
use std::rc::Rc;

/// A call that is measured, on both sides.
pub struct Row {
    pub name: String,
    /// How many calls a round makes.
    pub calls: u32,
    pub ours: Box<dyn Fn(u32) -> u64>,
    pub theirs: Box<dyn Fn(u32) -> u64>,
}

/// The digest of so many rounds, and how many nanoseconds each call of them took.
pub type Timed = Box<dyn Fn(u32) -> (u64, Vec<u64>)>;

/// Calls that are timed one by one, on both sides.
pub struct Singles {
    pub name: String,
    pub ours: Timed,
    pub theirs: Timed,
}

const SIZES: [usize; 3] = [30, 576, 1500];
const REFUSED_SIZE: usize = 1536;
const LEARNED: [u32; 3] = [1, 32, 1024];
const ROUTES: u32 = 1024;
const SERVICES: u32 = 4096;
const KNOWN: u32 = 1000;
const PASSED: usize = 1_000_000;
const BUFFERS: u16 = 8;

/// How many units are offered by one call of a row, and how many buffers there are: as many as pass
/// before the other end answers.
pub const PASSES: [(usize, u16); 3] = [(8, BUFFERS), (1873, BUFFERS), (8192, 8192)];

fn decode(size: usize) -> Row {
    let records = packets(size, |k| PORT_NETWORKS[1 + k as usize % 2]);
    decode_all(format!("decode, {size} bytes"), records)
}

fn decode_refused() -> Row {
    decode_all("decode, refused".to_owned(), refused(REFUSED_SIZE))
}

fn decode_all(name: String, records: Records) -> Row {
    let size = records.size - LEAD;
    let calls = records.count() as u32;
    let datagrams = Rc::new(records.datagrams());
    let same = Rc::clone(&datagrams);
    Row {
        name,
        calls,
        ours: Box::new(move |rounds| ours::decode(&datagrams, size, rounds)),
        theirs: Box::new(move |rounds| theirs::decode(&same, size, rounds)),
    }
}

/// Records that a router which heard others is handed in each round, all at one moment.
fn receive(name: String, heard: Records, records: Records) -> Row {
    receive_at(name, heard, records, AT_ONCE)
}

/// The same at a pace.
fn receive_at(name: String, heard: Records, records: Records, pace: Pace) -> Row {
    let calls = records.count() as u32;
    let inputs = Rc::new((heard, records));
    let same = Rc::clone(&inputs);
    Row {
        name,
        calls,
        ours: Box::new(move |rounds| ours::receive(&inputs.0, &inputs.1, rounds, pace)),
        theirs: Box::new(move |rounds| theirs::receive(&same.0, &same.1, rounds, pace)),
    }
}

/// The records of `receive_at`, timed one by one.
fn receive_each(name: String, heard: Records, records: Records, pace: Pace) -> Singles {
    let inputs = Rc::new((heard, records));
    let same = Rc::clone(&inputs);
    Singles {
        name,
        ours: Box::new(move |rounds| ours::receive_each(&inputs.0, &inputs.1, rounds, pace)),
        theirs: Box::new(move |rounds| theirs::receive_each(&same.0, &same.1, rounds, pace)),
    }
}

fn forward_direct(size: usize) -> Row {
    let records = packets(size, |k| PORT_NETWORKS[1 + k as usize % 2]);
    receive(
        format!("forward, direct, {size} bytes"),
        Records::none(),
        records,
    )
}

fn forward_learned(size: usize, count: u32) -> Row {
    let name = format!("forward, {count} learned, {size} bytes");
    let heard = routes(count, &[2, 3]);
    let records = packets(size, |k| FIRST_LEARNED + k * 37 % count);
    receive(name, heard, records)
}

/// Packets that a router which heard others changes in place, all at one moment.
fn in_place(name: String, heard: Records, records: Records) -> Row {
    let calls = records.count() as u32;
    let inputs = Rc::new((heard, records));
    let same = Rc::clone(&inputs);
    Row {
        name,
        calls,
        ours: Box::new(move |rounds| ours::in_place(&inputs.0, &inputs.1, rounds)),
        theirs: Box::new(move |rounds| theirs::in_place(&same.0, &same.1, rounds)),
    }
}

fn in_place_direct(size: usize) -> Row {
    let records = packets(size, |k| PORT_NETWORKS[1 + k as usize % 2]);
    in_place(
        format!("in place, direct, {size} bytes"),
        Records::none(),
        records,
    )
}

fn in_place_learned(size: usize, count: u32) -> Row {
    let name = format!("in place, {count} learned, {size} bytes");
    let heard = routes(count, &[2, 3]);
    let records = packets(size, |k| FIRST_LEARNED + k * 37 % count);
    in_place(name, heard, records)
}

/// A round each minute, with all its packets at one moment.
const EACH_MINUTE: Pace = Pace {
    apart: 0,
    period: 60_000,
};

/// A round each 61 seconds, in which a packet comes each tenth of a second.
const ONE_BY_ONE: Pace = Pace {
    apart: 100,
    period: 61_000,
};

/// What is heard in each round, behind what was heard first, and at which pace.
struct Hearing {
    name: String,
    heard: fn() -> Records,
    records: fn() -> Records,
    pace: Pace,
}

fn known_routes() -> Records {
    routes(KNOWN, &[2])
}

fn fifty_known() -> Records {
    fifty_of(KNOWN)
}

fn scattered() -> Records {
    routes_and_services(ROUTES, SERVICES)
}

fn by_key() -> Records {
    routes_and_services_by_key(ROUTES, SERVICES)
}

fn withdrawn() -> Records {
    told_and_withdrawn(ROUTES, SERVICES)
}

/// Routes that are heard again, all at one moment, and then each time a millisecond later.
fn hear() -> [Hearing; 2] {
    let hearing = |when: &str, period| Hearing {
        name: format!("hear 50 routes of {KNOWN} known{when}"),
        heard: known_routes,
        records: fifty_known,
        pace: Pace { apart: 0, period },
    };
    [hearing("", 0), hearing(", later", 1)]
}

/// All routes and services, told to a router that heard them before: the services scattered or by
/// key, and all at one moment, each minute, or packet by packet.
fn hear_all() -> [Hearing; 6] {
    let hearing = |how: &str, records, pace| Hearing {
        name: format!("hear {ROUTES} and {SERVICES}{how}"),
        heard: records,
        records,
        pace,
    };
    [
        hearing("", scattered, AT_ONCE),
        hearing(", each minute", scattered, EACH_MINUTE),
        hearing(", one by one", scattered, ONE_BY_ONE),
        hearing(" by key", by_key, AT_ONCE),
        hearing(" by key, each minute", by_key, EACH_MINUTE),
        hearing(" by key, one by one", by_key, ONE_BY_ONE),
    ]
}

/// A round each 200 seconds, with all its packets at one moment: all that the round before told
/// grows old at the first packet, and is learned anew.
const OLD_AT_ONCE: Pace = Pace {
    apart: 0,
    period: 200_000,
};

/// A round each 180 seconds, in which a packet comes each tenth of a second: what each packet told
/// the round before grows old just as it comes again.
const OLD_ONE_BY_ONE: Pace = Pace {
    apart: 100,
    period: 180_000,
};

/// All routes and services, learned in each round by a router that holds none any more, since they
/// grew old or were withdrawn.
fn learn_all() -> [Hearing; 5] {
    let hearing = |how: &str, records, pace| Hearing {
        name: format!("learn {ROUTES} and {SERVICES}{how}"),
        heard: Records::none,
        records,
        pace,
    };
    [
        hearing(", old at once", scattered, OLD_AT_ONCE),
        hearing(", old one by one", scattered, OLD_ONE_BY_ONE),
        hearing(", withdrawn", withdrawn, AT_ONCE),
        hearing(" by key, old at once", by_key, OLD_AT_ONCE),
        hearing(" by key, old one by one", by_key, OLD_ONE_BY_ONE),
    ]
}

/// The rounds of a hearing as one call each. One round more comes first, so that what is learned in
/// those that are timed comes in the place of what grew old.
fn round_by_round(hearing: Hearing) -> Row {
    let Hearing {
        name,
        heard,
        records,
        pace,
    } = hearing;
    let row = receive_at(name, heard(), records(), pace);
    let Row { ours, theirs, .. } = row;
    Row {
        name: row.name,
        calls: 1,
        ours: Box::new(move |rounds| ours(rounds + 1)),
        theirs: Box::new(move |rounds| theirs(rounds + 1)),
    }
}

/// What changes tables, its calls timed one by one.
pub fn singles() -> Vec<Singles> {
    let all = hear().into_iter().chain(hear_all()).chain(learn_all());
    all.map(|it| receive_each(it.name, (it.heard)(), (it.records)(), it.pace))
        .collect()
}

/// What is asked of a router that holds all routes and services.
fn ask(name: &str, socket: u16, body: &[u8]) -> Row {
    let heard = routes_and_services(ROUTES, SERVICES);
    receive(name.to_owned(), heard, asking(socket, body))
}

fn ask_all() -> [Row; 3] {
    let every_route = [0, 1, 0xff, 0xff, 0xff, 0xff, 0, 0, 0, 0];
    [
        ask(&format!("ask for {ROUTES} routes"), 0x0453, &every_route),
        ask(
            &format!("ask for {SERVICES} services"),
            0x0452,
            &[0, 1, 0xff, 0xff],
        ),
        ask(
            &format!("ask for the nearest of {SERVICES}"),
            0x0452,
            &[0, 3, 0, 4],
        ),
    ]
}

fn forward_with_all_held() -> Row {
    let heard = routes_and_services(ROUTES, SERVICES);
    let records = packets(30, |k| PORT_NETWORKS[1 + k as usize % 2]);
    receive(
        "forward, direct, 30 bytes, all held".to_owned(),
        heard,
        records,
    )
}

/// All routes and services, told by a router of three ports and by one of sixteen, which both heard
/// them at their first three.
fn tell() -> [Row; 2] {
    let heard = Rc::new(routes_and_services(ROUTES, SERVICES));
    let row = |ports: &str, ours: fn(&Records, u32) -> u64, theirs: fn(&Records, u32) -> u64| {
        let (heard, same) = (Rc::clone(&heard), Rc::clone(&heard));
        Row {
            name: format!("tell {ROUTES} routes, {SERVICES} services{ports}"),
            calls: 1,
            ours: Box::new(move |rounds| ours(&heard, rounds)),
            theirs: Box::new(move |rounds| theirs(&same, rounds)),
        }
    };
    [
        row("", ours::tell, theirs::tell),
        row(" to 16 ports", ours::tell_sixteen, theirs::tell_sixteen),
    ]
}

/// The text of what a router knows whose tables are full.
fn known() -> Row {
    let heard = Rc::new(routes_and_services(ROUTES, SERVICES));
    let same = Rc::clone(&heard);
    Row {
        name: format!("text, {ROUTES} routes, {SERVICES} services"),
        calls: 1,
        ours: Box::new(move |rounds| ours::known(&heard, rounds)),
        theirs: Box::new(move |rounds| theirs::known(&same, rounds)),
    }
}

/// Bytes that pass over a pair of links that exists, at least as many as one call offers. A call is
/// a unit. Neither side's compiler knows how many are offered and how many buffers there are.
pub fn pass((offered, buffers): (usize, u16)) -> Row {
    let part = offered * MOST_DATA;
    let data = Rc::new(bytes(PASSED.max(part)));
    let same = Rc::clone(&data);
    Row {
        name: format!("SPX units, {buffers} buffers, {offered} offered"),
        calls: data.len().div_ceil(MOST_DATA) as u32,
        ours: Box::new(move |rounds| {
            ours::pass(&data, black_box(part), black_box(buffers), rounds)
        }),
        theirs: Box::new(move |rounds| {
            pairs::pass(&same, black_box(part), black_box(buffers), rounds)
        }),
    }
}

/// Bytes that pass in messages from one host to another in memory. A call is a unit.
fn deliver() -> Row {
    let data = Rc::new(bytes(PASSED));
    let same = Rc::clone(&data);
    let units = data
        .chunks(MOST_BYTES)
        .map(|message| message.len().div_ceil(MOST_DATA));
    Row {
        name: format!("messages of {MOST_BYTES}, {BUFFERS} buffers"),
        calls: units.sum::<usize>() as u32,
        ours: Box::new(move |rounds| {
            ours::deliver(&data, black_box(MOST_BYTES), black_box(BUFFERS), rounds)
        }),
        theirs: Box::new(move |rounds| {
            hosts::deliver_rounds(&same, black_box(MOST_BYTES), black_box(BUFFERS), rounds)
        }),
    }
}

/// All rows, in the order in which they are printed.
pub fn all() -> Vec<Row> {
    let each = || {
        LEARNED
            .into_iter()
            .flat_map(|count| SIZES.map(|size| (size, count)))
    };
    let learned = each().map(|(size, count)| forward_learned(size, count));
    let learned_in_place = each().map(|(size, count)| in_place_learned(size, count));
    SIZES
        .into_iter()
        .map(decode)
        .chain([decode_refused()])
        .chain(SIZES.into_iter().map(forward_direct))
        .chain(learned)
        .chain([forward_with_all_held()])
        .chain(SIZES.into_iter().map(in_place_direct))
        .chain(learned_in_place)
        .chain(hear().map(|it| receive_at(it.name, (it.heard)(), (it.records)(), it.pace)))
        .chain(hear_all().map(round_by_round))
        .chain(learn_all().map(round_by_round))
        .chain(ask_all())
        .chain(tell())
        .chain([known()])
        .chain(PASSES.map(pass))
        .chain([deliver()])
        .collect()
}

fn joined(parts: Vec<Records>) -> Records {
    let size = parts.iter().map(|part| part.size).max().unwrap_or(1);
    let records = parts
        .iter()
        .flat_map(|part| part.bytes.chunks_exact(part.size));
    let bytes = records
        .flat_map(|record| {
            let padding = std::iter::repeat_n(0, size - record.len());
            record.iter().copied().chain(padding)
        })
        .collect();
    Records { bytes, size }
}

/// Stops the program unless both routers answer the same bytes to the same records.
pub fn check_answers() {
    let direct = |k: u32| PORT_NETWORKS[1 + k as usize % 2];
    let cases = [
        (
            "direct",
            joined(SIZES.map(|size| packets(size, direct)).into()),
        ),
        (
            "learned",
            joined(vec![
                routes(ROUTES, &[2, 3]),
                packets(576, |k| FIRST_LEARNED + k * 37),
            ]),
        ),
        (
            "heard again",
            joined(vec![routes(KNOWN, &[2]), fifty_of(KNOWN)]),
        ),
        (
            "full",
            joined(vec![routes(ROUTES + 60, &[1, 2, 3]), others()]),
        ),
        (
            "told",
            joined(vec![routes_and_services(ROUTES, SERVICES), others()]),
        ),
        (
            "told by key",
            joined(vec![routes_and_services_by_key(ROUTES, SERVICES), others()]),
        ),
        ("others", others()),
    ];
    for (name, records) in cases {
        let (ours, theirs) = (ours::answers(&records), theirs::answers(&records));
        assert!(ours == theirs, "the answers differ: {name}");
        println!("same answers: {name}, {} bytes", ours.len());
    }
}

/// Stops the program unless both pairs of links answer to a script what was answered when it was
/// made.
fn check_script(script: &Script) {
    let Script {
        events,
        size,
        buffers,
        answers,
        ..
    } = script;
    let ours = ours::played(events, *size, *buffers);
    let theirs = pairs::played(events, *size, *buffers).unwrap_or_default();
    assert!(theirs == *answers, "a script is not played as it was made");
    assert!(ours == theirs, "the answers of links differ");
}

/// Stops the program unless both pairs of links answer the same bytes to the same scripts, and
/// unless these come to each kind of packet, answer, state and unit.
pub fn check_links() {
    let (mut calls, mut count) = (0, 0);
    let mut met = Met::default();
    for script in scripts(PASSED, PASSES[0].0, BUFFERS) {
        check_script(&script);
        calls += script.events.len() / script.size;
        count += script.answers.len();
        met.add(&script.met);
    }
    met.check();
    println!("same answers: links, {calls} calls, {count} bytes");
}

/// Stops the program unless both pairs of hosts say the same bytes: as datagrams come, and where
/// each comes altered first.
pub fn check_hosts() {
    let data = bytes(4 * MOST_BYTES);
    let mut count = 0;
    for (size, most) in [
        (1, 40),
        (534, 16),
        (535, 16),
        (5000, 8),
        (MOST_BYTES, 2),
        (MOST_BYTES + 1, 1),
    ] {
        let sent = &data[..size * most];
        for (altered, buffers) in [(false, 8), (false, 1), (true, 8), (true, 1)] {
            let ours = ours::talk(sent, size, buffers, altered);
            assert!(
                ours == hosts::talk(sent, size, buffers, altered),
                "the hosts differ: messages of {size}, {buffers} buffers, altered {altered}"
            );
            count += ours.len();
        }
    }
    println!("same answers: hosts, {count} bytes");
}

/// Stops the program unless both sides digest the same answers in the row's own loops.
pub fn check_row(row: &Row) {
    for rounds in [1, 2] {
        let (ours, theirs) = ((row.ours)(rounds), (row.theirs)(rounds));
        assert!(ours == theirs, "the digests differ: {}", row.name);
    }
}
