//! Packets at a steady rate through a router of sixteen ports, while it hears, tells and forgets
//! all that its tables hold.

use crate::area::Area;
use crate::asker::Asked;
use crate::or_say;
use crate::sixteen::{PATIENCE, Sixteen};
use crate::sockets::{drain, lost};
use crate::stream::{Passage, during};
use crate::tables::{GONE, NEAR, RESPONSES, services, types};
use crate::times::{HEADS, Spread};
use crate::way::{Way, plain_loop};
use crate::world::{Process, World};
use std::io;
use std::net::UdpSocket;
use std::thread;
use std::time::{Duration, Instant};

/// How long nothing else happens, where that is measured.
const CALM: Duration = Duration::from_secs(2);
/// How often services are heard for the first time.
const TIMES: usize = 10;
/// How long behind the last response a router may still be at work on it.
const BEHIND: Duration = Duration::from_millis(5);
/// Behind the last response that takes something back.
const BETWEEN: Duration = Duration::from_millis(200);
/// Before a telling packets begin to pass, and this long behind its moment they end at the latest.
const BEFORE: Duration = Duration::from_secs(2);
const AFTER: Duration = Duration::from_secs(5);
/// From the first packet of a telling on, what passes counts for so long.
const SECOND: Duration = Duration::from_secs(1);
/// A telling is over after so long without a packet of it.
const SILENCE: Duration = Duration::from_millis(500);
const LOOK: Duration = Duration::from_micros(100);
/// After this time an offer that is not told again is forgotten.
const LIFE: Duration = Duration::from_secs(180);

/// From when to when something went on.
pub type Span = (Instant, Instant);

/// What an event answers, which goes on while packets pass: the spans that count.
type Spans = io::Result<Vec<Span>>;

/// Has packets pass by an address and a process, while an event goes on, which answers for each row
/// the spans that count. It prints the rows: how long those took that were sent in these spans, how
/// many of all were lost, and for which part of the time the process ran, and could have run and had
/// no processor.
fn print_rows<const ROWS: usize>(
    names: [&str; ROWS],
    by: (&Process, &str),
    way: &Way,
    event: impl FnOnce() -> io::Result<[Vec<Span>; ROWS]>,
) -> io::Result<()> {
    let (process, address) = by;
    let (lost_before, before) = (way.lost_by_the_host()?, process.taken()?);
    let start = Instant::now();
    let (passages, rows) = during(way, address, event)?;
    let (after, time) = (process.taken()?, start.elapsed().as_nanos());
    let percent = |after: u64, before: u64| 100.0 * (after - before) as f64 / time as f64;
    let by_the_host = way.lost_by_the_host()? - lost_before;
    let lost = passages
        .iter()
        .filter(|passage| passage.came.is_none())
        .count();
    for (name, spans) in names.iter().zip(rows) {
        let times = Spread::new(times_of(&passages, &spans));
        if times.count() == 0 {
            return Err(io::Error::other("no packet came of those that count"));
        }
        println!(
            "{name:<36}{times} {:>9} {lost:>9} {by_the_host:>9} {:>7.1} {:>7.1}",
            times.count(),
            percent(after.ran, before.ran),
            percent(after.held, before.held)
        );
    }
    Ok(())
}

/// How long the packets took that were sent in some spans, and came.
fn times_of(passages: &[Passage], spans: &[Span]) -> Vec<Duration> {
    let is_in_spans = |passage: &&Passage| {
        let mut spans = spans.iter();
        spans.any(|span| span.0 <= passage.sent && passage.sent <= span.1)
    };
    let of_spans = passages.iter().filter(is_in_spans);
    let times = of_spans.filter_map(|passage| Some(passage.came? - passage.sent));
    times.collect()
}

/// The row of a router of sixteen ports.
fn row(name: &str, one: &Sixteen, event: impl FnOnce() -> Spans) -> io::Result<()> {
    let by = (&one.router, one.area.router(2));
    print_rows([name], (by.0, &by.1), &one.way, || Ok([event()?]))
}

/// Nothing else happens for a while.
fn calm() -> Spans {
    let start = Instant::now();
    thread::sleep(CALM);
    Ok(vec![(start, Instant::now())])
}

/// The plain loop, of which nobody asks more.
fn print_plain(world: &World, number: u8) -> io::Result<()> {
    let area = Area {
        number,
        ports: 2,
        hosts: 1,
    };
    let plain = plain_loop(world, &area, 2)?;
    let way = Way::new(world, &area, 1, 2)?;
    way.wait(&area.plain(1))?;
    print_rows(["the plain loop"], (&plain, &area.plain(1)), &way, || {
        Ok([calm()?])
    })
}

/// The services are told, and taken back, again and again. What counts is when they are told. They
/// are taken back from the last one on, which is the least work, and is done before they are told.
fn hear(one: &Sixteen) -> Spans {
    let teller = one.area.place(1, 1, 0);
    let come = services(teller, NEAR);
    let go = services(teller, GONE).into_iter().rev().collect::<Vec<_>>();
    let asker = one.asker()?;
    let last = types().next_back().expect("there are types");
    let mut spans = Vec::new();
    for _ in 0..TIMES {
        let start = Instant::now();
        one.tell(&come)?;
        thread::sleep(BEHIND);
        spans.push((start, Instant::now()));
        asker.wait(Asked::Service(last), Instant::now() + PATIENCE)?;
        one.tell(&go)?;
        thread::sleep(BETWEEN);
    }
    Ok(spans)
}

/// A router without anything else, and then one that hears.
fn print_hearing(world: &World, number: u8) -> io::Result<()> {
    let one = Sixteen::start(world, number)?;
    row("a router of 16 ports", &one, calm)?;
    let told = [one.area.router(1)];
    let before = lost(&told, world.port)?;
    row("4,096 services are heard", &one, || hear(&one))?;
    match lost(&told, world.port)? - before {
        0 => Ok(()),
        count => Err(io::Error::other(format!(
            "{count} datagrams at port 1 found no room"
        ))),
    }
}

/// Looks at hosts until what comes there is over, or a time: how many datagrams came, or found no
/// room, and from when to when: from the last look before the first of them came.
pub fn watch(
    world: &World,
    area: &Area,
    hosts: &[UdpSocket],
    most: Duration,
) -> io::Result<(u64, Span)> {
    let addresses =
        (area.ports - hosts.len() as u8 + 1..=area.ports).map(|port| area.host(port, 1));
    let addresses = addresses.collect::<Vec<_>>();
    hosts
        .iter()
        .try_for_each(|host| host.set_nonblocking(true))?;
    let before = lost(&addresses, world.port)?;
    let start = Instant::now();
    let (mut count, mut span, mut looked) = (0, None::<Span>, start);
    while start.elapsed() < most && span.is_none_or(|span| span.1.elapsed() < SILENCE) {
        let came = hosts.iter().map(drain).sum::<io::Result<u64>>()?;
        if came > 0 {
            span = Some((span.map_or(looked, |span| span.0), Instant::now()));
            count += came;
        }
        looked = Instant::now();
        thread::sleep(LOOK);
    }
    let lost = lost(&addresses, world.port)? - before;
    Ok((count + lost, span.ok_or(io::ErrorKind::TimedOut)?))
}

/// The hosts at all ports but those by which packets pass.
pub fn other_hosts(one: &Sixteen) -> &[UdpSocket] {
    &one.hosts[2..]
}

/// The next telling of a router whose tables are full: from its first packet to its last, and the
/// second that begins with its first.
fn tell(world: &World, one: &Sixteen) -> io::Result<[Vec<Span>; 2]> {
    other_hosts(one)
        .iter()
        .try_for_each(|host| host.set_nonblocking(true))?;
    for host in other_hosts(one) {
        drain(host)?;
    }
    let (count, span) = watch(world, &one.area, other_hosts(one), BEFORE + AFTER)?;
    let least = u64::from(RESPONSES) * other_hosts(one).len() as u64;
    if count < least {
        return Err(io::Error::other(format!(
            "{count} datagrams were told, fewer than {least}"
        )));
    }
    let second = (span.0, span.0 + SECOND);
    thread::sleep((second.1 + BEHIND).saturating_duration_since(Instant::now()));
    Ok([vec![span], vec![second]])
}

/// Prints the heads of the columns.
pub fn print_head() {
    println!(
        "{:<36}{HEADS} {:>9} {:>9} {:>9} {:>7} {:>7}",
        "20,000 packets a second meanwhile", "packets", "lost", "by host", "ran %", "held %"
    );
}

/// Prints the rows of what comes at any time.
pub fn print(world: &World) {
    print_head();
    or_say("the plain loop", print_plain(world, 11));
    or_say("4,096 services are heard", print_hearing(world, 12));
}

/// Waits until a router whose tables are full tells, and prints the row of that.
pub fn print_telling(world: &World, full: &Sixteen) {
    thread::sleep(full.until_telling().saturating_sub(BEFORE));
    let names = ["they are told to 15 ports", "the second of that"];
    let address = full.area.router(2);
    let by = (&full.router, address.as_str());
    or_say(
        names[0],
        print_rows(names, by, &full.way, || tell(world, full)),
    );
}

/// Waits until what was told in a span grows old, and prints the row of that.
pub fn print_ageing(full: &Sixteen, told: Span) {
    let (first, last) = (told.0 + LIFE, told.1 + LIFE);
    thread::sleep((first - BEFORE).saturating_duration_since(Instant::now()));
    let name = "they grow old";
    let event = || {
        if Instant::now() > first {
            return Err(io::Error::other("they are old"));
        }
        thread::sleep((last + BEHIND).saturating_duration_since(Instant::now()));
        Ok(vec![(first, Instant::now())])
    };
    or_say(name, row(name, full, event));
}
