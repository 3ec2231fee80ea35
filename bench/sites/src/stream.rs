//! Packets at a steady rate, and how long each is on its way.

use crate::way::Way;
use std::io;
use std::sync::atomic::{AtomicBool, Ordering};
use std::thread;
use std::time::{Duration, Instant};

/// Between two packets: 20,000 a second.
const STEP: Duration = Duration::from_micros(50);
/// A sender that was held back sends as many at once at most, and leaves out the others: what waits
/// longer than these would find sockets full.
const AT_ONCE: u32 = 16;

/// A packet: when it was sent, and when it came.
pub struct Passage {
    pub sent: Instant,
    pub came: Option<Instant>,
}

/// Sends packets to an address until the event is over, and answers when each was sent. A sleep
/// takes longer than the time between two, so that two or three go at once.
fn send(way: &Way, by: &str, is_over: &AtomicBool) -> io::Result<Vec<Instant>> {
    let mut sent = Vec::new();
    let mut due = Instant::now();
    while !is_over.load(Ordering::Acquire) {
        thread::sleep(due.saturating_duration_since(Instant::now()));
        let now = Instant::now();
        due = (due + STEP).max(now - STEP * AT_ONCE);
        let number = sent.len() as u32;
        sent.push(now);
        way.send(by, number)?;
    }
    Ok(sent)
}

/// Gets packets until the event is over and nothing comes any more, and answers when each number
/// came.
fn receive(way: &Way, is_over: &AtomicBool) -> io::Result<Vec<(u32, Instant)>> {
    let mut came = Vec::new();
    let mut room = [0; 1536];
    loop {
        match way.receiver.recv(&mut room) {
            Ok(count) => {
                came.extend(Way::number(&room[..count]).map(|number| (number, Instant::now())))
            }
            Err(error) if error.kind() != io::ErrorKind::WouldBlock => return Err(error),
            Err(_) if is_over.load(Ordering::Acquire) => return Ok(came),
            Err(_) => {}
        }
    }
}

/// Sends packets to an address while an event goes on, and answers each of them, and what the event
/// does.
pub fn during<T>(
    way: &Way,
    by: &str,
    event: impl FnOnce() -> io::Result<T>,
) -> io::Result<(Vec<Passage>, T)> {
    let is_over = AtomicBool::new(false);
    let (sent, came, happened) = thread::scope(|scope| {
        let sent = scope.spawn(|| send(way, by, &is_over));
        let came = scope.spawn(|| receive(way, &is_over));
        let happened = event();
        is_over.store(true, Ordering::Release);
        let sent = sent.join().expect("the sending thread ends");
        (
            sent,
            came.join().expect("the receiving thread ends"),
            happened,
        )
    });
    let passage = |sent| Passage { sent, came: None };
    let mut passages = sent?.into_iter().map(passage).collect::<Vec<_>>();
    for (number, moment) in came? {
        if let Some(passage) = passages.get_mut(number as usize) {
            passage.came = Some(moment);
        }
    }
    Ok((passages, happened?))
}
