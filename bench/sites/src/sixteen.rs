//! A router of sixteen ports, and a host at each of them.

use crate::area::Area;
use crate::asker::Asker;
use crate::tables::{NEAR, routes, services};
use crate::way::Way;
use crate::world::{Process, World};
use std::io;
use std::net::UdpSocket;
use std::thread;
use std::time::{Duration, Instant};

pub const PORTS: u8 = 16;
/// Between two responses.
const PAUSE: Duration = Duration::from_micros(100);
/// From one telling to the next.
const PERIOD: Duration = Duration::from_secs(60);
/// How long it takes at most until a router knows what it was told, or tells what it was asked.
pub const PATIENCE: Duration = Duration::from_secs(5);

pub struct Sixteen {
    pub area: Area,
    pub router: Process,
    /// The socket of the host at each port.
    pub hosts: Vec<UdpSocket>,
    pub way: Way,
    port: u16,
    start: Instant,
}

impl Sixteen {
    /// Starts it, with empty tables.
    pub fn start(world: &World, number: u8) -> io::Result<Sixteen> {
        let area = Area {
            number,
            ports: PORTS,
            hosts: 1,
        };
        let hosts = (1..=PORTS)
            .map(|port| UdpSocket::bind((area.host(port, 1), world.port)))
            .collect::<io::Result<Vec<_>>>()?;
        let start = Instant::now();
        let router = world.router(&format!("sixteen-{number}"), &area.all())?;
        // Nothing of what is heard at port 1 is told there.
        let (sender, receiver) = (hosts[1].try_clone()?, hosts[0].try_clone()?);
        let way = Way::over(world, &area, 2, 1, sender, receiver)?;
        way.wait(&area.router(2))?;
        Ok(Sixteen {
            area,
            router,
            hosts,
            way,
            port: world.port,
            start,
        })
    }

    /// Has the host at port 1 send these responses.
    pub fn tell(&self, responses: &[Vec<u8>]) -> io::Result<()> {
        for response in responses {
            self.hosts[0].send_to(response, (self.area.router(1), self.port))?;
            thread::sleep(PAUSE);
        }
        Ok(())
    }

    /// Fills its tables, and answers from when to when they were told.
    pub fn fill(&self) -> io::Result<(Instant, Instant)> {
        let teller = self.area.place(1, 1, 0);
        let start = Instant::now();
        self.tell(&routes(teller))?;
        self.tell(&services(teller, NEAR))?;
        let end = Instant::now();
        self.asker()?.wait_for_all(Instant::now() + PATIENCE)?;
        Ok((start, end))
    }

    /// The host at port 2 as one that asks.
    pub fn asker(&self) -> io::Result<Asker<'_>> {
        Asker::new(
            &self.hosts[1],
            self.area.place(2, 1, 0),
            (self.area.router(2), self.port),
            self.area.network(PORTS),
        )
    }

    /// Since when it runs.
    pub fn age(&self) -> Duration {
        self.start.elapsed()
    }

    /// How long it is until it tells the next time.
    pub fn until_telling(&self) -> Duration {
        let past = self.age().as_secs_f64() % PERIOD.as_secs_f64();
        PERIOD - Duration::from_secs_f64(past)
    }
}
