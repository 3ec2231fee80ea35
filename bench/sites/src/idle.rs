//! What routers and a listener take that have nothing to do.

use crate::sixteen::Sixteen;
use crate::world::{Process, World};
use crate::{far_host, or_say, sites};
use std::io;
use std::thread;
use std::time::Duration;

const TIME: Duration = Duration::from_secs(10);
/// A router asks again until 32 seconds after its start, which is no idle router yet.
const ASKING: Duration = Duration::from_secs(34);
/// Before and behind a telling.
const MARGIN: Duration = Duration::from_secs(3);
/// The areas of the two routers of sixteen ports.
const EMPTY: u8 = 3;
const FULL: u8 = 4;

/// Prints what each of these processes takes in ten seconds.
fn print_taken(processes: &[(&str, &Process)]) -> io::Result<()> {
    let before = processes
        .iter()
        .map(|(_, process)| process.taken())
        .collect::<io::Result<Vec<_>>>()?;
    thread::sleep(TIME);
    for ((name, process), before) in processes.iter().zip(before) {
        let taken = process.taken()?;
        println!(
            "{name:<36} {:>12.3} {:>12}",
            (taken.ran - before.ran) as f64 / 1e6,
            taken.waits - before.waits
        );
    }
    Ok(())
}

/// Processes that have nothing to do.
pub struct Quiet {
    few: [(&'static str, Process); 3],
    /// A router of sixteen ports that knows nothing, and one that is to be told.
    pub empty: Sixteen,
    pub full: Sixteen,
}

impl Quiet {
    pub fn start(world: &World) -> io::Result<Quiet> {
        let [one, other] = sites();
        let file = world.host(&far_host(64))?;
        let few = [
            ("a router", world.router(one.0, &one.1)?),
            ("its neighbour", world.router(other.0, &other.1)?),
            (
                "a listener",
                world.start(&world.program, &["listen", &file])?,
            ),
        ];
        Ok(Quiet {
            few,
            empty: Sixteen::start(world, EMPTY)?,
            full: Sixteen::start(world, FULL)?,
        })
    }

    /// Waits until ten seconds follow in which no router tells or asks.
    fn wait(&self) {
        thread::sleep(ASKING.saturating_sub(self.full.age()));
        let telling = self.full.until_telling();
        if telling < TIME + MARGIN {
            thread::sleep(telling + MARGIN);
        }
    }

    fn print_rows(&self) -> io::Result<()> {
        self.wait();
        let few = self.few.iter().map(|(name, process)| (*name, process));
        let sixteen = [
            ("a router of 16 ports", &self.empty.router),
            ("the same, its tables full", &self.full.router),
        ];
        print_taken(&few.chain(sixteen).collect::<Vec<_>>())
    }

    /// Prints a row for each process.
    pub fn print(&self) {
        println!(
            "{:<36} {:>12} {:>12}",
            "ten seconds without traffic", "ms of time", "wakes"
        );
        or_say("idle", self.print_rows());
    }
}
