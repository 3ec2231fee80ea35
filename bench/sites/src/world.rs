//! A folder, a free port of UDP, and processes that end with this one.

use std::fs;
use std::io;
use std::net::{Ipv4Addr, UdpSocket};
use std::path::PathBuf;
use std::process::{Child, Command, Stdio};

/// A port of a router, with its peers; or of frames, with its ends, where the router is that
/// station.
pub struct Port {
    network: u32,
    address: String,
    peers: Vec<String>,
    station: Option<[u8; 6]>,
}

impl Port {
    pub fn new(
        network: u32,
        address: impl Into<String>,
        peers: impl IntoIterator<Item = impl Into<String>>,
    ) -> Port {
        Port {
            network,
            address: address.into(),
            peers: peers.into_iter().map(Into::into).collect(),
            station: None,
        }
    }

    /// The same as a port of frames, in 802.2.
    pub fn on_wire(self, station: [u8; 6]) -> Port {
        Port {
            station: Some(station),
            ..self
        }
    }

    /// Its table in the router's file.
    fn table(&self, udp_port: u16) -> String {
        let place = format!(
            "[[port]]\nnetwork = \"{:08x}\"\naddress = \"{}\"\nudp_port = {udp_port}\n",
            self.network, self.address
        );
        let Some(station) = self.station else {
            return format!("{place}peers = {:?}\n", self.peers);
        };
        let node = station.map(|byte| format!("{byte:02x}")).join(":");
        let ends = self.peers.iter().map(|peer| format!("{peer}:{udp_port}"));
        format!(
            "{place}kind = \"ethernet\"\nencapsulation = \"802.2\"\nnode = \"{node}\"\nremotes = {:?}\n",
            ends.collect::<Vec<_>>()
        )
    }
}

/// A host: its network and address, whom it hears (its router, and peers), and its buffers.
#[derive(Clone, Copy)]
pub struct Host<'a> {
    pub network: &'a str,
    pub address: &'a str,
    pub router: &'a str,
    pub peers: &'a [&'a str],
    pub buffers: u16,
}

/// A process that is ended as this value goes.
pub struct Process(pub Child);

/// What a process had of processors so far: nanoseconds in which it ran, and in which it could have
/// run and had none; and how often it waited for something else.
pub struct Taken {
    pub ran: u64,
    pub held: u64,
    pub waits: u64,
}

impl Process {
    /// What it had so far. It has one thread.
    pub fn taken(&self) -> io::Result<Taken> {
        let folder = format!("/proc/{}", self.0.id());
        let times = fs::read_to_string(format!("{folder}/schedstat"))?;
        let status = fs::read_to_string(format!("{folder}/status"))?;
        let waits = status
            .lines()
            .find_map(|line| line.strip_prefix("voluntary_ctxt_switches:"));
        let number = |text: Option<&str>| {
            let text = text.unwrap_or_default().trim();
            text.parse::<u64>().map_err(io::Error::other)
        };
        let mut times = times.split(' ');
        Ok(Taken {
            ran: number(times.next())?,
            held: number(times.next())?,
            waits: number(waits)?,
        })
    }
}

impl Drop for Process {
    fn drop(&mut self) {
        let _ = self.0.kill();
        let _ = self.0.wait();
    }
}

/// Where the files and processes of a run are.
pub struct World {
    pub program: PathBuf,
    pub port: u16,
    pub folder: PathBuf,
}

impl Drop for World {
    fn drop(&mut self) {
        let _ = fs::remove_dir_all(&self.folder);
    }
}

/// The first port of a hundred that no socket of this machine has, at any address.
fn free_port(first: u16) -> io::Result<u16> {
    let is_free = |port: &u16| UdpSocket::bind((Ipv4Addr::UNSPECIFIED, *port)).is_ok();
    let port = (first..first + 100).find(is_free);
    port.ok_or_else(|| io::ErrorKind::AddrInUse.into())
}

impl World {
    pub fn new(program: PathBuf) -> io::Result<World> {
        let port = free_port(20_000 + (std::process::id() % 9_000) as u16)?;
        let folder = std::env::temp_dir().join(format!("ipx-bench-{}", std::process::id()));
        fs::create_dir(&folder)?;
        Ok(World {
            program,
            port,
            folder,
        })
    }

    /// Another free port.
    pub fn other_port(&self) -> io::Result<u16> {
        free_port(self.port + 1)
    }

    /// Starts a program of these words.
    pub fn start(&self, program: &PathBuf, words: &[&str]) -> io::Result<Process> {
        self.spawn(Command::new(program).args(words))
    }

    /// Starts a command. What it says on standard error is let go.
    pub fn spawn(&self, command: &mut Command) -> io::Result<Process> {
        command
            .stdin(Stdio::piped())
            .stdout(Stdio::piped())
            .stderr(Stdio::null())
            .spawn()
            .map(Process)
    }

    /// Writes a file of settings, and answers its path.
    pub fn write(&self, name: &str, text: &str) -> io::Result<String> {
        let path = self.folder.join(format!("{name}.toml"));
        fs::write(&path, text)?;
        Ok(path.to_string_lossy().into_owned())
    }

    /// Starts a router of these ports.
    pub fn router(&self, name: &str, ports: &[Port]) -> io::Result<Process> {
        let status = self.folder.join(format!("{name}.prom"));
        let mut text = format!("metrics_file = \"{}\"\n", status.display());
        for port in ports {
            text += &port.table(self.port);
        }
        self.start(&self.program, &["route", &self.write(name, &text)?])
    }

    /// The file of a host.
    pub fn host(&self, host: &Host) -> io::Result<String> {
        let text = format!(
            "network = \"{}\"\naddress = \"{}\"\nrouter = \"{}\"\npeers = {:?}\n\
             udp_port = {}\nsocket = \"4002\"\nbuffers = {}\n",
            host.network, host.address, host.router, host.peers, self.port, host.buffers
        );
        self.write(&format!("host-{}", host.address), &text)
    }
}
