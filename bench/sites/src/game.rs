//! Two servers for clients of ipxnet, each with the same players: one of `ipx route`, and DOSBox.

use crate::client::Client;
use crate::sockets::is_bound;
use crate::world::{Process, World};
use std::io;
use std::net::{Ipv4Addr, SocketAddrV4};
use std::process::Command;
use std::thread;
use std::time::{Duration, Instant};

/// Until a server has its UDP port. DOSBox takes seconds.
const PATIENCE: Duration = Duration::from_secs(30);
const LOOK: Duration = Duration::from_millis(20);

/// The file of DOSBox: its defaults, without sound.
const SETTINGS: &str = "[sdl]\noutput=surface\n[mixer]\nnosound=true\n\
    [midi]\nmpu401=none\nmididevice=none\n[sblaster]\nsbtype=none\noplmode=none\n\
    [speaker]\npcspeaker=false\ntandy=off\ndisney=false\n[ipx]\nipx=true\n[autoexec]\n";

/// A server, who sends, who takes what comes, and who only listens.
pub struct Game {
    pub name: &'static str,
    pub server: Process,
    pub sender: Client,
    pub taker: Client,
    /// DOSBox is a client of its own server, and so there is one more at `ipx route`.
    pub listener: Option<Client>,
}

impl Game {
    /// A port of `ipx route`.
    pub fn ours(world: &World) -> io::Result<Game> {
        let port = world.port;
        let text = format!(
            "[[port]]\nkind = \"ipxnet\"\nnetwork = \"0000d05b\"\naddress = \"127.0.0.1\"\n\
             udp_port = {port}\naccept = \"any\"\n"
        );
        let file = world.write("players", &text)?;
        let server = world.start(&world.program, &["route", &file])?;
        let mut game = Game::at("ipx route", server, port)?;
        game.listener = Some(Client::connect(place(port))?);
        Ok(game)
    }

    /// DOSBox at its prompt, where `ipxnet startserver` was typed.
    pub fn dosbox(world: &World) -> io::Result<Game> {
        let port = world.other_port()?;
        let text = format!("{SETTINGS}ipxnet startserver {port}\n");
        let file = world.write("dosbox", &text)?;
        let mut command = Command::new("dosbox");
        command
            .args(["-conf", &file, "-noconsole"])
            .env("SDL_VIDEODRIVER", "dummy")
            .env("SDL_AUDIODRIVER", "dummy")
            .env("HOME", &world.folder);
        let server = world.spawn(&mut command);
        let server =
            server.map_err(|error| io::Error::new(error.kind(), format!("dosbox: {error}")))?;
        Game::at("DOSBox", server, port)
    }

    fn at(name: &'static str, server: Process, port: u16) -> io::Result<Game> {
        let end = Instant::now() + PATIENCE;
        while !is_bound(port)? {
            if Instant::now() > end {
                let text = format!("{name} does not listen at UDP port {port}");
                return Err(io::Error::new(io::ErrorKind::TimedOut, text));
            }
            thread::sleep(LOOK);
        }
        Ok(Game {
            name,
            server,
            sender: Client::connect(place(port))?,
            taker: Client::connect(place(port))?,
            listener: None,
        })
    }

    /// Who only receives shows that it is there.
    pub fn hello(&self) -> io::Result<()> {
        self.taker.hello()?;
        self.listener.iter().try_for_each(Client::hello)
    }
}

fn place(port: u16) -> SocketAddrV4 {
    SocketAddrV4::new(Ipv4Addr::LOCALHOST, port)
}
