"""DOSBox itself, without a screen, at ports for clients of ipxnet, for `players`: four at two routers, with the port of
docs/PLAYERS.md and a DOS program that sends and takes packets, tests/data/player_program.asm."""
import collections
import os
import re
import signal
import subprocess
import time

from player_world import EVERYBODY, NETWORKS, Client, place_of, two_routers
from site_packets import ipx
from site_world import TOP, free_port, until
from wire_deploy import blocks
from wire_world import node_of_place

PROGRAM = os.path.join(TOP, "tests/data/player_program.asm")
EXAMPLE = os.path.join(TOP, "examples/players.toml")
ROUTERS, LOBBIES, CLOSED = ["127.0.6.21", "127.0.6.22"], ["127.0.6.23", "127.0.6.24"], "127.0.6.25"
SOCKET = "4001"
# An emulator that is slow, or a machine that is loaded, gets so long; and what comes twice would come so soon.
SECONDS, QUIET = 30, 0.4
# Who registered, and has shown nothing, gets a ping after 5.5 seconds. By its answer DOSBox is a client.
ASK_SECONDS = 6.5
# A folder is the disk, STEP what is done next, and then PLAY until it is told to end.
SETTINGS = """[sdl]
output=surface
[cpu]
core=normal
cycles=fixed 3000
[mixer]
nosound=true
[midi]
mpu401=none
mididevice=none
[sblaster]
sbtype=none
oplmode=none
[speaker]
pcspeaker=false
tandy=off
disney=false
[ipx]
ipx=true
[autoexec]
@echo off
mount c "{folder}"
c:
:turn
call STEP
PLAY
goto turn
"""


class Box:
    """A DOSBox, which connects to a place as it starts, and what is to come to its program."""

    def __init__(self, run, name, place):
        self.run, self.name, self.place, self.wanted = run, name, place, []
        number = len(run.world.processes)
        self.folder, self.settings = run.world.path(f"{name}.{number}"), run.world.path(f"{name}.{number}.conf")
        os.mkdir(self.folder)
        subprocess.run(["nasm", "-f", "bin", "-o", self.path("PLAY.COM"), PROGRAM], check=True)
        with open(self.settings, "w", encoding="ascii") as file:
            file.write(SETTINGS.format(folder=self.folder))
        self.next_step(f"ipxnet connect {place[0]} {place[1]} > CONNECT")
        environment = {"SDL_VIDEODRIVER": "dummy", "SDL_AUDIODRIVER": "dummy", "HOME": run.world.folder}
        self.process = run.world.start(name, "-conf", self.settings, "-noconsole", program="dosbox", environment=environment)

    def path(self, name):
        return os.path.join(self.folder, name)

    def read(self, name):
        try:
            with open(self.path(name), "rb") as file:
                return file.read()
        except FileNotFoundError:
            return b""

    def next_step(self, *lines):
        with open(self.path("STEP.BAT"), "w", encoding="ascii", newline="\r\n") as file:
            file.write("".join(f"{line}\n" for line in lines))

    def said(self, name):
        """What a command of DOSBox wrote."""
        return " ".join(self.read(name).decode("ascii", "replace").split())

    def listens(self):
        """Whether its program listens, in some time: it knows its network and node then."""
        return until(lambda: len(self.read("OWN")) == 10 or self.process.is_over(), SECONDS) and not self.process.is_over()

    @property
    def network(self):
        return self.read("OWN")[:4].hex()

    @property
    def node(self):
        return self.read("OWN")[4:].hex()

    def does(self, command):
        """The program does this."""
        with open(self.path("CMD.NEW"), "wb") as file:
            file.write(command)
        os.rename(self.path("CMD.NEW"), self.path("CMD"))
        return until(lambda: not os.path.exists(self.path("CMD")), SECONDS)

    def step(self, *lines):
        """The program ends, DOSBox does this, and the program starts again."""
        self.next_step(*lines)
        self.does(b"q")

    def got(self):
        """The packets that came to the program."""
        bytes_, packets = self.read("GOT"), []
        while bytes_:
            size = max(30, int.from_bytes(bytes_[2:4], "big"))
            packets.append(bytes_[:size])
            bytes_ = bytes_[size:]
        return packets

    def send(self, to, body, takers, hops=0):
        """Its program sends to a network and node, and these boxes are to get it."""
        packet = ipx(4, (*to, SOCKET), (self.network, self.node, SOCKET), body, hops)
        for box in takers:
            box.wanted.append(packet)
        self.does(b"s" + packet[6:18] + packet[5:6] + body)
        return packet

    def pings(self):
        """Who answers a ping, by IP address and port."""
        self.step("ipxnet ping > PING")
        self.listens()
        return {(ip, int(port)) for ip, port in re.findall(r"Response from ([0-9.]+), port (\d+)", self.said("PING"))}


def shown(node):
    """A node as a ping shows it."""
    bytes_ = bytes.fromhex(node)
    return ".".join(map(str, bytes_[:4])), int.from_bytes(bytes_[4:], "big")


def told_port():
    """The port for players of docs/PLAYERS.md, which the file of examples/ has too."""
    text, = blocks("Let in only your friends", "toml", os.path.join(TOP, "docs/PLAYERS.md"))
    return text[text.index("[[port]]"):]


def table(text, network, place, peers, **more):
    """That port with another network, place and peers."""
    values = {"network": f'"{network}"', "address": f'"{place[0]}"', "udp_port": place[1], "peers": f'["{peers}"]', **more}
    for key, value in values.items():
        text, count = re.subn(rf"^{key} = .*$", f"{key} = {value}", text, flags=re.M)
        assert count == 1, key
    return text


class Boxes:
    """Two routers, two boxes at each, and one where it may not connect."""

    def __init__(self, run):
        self.run = run
        udp_port = free_port([*ROUTERS, *LOBBIES, CLOSED])
        self.places = [(address, udp_port) for address in LOBBIES]
        closed, text = (CLOSED, udp_port), told_port()
        ports = [[table(text, network, place, "127.0.0.1")] for network, place in zip(NETWORKS, self.places)]
        ports[0].append(table(text, "0000d05d", closed, "192.0.2.1"))
        self.routers = two_routers(run, ["boxes1", "boxes2"], ROUTERS, udp_port, ports)
        self.nodes = [node_of_place(place) for place in self.places]
        self.a, self.b, self.c, self.d = (Box(run, name, self.places[name in "cd"]) for name in "abcd")
        self.closed = Box(run, "e", closed)

    @property
    def boxes(self):
        return [self.a, self.b, self.c, self.d]

    def compare(self, name):
        """What came to each program is what was to come, once."""
        until(lambda: all(len(box.got()) >= len(box.wanted) for box in self.boxes), 10)
        time.sleep(QUIET)
        wrong = [f"{box.name} got {[it.hex() for it in box.got()[-4:]]}" for box in self.boxes
                 if collections.Counter(box.got()) != collections.Counter(box.wanted)]
        self.run.check(name, not wrong, "; ".join(wrong))
        # What failed fails no other check.
        for box in self.boxes:
            box.wanted = box.got()

    def connected(self, box, network):
        """Whether a box has connected to a port of this network."""
        good = (box.listens() and f"connected to server at {box.place[0]}" in box.said("CONNECT")
                and box.network == network and place_of(box.node, network))
        return self.run.check(f"DOSBox {box.name} connects, and its program has the network and node that it was told", good,
                              "" if good else f"{box.said('CONNECT')} {box.read('OWN').hex()} {box.process.said()[-1:]}")

    def all_connected(self, boxes):
        """Whether boxes have connected, each to a port of a network, and had the time to answer the ping that follows."""
        good = [self.connected(*it) for it in boxes]
        time.sleep(ASK_SECONDS)
        return all(good)

    def end(self, boxes):
        """The boxes and the routers end."""
        for box in boxes:
            box.step("exit")
            self.run.check(f"DOSBox {box.name} ends", box.process.status(SECONDS) == 0)
        for router in self.routers:
            self.run.check(f"the router {router.name} goes on", not router.process.is_over())
            router.process.end()

    def old_place(self, box):
        """A client at the place that a box had."""
        old, server = place_of(box.node, box.network), box.place
        return lambda: Client(old, server)


def check_programs(it):
    """Programs of DOS send to all nodes, to one there, and to one at the other router."""
    a, b, c, d = it.boxes
    for near, network in (((a, b), NETWORKS[0]), ((c, d), NETWORKS[1])):
        for box in near:
            # Its own driver gives it what it sends to all.
            box.send((network, EVERYBODY), b"to all of " + box.name.encode(), near)
    it.compare("what a program of DOS sends to all nodes comes to that of the other there, once, and nowhere else")
    for giver, taker in ((a, b), (d, c)):
        giver.send((taker.network, taker.node), b"near", [taker])
        giver.send(("00000000", taker.node), b"near, by network 0", [taker])
    it.compare("what it sends to a node there comes to that one")
    for giver, taker in ((a, c), (c, a), (b, d), (d, b)):
        for number in range(5):
            packet = giver.send((taker.network, taker.node), b"far %d of " % number + giver.name.encode(), [])
            taker.wanted.append(packet[:4] + b"\2" + packet[5:])
    it.compare("what it sends by network and node comes over two routers")


def check_pings(it):
    """`ipxnet ping` at both routers."""
    for box, other, own in ((it.a, it.b, it.nodes[0]), (it.c, it.d, it.nodes[1])):
        wanted = {shown(own), shown(other.node)}
        found = box.pings()
        it.run.check(f"ipxnet ping of {box.name} shows the router and the other one there", found == wanted,
                     "" if found == wanted else str(found))


def check_again(it):
    """A box disconnects and connects again; another is killed and starts again."""
    places = []
    for name, begin in (("b", disconnect), ("d", kill)):
        box, other = getattr(it, name), getattr(it, {"b": "a", "d": "c"}[name])
        node = box.node
        old = it.old_place(box)
        begin(it, box, other)
        box = getattr(it, name)
        it.all_connected([(box, other.network)])
        places.append(old())
        it.run.check(f"{name} has another node then", box.node != node, box.node)
        packet = other.send((other.network, EVERYBODY), b"to all, again", [box, other])
        it.compare(f"behind that, what is for all comes once to {name}")
        until(places[-1].take, 5)
        it.run.check("and once to its old place, which no router can know to be left", places[-1].take() == [packet],
                     "" if places[-1].got == [packet] else str(places[-1].got))
        other.send((other.network, box.node), b"to the new place", [box])
        it.compare("what is for its new node comes to it")
        it.run.check("and not to the old place", places[-1].take() == [packet], f"{len(places[-1].got)} packets there")
    a, b, c, d = it.boxes
    for giver, taker in ((b, d), (d, b), (a, d), (c, b)):
        packet = giver.send((taker.network, taker.node), b"again far", [])
        taker.wanted.append(packet[:4] + b"\2" + packet[5:])
    it.compare("and over two routers")
    for place in places:
        place.end()


def disconnect(_it, box, _other):
    connect = f"ipxnet connect {box.place[0]} {box.place[1]} > CONNECT"
    box.step("del CONNECT", "ipxnet disconnect > LEFT", connect)


def kill(it, box, other):
    box.process.end(signal.SIGKILL)
    # Nobody is at its place: the system refuses what goes there.
    other.send((other.network, EVERYBODY), b"to all, while one is gone", [other])
    it.compare("what is for all comes to the others while a place is left")
    it.d = Box(it.run, box.name, box.place)


def check_figures(it):
    """What the status files say of it."""
    clients = 'ipx_ipxnet_clients{port="2"}'
    for router, wanted in zip(it.routers, ({clients: 3, "ipx_ipxnet_unknown_senders_total": 1}, {clients: 3})):
        found = router.figures(wanted)
        it.run.check(f"{router.name} counts its clients, and what came from who is not named", found == wanted,
                     "" if found == wanted else str(found))


def check_boxes(run):
    """All of it."""
    with open(EXAMPLE, encoding="utf-8") as file:
        example = re.sub(r" +#.*", "", file.read())
    checked = run.world.start("check", "route", "--check", EXAMPLE)
    status = checked.status(10)
    run.check("examples/players.toml has the port of docs/PLAYERS.md, and no fault", told_port() in example and status == 0,
              "" if status == 0 else str(checked.said()))
    if run.lacks("DOSBox", "dosbox", "nasm"):
        return
    it = Boxes(run)
    if not it.all_connected(zip(it.boxes, NETWORKS[:1] * 2 + NETWORKS[1:] * 2)):
        for one in [*it.boxes, it.closed, *it.routers]:
            one.process.end()
        return
    check_programs(it)
    check_pings(it)
    check_again(it)
    good = until(lambda: "failed to connect" in it.closed.said("CONNECT"), 10)
    run.check("where it is not named DOSBox says that it can't connect", good, "" if good else it.closed.said("CONNECT"))
    check_figures(it)
    it.end([*it.boxes, it.closed])
