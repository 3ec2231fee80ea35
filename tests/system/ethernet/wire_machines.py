"""Cards of QEMU at wires, for `wires`: five machines, each with another card, start iPXE, by the lines of
docs/INSTALL.md."""
import random

from site_packets import ipx
from site_world import free_port, leave_out, node, until
from wire_deploy import blocks, with_ports, words_of
from wire_frames import KINDS, frames_of, passed_on
from wire_world import End, Router, UdpPort, WirePort, with_colons

CARDS = ["ne2k_pci", "pcnet", "rtl8139", "e1000", "virtio-net-pci"]
# At which wire each of them is: two of them at one.
WIRES = [0, 0, 1, 2, 3]
STATIONS = [f"52540000000{number}" for number in range(1, 6)]
ROUTER, HOST = "127.0.0.1", "127.0.5.20"
NETWORKS, OUTER = [f"0000007{number}" for number in range(4)], "00000011"
# What a machine needs that has a card and nothing else.
ALONE = "-nodefaults -display none -machine pc -accel tcg -m 32 -boot n".split()
# An emulator that is slow, or a machine that is loaded, gets so long.
SECONDS = 40


def is_bound(place):
    """Whether a place at 127.0.0.1 is somebody's."""
    with open("/proc/net/udp", encoding="ascii") as file:
        return f"0100007F:{place[1]:04X}" in file.read()


class Machine:
    """A machine, at an end of a port."""

    def __init__(self, wires, number, port, end):
        self.station, self.port, self.end = STATIONS[number], port, end
        dgram, older = blocks("QEMU", "sh")
        words = words_of(dgram)
        at, device = words.index("-netdev"), words.index("-device")
        # The last one is given the older words for the same wire.
        netdev = words[at:at + 2] if number < len(CARDS) - 1 else words_of(older)[:2]
        card = words[device + 1].replace("ne2k_pci", CARDS[number]).replace("52:54:00:00:00:01", with_colons(self.station))
        self.path = wires.world.path(f"{CARDS[number]}.pcap")
        ports = {"24001": end[1], "24002": port.place[1]}
        self.process = wires.world.start(
            f"qemu-{CARDS[number]}", *ALONE, *with_ports(netdev, ports), "-device", card,
            "-object", f"filter-dump,id=dump,netdev=ipx,file={self.path}", program=words[0])

    def is_up(self):
        """Whether it has its port of UDP."""
        return is_bound(self.end)

    def frames(self, source):
        """What came to its card, or went from there, of a station."""
        return [bytes_ for bytes_ in frames_of(self.path) if bytes_[6:12].hex() == source]


class Machines:
    """A router with four wires, and a host that sends to each of the cards."""

    def __init__(self, wires):
        self.wires, self.rng = wires, random.Random(wires.seed)
        first = free_port([ROUTER, HOST], 10)
        places = [(ROUTER, first + 5 + number) for number in range(5)]
        ends = [[place for place, wire in zip(places, WIRES) if wire == at] for at in range(4)]
        ports = [WirePort(NETWORKS[at], KINDS[at], (ROUTER, first + 1 + at), ends[at]) for at in range(4)]
        outer = UdpPort(OUTER, ROUTER, first, [HOST])
        self.host = End(outer, (HOST, first), node(HOST))
        self.router = Router(wires, "machines", [*ports, outer])
        self.machines = [Machine(wires, number, ports[WIRES[number]], place) for number, place in enumerate(places)]
        self.given = {machine.station: [] for machine in self.machines}

    def send(self):
        """A packet of the host to each card."""
        for machine in self.machines:
            body = self.rng.randbytes(self.rng.randrange(500))
            packet = ipx(0, (machine.port.network, machine.station, "4002"), (OUTER, self.host.station, "4001"), body)
            self.host.packet(packet)
            self.given[machine.station].append(machine.port.sends(machine.station, passed_on(packet, OUTER)))

    def took(self, machine):
        """Whether a card was given all that the router said and handed on for it, byte by byte."""
        came, said = machine.frames(machine.port.node), machine.port.said
        own = [bytes_ for bytes_ in came if bytes_ not in said and bytes_[:6].hex() == machine.station]
        return said <= set(came) and own == self.given[machine.station]


def check_frames(it):
    """The figures of the router, and the frames at the cards."""
    wires = it.wires
    figures = [f'ipx_frames_total{{port="{at}",outcome="other_type"}}' for at in range(1, 5)]
    found = it.router.figures(lambda found: all(map(found.get, figures)), SECONDS)
    wires.check("frames of iPXE are counted as of other types", all(map(found.get, figures)),
                str(list(map(found.get, figures))))
    it.send()
    for number, machine in enumerate(it.machines):
        good = until(lambda: it.took(machine), 5)  # pylint: disable=cell-var-from-loop
        counts = [len(machine.frames(source)) for source in (machine.port.node, machine.station)]
        wires.check(f"{CARDS[number]} is given what the router says and hands on, in {machine.port.kind}, byte by byte",
                    good, f"{counts[0]} frames of the router, {counts[1]} of the card")
    one, other = it.machines[:2]
    for source, taker in ((one, other), (other, one)):
        heard = taker.frames(source.station)
        wires.check("a card hears another one at the same port, each frame as it came",
                    heard and set(heard) <= set(source.frames(source.station)), f"{len(heard)} frames")


def check_machines(wires):
    """All five at once."""
    if wires.lacks("cards of QEMU", "qemu-system-i386"):
        return
    it = Machines(wires)
    processes = [machine.process for machine in it.machines]
    if not until(lambda: all(machine.is_up() for machine in it.machines) or any(one.is_over() for one in processes), 20):
        wires.check("five machines start", False, str([one.said()[:1] for one in processes]))
    elif any("romfile" in line for one in processes for line in one.said()):
        leave_out("cards of QEMU", "ipxe-qemu is not installed")
    else:
        it.router.start()
        until(lambda: it.host.take() is not None and it.host.heard, 10)
        it.send()
        check_frames(it)
        over = [one.name for one in [it.router.process, *processes] if one.is_over()]
        wires.check("the router and the machines go on", not over, str(over or ""))
        it.router.process.end()
    for one in processes:
        one.end()
