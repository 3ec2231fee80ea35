"""What tests/system/ethernet/wires and tests/system/ipxnet/players use: ports of a router and who is at their ends, with
what each of them is to get, and the count of what was found."""
import collections
import os
import shutil
import socket
import struct
import time

from site_packets import ipx
from site_world import World, bound, free_port, leave_out, listed, node, port_table, until
from wire_frames import EVERYBODY, frame, own_packets, passed_on

ROOM = 4_194_304
# A status file is written every 10 seconds.
STATUS_SECONDS = 14


def text_of(place):
    return f"{place[0]}:{place[1]}"


def with_colons(station):
    return ":".join(station[at:at + 2] for at in range(0, 12, 2))


def node_of_place(place):
    """The station of a port whose file names none: its place, as an address that is locally administered."""
    first, *rest = (int(part) for part in place[0].split("."))
    return bytes([first & 0xfc | 2, *rest, *struct.pack(">H", place[1])]).hex()


class WirePort:
    """A port on a wire, and what is to come of what is sent there: the stations that it knows, what it counts."""

    def __init__(self, network, kind, place, ends, own=None, joined=True, cost=1, keys=""):
        self.network, self.kind, self.place, self.joined, self.cost, self.keys = network, kind, place, joined, cost, keys
        self.named, self.node = own, own or node_of_place(place)
        self.places = ends
        self.ends, self.known, self.fates = [], {}, collections.Counter()
        self.passed = self.refused = 0
        self.said = set()

    def table(self):
        text = (f'[[port]]\nkind = "ethernet"\nnetwork = "{self.network}"\nencapsulation = "{self.kind}"\naddress = "{self.place[0]}"\n'
                f"udp_port = {self.place[1]}\ncost = {self.cost}\n{self.keys}" + listed("remotes", map(text_of, self.places)))
        if self.named:
            text += f'node = "{with_colons(self.named)}"\n'
        return text if self.joined else text + "switch = false\n"

    def line(self):
        return (f"network {self.network} node {self.node} ethernet {self.kind} udp {text_of(self.place)} cost {self.cost} "
                f"remotes {' '.join(map(text_of, self.places))}{'' if self.joined else ' switch false'}")

    def sends(self, to, packet):
        return frame(self.kind, to, self.node, packet)

    def ways(self, giver, bytes_):
        """The ends to which a frame of an end goes on. Its sender is known from then on."""
        to, source = bytes_[:6].hex(), bytes_[6:12].hex()
        if not 14 <= len(bytes_) <= 1522:
            return []
        if not int(source[:2], 16) % 2 and int(source, 16) and source != self.node:
            self.known[source] = giver
        if not self.joined or self.node in (to, source) or self.known.get(to) is giver:
            return []
        self.passed += 1
        return [end for end in self.ends if end is self.known.get(to, end) and end is not giver]

    def wants(self, to, packet):
        """The router sends a packet to a station here: the ends behind which it can be are to get its frame."""
        for end in self.ends:
            if to not in self.known or self.known[to] is end:
                end.wanted.append(self.sends(to, packet))

    def figures(self, number):
        """What the status file is to say of it."""
        port = f'port="{number}"'
        return {f"ipx_frames_forwarded_total{{{port}}}": self.passed, f"ipx_frames_refused_total{{{port}}}": self.refused,
                **{f'ipx_frames_total{{{port},outcome="{fate}"}}': self.fates[fate] for fate in FATES}}


FATES = ["handed_on", "broken", "own", "not_ours", "tagged", "other_type", "other_llc", "no_packet", "other_network",
         "in_802.3", "in_802.2", "in_snap", "in_ethernet-ii"]


class UdpPort:
    """A port of RFC 1234, of one host or of one for each address."""

    kind, cost = "rfc1234", 1

    def __init__(self, network, address, udp_port, peers):
        self.network, self.place, self.node, self.peers = network, (address, udp_port), node(address), peers
        self.ends, self.said = [], set()

    def table(self):
        return port_table(self.network, *self.place, self.peers)

    def line(self):
        return f"network {self.network} node {self.node} udp {text_of(self.place)} cost 1 peers {len(self.peers)}"

    def sends(self, _to, packet):
        return packet

    def wants(self, to, packet):
        for end in self.ends:
            if to in (end.station, EVERYBODY):
                end.wanted.append(packet)


class End:
    """Who is at an end of a port: what comes there is to be what is wanted, beside what the router says by itself."""

    def __init__(self, port, place, station):
        self.port, self.station = port, station
        self.socket = bound(*place)
        self.socket.setsockopt(socket.SOL_SOCKET, socket.SO_RCVBUF, ROOM)
        self.got, self.wanted, self.heard, self.count = [], [], set(), 0
        port.ends.append(self)

    def send(self, bytes_, fate=None):
        """Sends these bytes, which are to become this at the port."""
        if fate:
            self.port.fates[fate] += 1
            for end in self.port.ways(self, bytes_):
                end.wanted.append(bytes_)
        self.socket.sendto(bytes_, self.port.place)

    def packet(self, packet, to=None):
        """Sends a packet, to the router or to a station of the wire."""
        if isinstance(self.port, UdpPort):
            self.send(packet)
        else:
            self.send(frame(self.port.kind, to or self.port.node, self.station, packet), "handed_on")

    def is_told(self):
        """Whether all came that the router says by itself."""
        self.take()
        return self.heard == self.port.said

    def end(self):
        self.socket.close()

    def take(self):
        """Takes what came."""
        while True:
            try:
                bytes_ = self.socket.recv(70000)
            except BlockingIOError:
                return self.got
            self.count += 1
            if bytes_ in self.port.said:
                self.heard.add(bytes_)
            else:
                self.got.append(bytes_)


class Router:
    """A router with these ports, as a process."""

    def __init__(self, wires, name, ports):
        self.wires, self.name, self.ports = wires, name, ports
        for port in ports:
            others = [other.network for other in ports if other is not port]
            port.said = {port.sends(EVERYBODY, packet)
                         for packet in own_packets(port.network, port.node, port.cost, others)}
        tables = "".join(port.table() for port in ports)
        self.file = wires.world.write(f"{name}.toml", f'metrics_file = "{wires.world.path(name + ".prom")}"\n{tables}')
        self.process = None

    def start(self):
        self.process = self.wires.world.start(self.name, "route", self.file)

    def lines(self):
        return [f"port {number} {port.line()}" for number, port in enumerate(self.ports, 1)]

    def wants(self, packet, heard_by):
        """A packet was sent to it that it is to hand on."""
        network, to = packet[6:10].hex(), packet[10:16].hex()
        port = next(port for port in self.ports if port.network == network)
        port.wants(to, passed_on(packet, heard_by.network))

    def figures(self, good, seconds=STATUS_SECONDS):
        """The figures of its status file, once they are so, or as they are some time later."""
        found = {}

        def is_good():
            found.update(self.wires.world.figures(f"{self.name}.prom"))
            time.sleep(0.1)
            return good(found)

        until(is_good, seconds)
        return found


class Wires:
    """The run: its world, its ports of UDP, and what was found so far."""

    def __init__(self, program, seed):
        self.world = World(program)
        self.seed = seed
        self.passed = self.failed = 0

    def check(self, name, good, said=""):
        self.passed, self.failed = self.passed + bool(good), self.failed + (not good)
        print(f"{'ok' if good else 'failed'}: {name}{': ' if said else ''}{said}", flush=True)
        return good

    @staticmethod
    def lacks(what, *programs):
        """Whether one of these is not installed: that is left out then."""
        missing = [it for it in programs if not shutil.which(it)]
        if missing:
            leave_out(what, f"not installed: {' '.join(missing)}")
        return bool(missing)


def difference(ends):
    """What is wrong with what came to ends, if anything is."""
    for end in ends:
        got, wanted = collections.Counter(end.got), collections.Counter(end.wanted)
        for what, some in (("came", got - wanted), ("is missing", wanted - got)):
            if some:
                one = next(iter(some))
                where = f"at network {end.port.network}, station {end.station}"
                return f"{where}, {sum(some.values())} {what}, as {one[:64].hex()}"
    return ""
