"""Stations at the ends of wires, for `wires`: what a router answers and hands on, byte by byte in each encapsulation,
what it keeps back and counts, and what goes on from one end of a wire to others."""
import random
import re
import signal
import struct
import time

from site_packets import ipx
from site_world import free_port, node, until
from wire_frames import ALL_ROUTES, EVERYBODY, KINDS, MOST, RIP, forms, frame, header, passed_on, routes
from wire_world import End, Router, UdpPort, WirePort, difference

ROUTER, HOST, STRANGER = "127.0.2.1", "127.0.2.20", "127.0.2.9"
ENDS = "127.0.2.1{}"
# The network of each wire, and how many ends it has. That of 802.2 is no hub.
NETWORKS, COUNTS = dict(zip(KINDS, ["00000021", "00000022", "00000023", "00000024"])), dict(zip(KINDS, [3, 2, 1, 2]))
OUTER = "00000011"
BODIES = [0, 1, 2, 15, 16, 17, 18, 29, 30, 31, 533, 534, 1461, 1462]
UNKNOWN = "02000000ffff"
# A group of stations, a network of which only forged packets tell, and how many packets go to the group: a port lets 16 pass at
# once and 8 more each second.
GROUP, FORGED, TO_GROUP, AT_ONCE, PER_SECOND = "010000000001", "00000077", 100, 16, 8
# The node of a card of Novell, and how often it asks for all networks.
ZEROS, ASKS = "00001b123456", 40
OTHER_TYPES = [0x0800, 0x0806, 0x86dd, 0x8138, 0x0600, 0x05dd, 0x05ff]
OTHER_LINKS = ["424203", "f0f003", "e00403", "e0e0af", "aaaa030000f88137", "aaaa030000000800"]


def station(number, end):
    return f"0200000a{number:02x}{end:02x}"


class Stations:
    """A router of four wires, one of each encapsulation, and of a network of RFC 1234 with a host."""

    def __init__(self, wires):
        self.wires, self.rng = wires, random.Random(wires.seed)
        udp_port = free_port([ROUTER, HOST, STRANGER, *(ENDS.format(end) for end in range(3))], 5)
        ports, self.ends = [], {}
        for number, kind in enumerate(KINDS, 1):
            places = [(ENDS.format(end), udp_port + number) for end in range(COUNTS[kind])]
            own = None if kind == "802.2" else f"0200000000{number + 0x20:02x}"
            port = WirePort(NETWORKS[kind], kind, (ROUTER, udp_port + number), places, own, kind != "802.2", number)
            self.ends[kind] = [End(port, place, station(number, end)) for end, place in enumerate(places)]
            ports.append(port)
        self.wires_of = ports[:]
        ports.append(UdpPort(OUTER, ROUTER, udp_port, [HOST]))
        self.host = End(ports[-1], (HOST, udp_port), node(HOST))
        self.stranger = End(UdpPort(OUTER, ROUTER, udp_port, []), (STRANGER, udp_port), node(STRANGER))
        self.router = Router(wires, "stations", ports)
        self.all = [end for ends in self.ends.values() for end in ends] + [self.host]
        self.fences = self.forged = self.limited = 0

    def packet(self, end, to, body, kind=0, source_network=None, socket="4002"):
        """A packet of a station; `to` is a network and a node."""
        network = end.port.network if source_network is None else source_network
        return ipx(kind, (*to, socket), (network, end.station, "4001"), body)

    def to_end(self, end):
        return end.port.network, end.station

    def fence(self, end):
        """Waits until the router has done with all that came to the port of an end."""
        self.fences += 1
        packet = self.packet(end, self.to_end(self.host), struct.pack(">I", self.fences), socket="4fff")
        end.packet(packet)
        self.host.wanted.append(passed_on(packet, end.port.network))
        return until(lambda: self.host.wanted[-1] in self.host.take(), 5)

    def settle(self, name, said=""):
        """All ends got what is wanted, and nothing else."""
        arrived = all([self.fence(ends[0]) for ends in self.ends.values()])
        for end in self.all:
            end.take()
        wrong = difference(self.all) or ("" if arrived else "the router hands nothing on")
        count = sum(len(end.got) for end in self.all)
        self.wires.check(name, not wrong, wrong or said or f"{count} frames and datagrams")
        for end in self.all:
            end.got, end.wanted = [], []

    def hand_on(self, end, packet, bytes_):
        """A frame with a packet that is to be handed on."""
        end.send(bytes_, "handed_on")
        self.router.wants(packet, end.port)


def check_start(it):
    """What it says of its ports, and what it sends by itself."""
    said = it.router.process.said
    missing = [line for line in it.router.lines() if not any(line in one for one in said())]
    it.wires.check("what a router says of its wires as it starts", not missing, str(missing or ""))
    checked = it.wires.world.start("check", "route", "--check", it.router.file)
    status = checked.status(10)
    lines = bytes(checked.out).decode().splitlines()
    good = status == 0 and lines[:-1] == it.router.lines()
    it.wires.check("the same of its file by --check", good, "" if good else f"status {status}, {lines}")
    until(lambda: all([end.is_told() for end in it.all]), 5)
    quiet = [(end.port.network, end.station, len(end.heard)) for end in it.all if not end.is_told()]
    it.wires.check("each end gets its requests and its tellings, byte by byte", not quiet, str(quiet or ""))


def check_requests(it):
    """Requests for routes, with network 0 and with the own one, to all and to the router."""
    for port in it.wires_of:
        for end in port.ends:
            others = sorted(other.network for other in it.router.ports if other is not port)
            one_route = struct.pack(">HIHH", 1, int(OUTER, 16), 0xffff, 0xffff)
            for network, to, body, told in ((port.network, EVERYBODY, ALL_ROUTES, others),
                                            ("00000000", EVERYBODY, ALL_ROUTES, others),
                                            (port.network, port.node, one_route, [OUTER])):
                packet = it.packet(end, (network, to), body, 1, network, RIP)
                end.send(frame(port.kind, to, end.station, packet), "handed_on")
                answer = ipx(1, (port.network, end.station, "4001"), (port.network, port.node, RIP),
                             routes([(other, 1, port.cost) for other in told]))
                port.wants(end.station, answer)
    it.settle("requests for routes are answered in the encapsulation of the wire, byte by byte, to the end that asked")


def check_forwarding(it):
    """From each wire to each other one and to the host, in all forms, of all sizes."""
    for kind, ends in it.ends.items():
        giver = ends[0]
        for taker in [others[-1] for other, others in it.ends.items() if other != kind] + [it.host]:
            for size in BODIES:
                source = it.rng.choice([None, "00000000"])
                packet = it.packet(giver, it.to_end(taker), it.rng.randbytes(size), source_network=source)
                for bytes_ in forms(kind, giver.port.node, giver.station, packet, it.rng):
                    it.hand_on(giver, packet, bytes_)
        it.settle(f"from a wire of {kind} to the others and to a host: hops, stations, padding and evenness")


def check_other_ways(it):
    """To a station of which nobody knows where it is, along a wire, to all stations of another one, and from the host."""
    for port in it.wires_of:
        giver = next(ends[0] for ends in it.ends.values() if ends[0].port is not port)
        for to in (UNKNOWN, EVERYBODY):
            packet = it.packet(giver, (port.network, to), b"to all ends")
            it.hand_on(giver, packet, frame(giver.port.kind, giver.port.node, giver.station, packet))
        it.settle(f"a packet for a station that is not known, and one for all, go to each end of a wire of {port.kind}")
    for port in it.wires_of:
        for size in (MOST[port.kind], MOST[port.kind] - 1, 1500, 30, 31):
            packet = it.packet(it.host, it.to_end(port.ends[0]), it.rng.randbytes(size - 30))
            it.host.packet(packet)
            if size > MOST[port.kind]:
                port.refused += 1
            else:
                it.router.wants(packet, it.host.port)
        until(lambda: len(port.ends[0].take()) >= len(port.ends[0].wanted), 5)  # pylint: disable=cell-var-from-loop
    it.settle("from a host to a station of each wire, up to the most that its frames take")


def kept_back(it, port, end):
    """Frames that a port keeps from the core, with what becomes of each."""
    own, source = port.node, end.station
    packet = it.packet(end, it.to_end(it.host), b"kept back")
    good, held = frame(port.kind, own, source, packet), b"\0" * 46
    yield from ((broken, "broken") for broken in (b"", good[:12], good[:13], good.ljust(1515, b"\0"), bytes(9000)))
    yield from ((frame(port.kind, own, other, packet), "broken") for other in ("010000000001", EVERYBODY, "0" * 12))
    yield header(own, source, 0x05dc) + held, "broken"
    yield frame(port.kind, own, own, packet), "own"
    yield from ((frame(port.kind, other, source, packet), "not_ours") for other in (UNKNOWN, "09001bffffff", "0" * 12))
    yield from ((header(own, source, says) + held, "tagged") for says in (0x8100, 0x88a8, 0x9100))
    yield from ((header(own, source, says) + held, "other_type") for says in OTHER_TYPES)
    for link in OTHER_LINKS:
        yield header(own, source, 46) + (bytes.fromhex(link) + packet)[:46].ljust(46, b"\0"), "other_llc"
    yield frame(port.kind, own, source, packet[:2] + b"\0\x1d" + packet[4:]), "no_packet"
    yield frame(port.kind, own, source, packet[:2] + b"\x05\0" + packet[4:]), "no_packet"
    for other in KINDS:
        if other != port.kind:
            yield frame(other, own, source, packet), f"in_{other}"
            asks = it.packet(end, (port.network, EVERYBODY), ALL_ROUTES, 1, socket=RIP)
            yield frame(other, EVERYBODY, source, asks), f"in_{other}"
    for to in (it.to_end(it.host), ("00000099", UNKNOWN), (OUTER, EVERYBODY)):
        yield frame(port.kind, EVERYBODY, source, it.packet(end, to, b"kept back")), "other_network"


def check_kept_back(it):
    for port in it.wires_of:
        for end in port.ends:
            for bytes_, fate in kept_back(it, port, end):
                end.send(bytes_, fate)
        it.settle(f"nothing of what a port of {port.kind} keeps back is handed on or answered")


def check_encapsulations(it):
    """Packets in another encapsulation than that of the port are told, with its number and the name of each. The router
    is stopped meanwhile, so that they come at once: what is told is told again after a minute alone."""
    process = it.router.process
    process.popen.send_signal(signal.SIGSTOP)
    for port in it.wires_of:
        end = port.ends[0]
        for other in [other for other in KINDS if other != port.kind]:
            packet = it.packet(end, (port.network, EVERYBODY), ALL_ROUTES, 1, socket=RIP)
            end.send(frame(other, EVERYBODY, end.station, packet), f"in_{other}")
    process.popen.send_signal(signal.SIGCONT)
    it.settle("packets in another encapsulation are not answered")
    for number, port in enumerate(it.wires_of, 1):
        def named(number=number, port=port):
            said = [line for line in process.said() if f"port {number}: " in line and "another encapsulation" in line]
            return all(any(other in line for line in said) for other in KINDS if other != port.kind)

        good = until(named, 15)
        it.wires.check(f"frames of another encapsulation than {port.kind} are told, each by its name", good,
                       "" if good else str(process.said()[len(it.router.ports):]))


def check_strangers(it):
    """Frames from another port of UDP, or another address, than that of an end."""
    count = 0
    for port in it.wires_of:
        packet = it.packet(port.ends[0], (port.network, port.node), ALL_ROUTES, 1, socket=RIP)
        for _ in range(3):
            it.stranger.socket.sendto(frame(port.kind, EVERYBODY, port.ends[0].station, packet), port.place)
            it.host.socket.sendto(frame(port.kind, port.node, UNKNOWN, packet), port.place)
            count += 2
    it.settle("frames from elsewhere than an end are not answered, and go nowhere", f"{count} frames")
    return count


def check_hub(it, kind, joined):
    """What goes on from one end to others as it came: `ways` of the port says to which."""
    giver, *others = it.ends[kind]
    sources = [f"0200000b000{number}" for number in range(3)]
    for source, end in zip(sources, it.ends[kind]):
        end.send(header(EVERYBODY, source, 0x0806) + it.rng.randbytes(28), "other_type")
    for to in (EVERYBODY, "01005e000001", UNKNOWN, others[-1].station, sources[1], giver.station, sources[0], giver.port.node):
        fate = "other_type" if to in (EVERYBODY, giver.port.node) else "not_ours"
        for size in (14, 42, 60, 1514):
            giver.send(header(to, sources[0], 0x0800) + it.rng.randbytes(size - 14), fate)
    for size in (1515, 1522, 1523, 1600):
        giver.send(header(EVERYBODY, sources[0], 0x8100) + it.rng.randbytes(size - 14), "broken")
    giver.send(header(others[-1].station, giver.port.node, 0x0800) + bytes(46), "own")
    it.settle("from one end of a wire to the others: each frame as it came, to one where that is known, nothing back" if joined
              else "switch = false: nothing goes from one end to another")
    # A station that is plugged in elsewhere is known there from then on.
    others[-1].send(header(EVERYBODY, sources[0], 0x0806) + bytes(46), "other_type")
    packet = it.packet(it.host, (giver.port.network, sources[0]), b"where it was last")
    it.host.packet(packet)
    it.router.wants(packet, it.host.port)
    until(lambda: len(others[-1].take()) >= len(others[-1].wanted), 5)
    it.settle(f"a station is where it was heard last, {kind}")


def check_groups(it):
    """Routes and requests in the name of all stations, of a group and of zero; and packets for a group."""
    end, giver = it.ends["802.3"][0], it.ends["802.2"][0]
    port = end.port
    for source in (EVERYBODY, GROUP, "0" * 12):
        for body in (routes([(FORGED, 1, 1)]), ALL_ROUTES):
            packet = ipx(1, (port.network, port.node, RIP), (port.network, source, RIP), body)
            end.send(frame(port.kind, port.node, end.station, packet), "handed_on")
            it.forged += 1
    it.fence(end)
    giver.packet(it.packet(giver, (FORGED, UNKNOWN), b"by no route"))
    it.settle("a route told as all stations, a group or zero is not learned, and a request is not answered")
    began, packet = time.monotonic(), it.packet(giver, (port.network, GROUP), b"to a group")
    for _ in range(TO_GROUP):
        giver.packet(packet)
    it.fence(giver)
    most = AT_ONCE + int((time.monotonic() - began) * PER_SECOND) + 1
    sent = port.sends(GROUP, passed_on(packet, giver.port.network))
    passed = end.take().count(sent)
    it.limited = TO_GROUP - passed
    it.wires.check("packets for a group are limited as those for all", 0 < passed <= most, f"{passed} of {TO_GROUP}, at most {most}")
    for one in port.ends:
        one.wanted += [sent] * passed
    it.settle("those that pass go to each end of the wire")


def check_queries(it):
    """A station that asks for everything too often is told by its node, also if that begins with two zero bytes, as the node
    of an IP address does."""
    end = it.ends["802.3"][0]
    port = end.port
    packet = ipx(1, (port.network, port.node, RIP), (port.network, ZEROS, "4001"), ALL_ROUTES)
    for _ in range(ASKS):
        end.send(frame(port.kind, port.node, ZEROS, packet), "handed_on")
    it.fence(end)
    line = re.compile(r"\d+ (?:query|queries) rate-limited \(\d+ since the start\), the last from " + f"{ZEROS} on port {1 + it.wires_of.index(port)}$")
    told = until(lambda: any(line.search(one) for one in it.router.process.said()), 15)
    it.wires.check("a station whose node begins with zeros is told by its node", told,
                   "" if told else str(it.router.process.said()[-3:]))


def check_told(it, strangers):
    """What the router counts, and says."""
    wanted = {"ipx_frames_unknown_senders_total": strangers, 'ipx_filtered_total{reason="group_source"}': it.forged,
              'ipx_filtered_total{reason="directed_broadcast"}': it.limited}
    for number, port in enumerate(it.wires_of, 1):
        wanted.update(port.figures(number))
    found = it.router.figures(lambda found: all(found.get(name) == value for name, value in wanted.items()))
    wrong = {name: (found.get(name), value) for name, value in wanted.items() if found.get(name) != value}
    it.wires.check("all that came is counted, each by what became of it", not wrong,
                   f"(found, wanted): {wrong}" if wrong else f"{len(wanted)} figures")
    groups = re.compile("RIP or SAP with a group or zero source node, the last from ")
    ip, udp_port = it.stranger.socket.getsockname()
    unknown = re.compile(r"\d datagrams? to an Ethernet port from unknown senders \(\d+ since the start\), the last from "
                         + f"({re.escape(ip)}|{re.escape(HOST)}):{udp_port}$")
    for what, words in (("who has a group for its source", groups), ("from where strangers send", unknown)):
        told = until(lambda words=words: any(words.search(line) for line in it.router.process.said()), 15)
        it.wires.check(f"the router tells {what}", told, "" if told else str(it.router.process.said()[-3:]))
    ends = [end for ends in it.ends.values() for end in ends]

    def taken():
        """How many frames came to all ends."""
        for end in ends:
            end.take()
        return sum(end.count for end in ends)

    sent = it.router.figures(lambda found: found.get("ipx_transmit_frames_total") == taken()).get("ipx_transmit_frames_total")
    it.wires.check("each frame that it sent is counted, and came", sent == taken(), f"{sent} of {taken()}")


def check_stations(wires):
    """All of them, at one router."""
    it = Stations(wires)
    it.router.start()
    until(lambda: len(it.router.process.said()) >= len(it.router.ports) or it.router.process.is_over(), 10)
    if not wires.check("a router of four wires starts", not it.router.process.is_over(), str(it.router.process.said()[:1])):
        return
    check_start(it)
    check_requests(it)
    check_forwarding(it)
    check_other_ways(it)
    check_encapsulations(it)
    check_kept_back(it)
    strangers = check_strangers(it)
    check_hub(it, "802.3", True)
    check_hub(it, "802.2", False)
    check_groups(it)
    check_told(it, strangers)
    check_queries(it)
    wires.check("the router goes on", not it.router.process.is_over())
    it.router.process.end()
