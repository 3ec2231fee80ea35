"""TAPs by socat in a network of their own, for `wires`: what Linux and tcpdump read there of a router's frames, and a
bridge with another wire, by the lines of docs/INSTALL.md."""
import contextlib
import os
import random
import re
import signal
import socket
import struct
import subprocess
import time

from site_packets import ipx
from site_world import LIBC, leave_out, node, port_table, until
from wire_deploy import blocks, line_of_unit, port_of, with_ports, words_of
from wire_frames import ALL_ROUTES, EVERYBODY, KINDS, MOST, RIP, frame, frames_of, routes
from wire_world import End, Router, UdpPort, WirePort, difference, text_of, with_colons

NEW_NETWORK = 0x40000000
EVERY_TYPE = 3
NETWORKS, OUTER = ["00000061", "00000062", "00000063", "00000064"], "00000011"
ROUTER, HOST = "127.0.0.1", "127.0.0.20"
UDP_PORT = 24100
HEADING = "TAP devices and physical networks"
# As tcpdump prints the four.
PRINTED = {"802.3": r", 802\.3, length \d+: IPX 802\.3: ", "802.2": r" ssap IPX \(0xe0\) Command, ctrl 0x03: IPX 802\.2: ",
           "snap": r" oui Ethernet \(0x000000\), ethertype IPX \(0x8137\), length \d+: \(NOV-ETHII\) ",
           "ethernet-ii": r" > [0-9a-f:]+, ethertype IPX \(0x8137\), length \d+: \(NOV-ETHII\) "}


@contextlib.contextmanager
def own_network():
    """Whether what is started meanwhile has a network of its own, which is gone with the last of it."""
    with open("/proc/self/ns/net", encoding="ascii") as before:
        entered = LIBC.unshare(NEW_NETWORK) == 0
        try:
            yield entered and subprocess.run(["ip", "link", "set", "dev", "lo", "up"], check=False).returncode == 0
        finally:
            if entered:
                LIBC.setns(before.fileno(), NEW_NETWORK)


class Device(End):
    """A station at a device of Linux, which reads and writes its frames."""

    def __init__(self, port, name, station):  # pylint: disable=super-init-not-called
        self.port, self.station, self.name = port, station, name
        self.socket = socket.socket(socket.AF_PACKET, socket.SOCK_RAW, socket.htons(EVERY_TYPE))
        self.socket.bind((name, 0))
        self.socket.setblocking(False)
        self.got, self.wanted, self.heard = [], [], set()
        self.all = []
        port.ends.append(self)

    def send(self, bytes_, fate=None):
        self.socket.send(bytes_)

    def take(self):
        """Takes what came from the router. What Linux says by itself isn't looked at."""
        while True:
            try:
                bytes_ = self.socket.recv(70000)
            except BlockingIOError:
                return self.got
            if bytes_[6:12].hex() != self.port.node:
                continue
            self.all.append(bytes_)
            if bytes_ in self.port.said:
                self.heard.add(bytes_)
            else:
                self.got.append(bytes_)


class Dump:
    """tcpdump at a device."""

    def __init__(self, world, device, *words):
        self.path = world.path(f"{device}.pcap")
        # As root: who changes its user outlives this process. With -s there is room for many packets at once.
        self.process = world.start(f"tcpdump-{device}", "-i", device, "-U", "-Z", "root", "--immediate-mode", "-s", "2000",
                                   "-B", "8192", "-w", self.path, *words, program="tcpdump")
        until(lambda: any("listening on" in line for line in self.process.said()), 5)

    def frames(self):
        self.process.end(signal.SIGINT)
        return frames_of(self.path)


def start_tap(wires, name, port):
    """The line of docs/INSTALL.md with the name, and the ports of UDP, of this one."""
    line, = blocks(HEADING, "sh")[:1]
    ports = {"24002": port.place[1], "24001": port.places[0][1]}
    words = [word.replace("ipx0", name) for word in with_ports(words_of(line), ports)]
    tap = wires.world.start(f"socat-{name}", *words[1:], program=words[0])
    made = until(lambda: name in [other for _, other in socket.if_nameindex()], 5)
    wires.check(f"a TAP by socat, {name}", made, str(tap.said()[:1] or ""))
    time.sleep(0.2)
    return tap


def ask(port, device):
    """A request for all routes, and the answer that is wanted."""
    packet = ipx(1, (port.network, EVERYBODY, RIP), (port.network, device.station, "4001"), ALL_ROUTES)
    device.packet(packet, EVERYBODY)


def send_some(router, source, to, bodies):
    """Sends packets with these bodies, which are to arrive."""
    for body in bodies:
        packet = ipx(0, (to.port.network, to.station, "4002"), (source.port.network, source.station, "4001"), body)
        source.packet(packet)
        router.wants(packet, source.port)


def exchange(router, devices, host, rng):
    """Requests from each device, packets from each to each other, to the host, and from the host."""
    for one in devices:
        port = one.port
        ask(port, one)
        others = [other.network for other in router.ports if other is not port]
        told = routes([(other, 1, port.cost) for other in sorted(others)])
        answer = ipx(1, (port.network, one.station, "4001"), (port.network, port.node, RIP), told)
        one.wanted.append(port.sends(one.station, answer))
        for other in [*devices, host]:
            if other is not one:
                send_some(router, one, other, [rng.randbytes(size) for size in (0, 1, 17, 534, 1462)])
        send_some(router, host, one, [rng.randbytes(size - 30) for size in (30, 31, MOST[port.kind])])


def knock(address):
    """Has Linux ask by ARP whose an address is."""
    with socket.socket(socket.AF_INET, socket.SOCK_DGRAM) as one:
        one.sendto(b"knock", (address, 9))


def are_all_there(ends):
    return until(lambda: all(len(end.take()) >= len(end.wanted) for end in ends), 5)


def given_to(sent, port):
    """What a port gave to UDP, of the frames at the loopback: behind 14 bytes of the device, 20 of IP and 8 of UDP."""
    return [bytes_[42:] for bytes_ in sent if struct.unpack(">H", bytes_[34:36])[0] == port.place[1]]


def check_dumps(wires, router, devices, dumps, wire):
    """What tcpdump saw at each TAP is what Linux read there, and what the router gave to UDP."""
    # (tcpdump may be behind, on a machine that is loaded)
    until(lambda: all(len(given_to(frames_of(wire.path), one.port)) >= len(one.heard) + len(one.wanted)
                      and len(frames_of(dump.path)) >= len(one.heard) + len(one.wanted)
                      for one, dump in zip(devices, dumps)), 10)
    sent = wire.frames()
    for one, dump in zip(devices, dumps):
        here = [bytes_ for bytes_ in dump.frames() if bytes_[6:12].hex() == one.port.node]
        given = given_to(sent, one.port)
        one.take()
        # The three end one after another, and the router may say something between.
        least = min(len(here), len(one.all), len(given))
        wires.check(f"tcpdump, Linux and what the router sent agree at a TAP of {one.port.kind}, byte by byte",
                    here[:least] == one.all[:least] == given[:least] and least >= len(one.heard) + len(one.wanted),
                    f"{len(here)}, {len(one.all)} and {len(given)} frames")
        words = ["tcpdump", "-e", "-n", "-r", dump.path, "ether", "src", with_colons(one.port.node)]
        lines = subprocess.run(words, capture_output=True, text=True, check=False).stdout.splitlines()
        printed = [line for line in lines if re.search(PRINTED[one.port.kind], line)]
        wires.check(f"tcpdump prints each of them as IPX in {one.port.kind}", len(printed) == len(here), f"{len(printed)}")
    wires.check("the router of TAPs goes on", not router.process.is_over())


def check_four(wires):
    """Four TAPs, one of each encapsulation."""
    ports = [WirePort(network, kind, (ROUTER, UDP_PORT + 2 * at), [(ROUTER, UDP_PORT + 2 * at + 1)], f"02000000006{at + 1}")
             for at, (network, kind) in enumerate(zip(NETWORKS, KINDS))]
    outer = UdpPort(OUTER, ROUTER, UDP_PORT + 50, [HOST])
    host, router = End(outer, (HOST, UDP_PORT + 50), node(HOST)), Router(wires, "taps", [*ports, outer])
    taps = [start_tap(wires, f"ipx{at}", port) for at, port in enumerate(ports)]
    devices = [Device(port, f"ipx{at}", f"0200000c000{at}") for at, port in enumerate(ports)]
    for one in devices:
        subprocess.run(f"ip address add 10.99.{one.name[3:]}.1/24 dev {one.name}", shell=True, check=True)
    dumps = [Dump(wires.world, one.name) for one in devices]
    wire = Dump(wires.world, "lo", "udp and src port " + " or ".join(str(port.place[1]) for port in ports))
    router.start()
    told = until(lambda: all([one.is_told() for one in devices]), 10)
    wires.check("requests and tellings come to TAPs of all four encapsulations", told,
                str([len(one.heard) for one in devices]))
    exchange(router, devices, host, random.Random(wires.seed))
    are_all_there([*devices, host])
    wrong = difference([*devices, host])
    wires.check("answers, and packets handed on, at TAPs of all four encapsulations, byte by byte", not wrong,
                wrong or f"{sum(len(one.got) for one in [*devices, host])} frames and datagrams")
    for one in devices:
        knock(f"10.99.{one.name[3:]}.2")
    time.sleep(0.3)
    check_dumps(wires, router, devices, dumps, wire)
    figures = [f'ipx_frames_total{{port="{at}",outcome="other_type"}}' for at in range(1, 5)]
    found = router.figures(lambda found: all(map(found.get, figures)))
    wires.check("ARP of Linux at a TAP is counted as of another type", all(map(found.get, figures)),
                str(list(map(found.get, figures))))
    end_all(router.process, *taps, *devices, host)


def end_all(*some):
    """Ends processes, and closes ends."""
    for it in some:
        it.end()


def check_bridge(wires):
    """The port, the TAP and the bridge of docs/INSTALL.md. A pair of devices acts as the card and what is plugged in
    there."""
    text, = blocks("Ethernet ports", "toml")
    port, outer = port_of(text), UdpPort(OUTER, ROUTER, UDP_PORT + 50, [HOST])
    router = Router(wires, "bridged", [port, outer])
    wires.world.write("bridged.toml", text + port_table(OUTER, ROUTER, UDP_PORT + 50, [HOST]))
    line, bridge = blocks(HEADING, "sh")[:2]
    unit, words = line_of_unit("ipx0", text_of(port.place), text_of(port.places[0])), words_of(line)
    good = unit == [f"/usr/bin/{words[0]}", *words[1:]]
    wires.check("the unit for a TAP runs the line of docs/INSTALL.md", good, "" if good else str(unit))
    tap = start_tap(wires, "ipx0", port)
    subprocess.run("ip link add eth1 type veth peer name far && ip link set dev far up", shell=True, check=True)
    ran = subprocess.run(bridge, shell=True, capture_output=True, text=True, check=False)
    wires.check("the lines of docs/INSTALL.md for a bridge", ran.returncode == 0 and not ran.stderr, ran.stderr)
    host, far = End(outer, (HOST, UDP_PORT + 50), node(HOST)), Device(port, "far", "0200000d0001")
    router.start()
    told = until(far.is_told, 10)
    exchange(router, [far], host, random.Random(wires.seed))
    are_all_there([far, host])
    wrong = difference([far, host])
    wires.check("a station behind a bridge is told, answered and reached, byte by byte", told and not wrong and far.got,
                wrong or f"{len(far.all)} frames")
    end_all(router.process, tap, far, host)


def check_taps(wires):
    """All of it, where one may."""
    what = "TAPs, and a bridge"
    if wires.lacks(what, "socat", "tcpdump", "ip"):
        return
    with own_network() as permitted:
        if permitted and os.path.exists("/dev/net/tun"):
            check_four(wires)
            check_bridge(wires)
        else:
            leave_out(what, "a network of one's own, or /dev/net/tun, is not permitted here")
