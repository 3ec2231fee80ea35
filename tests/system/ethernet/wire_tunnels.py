"""Ports by VXLAN and L2TPv3, for `wires`: VXLAN devices of the kernel, in another network at the other end of a veth, and
cards of QEMU with `-netdev l2tpv3`. What comes out there is compared with a router's frames byte by byte, and what is no
frame of a tunnel is counted by its reason."""
import contextlib
import os
import random
import socket
import struct
import subprocess

from site_packets import ipx
from site_world import LIBC, free_port, leave_out, node, until
from wire_frames import KINDS, MOST, frame, frames_of, passed_on
from wire_machines import ALONE, SECONDS, is_bound
from wire_taps import NEW_NETWORK, Device, are_all_there, exchange, own_network
from wire_world import End, Router, UdpPort, WirePort, difference, with_colons

NETWORKS, OUTER = ["00000081", "00000082", "00000083", "00000084"], "00000011"
# The router, the machine with the devices, an unknown sender there, and a host of RFC 1234.
NEAR, FAR, UNKNOWN, HOST = "10.99.8.1", "10.99.8.7", "10.99.8.8", "127.0.0.20"
VXLAN_PORT, FIRST_VNI = 4789, 42
SESSION, PEER_SESSION = 0x11223344, 0x55667788
# The keys of sessions, and the words of QEMU for the other side of each. Its counter is where the sublayer is.
SESSIONS = {
    "no cookie": ({}, []),
    "a cookie of 4 bytes": ({"cookie": "a1a2a3a4", "peer_cookie": "b1b2b3b4"},
                            ["txcookie=0xa1a2a3a4", "rxcookie=0xb1b2b3b4"]),
    "a cookie of 8 bytes": ({"cookie": "a1a2a3a4a5a6a7a8", "peer_cookie": "b1b2b3b4b5b6b7b8"},
                            ["cookie64=on", "txcookie=0xa1a2a3a4a5a6a7a8", "rxcookie=0xb1b2b3b4b5b6b7b8"]),
    "a sublayer": ({"sublayer": True}, ["counter=on"]),
}


def keys(kind, **more):
    """The lines of a tunnel in a router's file."""
    return f'tunnel = "{kind}"\n' + "".join(
        f'{key} = "{value}"\n' if isinstance(value, str) else f"{key} = {str(value).lower()}\n" for key, value in more.items())


def run(*lines):
    """Runs lines of a shell, of which each is to succeed."""
    for line in lines:
        subprocess.run(line, shell=True, check=True)


def dropped(number, reason):
    return f'ipx_tunnel_dropped_total{{port="{number}",reason="{reason}"}}'


def lines_with(process, words):
    """The lines with these words, once there is one: a router says them after it has written its figures."""
    def found():
        return [line for line in process.said() if words in line]

    until(found, 5)
    return found()


# ---- VXLAN


def vxlan(vni, bytes_, first=8, reserved=b"\0\0\0"):
    """A datagram of VXLAN (RFC 7348)."""
    return bytes([first]) + reserved + struct.pack(">I", vni << 8) + bytes_


@contextlib.contextmanager
def inside(network):
    """What is started and opened meanwhile is in this network."""
    with open("/proc/self/ns/net", encoding="ascii") as before:
        LIBC.setns(network.fileno(), NEW_NETWORK)
        try:
            yield
        finally:
            LIBC.setns(before.fileno(), NEW_NETWORK)


def make_veth(far):
    """A veth between this network and another one."""
    run(f"ip link add near type veth peer name far && ip link set far netns {far}",
        f"ip address add {NEAR}/24 dev near && ip link set near up")


def make_vxlans():
    """The end of it in the other network, and a VXLAN device there for each port."""
    run(f"ip address add {FAR}/24 dev far && ip address add {UNKNOWN}/24 dev far && ip link set far up")
    for at in range(4):
        run(f"ip link add ipx{at} type vxlan id {FIRST_VNI + at} local {FAR} remote {NEAR} dstport {VXLAN_PORT + at}",
            f"ip link set ipx{at} mtu 1500 up")


def check_tshark(wires, devices):
    """tshark reads what came to the devices as IPX, and the router's own packets as RIP and SAP."""
    if wires.lacks("what tshark reads at VXLAN devices", "tshark"):
        return
    path, frames = wires.world.path("vxlan.pcap"), [bytes_ for one in devices for bytes_ in one.all]
    with open(path, "wb") as out:
        out.write(struct.pack("<IHHiIII", 0xa1b2c3d4, 2, 4, 0, 0, 65535, 1))
        for bytes_ in frames:
            out.write(struct.pack("<IIII", 0, 0, len(bytes_), len(bytes_)) + bytes_)
    words = ["tshark", "-n", "-r", path, "-T", "fields", "-e", "_ws.col.Protocol"]
    read = subprocess.run(words, capture_output=True, text=True, check=False).stdout.splitlines()
    counts = [sum(protocol.startswith(what) for protocol in read) for what in ("IPX", "IPX RIP", "IPX SAP")]
    wires.check("tshark reads each frame at VXLAN devices as IPX, and RIP and SAP among them",
                counts[0] == len(frames) and all(counts), f"{counts} of {len(frames)}")


def check_wrong_vxlan(wires, router, devices):
    """What is no frame of a port's network is counted by its reason and told once. A frame of an unknown sender is nobody's."""
    port, one = router.ports[0], devices[0]
    good = frame(port.kind, port.node, one.station, ipx(0, (OUTER, node(HOST), "4002"), (port.network, one.station, "4001"), b"no"))
    with socket.socket(socket.AF_INET, socket.SOCK_DGRAM) as there:
        there.bind((FAR, 0))
        for wrong in (b"", b"\x08\0\0\0\0\0\x2a", vxlan(43, good), vxlan(FIRST_VNI << 8, good), vxlan(FIRST_VNI, good, 0x0c),
                      vxlan(FIRST_VNI, good, 0), vxlan(FIRST_VNI, good, 0x88)):
            there.sendto(wrong, port.place)
        # The reserved bytes are not read, and a remote may send from any UDP port.
        packet = ipx(0, (OUTER, node(HOST), "4002"), (port.network, one.station, "4003"), b"yes")
        there.sendto(vxlan(FIRST_VNI, frame(port.kind, port.node, one.station, packet), reserved=b"\xff\xff\xff"), port.place)
        router.wants(packet, port)
    with socket.socket(socket.AF_INET, socket.SOCK_DGRAM) as unknown:
        unknown.bind((UNKNOWN, 0))
        unknown.sendto(vxlan(FIRST_VNI, good), port.place)
    wanted = {dropped(1, "short"): 2, dropped(1, "other_vni"): 2, dropped(1, "not_vxlan"): 3, dropped(1, "control"): 0,
              "ipx_frames_unknown_senders_total": 1, dropped(2, "other_vni"): 0}
    found = router.figures(lambda found: all(found.get(name) == value for name, value in wanted.items()))
    found = {name: found.get(name) for name in wanted}
    wires.check("what is no frame of a VXLAN network is counted by its reason", found == wanted, "" if found == wanted else str(found))
    told = lines_with(router.process, f"port 1: {FAR}:")
    wires.check("and told once, with the sender", len(told) == 1 and "this port has vxlan of vni 42" in told[0], str(told))


def check_vxlan(wires):
    """Four VXLAN devices of the kernel, one of each encapsulation."""
    ports = [WirePort(network, kind, (NEAR, VXLAN_PORT + at), [(FAR, VXLAN_PORT + at)], f"02000000008{at + 1}",
                      keys=keys("vxlan", vni=FIRST_VNI + at))
             for at, (network, kind) in enumerate(zip(NETWORKS, KINDS))]
    outer = UdpPort(OUTER, "127.0.0.1", VXLAN_PORT + 50, [HOST])
    router = Router(wires, "vxlan", [*ports, outer])
    with open("/proc/self/ns/net", encoding="ascii") as far, own_network() as permitted:
        if not permitted:
            leave_out("VXLAN devices", "two networks of one's own are not permitted here")
            return
        # The router is in the new network, and the devices are in the one outside of it.
        make_veth(f"/proc/{os.getpid()}/fd/{far.fileno()}")
        host = End(outer, (HOST, VXLAN_PORT + 50), node(HOST))
        with inside(far):
            make_vxlans()
            devices = [Device(port, f"ipx{at}", f"0200000e000{at}") for at, port in enumerate(ports)]
        router.start()
    told = until(lambda: all([one.is_told() for one in devices]), 15)
    wires.check("requests and tellings come to VXLAN devices of the kernel, in all four encapsulations", told,
                str([len(one.heard) for one in devices]))
    exchange(router, devices, host, random.Random(wires.seed))
    are_all_there([*devices, host])
    wrong = difference([*devices, host])
    sizes = sorted({len(bytes_) for one in devices for bytes_ in one.got})
    wires.check("answers, and packets handed on, at VXLAN devices, byte by byte", not wrong and sizes and sizes[0] == 60
                and sizes[-1] == 1514, wrong or f"{sum(len(one.got) for one in [*devices, host])} frames and datagrams, of "
                f"{sizes[:1]} to {sizes[-1:]} bytes")
    check_tshark(wires, devices)
    check_wrong_vxlan(wires, router, devices)
    are_all_there([*devices, host])
    wrong = difference([*devices, host])
    wires.check("nothing of them went on, and what a remote sent from another UDP port did", not wrong, wrong)
    wires.check("the router of VXLAN goes on", not router.process.is_over())
    router.process.end()
    for one in [*devices, host]:
        one.end()


# ---- L2TPv3


class Card:
    """A machine of QEMU with one card, at the other side of an L2TPv3 session."""

    def __init__(self, wires, number, port, place, words):
        self.station, self.port, self.end = f"52540000001{number}", port, place
        self.path = wires.world.path(f"l2tpv3-{number}.pcap")
        netdev = (f"l2tpv3,id=ipx,udp=on,src={place[0]},srcport={place[1]},dst={port.place[0]},dstport={port.place[1]},"
                  f"txsession={SESSION:#x},rxsession={PEER_SESSION:#x}")
        self.process = wires.world.start(
            f"qemu-l2tpv3-{number}", *ALONE, "-netdev", ",".join([netdev, *words]),
            "-device", f"rtl8139,netdev=ipx,mac={with_colons(self.station)}",
            "-object", f"filter-dump,id=dump,netdev=ipx,file={self.path}", program="qemu-system-i386")

    def frames(self, source):
        return [bytes_ for bytes_ in frames_of(self.path) if bytes_[6:12].hex() == source]


class Sessions:
    """A router with a port for each of these sessions, a card at each, and one with another cookie than the router's."""

    def __init__(self, wires):
        self.wires, self.rng = wires, random.Random(wires.seed)
        first = free_port(["127.0.0.1", HOST], 10)
        places = [("127.0.0.1", first + 5 + at) for at in range(5)]
        # The last card is at the same port of the router as the one with 8 bytes.
        ends = [[places[0]], [places[1]], [places[2], places[4]], [places[3]]]
        self.ports = [WirePort(NETWORKS[at], KINDS[at], ("127.0.0.1", first + 1 + at), ends[at],
                               keys=keys("l2tpv3", session=SESSION, peer_session=PEER_SESSION, **more))
                      for at, (more, _) in enumerate(SESSIONS.values())]
        outer = UdpPort(OUTER, "127.0.0.1", first, [HOST])
        self.host = End(outer, (HOST, first), node(HOST))
        # The port of the host is the first one, so that no Ethernet port has the same number among those of its kind.
        self.router = Router(wires, "l2tpv3", [outer, *self.ports])
        words = [words for _, words in SESSIONS.values()]
        self.cards = [Card(wires, at, self.ports[at], places[at], words[at]) for at in range(4)]
        other = ["cookie64=on", "txcookie=0xa1a2a3a4a5a6a7a9", "rxcookie=0xb1b2b3b4b5b6b7b8"]
        self.other = Card(wires, 4, self.ports[2], places[4], other)
        self.given = {card.station: [] for card in self.cards}

    def send(self):
        """Packets of the host to each card, which make frames of 60 to 1,514 bytes."""
        for card in self.cards:
            for size in (0, 1, 534, MOST[card.port.kind] - 30):
                body = self.rng.randbytes(size)
                packet = ipx(0, (card.port.network, card.station, "4002"), (OUTER, self.host.station, "4001"), body)
                self.host.packet(packet)
                self.given[card.station].append(card.port.sends(card.station, passed_on(packet, OUTER)))

    def took(self, card):
        """Whether a card was given all that the router said and handed on for it, byte by byte."""
        came, said = card.frames(card.port.node), card.port.said
        own = [bytes_ for bytes_ in came if bytes_ not in said and bytes_[:6].hex() == card.station]
        return said <= set(came) and own == self.given[card.station]


def wrong_sessions(it):
    """What is no frame of a session is counted by its reason, and told once."""
    port, card = it.ports[0], it.cards[0]
    head = b"\0\x03\0\0" + struct.pack(">I", SESSION)
    good = frame(port.kind, port.node, card.station, ipx(0, (OUTER, node(HOST), "4002"), (port.network, card.station, "4001"), b"no"))
    card.process.end()
    with socket.socket(socket.AF_INET, socket.SOCK_DGRAM) as there:
        there.bind(card.end)
        for wrong in (head[:7], b"\x80" + head[1:] + good, b"\xc8" + head[1:] + good, b"\0\x02" + head[2:] + good,
                      head[:4] + struct.pack(">I", PEER_SESSION) + good, head[:4] + struct.pack("<I", SESSION) + good):
            there.sendto(wrong, port.place)
    with socket.socket(socket.AF_INET, socket.SOCK_DGRAM) as unknown:
        unknown.bind(("127.0.0.1", 0))
        unknown.sendto(head + good, port.place)
    return {dropped(2, "short"): 1, dropped(2, "control"): 2, dropped(2, "other_version"): 1, dropped(2, "other_session"): 2,
            dropped(2, "other_cookie"): 0, dropped(2, "not_vxlan"): 0, "ipx_frames_unknown_senders_total": 1}


def check_sessions(it):
    """The frames at the cards, and what is counted."""
    wires, router = it.wires, it.router
    figures = [f'ipx_frames_total{{port="{at}",outcome="other_type"}}' for at in range(2, 6)]
    cookie = dropped(4, "other_cookie")
    found = router.figures(lambda found: all(map(found.get, [*figures, cookie])), SECONDS)
    wires.check("frames of iPXE come by L2TPv3 from cards of QEMU", all(map(found.get, figures)), str(list(map(found.get, figures))))
    wires.check("what comes with another cookie is counted", found.get(cookie), str(found.get(cookie)))
    told = lines_with(router.process, "sends l2tpv3 with another cookie")
    wires.check("and told once, with the sender", len(told) == 1 and f"port 4: 127.0.0.1:{it.other.end[1]} " in told[0], str(told))
    it.send()
    for (what, _), card in zip(SESSIONS.items(), it.cards):
        good = until(lambda: it.took(card), 5)  # pylint: disable=cell-var-from-loop
        sizes = sorted({len(bytes_) for bytes_ in it.given[card.station]})
        wires.check(f"a card of QEMU is given what the router says and hands on by L2TPv3 with {what}, in {card.port.kind}, "
                    "byte by byte", good, f"{len(card.frames(card.port.node))} frames, of {sizes[0]} to {sizes[-1]} bytes")
    wanted = wrong_sessions(it)
    found = router.figures(lambda found: all(found.get(name) == value for name, value in wanted.items()))
    found = {name: found.get(name) for name in wanted}
    wires.check("what is no frame of an L2TPv3 session is counted by its reason", found == wanted, "" if found == wanted else str(found))
    told = lines_with(router.process, f"port 2: 127.0.0.1:{it.cards[0].end[1]} sends ")
    wires.check("and told once, with the sender", len(told) == 1 and "this port has l2tpv3 of session" in told[0], str(told))
    wires.check("the host got nothing of all that", not it.host.take(), str(len(it.host.got)))


def check_l2tpv3(wires):
    """All cards at once."""
    if wires.lacks("cards of QEMU by L2TPv3", "qemu-system-i386"):
        return
    it = Sessions(wires)
    processes = [card.process for card in [*it.cards, it.other]]
    cards = [*it.cards, it.other]
    if not until(lambda: all(is_bound(card.end) for card in cards) or any(one.is_over() for one in processes), 20):
        wires.check("machines with L2TPv3 start", False, str([one.said()[:1] for one in processes]))
    elif any("romfile" in line for one in processes for line in one.said()):
        leave_out("cards of QEMU by L2TPv3", "ipxe-qemu is not installed")
    else:
        it.router.start()
        until(lambda: it.host.take() is not None and it.host.heard, 10)
        check_sessions(it)
        wires.check("the router of L2TPv3 goes on", not it.router.process.is_over())
        it.router.process.end()
    for one in processes:
        one.end()
    it.host.end()


def check_tunnels(wires):
    """All of it, where one may."""
    what = "VXLAN devices"
    if not wires.lacks(what, "ip"):
        with own_network() as permitted:
            if permitted and subprocess.run("ip link add try type vxlan id 1 dstport 4789 && ip link delete try", shell=True,
                                            capture_output=True, check=False).returncode == 0:
                check_vxlan(wires)
            else:
                leave_out(what, "a network of one's own, or a VXLAN device, is not permitted here")
    check_l2tpv3(wires)
