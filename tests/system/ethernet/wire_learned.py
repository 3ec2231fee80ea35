"""A port with `remotes = ["any"]`, for `wires`: the router finds a guest of QEMU by its session and cookie, and finds it again
as its UDP port changes; datagrams with another cookie do not move it."""
import random
import socket
import struct
import time

from site_packets import ipx
from site_world import free_port, leave_out, node, until
from wire_machines import SECONDS, is_bound
from wire_tunnels import PEER_SESSION, SESSION, SESSIONS, Card, dropped, keys
from wire_world import End, Router, UdpPort, WirePort

NETWORK, OUTER = "00000089", "00000011"
ROUTER, HOST = "127.0.0.1", "127.0.0.20"
KEYS, WORDS = SESSIONS["a cookie of 8 bytes"]


class LearnedPort(WirePort):
    """A port of L2TPv3 that learns where its remote is."""

    def __init__(self, place):
        super().__init__(NETWORK, "802.3", place, [], keys=keys("l2tpv3", session=SESSION, peer_session=PEER_SESSION, **KEYS))

    def table(self):
        return super().table().replace("remotes = []", 'remotes = ["any"]')


class Learned:
    """A router with such a port, and a host at another one."""

    def __init__(self, wires):
        self.wires, self.rng = wires, random.Random(wires.seed)
        self.first = free_port([ROUTER, HOST], 5)
        self.port, outer = LearnedPort((ROUTER, self.first + 1)), UdpPort(OUTER, ROUTER, self.first, [HOST])
        self.host = End(outer, (HOST, self.first), node(HOST))
        self.router = Router(wires, "learned", [outer, self.port])

    def card(self, number):
        """A guest of QEMU, the same station at each UDP port."""
        card = Card(self.wires, number, self.port, (ROUTER, self.first + 2 + number), WORDS)
        until(lambda: is_bound(card.end) or card.process.is_over(), 20)
        return card

    def reaches(self, card):
        """Whether packets of the host come to a guest from now on."""
        body = self.rng.randbytes(40)
        packet = ipx(0, (NETWORK, card.station, "4002"), (OUTER, self.host.station, "4001"), body)

        def is_there():
            self.host.packet(packet)
            return any(body in bytes_ for bytes_ in card.frames(self.port.node))

        return until(is_there, SECONDS)

    def forged(self, card):
        """Datagrams of the session with another cookie, from another place, and after each a packet of the host to the guest. It
        answers what comes to that place. A frame of the guest shows the router where it is again, so it tries five times."""
        header = b"\0\x03\0\0" + struct.pack(">I", SESSION) + bytes.fromhex("a1a2a3a4a5a6a7a9")
        packet = ipx(0, (NETWORK, card.station, "4002"), (OUTER, self.host.station, "4001"), b"for the guest")
        with socket.socket(socket.AF_INET, socket.SOCK_DGRAM) as other:
            other.bind((ROUTER, 0))
            other.settimeout(0.2)
            for _ in range(5):
                other.sendto(header + bytes(60), self.port.place)
                # The router has read it by then.
                time.sleep(0.1)
                self.host.packet(packet)
                try:
                    return other.recv(2048)
                except TimeoutError:
                    pass
        return None


def check_learned(wires):
    """A guest at one UDP port, and then at another one."""
    what = "a guest of QEMU whose UDP port changes"
    if wires.lacks(what, "qemu-system-i386"):
        return
    it = Learned(wires)
    it.router.start()
    until(lambda: it.host.take() is not None and it.host.heard, 10)
    found = it.router.figures(lambda found: found.get("ipx_transmit_frames_total") is not None)
    wires.check("before a guest came nothing is sent to it, and nothing failed",
                found.get("ipx_transmit_frames_total") == 0 and found.get("ipx_errors_total") == 0,
                str([found.get(name) for name in ("ipx_transmit_frames_total", "ipx_errors_total")]))
    first = it.card(0)
    if any("romfile" in line for line in first.process.said()):
        leave_out(what, "ipxe-qemu is not installed")
        first.process.end()
    else:
        wires.check("a guest of QEMU is found by its session and cookie", it.reaches(first), str(first.process.said()[:1]))
        answer = it.forged(first)
        found = it.router.figures(lambda found: found.get(dropped(2, "other_cookie")) == 5)
        wires.check("who has another cookie is counted and gets nothing, and the guest is reached as before",
                    answer is None and found.get(dropped(2, "other_cookie")) == 5 and it.reaches(first), str(answer))
        first.process.end()
        second = it.card(1)
        wires.check("as its UDP port changes, it is found again", it.reaches(second), str(second.process.said()[:1]))
        wires.check("the router of a learned remote goes on", not it.router.process.is_over())
        second.process.end()
    it.router.process.end()
    it.host.end()
