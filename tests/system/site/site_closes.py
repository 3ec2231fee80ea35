"""A sender and a peer that is written here, which acknowledges the end in one way or another or not at
all, for `sites`."""
import socket
import struct
import threading
import time

from site_packets import ipx
from site_world import node, some_bytes

# Peers and senders on a network without a router, and how each peer answers an end: it confirms it; it does
# so where the end comes again alone, as if the first confirmation was lost; it acknowledges it, and never
# confirms it; or it is silent from then on.
CLOSES = {"confirming": ("127.0.1.86", "127.0.1.87"), "late": ("127.0.1.88", "127.0.1.92"),
          "plain": ("127.0.1.93", "127.0.1.94"), "silent": ("127.0.1.95", "127.0.1.96")}
NETWORK, SOCKET, BYTES = "00000044", "4002", 100_000
SYSTEM, WANTS_ACK = 0x80, 0x40
DATA, END, CONFIRMATION = 0x00, 0xfe, 0xff
OWN_ID, BUFFERS = 7, 64


class Peer:
    """A host of one connection. It reads units in their order, and those alone."""

    def __init__(self, address, port, way):
        self.node, self.way = node(address), way
        self.socket = socket.socket(socket.AF_INET, socket.SOCK_DGRAM)
        self.socket.bind((address, port))
        self.socket.settimeout(0.1)
        self.out = bytearray()
        self.expected = self.ends = 0
        self.last_word = None
        self.stopped = threading.Event()
        threading.Thread(target=self.run, daemon=True).start()

    def run(self):
        while not self.stopped.is_set():
            try:
                packet, whence = self.socket.recvfrom(2000)
            except TimeoutError:
                continue
            answer = self.read(packet)
            if answer is not None:
                self.last_word = time.monotonic()
                self.socket.sendto(self.packet(packet, answer), whence)
        self.socket.close()

    def packet(self, asked, stream):
        """A system packet of a stream, to who sent that one, by which all is acknowledged that came."""
        network, far, number = asked[18:22].hex(), asked[22:28].hex(), asked[28:30].hex()
        body = struct.pack(">BBHHHHH", SYSTEM, stream, OWN_ID, *struct.unpack(">H", asked[32:34]), 0,
                           self.expected, (self.expected + BUFFERS - 1) & 0xffff)
        return ipx(5, (network, far, number), (NETWORK, self.node, SOCKET), body)

    def read(self, packet):
        """The stream of the packet that answers this one. None where nothing does."""
        control, stream, _, _, sequence = struct.unpack(">BBHHH", packet[30:38])
        if stream != END and control & SYSTEM:
            return DATA if control & WANTS_ACK else None
        if stream == END:
            return self.read_end(sequence)
        if sequence == self.expected:
            self.out += packet[42:]
            self.expected += 1
        return DATA

    def read_end(self, sequence):
        """The same of an end."""
        self.ends += 1
        if self.way == "silent":
            return None
        if sequence == self.expected:
            self.expected += 1
        if self.way == "late" and self.ends == 1:
            return None
        return DATA if self.way == "plain" else CONFIRMATION


class Close:
    """A sender, its peer, and when the sender ended."""

    def __init__(self, sites, way):
        self.data = some_bytes(sites.seed + 7, BYTES)
        self.peer = Peer(CLOSES[way][0], sites.port, way)
        self.sender = sites.start_sender(f"{way}-sender", [self.data], NETWORK, CLOSES[way][0])
        self.over = None
        self.watch = threading.Thread(target=self.wait, daemon=True)
        self.watch.start()

    def wait(self):
        self.sender.status(30)
        self.over = time.monotonic()

    def ended(self):
        """The status of the sender, and how many seconds after the last word of its peer it ended."""
        self.watch.join(30)
        self.peer.stopped.set()
        return self.sender.status(0), self.over - self.peer.last_word


def start_closes(sites):
    """A sender to each of the peers."""
    return {way: Close(sites, way) for way in CLOSES}


def check_closes(sites, closes):
    """What became of them. Each peer has all that was sent."""
    for way, close in closes.items():
        status, seconds = close.ended()
        said, ends = close.sender.said(), close.peer.ends
        good = close.peer.out == close.data
        if way == "silent":
            lost = f"connection lost: {BYTES} of {BYTES} bytes acknowledged"
            good = good and status == 1 and said == [lost] and 20 < seconds < 30 and 40 <= ends <= 70
        else:
            good = good and status == 0 and not said and seconds < 1 and ends == (2 if way == "late" else 1)
        sites.check({
            "confirming": "a sender whose peer confirms the end",
            "late": "a sender whose peer confirms the end as it comes again",
            "plain": "a sender whose peer acknowledges the end and never confirms it",
            "silent": "a sender whose peer never answers the end",
        }[way], good, f"status {status} {seconds:.2f} s after its last word, {ends} ends, "
            f"{len(close.peer.out)} of {BYTES} bytes, {said}")
        close.sender.end()
