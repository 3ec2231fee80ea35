"""Who gets a slot of a listener with --once, and how long it stays, who gets one where other nodes hold all that they may, where
its own node does, and while many requests come in its name or of another node, who keeps one that sent nothing yet, what comes
of those that ended before their bytes were written, and the share of each sender if the output is read slowly, for `sites`."""
import collections
import itertools
import os
import re
import select
import struct
import sys
import threading
import time

from site_callers import call
from site_packets import ipx
from site_world import Watch, bound, listed, node, some_bytes, until

# Listeners and senders on a network without a router: one with --once, which two senders call; and one whose output is read
# slowly, with two senders.
NETWORK = "00000044"
ONCE, FIRST, SECOND = "127.0.1.22", "127.0.1.23", "127.0.1.24"
SLOW, BOTH = "127.0.1.35", ("127.0.1.36", "127.0.1.37")
# Listeners of which other nodes hold connections: its address, that of a sender, and those of these nodes.
HELD = {"one": ("127.0.1.43", "127.0.1.44", ["127.0.1.45"]),
        "silent": ("127.0.1.46", "127.0.1.47", ["127.0.1.48", "127.0.1.49"]),
        "busy": ("127.0.1.73", "127.0.1.74", ["127.0.1.75", "127.0.1.76"]),
        "uneven": ("127.0.1.25", "127.0.1.26", ["127.0.1.27", "127.0.1.28", "127.0.1.29"]),
        "own": ("127.0.1.38", "127.0.1.39", ["127.0.1.77", "127.0.1.78"]),
        "ended": ("127.0.1.176", "127.0.1.177", ["127.0.1.178", "127.0.1.179"]),
        "restarted": ("127.0.1.140", "127.0.1.141", ["127.0.1.141"]),
        "flooded": ("127.0.1.249", "127.0.1.250", ["127.0.1.251", "127.0.1.252", "127.0.1.253", "127.0.1.254", "127.0.1.7",
                                                   "127.0.1.8", "127.0.1.9", "127.0.1.17", "127.0.1.18"])}
HELD_ADDRESSES = [address for listener, sender, nodes in HELD.values() for address in (listener, sender, *nodes)]
# A listener with --once, and a node that repeats the end of its connection.
STAYING, REPEATING = "127.0.1.33", "127.0.1.34"
# A listener whose router forwards from another network, the router, and a sender on that network, which has this node.
FORGED, FORGER, NAMED, FARTHER = "127.0.1.168", "127.0.1.169", "127.0.1.186", "00000045"
# A listener, and a node that asks for connections at once and sends nothing for some seconds.
PATIENT, QUIET = "127.0.1.97", "127.0.1.98"
# A listener, two nodes that have as many connections as they may have and ask for more, and one that sent nothing yet.
CROWDED, *OPENING = "127.0.1.19", "127.0.1.79", "127.0.1.90", "127.0.1.91"
PLACES = [ONCE, FIRST, SECOND, SLOW, *BOTH, *HELD_ADDRESSES, STAYING, REPEATING, FORGED, FORGER, NAMED, PATIENT, QUIET, CROWDED,
          *OPENING]
# A sender that gets no answer ends within this number of seconds, and one that is to get through where nodes hold connections
# within that.
ENDS, THROUGH = 6, 15
# The most connections of a listener, of one node there, and of one node there that sent nothing yet; for how many seconds one is
# silent that may be evicted where all are taken, and a little more.
MOST, OF_A_NODE, UNHEARD, SILENCE = 16, 8, 4, 10.1
# For how many seconds after that a node asks for one more connection, and gets none.
ASKING = 1.6
# For how many seconds more it asks where it may replace one of its own, so that a busy machine has time for that.
REPLACING = 3
# How many connections each of three nodes asks for, and how many it gets. The third one is silent.
UNEVEN, GOT = (6, 6, 5), [5, 6, 5]
# How many connections each of nine nodes holds; how often the first one asks for more then, each second, and how often at once,
# so that what one request evicts the next one takes; and for how many seconds before another node asks.
FLOODED, FLOOD, AT_ONCE, FLOODING = [7] + [1] * 8, 1000, 20, 1
# How often somebody asks in the name of a node, in seconds: so that each fifth request comes before the first of four is a
# second old, and the next one long after it is. And for how many seconds before that node asks: four are held then, of which
# the first is not given up before the sender ends that gets no answer.
FORGING, BEFORE = 0.24, 1
# The units of each connection that ends before its bytes are written, the bytes of each unit, and the buffers of the listener.
UNITS, UNIT, BUFFERS = 56, 534, 64
END, CONFIRMATION = 0xfe, 0xff
# The bits of a packet that asks for an acknowledgement, and of one that carries no data.
ASKS, SYSTEM = 0x40, 0x80
# For how many seconds a node sends nothing that answers when it is asked, and after how many seconds its answer comes.
PATIENCE, AWAY_BY = 4.5, 0.2
# For how many seconds nodes that have as many connections as they may have ask for more, and how often each second: one that sent
# nothing may be evicted after 1.5 seconds, and is given up after six.
CROWDING, CROWD = 3, 200
# How often an end is repeated, and each how many seconds; and after how many seconds of silence the listener ends.
TIMES, PAUSE, STAYS = 4, 2, (2.5, 4)
# How many bytes of the slow output are read each second, for how many seconds, and the least share of each sender.
RATE, SECONDS, SHARE = 1_000_000, 6, 1 / 3
AWAY = r"\[WARN  ipx\] \d+ (?:request was|requests were) turned away: no free slot \((\d+) since the start\)"
EVICTED = r"\[WARN  ipx\] 1 connection was evicted after 10 s of silence, for new requests \(1 since the start\)"


class Ending:
    """After how many seconds a process ended, not counting the time that the machine denied to it."""

    def __init__(self, process):
        self.process, self.seconds = process, None
        self.watch = Watch(process.popen.pid)
        self.thread = threading.Thread(target=self.wait, daemon=True)
        self.thread.start()

    def wait(self):
        seconds = self.watch.seconds()
        while not self.process.is_over():
            seconds = self.watch.seconds()
            time.sleep(0.02)
        self.seconds = seconds


def start_once(sites):
    """A listener with --once, a first sender that goes on for some time, and a second one."""
    sites.host("place-listener", NETWORK, ONCE, "127.0.1.89", "4002", listed("peers", [FIRST, SECOND]))
    for name, address in (("first", FIRST), ("second", SECOND)):
        sites.host(f"{name}-sender", NETWORK, address, "127.0.1.89", "4003")
    data = some_bytes(sites.seed + 13, 20_000)
    listener = sites.start_listener("--once", name="place-listener")
    until(listener.said, 5)
    pieces = [piece for at in range(0, len(data), 1000) for piece in (data[at:at + 1000], 0.5)]
    first = sites.start_sender("first-sender", pieces, NETWORK, ONCE)
    until(lambda: listener.out, 5)
    second = sites.start_sender("second-sender", [b"not of the first one"], NETWORK, ONCE)
    return listener, first, Ending(second), data


def check_once_taken(sites, listener, first, ending, data):
    """The second sender gets no answer, and the first one is not disturbed."""
    ending.thread.join(40)
    status, took, said = ending.process.status(0), ending.seconds or 99, ending.process.said()
    line = f"no answer from {NETWORK} {node(ONCE)} 4002; try ipx networks, then ipx ping"
    sites.check(f"a second sender to a listener with --once ends within {ENDS} seconds, and says why",
                status == 1 and said == [line] and took < ENDS, f"{status}, after {took:.2f} s, {said}")
    sites.check_transfer("and the first one goes on", listener, first, data)
    told = [line for line in listener.said() if re.fullmatch(AWAY, line)]
    sites.check("requests that were turned away are counted", bool(told), str(listener.said()[-2:]))


def read_slowly(pipe, counts, over):
    """Reads RATE bytes a second, and counts those below 128 and the others."""
    while not over.is_set():
        time.sleep(0.01)
        for byte in os.read(pipe, RATE // 100):
            counts[byte >= 128] += 1


def check_shares(sites):
    """Two senders to a listener whose output is read slowly each have their share of it."""
    more = "buffers = 1024\n"
    sites.host("shared-listener", NETWORK, SLOW, "127.0.1.89", "4002", more + listed("peers", BOTH))
    read, write = os.pipe()
    listener = sites.start_listener(name="shared-listener", stdout=write)
    os.close(write)
    until(listener.said, 5)
    senders = []
    for number, address in enumerate(BOTH):
        sites.host(f"shared-sender{number}", NETWORK, address, "127.0.1.89", "4003", more)
        data = bytes([1 + 128 * number]) * (2 * SECONDS * RATE)
        senders.append(sites.start_sender(f"shared-sender{number}", [data], NETWORK, SLOW))
    counts, over = [0, 0], threading.Event()
    thread = threading.Thread(target=read_slowly, args=(read, counts, over), daemon=True)
    thread.start()
    time.sleep(SECONDS)
    over.set()
    thread.join(5)
    total = sum(counts)
    sites.check("two senders to a listener whose output is read slowly have at least a third of it each",
                total > 0 and min(counts) >= SHARE * total, f"{counts[0]} and {counts[1]} bytes")
    for process in (listener, *senders):
        process.end()
    os.close(read)


class Holder:
    """A node that asks a listener for connections, sends a byte on each as it is accepted, and again when it is told to."""

    def __init__(self, sites, ip, listener, wanted):
        self.ip, self.listener, self.port = ip, listener, sites.port
        self.socket = bound(ip, sites.port)
        self.numbers = range(1, wanted + 1)
        # By the connection's id here: the listener's id of it, how many bytes were sent on it, and how many were acknowledged.
        self.accepted, self.sent, self.acknowledged = {}, {}, {}
        # The connections whose end was confirmed.
        self.confirmed = set()

    def body(self, _number):
        """What is sent on a connection at once."""
        return b"."

    def read(self):
        """Reads all that came. It sends a byte on each connection that was accepted."""
        while True:
            try:
                packet = self.socket.recv(2048)
            except BlockingIOError:
                return
            stream, there, here, _, acknowledged = struct.unpack(">BHHHH", packet[31:40])
            self.acknowledged[here] = acknowledged
            if stream == CONFIRMATION:
                self.confirmed.add(here)
            if here not in self.accepted:
                self.accepted[here], self.sent[here] = there, 0
                self.begin(here)

    def begin(self, number):
        """What is done with a connection as it is accepted."""
        self.send(number)

    def send(self, number, stream=0):
        header = struct.pack(">BBHHHHH", 0x50, stream, number, self.accepted[number], self.sent[number], 0, 7)
        self.sent[number] += 1
        body = b"" if stream == END else self.body(number)
        packet = ipx(5, (NETWORK, node(self.listener), "4002"), (NETWORK, node(self.ip), "4003"), header + body)
        self.socket.sendto(packet, (self.listener, self.port))

    def ask(self):
        """Asks for each connection that was not accepted, and waits a little for the answer, and until the byte on it is
        acknowledged: a node may have few connections of which nothing was heard."""
        for number in self.numbers:
            if number not in self.accepted:
                call(self.socket, self.ip, self.listener, self.port, number)
                until(lambda: self.is_heard(number), 0.05)  # pylint: disable=cell-var-from-loop

    def is_heard(self, number):
        """Whether all that was sent on a connection is acknowledged."""
        self.read()
        return number in self.accepted and self.acknowledged[number] == self.sent[number]

    def speak(self):
        for number in self.accepted:
            self.send(number)

    def heard(self):
        """The connections on which all is acknowledged that was sent."""
        return [number for number in self.numbers if self.is_heard(number)]


def start_later(sites, name, go, data, listener=None, again=0):
    """The sender to one of the listeners, which waits for an event first. It is started again so often if it gets no answer: it
    reads nothing before it has one."""
    script = "read -r line && " + '"$0" "$@" || ' * again + 'exec "$0" "$@"'
    sender = sites.world.start(
        f"{name}-kept-out", "-c", script, sites.world.program, "send", sites.world.path(f"{name}-kept-out.toml"), NETWORK,
        node(listener or HELD[name][0]), "4002", stdin=True, program="/bin/sh")
    sender.feed([go, b"\n", data])
    return sender


class Held:
    """A listener of which nodes hold connections, as many as `wanted` says of each, and a sender of another node. So many of the
    nodes, `speaking`, speak again each `every` seconds. The sender starts after `after` seconds, and all goes on for `every`
    seconds at least. In the end each node speaks on each connection, which shows which of them are still held. The last node
    asks first; the others ask on for what they did not get, until the sender starts if that is later."""
    # How often the sender is started again.
    again = 0

    def __init__(self, sites, name, wanted, speaking, every, after):
        address, sender, nodes = HELD[name]
        self.speaking, self.every, self.after = speaking, every, after
        sites.host(f"{name}-holders", NETWORK, address, "127.0.1.89", "4002", listed("peers", [sender, *nodes]))
        # It has a socket of its own, since it may be of one of the nodes.
        sites.host(f"{name}-kept-out", NETWORK, sender, "127.0.1.89", "4004")
        self.data = bytes(byte | 128 for byte in some_bytes(sites.seed + 14, 20_000))
        self.listener = sites.start_listener(name=f"{name}-holders")
        # The main thread starts the sender, which waits for a line first.
        self.go, self.ending = threading.Event(), None
        self.sender = start_later(sites, name, self.go, self.data, again=self.again)
        until(self.listener.said, 5)
        self.holders = [Holder(sites, ip, address, number) for ip, number in zip(nodes, wanted)]
        # The connections that were accepted of each node as the sender starts, and on which all is acknowledged at last.
        self.accepted = self.heard = None
        # The lines that tell of evicted connections as the sender starts.
        self.evicted = []
        self.thread = threading.Thread(target=self.run, daemon=True)
        self.thread.start()

    def ask(self):
        """Each node asks for what was not accepted, once the nodes after it have all. Returns whether all have all."""
        for holder in reversed(self.holders):
            holder.ask()
            if len(holder.accepted) < len(holder.numbers):
                return False
        return True

    def run(self):
        until(self.ask, 1)
        start = asked = spoke = time.monotonic()
        while not self.ending or self.ending.thread.is_alive() or time.monotonic() < start + self.every:
            time.sleep(0.02)
            now = time.monotonic()
            if now >= asked + 0.5 and not (self.after and self.ending):
                asked = now
                self.ask()
            if now >= spoke + self.every:
                spoke = now
                for holder in self.holders[:self.speaking]:
                    holder.speak()
            if now >= start + self.after and not self.ending:
                self.accepted = [len(holder.accepted) for holder in self.holders]
                self.start_sender()
        self.speak()

    def start_sender(self):
        self.evicted = [line for line in self.listener.said() if "evicted" in line]
        self.ending = Ending(self.sender)
        self.go.set()

    def speak(self):
        """Each node speaks on each connection, and those are counted on which that is acknowledged."""
        for holder in self.holders:
            holder.speak()
        time.sleep(0.5)
        self.heard = [len(holder.heard()) for holder in self.holders]

    def ended(self):
        """The status of the sender, after how many seconds it ended, what it said, and its bytes that the listener wrote."""
        self.thread.join(40)
        seconds = 99
        if self.ending:
            self.ending.thread.join(5)
            seconds = self.ending.seconds or 99
        came = bytes(byte for byte in self.listener.out if byte >= 128)
        return self.sender.status(0), seconds, self.sender.said(), came

    def end(self):
        for holder in self.holders:
            holder.socket.close()
        for process in (self.listener, self.sender):
            process.end()


class Answerer(Holder):
    """A node far away that sends nothing on a connection by itself, but answers when it is asked whether it is there."""

    def __init__(self, *what):
        super().__init__(*what)
        # The answers on their way: when each is sent, and it.
        self.answers = []

    def answer(self):
        """Sends the answers that are due."""
        while self.answers and self.answers[0][0] <= time.monotonic():
            self.socket.sendto(self.answers.pop(0)[1], (self.listener, self.port))

    def read(self):
        self.answer()
        while True:
            try:
                packet = self.socket.recv(2048)
            except BlockingIOError:
                return
            control, _, there, here, number, self.acknowledged[here], _ = struct.unpack(">BBHHHHH", packet[30:42])
            if here not in self.accepted:
                self.accepted[here], self.sent[here] = there, 0
            elif control & ASKS and not control & SYSTEM:
                header = struct.pack(">BBHHHHH", SYSTEM, 0, here, there, self.sent[here], number + 1, 7)
                packet = ipx(5, (NETWORK, node(self.listener), "4002"), (NETWORK, node(self.ip), "4003"), header)
                self.answers.append((time.monotonic() + AWAY_BY, packet))


class Patient:
    """A listener, and a node that asks for as many connections as it may have. It answers when it is asked, and sends on each
    after some seconds."""

    def __init__(self, sites):
        sites.host("patient-listener", NETWORK, PATIENT, "127.0.1.89", "4002", listed("peers", [QUIET]))
        self.listener = sites.start_listener(name="patient-listener")
        until(self.listener.said, 5)
        self.holder = Answerer(sites, QUIET, PATIENT, OF_A_NODE)
        self.accepted = self.heard = self.lost = None
        self.thread = threading.Thread(target=self.run, daemon=True)
        self.thread.start()

    def run(self):
        start, asked = time.monotonic(), 0
        while time.monotonic() < start + PATIENCE:
            if time.monotonic() >= asked + AWAY_BY / 2:
                asked = time.monotonic()
                self.holder.ask()
            time.sleep(0.01)
            self.holder.read()
        self.accepted = len(self.holder.accepted)
        self.holder.speak()
        time.sleep(0.5)
        self.heard = len(self.holder.heard())
        # (nobody answers for them from now on, so they are lost before long)
        self.lost = [line for line in self.listener.said() if "lost" in line or "evicted" in line]

    def check(self, sites):
        self.thread.join(20)
        sites.check(f"{OF_A_NODE} connections of one node that send nothing for seconds, but answer, are all kept",
                    self.accepted == self.heard == OF_A_NODE and not self.lost,
                    f"{self.accepted} accepted, {self.heard} acknowledged, {self.lost}")

    def end(self):
        self.holder.socket.close()
        self.listener.end()


class Opener(Holder):
    """A node that sends nothing on its connections until it is told to, and does not answer when it is asked."""

    def begin(self, number):
        pass


class Crowded:
    """A listener of which three nodes hold all connections. The first one has as many as it may have, and sent on each. The
    second one has as many as it may have that sent nothing. Both ask for more for CROWDING seconds. The third one also sent
    nothing until then. In the end the first and the third speak on each, which shows which of them are still held."""

    def __init__(self, sites):
        sites.host("crowded-holders", NETWORK, CROWDED, "127.0.1.89", "4002", listed("peers", OPENING))
        self.listener = sites.start_listener(name="crowded-holders")
        until(self.listener.said, 5)
        kinds = (Holder, OF_A_NODE), (Opener, UNHEARD), (Opener, UNHEARD)
        self.holders = [kind(sites, ip, CROWDED, wanted) for (kind, wanted), ip in zip(kinds, OPENING)]
        self.accepted = self.heard = None
        self.thread = threading.Thread(target=self.run, daemon=True)
        self.thread.start()

    def ask(self):
        """Each node asks for what was not accepted, the last one first. Returns whether all have all."""
        for holder in reversed(self.holders):
            holder.ask()
        return all(len(holder.accepted) == len(holder.numbers) for holder in self.holders)

    def run(self):
        until(self.ask, 10)
        self.accepted = [len(holder.accepted) for holder in self.holders]
        start, numbers = time.monotonic(), itertools.count(0x1000)
        while time.monotonic() < start + CROWDING:
            number = next(numbers)
            for holder in self.holders[:2]:
                call(holder.socket, holder.ip, CROWDED, holder.port, number)
            time.sleep(1 / CROWD)
        for holder in self.holders[::2]:
            holder.speak()
        time.sleep(0.5)
        self.heard = [len(holder.heard()) for holder in self.holders[::2]]

    def check(self, sites):
        """Nobody who has as many as it may have evicts one of another node."""
        self.thread.join(20)
        wanted = [len(holder.numbers) for holder in self.holders]
        found = f"{self.accepted} accepted, {self.heard} acknowledged"
        sites.check(f"where all are taken, nodes with {OF_A_NODE} connections, or {UNHEARD} that sent nothing, ask for more, and "
                    "evict none of another node that sent nothing for 1.5 s and more",
                    self.accepted == wanted and self.heard[1] == UNHEARD, found)
        sites.check("nor one that spoke", self.heard[0] == OF_A_NODE, found)
        check_line(sites, "and their requests are counted", self, AWAY)

    def end(self):
        for holder in self.holders:
            holder.socket.close()
        self.listener.end()


class Restarted(Held):
    """A node holds as many connections as it may have, and sends on each. Its socket is closed then, as that of a program that
    ended, and after SILENCE seconds a sender of the same node asks for one more. In the end the node speaks on each, which
    shows which of them are still held."""

    def __init__(self, sites):
        super().__init__(sites, "restarted", [OF_A_NODE], 0, 0, SILENCE)

    def run(self):
        holder, = self.holders
        until(self.ask, 10)
        self.accepted = [len(holder.accepted)]
        holder.socket.close()
        time.sleep(self.after)
        self.start_sender()
        self.ending.thread.join(30)
        holder.socket = bound(holder.ip, holder.port)
        self.speak()


class Flooded(Held):
    """A node holds many connections, others one each, and all are silent for SILENCE seconds. Then another process asks from the
    first one again and again, until a sender of one more node has ended. In the end each node speaks on each connection."""
    # It needs six of ten requests, and more where the machine is busy.
    again = 1

    def __init__(self, sites):
        listener, _, nodes = HELD["flooded"]
        self.flood = threading.Event()
        self.flooder = sites.world.start(
            "flooder", "-B", os.path.abspath(__file__), nodes[0], listener, str(sites.port), stdin=True, program=sys.executable,
            environment={"PYTHONPATH": os.pathsep.join(sys.path)})
        self.flooder.feed([self.flood, b"\n"])
        super().__init__(sites, "flooded", FLOODED, 0, 0, SILENCE)

    def run(self):
        first = self.holders[0]
        until(self.ask, 10)
        self.accepted = [len(holder.accepted) for holder in self.holders]
        time.sleep(self.after)
        first.socket.close()
        self.flood.set()
        time.sleep(FLOODING)
        self.start_sender()
        self.ending.thread.join(30)
        self.flooder.end()
        first.socket = bound(first.ip, first.port)
        self.speak()

    def end(self):
        self.flooder.end()
        super().end()


class Forged:
    """A listener, and a router that forwards between it and a node of another network. Somebody beyond that router asks for
    connections in the name of that node. Then a sender of that node starts."""

    def __init__(self, sites):
        sites.host("forged-holder", NETWORK, FORGED, FORGER, "4002")
        sites.host("forged-kept-out", FARTHER, NAMED, FORGER, "4003")
        self.port, self.socket = sites.port, bound(FORGER, sites.port)
        self.data = some_bytes(sites.seed + 15, 20_000)
        self.listener = sites.start_listener(name="forged-holder")
        self.go, self.ending = threading.Event(), None
        self.sender = start_later(sites, "forged", self.go, self.data, FORGED)
        until(self.listener.said, 5)
        self.thread = threading.Thread(target=self.run, daemon=True)
        self.thread.start()

    def forge(self, number):
        """A request in the name of the node, from another of its sockets."""
        header = struct.pack(">BBHHHHH", 0xc0, 0, number, 0xffff, 0, 0, 7)
        source = (FARTHER, node(NAMED), "4004")
        self.socket.sendto(ipx(5, (NETWORK, node(FORGED), "4002"), source, header, 1), (FORGED, self.port))

    def forward(self):
        """Forwards what comes, for some time."""
        if select.select([self.socket], [], [], 0.01)[0]:
            packet = bytearray(self.socket.recv(2048))
            packet[4] += 1
            self.socket.sendto(packet, (FORGED if packet[6:10].hex() == NETWORK else NAMED, self.port))

    def run(self):
        start, number = time.monotonic(), 0
        while not self.ending or self.ending.thread.is_alive():
            now = time.monotonic()
            if now >= start + number * FORGING:
                number += 1
                self.forge(number)
            if now >= start + BEFORE and not self.ending:
                self.ending = Ending(self.sender)
                self.go.set()
            self.forward()

    def ended(self):
        """The status of the sender, after how many seconds it ended, what it said, and what the listener wrote."""
        self.thread.join(40)
        seconds = self.ending.seconds or 99 if self.ending else 99
        return self.sender.status(0), seconds, self.sender.said(), bytes(self.listener.out)

    def end(self):
        self.socket.close()
        for process in (self.listener, self.sender):
            process.end()


class Ender(Holder):
    """A node that sends UNITS units on each of its connections and ends it. The bytes of each connection have a value of their
    own, the number of the connection and `before`."""

    def __init__(self, sites, ip, listener, before):
        super().__init__(sites, ip, listener, OF_A_NODE)
        self.before = before

    def body(self, number):
        return bytes([self.before + number]) * UNIT

    def end(self, number):
        """Sends the rest on a connection, and its end, and again what is not acknowledged. Returns whether all was
        acknowledged and the end confirmed, as a sender with status 0 has it."""
        for _ in range(5):
            self.sent[number] = min(self.acknowledged[number], UNITS)
            while self.sent[number] < UNITS:
                self.send(number)
            self.send(number, END)
            if until(lambda: self.is_heard(number) and number in self.confirmed, 0.5):
                return True
        return False


class Ended:
    """A listener whose output nobody reads: a pipe, full as it starts. Two nodes take all of its connections, send on each and
    end it. When they were silent for SILENCE seconds a sender of another node starts; and when that ended, the pipe is read
    until nothing comes any more."""

    def __init__(self, sites):
        address, sender, nodes = HELD["ended"]
        sites.host("ended-holders", NETWORK, address, "127.0.1.89", "4002",
                   f"buffers = {BUFFERS}\n" + listed("peers", [sender, *nodes]))
        sites.host("ended-kept-out", NETWORK, sender, "127.0.1.89", "4003")
        self.pipe, write = os.pipe()
        os.set_blocking(write, False)
        try:
            while True:
                os.write(write, bytes(4096))
        except BlockingIOError:
            os.set_blocking(write, True)
        self.listener = sites.start_listener(name="ended-holders", stdout=write)
        os.close(write)
        self.go, self.ending = threading.Event(), None
        self.sender = start_later(sites, "ended", self.go, bytes([128]) * 1000)
        until(self.listener.said, 5)
        self.holders = [Ender(sites, ip, address, OF_A_NODE * number) for number, ip in enumerate(nodes)]
        # The values of the connections that ended well, and how many bytes of each value came.
        self.well, self.came = [], collections.Counter()
        self.thread = threading.Thread(target=self.run, daemon=True)
        self.thread.start()

    def ask(self):
        """Asks for what was not accepted, and returns whether all is."""
        for holder in self.holders:
            holder.ask()
        return all(len(holder.accepted) == OF_A_NODE for holder in self.holders)

    def run(self):
        until(self.ask, 10)
        self.well = [holder.before + number for holder in self.holders for number in holder.accepted if holder.end(number)]
        time.sleep(SILENCE)
        self.ending = Ending(self.sender)
        self.go.set()
        self.ending.thread.join(ENDS + 2)
        while select.select([self.pipe], [], [], 3)[0] and (some := os.read(self.pipe, 1 << 16)):
            self.came.update(some)

    def ended(self):
        """The status of the sender, after how many seconds it ended, and what it said."""
        self.thread.join(40)
        seconds = 99
        if self.ending:
            self.ending.thread.join(5)
            seconds = self.ending.seconds or 99
        return self.sender.status(0), seconds, self.sender.said()

    def end(self):
        for holder in self.holders:
            holder.socket.close()
        for process in (self.listener, self.sender):
            process.end()
        os.close(self.pipe)


class Repeated:
    """A listener with --once, and a node that repeats its end, as a sender does that gets no confirmation."""

    def __init__(self, sites):
        sites.host("staying-listener", NETWORK, STAYING, "127.0.1.89", "4002", listed("peers", [REPEATING]))
        self.listener = sites.start_listener("--once", name="staying-listener")
        until(self.listener.said, 5)
        self.holder = Holder(sites, REPEATING, STAYING, 1)
        # How often the end was confirmed, and how long the listener stayed after the last one.
        self.confirmed, self.ending = 0, None
        self.thread = threading.Thread(target=self.run, daemon=True)
        self.thread.start()

    def is_heard(self):
        self.holder.ask()
        return self.holder.heard() == [1]

    def end(self):
        """Sends the end, and returns whether it is confirmed."""
        self.holder.sent[1] = 1
        self.holder.confirmed.clear()
        self.holder.send(1, END)
        return until(lambda: self.holder.is_heard(1) and self.holder.confirmed, 1)

    def run(self):
        if not until(self.is_heard, 5):
            return
        for _ in range(TIMES):
            time.sleep(PAUSE)
            self.confirmed += self.end()
        self.ending = Ending(self.listener)

    def check(self, sites):
        """It confirmed each end, and ended soon after the last one."""
        self.thread.join(30)
        seconds = 99
        if self.ending:
            self.ending.thread.join(10)
            seconds = self.ending.seconds or 99
        sites.check(f"a listener with --once confirms an end that is repeated for {TIMES * PAUSE} seconds, each time",
                    self.confirmed == TIMES, f"{self.confirmed} of {TIMES} times")
        status = self.listener.status(0)
        sites.check("and ends three seconds after the last one with status 0", status == 0 and self.listener.out == b"."
                    and STAYS[0] < seconds < STAYS[1], f"{status}, after {seconds:.2f} s, {bytes(self.listener.out)}")
        self.holder.socket.close()
        self.listener.end()


def start_held(sites):
    """A node that asks for all connections; two that hold all, of which one is silent then, and the other one asks for one more;
    two that go on to speak; three that hold all, of which the one with the fewest is silent, and the other one with so few asks
    for one more; two that hold all and are silent, of which one asks for one more; and two that end all before their bytes are
    written. A node that holds all that it may, and restarts; one that asks again and again; one in whose name somebody else
    does; one that sends nothing for some seconds; and one that does so while two others ask for more than they may have. And a
    node that repeats its end."""
    return {"one": Held(sites, "one", [MOST], 1, 5, 0),
            "silent": Held(sites, "silent", [OF_A_NODE + 1, OF_A_NODE], 1, 3, SILENCE + ASKING),
            "busy": Held(sites, "busy", [OF_A_NODE] * 2, 2, 3, SILENCE),
            "uneven": Held(sites, "uneven", UNEVEN, 2, 3, SILENCE + ASKING),
            "own": Held(sites, "own", [OF_A_NODE + 1, OF_A_NODE], 0, 3, SILENCE + ASKING + REPLACING),
            "ended": Ended(sites),
            "restarted": Restarted(sites),
            "flooded": Flooded(sites),
            "forged": Forged(sites),
            "patient": Patient(sites),
            "crowded": Crowded(sites),
            "repeated": Repeated(sites)}


def check_held(sites, held):
    """Who gets a slot there, and who keeps one."""
    held.pop("repeated").check(sites)
    one = held["one"]
    check_through(sites, "a sender to a listener of which another node asks for all connections gets through", one)
    sites.check(f"of {MOST} connections that one node asks for it gets {OF_A_NODE}",
                one.accepted == [OF_A_NODE] and one.heard == [OF_A_NODE], f"{one.accepted} accepted, {one.heard} acknowledged")
    check_line(sites, "and its other requests are counted", one, AWAY)
    silent = held["silent"]
    check_through(sites, "a sender to one whose connections are all taken, half of them silent for 10 s, gets through", silent)
    sites.check("for which one of those is evicted, and none that speaks",
                silent.accepted == [OF_A_NODE] * 2 and silent.heard == [OF_A_NODE, OF_A_NODE - 1],
                f"{silent.accepted} accepted, {silent.heard} acknowledged")
    check_line(sites, "and is counted", silent, EVICTED)
    sites.check(f"and none before for the other node, which asks for one more than {OF_A_NODE}", not silent.evicted,
                str(silent.evicted))
    check_uneven(sites, held["uneven"])
    check_own(sites, held["own"])
    busy = held["busy"]
    status, took, said, _ = busy.ended()
    line = f"no answer from {NETWORK} {node(HELD['busy'][0])} 4002; try ipx networks, then ipx ping"
    sites.check(f"a sender to one whose connections are all taken, and speak, ends within {ENDS} seconds, and says why",
                status == 1 and said == [line] and took < ENDS, f"{status}, after {took:.2f} s, {said}")
    sites.check("and all of them stay", busy.accepted == busy.heard == [OF_A_NODE] * 2,
                f"{busy.accepted} accepted, {busy.heard} acknowledged")
    check_line(sites, "and its requests are counted", busy, AWAY)
    check_ended(sites, held["ended"])
    check_restarted(sites, held["restarted"])
    check_flooded(sites, held["flooded"])
    check_through(sites, f"a sender in whose name somebody else asks {1 / FORGING:.0f} times a second gets through",
                  held["forged"])
    held["patient"].check(sites)
    held["crowded"].check(sites)
    for it in held.values():
        it.end()


def check_uneven(sites, it):
    """Nobody is evicted for a node that holds as many, and a node that speaks does not protect one that holds less."""
    held = ", ".join(str(number) for number in GOT)
    sites.check(f"of three nodes that hold {held}, the first asks for one more, and evicts none of the third, which is silent",
                it.accepted == GOT and not it.evicted, f"{it.accepted} accepted, {it.evicted}")
    check_through(sites, "a sender of a fourth node gets through there", it)
    sites.check("for which one of the third node is evicted, though the second, which speaks, has more",
                it.heard == [*GOT[:2], GOT[2] - 1], f"{it.heard} acknowledged")
    check_line(sites, "and is counted, too", it, EVICTED)


def check_own(sites, it):
    """A node replaces a silent connection of its own where nobody holds more, and takes none of the other node."""
    sites.check(f"a node with {OF_A_NODE} silent connections gets one more, once they are silent for 10 s, if all are taken",
                it.accepted == [OF_A_NODE + 1, OF_A_NODE] and len(it.evicted) == 1, f"{it.accepted} accepted, {it.evicted}")
    check_through(sites, "a sender of a third node gets through there", it)
    sites.check("and the node that asked lost one of its own, the other node one for that sender",
                it.heard == [OF_A_NODE, OF_A_NODE - 1], f"{it.heard} acknowledged")


def check_ended(sites, it):
    """None is evicted that ended well, and its bytes come as the output is read."""
    status, took, said = it.ended()
    sites.check(f"{MOST} connections end well although nothing that they sent can be written",
                it.well == list(range(1, MOST + 1)), f"{len(it.well)} of them")
    line = f"no answer from {NETWORK} {node(HELD['ended'][0])} 4002; try ipx networks, then ipx ping"
    sites.check(f"a sender that asks 10 s later ends within {ENDS} seconds, and says why",
                status == 1 and said == [line] and took < ENDS, f"{status}, after {took:.2f} s, {said}")
    check_line(sites, "and its requests are counted there", it, AWAY)
    missing = {value: UNITS * UNIT - it.came[value] for value in it.well if it.came[value] != UNITS * UNIT}
    sites.check("and as the output is read, all bytes of those that ended well come", it.well and not missing,
                f"missing, by their value: {missing}" if missing else "")


def check_restarted(sites, it):
    """A node replaces a silent connection of its own where it holds as many as it may have, though there are free slots."""
    check_through(sites, f"a sender of a node with {OF_A_NODE} connections that are silent for 10 s gets through, if no other "
                  "node has any", it)
    sites.check("for which one of those is evicted", it.accepted == [OF_A_NODE] and it.heard == [OF_A_NODE - 1],
                f"{it.accepted} accepted, {it.heard} acknowledged")
    check_line(sites, "and is counted there", it, EVICTED)


def check_flooded(sites, it):
    """A node that asks for more and more protects none of its own silent connections."""
    check_through(sites, f"a sender that dials twice at most gets through while a node with {FLOODED[0]} silent connections asks "
                  f"for more, some {FLOOD} times a second, and others hold the rest", it)
    sites.check("and those others keep theirs", it.accepted == FLOODED and it.heard[1:] == FLOODED[1:],
                f"{it.accepted} accepted, {it.heard} acknowledged")


def check_through(sites, name, held):
    """The sender ends with status 0 soon, and all its bytes came."""
    status, took, said, came = held.ended()
    sites.check(name, status == 0 and took < THROUGH and came == held.data,
                f"{status}, after {took:.2f} s, {len(came)} of {len(held.data)} bytes, {said}")


def check_line(sites, name, held, line):
    """The listener logged such a line."""
    sites.check(name, any(re.fullmatch(line, said) for said in held.listener.said()), str(held.listener.said()[-2:]))


def flood(ip, listener, udp_port):
    """Asks a listener for connections from a node, each time another one, until it is ended."""
    with bound(ip, udp_port) as one:
        for first in itertools.cycle(range(0x1000, 0xf000, AT_ONCE)):
            for number in range(first, first + AT_ONCE):
                call(one, ip, listener, udp_port, number)
            time.sleep(AT_ONCE / FLOOD)


if __name__ == "__main__":
    sys.stdin.readline()
    flood(*sys.argv[1:3], int(sys.argv[3]))
