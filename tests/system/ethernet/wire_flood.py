"""10,000 random frames a second from an end of a wire, while packets of others go on, for `wires`."""
import os
import random
import select
import socket
import subprocess
import sys
import time

from site_packets import ipx, some_datagram
from site_world import Watch, bound, die_with_the_parent, free_port, until
from wire_frames import EVERYBODY, KINDS, LINKS, frame, header, passed_on
from wire_world import FATES, End, Router, WirePort

ROUTER, FLOODER, SINK, OTHERS = "127.0.3.1", "127.0.3.9", "127.0.3.8", ["127.0.3.10", "127.0.3.11"]
FLOODED, NETWORKS = "00000001", ["00000031", "00000032"]
FLOODER_STATION, STATIONS = "02000000f100", ["02000000f101", "02000000f102"]
# In each round the frames go for so many seconds to a socket that nobody reads, and then for so many to the router: the others'
# rate beside the first is what that of the others beside the second is compared with, since both times as much else is done.
PER_SECOND, ROUNDS, APART, FLOODED_SECONDS = 10_000, 4, 1, 2.5
# How many packets of others are sent a second, at most so many at once; and which share of them goes on beside the flood.
OFFERED, AT_ONCE, SHARE = 10_000, 64, 0.9
# How many of the frames the router reads at least. What it has no time for, the kernel drops, and counts.
READ = 0.9
# How much memory it may take more as its tables fill, and how much more in the second half, of 50,000 frames, when they are
# full.
PAGES = os.sysconf("SC_PAGESIZE") // 1024
MEMORY_KB, LEVEL_KB = 8192, 256


def random_frame(rng, own):
    """Bytes that are anything; addresses and what is anything; or a packet that is in order, or nearly, in a frame."""
    way = rng.random()
    if way < 0.3:
        return rng.randbytes(rng.randrange(1600))
    to = rng.choice([own, EVERYBODY, rng.randbytes(6).hex()])
    source = FLOODER_STATION if rng.random() < 0.5 else (b"\x02" + rng.randbytes(5)).hex()
    if way < 0.5:
        says = rng.choice([0x8137, 0x0800, 0x86dd, 0x8100, 46, 1500, rng.randrange(65536)])
        begins = rng.choice([b"\xff\xff", *LINKS.values()])
        return header(to, source, says) + begins + rng.randbytes(rng.randrange(1500))
    bytes_ = bytearray(frame(rng.choice(KINDS), to, source, some_datagram(rng, source, STATIONS)[:1490]))
    if rng.random() < 0.2:
        bytes_[rng.randrange(len(bytes_))] = rng.randrange(256)
    return bytes(bytes_)


def dropped(address, port):
    """How many datagrams the kernel dropped at a socket, since nobody had read those before them."""
    place = f"{int.from_bytes(socket.inet_aton(address), sys.byteorder):08X}:{port:04X}"
    with open("/proc/net/udp", encoding="ascii") as file:
        return sum(int(words[-1]) for words in map(str.split, file) if words[1] == place)


def flood(port, seed, own):
    """Sends them to an address, so many a second, until its input has a line with another one, or ends; and says how many went
    to each, and how long that took. Where it is behind, since the machine is loaded, it sends few at once."""
    rng, one = random.Random(seed), bound(FLOODER, port)
    frames = [random_frame(rng, own) for _ in range(PER_SECOND)]
    print("ready", flush=True)
    while address := sys.stdin.readline().strip():
        start, sent = time.monotonic(), 0
        while not select.select([sys.stdin], [], [], 0.002)[0]:
            due = min(int((time.monotonic() - start) * PER_SECOND) + 1, sent + AT_ONCE)
            while sent < due:
                if select.select([], [one], [], 1)[1]:
                    one.sendto(frames[(sent + seed) % PER_SECOND], (address, port))
                    sent += 1
        seed += sent
        print(sent, time.monotonic() - start, flush=True)


class Flood:
    """A router with a wire that is flooded, and two others between which packets go."""

    def __init__(self, wires):
        self.wires, self.sent = wires, 0
        self.udp_port = free_port([ROUTER, FLOODER, SINK, *OTHERS], 3)
        self.sink = bound(SINK, self.udp_port)
        ends = [(address, self.udp_port) for address in OTHERS]
        flooders = [(FLOODER, self.udp_port), (FLOODER, self.udp_port + 1)]
        ports = [WirePort(FLOODED, "802.2", (ROUTER, self.udp_port), flooders, "0200000000f0")]
        ports += [WirePort(network, "ethernet-ii", (ROUTER, self.udp_port + number), [end])
                  for number, (network, end) in enumerate(zip(NETWORKS, ends), 1)]
        self.router = Router(wires, "flooded", ports)
        self.giver, self.taker = (End(port, end, station) for port, end, station in zip(ports[1:], ends, STATIONS))
        packet = ipx(0, (NETWORKS[1], STATIONS[1], "4002"), (NETWORKS[0], STATIONS[0], "4001"), bytes(500))
        self.given = frame(ports[1].kind, ports[1].node, STATIONS[0], packet)
        self.taken = ports[2].sends(STATIONS[1], passed_on(packet, NETWORKS[0]))

    def words(self):
        return [sys.executable, os.path.join(os.path.dirname(os.path.abspath(__file__)), "wires"), "--flood",
                str(self.udp_port), str(self.wires.seed), self.router.ports[0].node]

    def took(self):
        """How many packets came to the other end by now."""
        count, one = 0, self.taker.socket
        while True:
            try:
                count += one.recv(2000) == self.taken
            except BlockingIOError:
                return count

    def rate(self, seconds):
        """How many packets a second go through, of those that are sent at an even pace, once none comes any more that was
        sent before. One that is behind, since the machine is loaded, sends few at once."""
        until(lambda: not self.took() and not time.sleep(0.05) and not self.took(), 10)
        start, came, sent = time.monotonic(), 0, 0
        while time.monotonic() < start + seconds:
            due = min(int((time.monotonic() - start) * OFFERED) + 1, sent + AT_ONCE)
            while sent < due:
                self.giver.socket.sendto(self.given, self.giver.port.place)
                sent += 1
            select.select([self.taker.socket], [], [], 0.001)
            came += self.took()
        time.sleep(0.1)
        return (came + self.took()) / seconds

    @staticmethod
    def counts(found):
        """What became of frames at the port that is flooded, by the figures."""
        return {fate: found.get(f'ipx_frames_total{{port="1",outcome="{fate}"}}', 0) for fate in FATES}

    def memory(self):
        """The router's memory in kB."""
        with open(f"/proc/{self.router.process.popen.pid}/statm", encoding="ascii") as file:
            return int(file.read().split()[1]) * PAGES

    def flooded(self):
        """The others' rates beside the flood elsewhere and beside that of the router; the memory before, in the middle and at
        the end; and how many frames a second were sent to the router."""
        with subprocess.Popen(self.words(), stdin=subprocess.PIPE, stdout=subprocess.PIPE, text=True, bufsize=1,
                              preexec_fn=die_with_the_parent) as flooder:
            flooder.stdout.readline()
            rates, took, memory = {SINK: [], ROUTER: []}, 0.0, [self.memory()]
            for number in range(1, ROUNDS + 1):
                for address, seconds in ((SINK, APART), (ROUTER, FLOODED_SECONDS)):
                    flooder.stdin.write(address + "\n")
                    rates[address].append(self.rate(seconds))
                if number in (ROUNDS // 2, ROUNDS):
                    memory.append(self.memory())
            flooder.stdin.close()
            for number, line in enumerate(flooder.stdout):
                if number % 2:
                    self.sent, took = self.sent + int(line.split()[0]), took + float(line.split()[1])
        return sum(rates[SINK]) / ROUNDS, sum(rates[ROUTER]) / ROUNDS, memory, self.sent / took


def check_frames(wires, it, least):
    """What became of the frames that were sent, of which at least a share was read."""
    def total(found):
        return sum(it.counts(found).values())

    def lost():
        return dropped(ROUTER, it.udp_port)

    found = it.router.figures(lambda found: total(found) + lost() >= it.sent)
    counts, missed = it.counts(found), lost()
    none = {fate for fate, count in counts.items() if not count}
    wires.check("each frame that the kernel did not drop is counted, and all that can become of them did",
                total(found) + missed == it.sent and total(found) >= least * it.sent and none <= {"own", "in_802.2"},
                f"{total(found)} and {missed} of {it.sent}: {counts}")


def check_flood(wires):
    """The rate of the others, the memory, and that the frames came."""
    it = Flood(wires)
    it.router.start()
    until(lambda: it.taker.take() is not None and it.taker.heard, 10)
    it.rate(1)
    watch = Watch(it.router.process.popen.pid)
    apart, during, memory, sent = it.flooded()
    name = f"others' packets, while {PER_SECOND} random frames a second come from an end"
    wires.check(f"{name}: at least {SHARE} of their rate while as many go elsewhere", apart and during >= SHARE * apart,
                f"{during:.0f} of {apart:.0f} a second, {sent:.0f} frames a second; the router was denied {watch.denied():.2f} s")
    level = memory[2] - memory[0] < MEMORY_KB and memory[2] - memory[1] < LEVEL_KB
    wires.check("the router's memory stays level meanwhile", level, f"{memory} kB")
    check_frames(wires, it, READ)
    wires.check("the router goes on behind them", not it.router.process.is_over() and it.rate(0.5) > 0)
    it.router.process.end()
    it.sink.close()
