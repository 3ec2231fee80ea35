"""Files over four wires of four encapsulations at one router, with a router of a site at the other end of each, and a
station beside both at one of them, for `wires`."""
from site_packets import ipx
from site_world import free_port, node, some_bytes, until
from wire_frames import ALL_ROUTES, EVERYBODY, KINDS, RIP, frame, passed_on, routes
from wire_world import End, Router, UdpPort, WirePort

SIZE = 1_000_000
MIDDLE, STATION = "127.0.4.1", "127.0.4.2"
# Of each site: its router on the wire and among its hosts, the host that listens, and the one that sends.
SITES = [[f"127.0.4.{first + last}" for last in range(4)] for first in (10, 20, 30, 40)]
OUTER, INNER = [f"0000004{number}" for number in range(4)], [f"0000005{number}" for number in range(4)]
# Who sends to whom at once: each site once, so that in three rounds each sends to each other one.
ROUNDS = [[(0, 1), (1, 0), (2, 3), (3, 2)], [(0, 2), (2, 0), (1, 3), (3, 1)], [(0, 3), (3, 0), (1, 2), (2, 1)]]


class Transfers:
    """The routers and the hosts."""

    def __init__(self, wires):
        self.wires = wires
        self.udp_port = free_port([MIDDLE, STATION, *(address for site in SITES for address in site)], 4)
        middle = [(MIDDLE, self.udp_port + number) for number in range(4)]
        outer = [(site[0], self.udp_port) for site in SITES]
        ends = [[outer[0], (STATION, self.udp_port)], *([end] for end in outer[1:])]
        self.routers = [Router(wires, "middle", [WirePort(OUTER[at], KINDS[at], middle[at], ends[at]) for at in range(4)])]
        self.station = End(self.routers[0].ports[0], ends[0][1], "0200000e0001")
        for at, (_, inside, *hosts) in enumerate(SITES):
            ports = [WirePort(OUTER[at], KINDS[at], outer[at], [middle[at]]), UdpPort(INNER[at], inside, self.udp_port, hosts)]
            self.routers.append(Router(wires, f"site{at}", ports))
            for name, address, socket in (("listener", hosts[0], "4002"), ("sender", hosts[1], "4003")):
                wires.world.write(f"{name}{at}.toml", f'network = "{INNER[at]}"\naddress = "{address}"\nrouter = "{inside}"\n'
                                  f'udp_port = {self.udp_port}\nsocket = "{socket}"\n')

    def knows(self, at):
        """Whether the router of a site knows the networks of the others."""
        said = "\n".join(self.routers[at + 1].process.said())
        return all(f"route added: network {INNER[other]} via" in said for other in range(4) if other != at)

    def carry(self, pairs):
        """Carries a file for each pair at once; each has its own."""
        world, started = self.wires.world, []
        for source, to in pairs:
            data = some_bytes(self.wires.seed + 4 * source + to, SIZE)
            listener = world.start(f"listener{to}", "listen", world.path(f"listener{to}.toml"), "--once")
            until(listener.said, 10)
            sender = world.start(f"sender{source}", "send", world.path(f"sender{source}.toml"),
                                 INNER[to], node(SITES[to][2]), "4002", stdin=True)
            sender.feed([data])
            started.append((source, to, data, listener, sender))
        for source, to, data, listener, sender in started:
            sent = sender.status(60)
            got = listener.status(10) if sent == 0 else None
            good = sent == 0 and got == 0 and listener.out == data
            said = f"sender {sent}, listener {got}, {len(listener.out)} of {len(data)} bytes"
            self.wires.check(f"{SIZE / 1e6:g} MB from a wire of {KINDS[source]} to one of {KINDS[to]}", good,
                             said if good else f"{said}; {sender.said()[-1:]} {listener.said()[-1:]}")
            for process in (listener, sender):
                world.forget(process)


def check_station(it):
    """A station on a wire with two routers: both answer it, each of them hands on what it is given, and neither what goes
    to all stations."""
    station, (port, *_), (other, inner) = it.station, it.routers[0].ports, it.routers[1].ports
    host = End(inner, (SITES[0][2], it.udp_port), node(SITES[0][2]))
    source = (OUTER[0], station.station, "4001")

    def answer(giver, told):
        packet = ipx(1, source, (OUTER[0], giver.node, RIP), routes(told))
        return frame(giver.kind, station.station, giver.node, packet)

    asks = ipx(1, (OUTER[0], EVERYBODY, RIP), source, ALL_ROUTES)
    station.packet(asks, EVERYBODY)
    answers = [answer(port, [(network, 1, 1) for network in OUTER[1:]] + [(network, 2, 2) for network in INNER[1:]]),
               answer(other, [(INNER[0], 1, 1)])]
    until(lambda: all(one in station.take() for one in answers), 5)
    counts = [station.got.count(one) for one in answers]
    it.wires.check("two routers on a wire answer a station, byte by byte", counts == [1, 1], str(counts))
    bodies = (b"to all", b"by the other", b"by the port")
    to_all, by_other, by_port = (ipx(0, (INNER[0], host.station, "4002"), source, body) for body in bodies)
    for packet, to in ((to_all, EVERYBODY), (by_other, other.node), (by_port, port.node)):
        station.packet(packet, to)
    once, twice = passed_on(by_other, OUTER[0]), passed_on(passed_on(by_port, OUTER[0]), OUTER[0])
    until(lambda: once in host.take() and twice in host.take(), 5)
    came = [host.got.count(once), host.got.count(twice), sum(to_all[30:] in bytes_ for bytes_ in host.got)]
    it.wires.check("each hands on what it is given, once, and neither what goes to all stations", came == [1, 1, 0], str(came))
    host.end()


def check_transfers(wires):
    """Each wire to each other one."""
    it = Transfers(wires)
    for router in it.routers:
        router.start()
    known = until(lambda: all(it.knows(at) for at in range(4)), 15)
    wires.check("routers at the ends of four wires know all networks", known,
                "" if known else str([router.process.said() for router in it.routers]))
    if known:
        check_station(it)
        for pairs in ROUNDS:
            it.carry(pairs)
    for router in it.routers:
        router.process.end()
