"""Sends that the system refuses, an address that goes away and comes back, and fragments, for `system`."""
import re
import threading

from site_packets import ipx
from site_world import node, some_bytes
from system_world import Pair, bound_in, came, fragments_of, refusing, wait

PORT = 20213
NO_WAY = "203.0.113.9"
INNER, HOST = "127.0.0.1", "127.0.0.20"
REFUSED = re.compile(r"\[WARN +ipx\] (\d+) datagrams? refused by the system \((\d+) since the start\)(, .*)?")
DEVICE = 'ipx_errors_total{kind="device"}'
HANDED = 'ipx_port_transmit_packets_total{port="1",network="00000001"}'


def ports(pair, peers):
    """A router of the near network: port 1 to the far one, port 2 to a host on its loopback."""
    return [("00000001", pair.addresses[pair.near], peers), ("00000011", INNER, [HOST])]


def packet_to(pair, size, kind=4, hops=0):
    """A packet of so many bytes from the host on the near loopback to the node of the far card."""
    body = some_bytes(size, size - 30)
    return ipx(kind, ("00000001", node(pair.addresses[pair.far]), "4003"), ("00000011", node(HOST), "4003"), body, hops)


def says_refused(process):
    return any(REFUSED.fullmatch(line) for line in process.said())


def is_up(process, lines=2):
    return lambda: len([line for line in process.said() if "rcvbuf" in line]) >= lines or process.is_over()


def unreachable(system):
    """ENETUNREACH: one of two peers has no way to it. The other one gets all, and what is refused is counted."""
    pair = Pair("reach", "10.81.0")
    far = pair.addresses[pair.far]
    peer = bound_in(pair.far, far, PORT)
    system.router("unreachable", ports(pair, [far, NO_WAY]), PORT)
    router = system.start("unreachable", pair.near, "route")
    got = []

    def are_alike():
        got.extend(came(peer))
        metrics = system.metrics("unreachable")
        return metrics.get("ipx_uptime_seconds", 0) >= 10 and metrics.get(DEVICE) == metrics.get(HANDED) == len(got) >= 3

    good = yield from wait(are_alike, 35)
    system.check("ENETUNREACH at one of two peers: the other one gets each broadcast, the refused ones are counted",
                 good and not router.is_over(), f"{len(got)} came, {system.metrics('unreachable').get(DEVICE)} refused")
    system.check("ENETUNREACH is told in one line", says_refused(router), str(router.said()[-1:]))
    router.end()
    pair.remove()


def filtered(system):
    """EPERM: nftables drops what goes to the peer, and then nothing any more."""
    pair = Pair("filter", "10.82.0")
    far = pair.addresses[pair.far]
    peer, host = bound_in(pair.far, far, PORT), bound_in(pair.near, HOST, PORT)
    system.router("filtered", ports(pair, [far]), PORT)
    router = system.start("filtered", pair.near, "route")
    yield from wait(is_up(router), 10)
    found, sizes = [], [100, 200, 300, 400]
    for size in sizes:
        if size == 200:
            pair.rule(pair.near, "output", f"ip daddr {far} udp dport {PORT}")
        if size == 400:
            pair.rule(pair.near, "output", "")
        host.sendto(packet_to(pair, size), (INNER, PORT))
        found += yield from gather(peer, size)
    arrived = [size for size in sizes if packet_to(pair, size, hops=1) in found]
    system.check("EPERM by nftables: what it drops is lost, and what comes after it goes out", arrived == [100, 400],
                 f"of {sizes} bytes those of {arrived} arrive")

    def are_all_there():
        found.extend(came(peer))
        metrics = system.metrics("filtered")
        return metrics.get(DEVICE, 0) >= 2 and metrics.get(HANDED) == metrics.get(DEVICE) + len(found)

    good, metrics = (yield from wait(are_all_there, 35)), system.metrics("filtered")
    system.check("EPERM: each packet either arrived or is counted", good and not router.is_over(),
                 f"{metrics.get(HANDED)} handed to the port, {len(found)} came, {metrics.get(DEVICE)} refused")
    system.check("EPERM is told in one line", says_refused(router), str(router.said()[-1:]))
    router.end()
    pair.remove()


def gather(one, size):
    """What comes to a socket, until a packet of so many bytes does, or for a second and a half."""
    found = []

    def is_there():
        found.extend(came(one))
        return any(len(packet) == size for packet in found)

    yield from wait(is_there, 1.5)
    return found


def by_length(system):
    """ENOBUFS for packets of 130 bytes, EMSGSIZE for those over 1,000: these alone are lost, and are counted."""
    pair = Pair("length", "10.83.0")
    far = pair.addresses[pair.far]
    peer, host = bound_in(pair.far, far, PORT), bound_in(pair.near, HOST, PORT)
    system.router("by-length", ports(pair, [far]), PORT)
    router = system.start("by-length", pair.near, "route", before=refusing(130, 1000))
    yield from wait(is_up(router), 10)
    found, sizes = [], [129, 130, 131, 1000, 1001, 1500, 999]
    for size in sizes:
        host.sendto(packet_to(pair, size), (INNER, PORT))
        found += yield from gather(peer, size)
    arrived = [size for size in sizes if packet_to(pair, size, hops=1) in found]
    system.check("ENOBUFS at 130 bytes, EMSGSIZE over 1,000: all others arrive", arrived == [129, 131, 1000, 999],
                 f"of {sizes} bytes those of {arrived} arrive")
    yield from wait(lambda: says_refused(router) and system.metrics("by-length").get(DEVICE, 0) >= 3, 25)
    system.check("ENOBUFS and EMSGSIZE: three are counted, and told in one line",
                 system.metrics("by-length").get(DEVICE) == 3 and says_refused(router) and not router.is_over(),
                 f"{system.metrics('by-length').get(DEVICE)}, {router.said()[-1:]}")
    router.end()
    pair.remove()


def hosts(system, pair, name):
    """A listener at the far card, and a sender on the near loopback, with a router between."""
    near, far = pair.addresses[pair.near], pair.addresses[pair.far]
    system.router(f"{name}-router", ports(pair, [far]), PORT)
    system.host(f"{name}-listener", "00000001", far, near, PORT)
    system.host(f"{name}-sender", "00000011", HOST, INNER, PORT)
    router = system.start(f"{name}-router", pair.near, "route")
    listener = system.start(f"{name}-listener", pair.far, "listen", "--once")
    return router, listener, system.start(f"{name}-sender", pair.near, "send", "00000001", node(far), "4002", stdin=True)


def broken(system, name, what, breaks):
    """A transfer that is broken for two seconds in its middle, once for each of these: begin and end."""
    pair = Pair(name, {"filter2": "10.84.0", "address": "10.85.0"}[name])
    data, size = some_bytes(7, 300_000 * (len(breaks) + 1)), 300_000
    router, listener, sender = hosts(system, pair, name)
    events = [threading.Event() for _ in breaks]
    pieces = [data[:size]]
    for place, event in enumerate(events, 1):
        pieces += [event, data[place * size:(place + 1) * size]]
    sender.feed(pieces)
    in_the_middle = []
    for place, (event, (begin, end)) in enumerate(zip(events, breaks), 1):
        yield from wait(lambda: len(listener.out) > (place - 0.5) * size or sender.is_over(), 20)  # pylint: disable=cell-var-from-loop
        begin(pair)
        event.set()
        had = len(listener.out)
        yield from wait(lambda: False, 2)
        in_the_middle.append(had < len(data) and not sender.is_over())
        end(pair)
    yield from wait(sender.is_over, 40)
    yield from wait(listener.is_over, 10)
    statuses = sender.status(0), listener.status(0)
    system.check(f"{what}: a transfer comes whole", all(in_the_middle) and statuses == (0, 0) and listener.out == data
                 and not router.is_over(), f"statuses {statuses}, {len(listener.out)} of {len(data)} bytes, {sender.said()[-1:]}")
    yield from wait(lambda: says_refused(router), 15)
    for one in (router, listener, sender):
        one.end()
    pair.remove()
    return router


def filtered_transfer(system):
    """EPERM for two seconds at both hosts and at the router, one after another."""
    drops = f"udp dport {PORT}"
    yield from broken(system, "filter2", "EPERM for two seconds at the sender and its router, then at the listener", [
        (lambda pair: pair.rule(pair.near, "output", drops), lambda pair: pair.rule(pair.near, "output", "")),
        (lambda pair: pair.rule(pair.far, "output", drops), lambda pair: pair.rule(pair.far, "output", ""))])


def address(system):
    """The address of a router's port goes away for two seconds and comes back, and then that of a listener."""
    router = yield from broken(
        system, "address", "the address of a router's card goes away for two seconds and comes back, then the listener's",
        [(lambda pair: pair.address("del", pair.near), lambda pair: pair.address("add", pair.near)),
         (lambda pair: pair.address("del", pair.far), lambda pair: pair.address("add", pair.far))])
    system.check("a router whose address went away says that the system refused datagrams", says_refused(router),
                 str(router.said()[-1:]))


def fragments(system):
    """A packet of 1,500 bytes over cards of 1,500: two fragments, and a firewall that drops them."""
    pair = Pair("pieces", "10.86.0")
    far = pair.addresses[pair.far]
    peer, host = bound_in(pair.far, far, PORT), bound_in(pair.near, HOST, PORT)
    system.router("pieces", ports(pair, [far]), PORT)
    router = system.start("pieces", pair.near, "route")
    yield from wait(is_up(router), 10)
    yield from wait(lambda: len(came(peer)) > 2, 3)
    before, made, whole = fragments_of(pair.near), [], []
    for size in (1472, 1473, 1500):
        host.sendto(packet_to(pair, size), (INNER, PORT))
        found = yield from gather(peer, size)
        whole.append(packet_to(pair, size, hops=1) in found)
        made.append(fragments_of(pair.near) - before)
    system.check("packets of 1,472, 1,473 and 1,500 bytes over cards of 1,500 arrive, the first in one piece, the others in two",
                 whole == [True] * 3 and made == [0, 2, 4], f"arrived {whole}, {made} fragments so far")
    pair.rule(pair.far, "prerouting", "ip frag-off & 0x3fff != 0")
    arrived = []
    for size in (1500, 1472):
        host.sendto(packet_to(pair, size), (INNER, PORT))
        found = yield from gather(peer, size)
        arrived.append(packet_to(pair, size, hops=1) in found)
    system.check("a firewall that drops fragments: 1,500 bytes are lost, 1,472 arrive", arrived == [False, True], str(arrived))
    router.end()
    pair.remove()
