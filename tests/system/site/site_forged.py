"""Peers that speak for others, and packets that a router hands on along a network, for `sites`."""
import re
import signal
import struct
import time

from site_packets import ipx, rip_response
from site_world import bound, listed, node, some_bytes, until, waiting_bytes, within

# A router with two peers on one network, of which the first speaks for others, and one on another.
FORGER, NAMED, FAR = "127.0.1.112", "127.0.1.113", "127.0.1.114"
# Two routers on one network, and on it a host that names the one that is not next.
HANDED = "127.0.1.119", "127.0.1.120"
FORGED = {
    "f1": [("00000051", "127.0.1.110", [FORGER, NAMED]), ("00000052", "127.0.1.111", [FAR])],
    "h1": [("00000053", "127.0.1.115", ["127.0.1.116", HANDED[0]]), ("00000054", "127.0.1.117", [])],
    "h2": [("00000053", "127.0.1.116", ["127.0.1.115", HANDED[0]]), ("00000055", "127.0.1.118", [HANDED[1]])],
}
ADDRESSES = [address for ports in FORGED.values() for _, address, _ in ports] + [FORGER, NAMED, FAR, *HANDED]
EVERY_NODE = "f" * 12
# As many datagrams as wait in a socket at once with the room of most systems, and as many as come fast, so many at once. Who
# sends them waits while so many bytes wait in the router's socket, which has room for more on all systems: it loses none.
WAITING, FAST, AT_ONCE, ROOM = 100, 10_000, 50, 50_000


def request(source):
    """A RIP request for all routes, of a node of network 51."""
    return ipx(1, ("00000051", EVERY_NODE, "0453"), ("00000051", source, "0453"),
               struct.pack(">HIHH", 1, 0xffffffff, 0xffff, 0xffff))


def came_to(one, ip):
    """The packets that came to a socket for its own node, each as its source socket and its body."""
    found = []
    while True:
        try:
            packet = one.recv(2000)
        except BlockingIOError:
            return found
        if packet[10:16].hex() == node(ip):
            found.append((packet[28:30].hex(), packet[30:]))


def start_forged(sites):
    """Starts the three routers, and a host that listens behind them."""
    sites.host("handed-listener", "00000055", HANDED[1], "127.0.1.118", "4002")
    sites.host("handed-sender", "00000053", HANDED[0], "127.0.1.115", "4003",
               listed("peers", ["127.0.1.116"]) + listed("routers", ["127.0.1.116"]))
    for name in FORGED:
        sites.start_router(name)
    ends = {ip: bound(ip, sites.port) for ip in (FORGER, NAMED, FAR)}
    until(lambda: all(len(sites.routers[name].said()) >= 2 for name in FORGED), 10)
    return ends, sites.start_listener("--once", name="handed-listener")


def forge(sites, ends):
    """A route told as every node and one as another peer, packets that would take them, and one that
    takes a route told in the teller's own name. What goes out to each is counted."""
    port = (FORGED["f1"][0][1], sites.port)
    for source, network in ((EVERY_NODE, 0x77), (node(NAMED), 0x78), (node(FORGER), 0x79)):
        ends[FORGER].sendto(rip_response("00000051", source, [(network, 1, 1)]), port)
    # (it heard all three then)
    until(lambda: any("route added: network 00000079" in line for line in sites.routers["f1"].said()), 12)
    for one in ends.values():
        drained(one)
    for network in (0x77, 0x78, 0x79):
        ends[FAR].sendto(ipx(4, (f"{network:08x}", "000000000001", "4002"), ("00000052", node(FAR), "4003"),
                             bytes([network])), (FORGED["f1"][1][1], sites.port))
    came = []
    until(lambda: came.extend(bodies(ends[FORGER])) or came, 3)
    time.sleep(0.2)
    came += bodies(ends[FORGER])
    sites.check("routes told as every node and as another peer are not taken, and its own is, once",
                [came, bodies(ends[NAMED])] == [[b"\x79"], []], str(came))


def drained(one):
    """All that came to a socket."""
    came = []
    while True:
        try:
            came.append(one.recv(2000))
        except BlockingIOError:
            return came


def bodies(one):
    """The bodies of the packets for socket 4002 that came."""
    return [packet[30:] for packet in drained(one) if packet[16:18] == b"\x40\x02"]


def ask(sites, ends):
    """A request in another peer's name, and one in its own."""
    port = (FORGED["f1"][0][1], sites.port)
    ends[FORGER].sendto(request(node(NAMED)), port)
    time.sleep(0.3)
    sites.check("a request in another peer's name brings it nothing",
                not came_to(ends[NAMED], NAMED) and not came_to(ends[FORGER], FORGER))
    ends[FORGER].sendto(request(node(FORGER)), port)
    answers = []
    within(sites.routers["f1"], lambda: answers.extend(came_to(ends[FORGER], FORGER)) or answers, 1)
    told = [body for socket, body in answers if socket == "0453"]
    sites.check("a request in its own name is answered", len(told) == 1 and told[0][:2] == b"\0\2")


def is_answered(ends, port, router):
    """Whether a true request is answered within a second."""
    ends[FORGER].sendto(request(node(FORGER)), port)
    return within(router, lambda: came_to(ends[FORGER], FORGER), 1)


def burst(sites, ends):
    """Forged datagrams that wait at once, and many that come fast; behind them a true request."""
    port, router = (FORGED["f1"][0][1], sites.port), sites.routers["f1"]
    router.popen.send_signal(signal.SIGSTOP)
    for _ in range(WAITING):
        ends[FORGER].sendto(request(node(NAMED)), port)
    ends[FORGER].sendto(request(node(FORGER)), port)
    router.popen.send_signal(signal.SIGCONT)
    sites.check(f"{WAITING} forged datagrams wait, and the true one behind them is heard at once",
                within(router, lambda: came_to(ends[FORGER], FORGER), 1))
    for _ in range(0, FAST, AT_ONCE):
        until(lambda: waiting_bytes(*port) < ROOM, 10)
        for _ in range(AT_ONCE):
            ends[FORGER].sendto(request(node(NAMED)), port)
    sites.check(f"{FAST} forged datagrams come fast, and the true one behind them is heard at once",
                is_answered(ends, port, router))
    sites.check("the peer that they named got nothing", not came_to(ends[NAMED], NAMED))


def hand_on(sites, listener):
    """A host whose router is not the one that is next: that one hands its packets on along the network.
    What comes back is the other one's to send, whom the host names among its routers."""
    data = some_bytes(sites.seed + 8, 20_000)
    ready = until(lambda: any("network 00000055 via" in line for line in sites.routers["h1"].said()), 15)
    sites.check("the router that is not next knows the way", ready)
    sender = sites.start_sender("handed-sender", [data], "00000055", HANDED[1])
    sites.check_transfer("a host that names the router that is not next", listener, sender, data)


def check_forged(sites, ends, listener):
    """All of it, but for the figures."""
    forge(sites, ends)
    ask(sites, ends)
    burst(sites, ends)
    hand_on(sites, listener)
    for one in ends.values():
        one.close()


def check_forged_figures(sites, figures):
    """The figures of the routers, once they were written."""
    count = 'ipx_filtered_total{reason="spoofed_source"}'
    # Two routes, one request, and the bursts.
    sent, got = 3 + WAITING + FAST, figures["f1"].get(count, 0)
    sites.check("what was forged is counted, each once", got == sent, f"{got} of {sent}")
    line = re.compile(r"\[WARN  ipx\] \d+ datagrams? with a spoofed source node \(\d+ since the start\), the last from "
                      + re.escape(FORGER))
    said = sites.routers["f1"].said()
    told = any(line.fullmatch(it) for it in said)
    sites.check("and it is told", told, "" if told else str(said[-3:]))
    others = {name: figures[name].get(count) for name in ("h1", "h2", "r1", "r3")}
    sites.check("nothing is kept back where nobody forges", set(others.values()) == {0}, str(others))
