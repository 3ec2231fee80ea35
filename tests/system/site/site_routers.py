"""Ports whose file says which of their peers are routers, and one that accepts anybody, for `sites`."""
import re
import struct
import time

from site_packets import ipx, rip_response
from site_world import bound, node, port_table, until

# A router between two networks; on the first a router that it names and a host, on the other one more.
NEAR, FAR = "127.0.1.170", "127.0.1.173"
NAMED, HOST, AWAY = "127.0.1.171", "127.0.1.172", "127.0.1.174"
# A third network, whose port accepts anybody and has a peer; somebody else sends to it too.
OPEN, PEER, STRANGER = "127.0.1.175", "127.0.1.199", "127.0.1.229"
NAMING = [NEAR, FAR, NAMED, HOST, AWAY, OPEN, PEER, STRANGER]
NAME = "n1"
EVERY_NODE = "f" * 12
# A query of a host with another number for this network, two routes, two services, a packet of another network and two that
# are handed on along this one; of the third network a route, a service and a packet of another network; and three responses of
# a host of the second network to one elsewhere.
KEPT = 13
WRONG = "00000068"
# The line of the first of these.
TOLD = re.compile(r"\[WARN  ipx\] 1 datagram routed or RIP/SAP from a host not listed in routers \(1 since the start\), the last from "
                  + re.escape(f"{HOST} (sender uses network {WRONG}, this port has 00000061)"))


def start_routers(sites):
    """Starts the router, and binds the three that speak to it."""
    text = (f'metrics_file = "{sites.world.path(NAME + ".prom")}"\n'
            + port_table("00000061", NEAR, sites.port, [NAMED, HOST]) + f'routers = ["{NAMED}"]\n'
            + port_table("00000062", FAR, sites.port, [AWAY]) + "routers = []\n"
            + port_table("00000067", OPEN, sites.port, [PEER]) + 'accept = "any"\n')
    sites.world.write(f"{NAME}.toml", text)
    sites.start_router(NAME)
    ends = {ip: bound(ip, sites.port) for ip in (NAMED, HOST, AWAY, PEER, STRANGER)}
    until(lambda: len(sites.routers[NAME].said()) >= 3, 10)
    return ends


def bodies(one):
    """The bodies of the packets for socket 4002 that came to a socket."""
    found = []
    while True:
        try:
            packet = one.recv(2000)
        except BlockingIOError:
            return found
        if packet[16:18] == b"\x40\x02":
            found.append(packet[30:])


def come(one, count):
    """The bodies that come to a socket within a second, or until there are so many, and just after that."""
    came = []
    until(lambda: came.extend(bodies(one)) or len(came) >= count, 1)
    time.sleep(0.2)
    return came + bodies(one)


def to_away(source, hops, body):
    """A packet for the one on the other network."""
    return ipx(4, ("00000062", node(AWAY), "4002"), (*source, "4003"), body, hops)


def sap_response(source, operation, network="00000061"):
    """A SAP response with one service, of a node of a network."""
    service = struct.pack(">H", 4) + b"SERVER".ljust(48, b"\0") + bytes.fromhex("000000660000000000014444" "0001")
    return ipx(4, (network, EVERY_NODE, "0452"), (network, source, "0452"),
               struct.pack(">H", operation) + service)


def knows(sites, network):
    """Waits until the router logs a network, which is a second after it heard of it: what came before is handled by then."""
    until(lambda: any(f"route added: network {network}" in line for line in sites.routers[NAME].said()), 12)


def tell(sites, ends):
    """A query by another number of the network is named as that. Routes that the host tells are not taken, those of the router
    that is named are."""
    port = (NEAR, sites.port)
    ends[HOST].sendto(ipx(1, (WRONG, EVERY_NODE, "0453"), (WRONG, node(HOST), "0453"), struct.pack(">HIHH", 1, 0xffffffff, 0xffff, 0xffff)), port)
    until(lambda: any(TOLD.fullmatch(it) for it in sites.routers[NAME].said()), 12)
    ends[HOST].sendto(rip_response("00000061", node(HOST), [(0x63, 1, 1)]), port)
    ends[HOST].sendto(rip_response("00000000", node(HOST), [(0x63, 1, 1)]), port)
    ends[NAMED].sendto(rip_response("00000061", node(NAMED), [(0x64, 1, 1)]), port)
    for operation in (2, 4):
        ends[HOST].sendto(sap_response(node(HOST), operation), port)
    knows(sites, "00000064")
    for network in (0x63, 0x64):
        ends[AWAY].sendto(ipx(4, (f"{network:08x}", "000000000001", "4002"), ("00000062", node(AWAY), "4003"),
                              bytes([network])), (FAR, sites.port))
    came = come(ends[NAMED], 1)
    sites.check("a route that a host tells is not taken, and that of a router which is named is",
                [bodies(ends[HOST]), came] == [[], [b"\x64"]], str(came))


def pass_on(sites, ends):
    """What the host passes on does not arrive, what the router passes on does, and the host's own."""
    port = (NEAR, sites.port)
    others = [(("00000065", "000000000001"), 1), (("00000061", node("127.0.1.175")), 1)]
    for number, (source, hops) in enumerate(others):
        ends[HOST].sendto(to_away(source, hops, bytes([1, number])), port)
        ends[NAMED].sendto(to_away(source, hops, bytes([2, number])), port)
    for network in ("00000061", "00000000"):
        ends[HOST].sendto(to_away((network, node(HOST)), 0, bytes([3, int(network[-1])])), port)
    came = []
    until(lambda: came.extend(bodies(ends[AWAY])) or len(came) >= 4, 1)
    time.sleep(0.2)
    came += bodies(ends[AWAY])
    sites.check("what a host passes on does not arrive; what a router passes on does, and what is the host's own",
                sorted(came) == [b"\2\0", b"\2\1", b"\3\0", b"\3\1"], str(sorted(came)))


def answer_elsewhere(sites, ends):
    """From the sockets of SAP and RIP a host sends no response to another network: that would offer its own service to who asked
    there. A router sends them. Queries of a host from there go on, and so does what a host sends from another socket."""
    responses = [("0452", 2), ("0452", 4), ("0453", 2)]
    others = [("0452", 1), ("0452", 3), ("0453", 1), ("4003", 2), ("4003", 4)]
    for socket, operation in [*responses, *others]:
        body = struct.pack(">H", operation) + bytes.fromhex(socket)
        ends[AWAY].sendto(ipx(4, ("00000061", node(HOST), "4002"), ("00000062", node(AWAY), socket), body), (FAR, sites.port))
        ends[NAMED].sendto(ipx(4, ("00000062", node(AWAY), "4002"), ("00000061", node(NAMED), socket), body), (NEAR, sites.port))
    for name, taker, expected in (("a host", HOST, others), ("a router", AWAY, [*responses, *others])):
        got = sorted((body[2:].hex(), body[1]) for body in come(ends[taker], len(expected)))
        sites.check(f"to another network {name} sends from the sockets of SAP and RIP what it may", got == sorted(expected), str(got))


def speak_openly(sites, ends):
    """At the port that accepts anybody only its peer is a router. Somebody else tells a better route to the network of which
    the peer tells, and a service, and passes on a packet: none of these is taken. Its own packets are."""
    port, stranger = (OPEN, sites.port), node(STRANGER)
    ends[PEER].sendto(rip_response("00000067", node(PEER), [(0x69, 3, 9)]), port)
    ends[STRANGER].sendto(rip_response("00000067", stranger, [(0x69, 1, 1)]), port)
    ends[STRANGER].sendto(sap_response(stranger, 2, "00000067"), port)
    knows(sites, "00000069")
    ends[AWAY].sendto(ipx(4, ("00000069", "000000000001", "4002"), ("00000062", node(AWAY), "4003"), b"\x69"), (FAR, sites.port))
    came = []
    until(lambda: came.extend(bodies(ends[PEER])) or came, 2)
    sites.check("at a port that accepts anybody a route of somebody who is no peer takes no traffic of a peer",
                [came, bodies(ends[STRANGER])] == [[b"\x69"], []], str(came))
    ends[STRANGER].sendto(to_away(("00000065", "000000000001"), 1, b"\4\0"), port)
    for network in ("00000067", "00000000"):
        ends[STRANGER].sendto(to_away((network, stranger), 0, bytes([5, int(network[-1])])), port)
    ends[PEER].sendto(to_away(("00000065", "000000000001"), 1, b"\6\0"), port)
    came = []
    until(lambda: came.extend(bodies(ends[AWAY])) or len(came) >= 3, 2)
    time.sleep(0.2)
    came += bodies(ends[AWAY])
    sites.check("what that one passes on does not arrive; its own packets do, and what the peer passes on",
                sorted(came) == [b"\5\0", b"\5\7", b"\6\0"], str(sorted(came)))


def check_routers(sites, ends):
    """All of it, but for the figures."""
    tell(sites, ends)
    pass_on(sites, ends)
    answer_elsewhere(sites, ends)
    speak_openly(sites, ends)
    for one in ends.values():
        one.close()


def check_routers_figures(sites, figures):
    """What was no router's to send is counted and told, once the figures were written."""
    count = 'ipx_filtered_total{reason="not_a_router"}'
    got = figures[NAME].get(count)
    sites.check("what was no router's to send is counted", got == KEPT, str(got))
    said = sites.routers[NAME].said()
    told = any(TOLD.fullmatch(it) for it in said)
    sites.check("and it is told, with both numbers of the network", told, "" if told else str(said[-3:]))
