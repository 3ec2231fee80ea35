"""Hosts that forge RIP and SAP in a router's name and have another router forward it, for `sites`."""
import itertools
import re
import struct
import time

from site_forged import came_to, drained
from site_packets import ipx
from site_world import bound, listed, node, port_table, until
from wire_frames import frame

# Three routers in a chain. The forger is on the network of the first one; a router of another make is on that between the
# first two, and a station and a fourth router at a wire of the third. Behind the foreign router and the station is a network
# each, and a host on the last network of the third.
FORGER, FOREIGN, END, WIRE = "127.0.1.55", "127.0.1.58", "127.0.1.66", "127.0.1.68"
ADDRESSES = {"g1": ("127.0.1.54", "127.0.1.56"), "g2": ("127.0.1.57", "127.0.1.59"),
             "g3": ("127.0.1.60", "127.0.1.65", "127.0.1.67"), "g4": ("127.0.1.72", "127.0.1.69")}
FORWARDING = [FORGER, FOREIGN, END, WIRE, *(address for some in ADDRESSES.values() for address in some)]
PORTS = {
    "g1": [("00000056", ADDRESSES["g1"][0], [FORGER]), ("00000057", ADDRESSES["g1"][1], [ADDRESSES["g2"][0], FOREIGN])],
    "g2": [("00000057", ADDRESSES["g2"][0], [ADDRESSES["g1"][1], FOREIGN]), ("00000058", ADDRESSES["g2"][1], [ADDRESSES["g3"][0]])],
    "g3": [("00000058", ADDRESSES["g3"][0], [ADDRESSES["g2"][1]]), ("00000059", ADDRESSES["g3"][1], [END])],
    "g4": [("0000005d", ADDRESSES["g4"][0], [])],
}
NAMES = list(PORTS)
EVERY_NODE, STATION, WIRED, KIND = "f" * 12, "02000000aa01", "0000005a", "802.2"
# The ports at the wire: address, node and who is at their ends.
WIRES = {"g3": (ADDRESSES["g3"][2], "02000000005a", [WIRE, ADDRESSES["g4"][1]]), "g4": (ADDRESSES["g4"][1], "02000000005b", [ADDRESSES["g3"][2]])}
# Each forged packet tells of a network and a service of its own, from these on.
FIRST = 0x70
# Whose name is forged on which network, and the node of the router there that is to believe it: those by which the routers
# learn their routes.
NAMED = [("00000057", node(ADDRESSES["g1"][1]), node(ADDRESSES["g2"][0]), "g2"),
         ("00000058", node(ADDRESSES["g2"][1]), node(ADDRESSES["g3"][0]), "g3"), (WIRED, WIRES["g3"][1], WIRES["g4"][1], "g4")]


class Forwarding:
    """The sockets of those who are no router of ours, and a count of what was sent."""

    def __init__(self, sites):
        self.sites = sites
        self.sockets = {ip: bound(ip, sites.port) for ip in (FORGER, FOREIGN, END, WIRE)}
        self.numbers = itertools.count()
        self.sent = {"looped": 0, "spoofed": 0, "forwarded": 0}

    def from_forger(self, packet):
        self.sockets[FORGER].sendto(packet, (ADDRESSES["g1"][0], self.sites.port))

    def from_foreign(self, packet):
        self.sockets[FOREIGN].sendto(packet, (ADDRESSES["g2"][0], self.sites.port))

    def from_end(self, packet):
        self.sockets[END].sendto(packet, (ADDRESSES["g3"][1], self.sites.port))

    def from_station(self, packet, to=EVERY_NODE):
        self.sockets[WIRE].sendto(frame(KIND, to, STATION, packet), (ADDRESSES["g3"][2], self.sites.port))

    def frames(self):
        """The packets in the frames for the station that came."""
        return [bytes_[17:] for bytes_ in drained(self.sockets[WIRE]) if bytes_[:6].hex() == STATION]

    def close(self):
        for one in self.sockets.values():
            one.close()


def rip(network, to, source, routes, hops=0):
    """A RIP response; routes are network and hops."""
    body = struct.pack(">H", 2) + b"".join(struct.pack(">IHH", number, far, far) for number, far in routes)
    return ipx(1, (network, to, "0453"), (network, source, "0453"), body, hops)


def sap(network, to, source, name, far, hops=0):
    """A SAP response of a file server."""
    body = struct.pack(">HH48sI6sHH", 2, 4, name.encode(), 0x56, bytes.fromhex(source), 0x451, far)
    return ipx(4, (network, to, "0452"), (network, source, "0452"), body, hops)


def queries(network, source, hops=0):
    """A RIP request for all routes, and a SAP query for all services."""
    return [ipx(1, (network, EVERY_NODE, "0453"), (network, source, "0453"), struct.pack(">HIHH", 1, 0xffffffff, 0xffff, 0xffff), hops),
            ipx(4, (network, EVERY_NODE, "0452"), (network, source, "0452"), struct.pack(">HH", 1, 0xffff), hops)]


def start_forwarded(sites):
    """Starts the three routers, and what the foreign router and the station say truly."""
    for name, ports in PORTS.items():
        text = f'metrics_file = "{sites.world.path(name + ".prom")}"\n'
        for network, address, peers in ports:
            text += port_table(network, address, sites.port, peers)
        if name in WIRES:
            address, station, remotes = WIRES[name]
            text += (f'[[port]]\nkind = "ethernet"\nnetwork = "{WIRED}"\nencapsulation = "{KIND}"\naddress = "{address}"\nudp_port = {sites.port}\n'
                     f'node = "{station[:2]}:{station[2:4]}:{station[4:6]}:{station[6:8]}:{station[8:10]}:{station[10:]}"\n'
                     + listed("remotes", [f"{remote}:{sites.port}" for remote in remotes]))
        sites.world.write(f"{name}.toml", text)
    it = Forwarding(sites)
    for name in PORTS:
        sites.start_router(name)
    until(lambda: all(len(sites.routers[name].said()) >= len(ADDRESSES[name]) for name in PORTS), 10)
    it.from_foreign(rip("00000057", EVERY_NODE, node(FOREIGN), [(0x5b, 1)]))
    it.from_station(rip(WIRED, EVERY_NODE, STATION, [(0x5c, 1)]))
    return it


def is_reached(it, to, taker):
    """Whether a packet of the host at the end arrives."""
    body = struct.pack(">I", next(it.numbers))

    def arrives():
        it.from_end(ipx(4, (to, "000000000001" if to != "00000056" else node(FORGER), "4002"), ("00000059", node(END), "4003"), body))
        time.sleep(0.1)
        return body in taker()
    return until(arrives, 3)


def are_reached(it):
    """Which of the true routes lead where they should."""
    return [is_reached(it, "00000056", lambda: [packet[30:] for packet in drained(it.sockets[FORGER])]),
            is_reached(it, "0000005b", lambda: [packet[30:] for packet in drained(it.sockets[FOREIGN])]),
            is_reached(it, "0000005c", lambda: [packet[30:34] for packet in it.frames()])]


def forge_all(it):
    """Each packet that names another one's network and service, and would take the true routes. The answer says for each what
    it is, and which router would believe it."""
    forged = []

    def tell(what, sender, named, hops, count):
        network, source, to_router, router = named
        for to, how in ((EVERY_NODE, "broadcast"), (to_router, "unicast")):
            number = FIRST + len(forged)
            sender(rip(network, to, source, [(0x56, 16), (0x5b, 16), (0x5c, 16), (number, 1)], hops))
            sender(sap(network, to, source, f"FORGED{number:02X}", 1, hops))
            it.sent[count] += 2
            forged.append((f"{what}, {how}", number, router))
    for named in NAMED:
        tell(f"of a host two routers and more away, in the name of node {named[1]} of network {named[0]}", it.from_forger, named, 0, "looped")
    tell("that a router of another make forwarded in its own name", it.from_foreign,
         ("00000057", node(FOREIGN), node(ADDRESSES["g2"][0]), "g2"), 1, "spoofed")
    tell("that a station sends as if it was forwarded", it.from_station, (WIRED, STATION, WIRES["g3"][1], "g3"), 1, "forwarded")
    return forged


def ask_all(it):
    """Queries for everything in the names of the foreign router and of the station: by the forger, and forwarded."""
    for sender, network, source, hops, count in (
            (it.from_forger, "00000057", node(FOREIGN), 0, "looped"), (it.from_forger, WIRED, STATION, 0, "looped"),
            (it.from_foreign, "00000057", node(FOREIGN), 1, "spoofed"), (it.from_station, WIRED, STATION, 1, "forwarded")):
        for query in queries(network, source, hops):
            sender(query)
            it.sent[count] += 1


def check_forwarded(sites, it):
    """All of it, but for the figures."""
    known = until(lambda: are_reached(it) == [True] * 3, 15)
    sites.check("packets reach the forger's network and what is behind the other router and the station", known)
    forged = forge_all(it)
    # Lines of what is newly known come a second after it was heard.
    time.sleep(2.5)
    for what, number, router in forged:
        said = " ".join(sites.routers[router].said())
        sites.check(f"RIP {what} is not believed", f"route added: network {number:08x}" not in said)
        sites.check(f"SAP {what} is not believed", f"FORGED{number:02X}" not in said)
    reached = are_reached(it)
    sites.check("and no true route is gone", reached == [True] * 3, str(reached))
    for one in it.sockets.values():
        drained(one)
    ask_all(it)
    time.sleep(0.5)
    told = [socket for socket, _ in came_to(it.sockets[FOREIGN], FOREIGN)]
    sites.check("a query in a router's name brings that router nothing", not told, str(told))
    told = it.frames()
    sites.check("nor one in a station's name that station", not told, f"{len(told)} frames")
    it.from_station(ipx(4, ("00000059", node(END), "4002"), ("00000059", "000000000009", "4003"), b"looped"), WIRES["g3"][1])
    it.sent["station"] = 1
    time.sleep(0.3)
    came = [packet[30:] for packet in drained(it.sockets[END])]
    sites.check("a station cannot speak as a node of the network that it sends to", b"looped" not in came, str(came))
    for query in queries("00000057", node(FOREIGN)):
        it.from_foreign(query)
    answered = until(lambda: came_to(it.sockets[FOREIGN], FOREIGN), 2)
    sites.check("a true query is answered", answered)
    it.close()


def check_forwarded_figures(sites, figures, it):
    """The figures of the routers, once they were written, and the lines."""
    # The fourth router hears the broadcasts of the station too.
    wanted = {("g1", "looped_source"): it.sent["looped"], ("g2", "spoofed_source"): it.sent["spoofed"],
              ("g3", "forwarded_control"): it.sent["forwarded"], ("g3", "looped_source"): it.sent["station"],
              ("g1", "forwarded_control"): 0, ("g2", "forwarded_control"): 0, ("g2", "looped_source"): 0, ("g3", "spoofed_source"): 0}
    got = {(name, reason): figures[name].get(f'ipx_filtered_total{{reason="{reason}"}}') for name, reason in wanted}
    sites.check("what was forged and forwarded is counted, each once", got == wanted, f"{got} of {wanted}")
    lines = {"g1": r"looped source \(sender uses network 000000(57|58|5a), this port has 00000056\), the last from",
             "g3": f"forwarded control, the last from {WIRED} {STATION}"}
    for name, words in lines.items():
        said = [line for line in sites.routers[name].said() if re.search(words, line)]
        sites.check(f"{name} tells of {words.split(',', maxsplit=1)[0]}", said and said[0].startswith("[WARN  ipx] dropped"), str(said[:1]))
