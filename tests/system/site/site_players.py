"""Ports for clients of DOSBox's ipxnet, for `sites`: clients that send what DOSBox does."""
import re
import socket
import time

from site_packets import ipx
from site_world import listed, port_table, until

# Two routers, each with a port for clients, and a network between them. The first names who may register.
NEAR_PORT, NEAR, FAR, FAR_PORT = "127.0.1.241", "127.0.1.242", "127.0.1.243", "127.0.1.244"
FIRST, SECOND, THIRD, UNNAMED = "127.0.1.245", "127.0.1.246", "127.0.1.247", "127.0.1.248"
PLAYING = [NEAR_PORT, NEAR, FAR, FAR_PORT, FIRST, SECOND, THIRD, UNNAMED]
NAMES = ["p1", "p2"]
NETWORKS = {"p1": "0000d05b", "p2": "0000d05c"}
ROUTER_NODE = "0200000000d0"
EVERY_NODE = "f" * 12

# What DOSBox sends as it connects.
REGISTRATION = bytes.fromhex("ffff001e0000" "000000000000000000000002" "000000000000000000000002")


def ipxnet_table(network, address, udp_port, more):
    """The text of a port for clients."""
    return (f'[[port]]\nkind = "ipxnet"\nnetwork = "{network}"\naddress = "{address}"\nudp_port = {udp_port}\n'
            f'node = "02:00:00:00:00:d0"\n{more}')


class Client:
    """A client at an IP address, whose port of UDP the system chooses where none is given. Its node is the one that the answer to
    its registration gives, and it shows at once that it has that."""

    def __init__(self, ip, server, port=0):
        self.ip, self.server = ip, server
        self.socket = socket.socket(socket.AF_INET, socket.SOCK_DGRAM)
        self.socket.bind((ip, port))
        self.socket.setblocking(False)
        self.port = self.socket.getsockname()[1]
        self.node = bytes([*map(int, ip.split("."))]).hex() + f"{self.port:04x}"

    def send(self, packet):
        """Sends a packet to its server."""
        self.socket.sendto(packet, self.server)

    def came(self):
        """All that waits, from whatever place."""
        found = []
        while True:
            try:
                packet = self.socket.recv(2000)
            except BlockingIOError:
                return found
            found.append(packet)
            if packet[18:22] != bytes(4) and packet[22:] == bytes.fromhex(ROUTER_NODE + "0002"):
                self.node = packet[10:16].hex()
                self.send(ipx(0, ("00000000", ROUTER_NODE, "0002"), ("00000000", self.node, "0002"), b""))

    def answer(self):
        """What an answer to its registration is."""
        network = NETWORKS["p1" if self.server[0] == NEAR_PORT else "p2"]
        return bytes.fromhex("ffff001e0000" + network + self.node + "0002" + network + ROUTER_NODE + "0002")


def start_players(sites):
    """Starts both routers, and answers three clients and one that the file does not name."""
    more = {"p1": listed("peers", [FIRST, SECOND]), "p2": 'accept = "any"\nclients = 2\n'}
    ports = {"p1": (NEAR_PORT, NEAR, FAR), "p2": (FAR_PORT, FAR, NEAR)}
    near, far = (NEAR_PORT, sites.port), (FAR_PORT, sites.port)
    first = Client(FIRST, near)
    for name in NAMES:
        own, address, peer = ports[name]
        sites.world.write(f"{name}.toml", f'metrics_file = "{sites.world.path(name + ".prom")}"\n'
                          + port_table("00000081", address, sites.port, [peer])
                          + ipxnet_table(NETWORKS[name], own, sites.port, more[name]))
        sites.start_router(name)
        until(lambda name=name: len(sites.routers[name].said()) >= 2, 10)
        if name == NAMES[0]:
            # It is there before the router hears of the other one, which it is told then.
            first.send(REGISTRATION)
            until(first.came, 3)
    return first, Client(SECOND, near), Client(THIRD, far), Client(UNNAMED, near)


def all_came(*clients, wanted=1):
    """What came to each client, once so much came to the first; and a little later, what came twice."""
    found = [[] for _ in clients]

    def look():
        for client, packets in zip(clients, found):
            packets += client.came()
        return len(found[0]) >= wanted

    until(look, 3)
    time.sleep(0.2)
    look()
    return found


def check_registering(sites, first, second, third, unnamed):
    """Those who may register are answered, byte by byte, and nobody else is."""
    for client in (unnamed, first, second, third):
        client.send(REGISTRATION)
        got = all_came(client, wanted=0 if client is unnamed else 1)
        want = [] if client is unnamed else [client.answer()]
        sites.check(f"{client.node} gets its answer, once" if want else "who is not named gets no answer",
                    got == [want] and (not want or client.node[:2] == "02"),
                    "" if got == [want] else str([it.hex() for it in got[0]]))


def check_ping(sites, first, second, third, unnamed):
    """The router answers a ping, and each other client at that port gets it as it was sent."""
    ping = ipx(0, ("00000000", EVERY_NODE, "0002"), ("00000000", first.node, "0002"), b"")
    first.send(ping)
    answer = ipx(0, ("00000000", first.node, "0002"), ("00000000", ROUTER_NODE, "0002"), b"")
    got = all_came(first, second, third, unnamed)
    sites.check("a ping is answered, and goes to the other client there", got == [[answer], [ping], [], []], str(got))


def check_packets(sites, first, second, third, unnamed):
    """What goes to all nodes goes to the other client there, what goes to one to that one, and what goes to a
    node of another network over both routers, which know each other's by now."""
    for name, other in (("p1", "p2"), ("p2", "p1")):
        line = f"route added: network {NETWORKS[other]} via"
        until(lambda name=name, line=line: line in "\n".join(sites.routers[name].said()), 15)
    to_all = ipx(4, (NETWORKS["p1"], EVERY_NODE, "4001"), (NETWORKS["p1"], first.node, "4001"), b"to all")
    first.send(to_all)
    got = all_came(second, first, third, unnamed)
    sites.check("a packet for all nodes goes to the others there, once and as it was", got == [[to_all], [], [], []],
                str(got))
    to_one = ipx(4, ("00000000", first.node, "4001"), (NETWORKS["p1"], second.node, "4001"), b"to one")
    second.send(to_one)
    got = all_came(first, second, third, unnamed)
    sites.check("a packet for a client there goes to it", got == [[to_one], [], [], []], str(got))
    for source in (NETWORKS["p1"], "00000000"):
        first.send(ipx(4, (NETWORKS["p2"], third.node, "4001"), (source, first.node, "4001"), b"far"))
        there = ipx(4, (NETWORKS["p2"], third.node, "4001"), (NETWORKS["p1"], first.node, "4001"), b"far", 2)
        got = all_came(third, first, second, unnamed)
        sites.check(f"a packet for a client at the other router goes there, from network {source}",
                    got == [[there], [], [], []], str(got))
    third.send(ipx(4, (NETWORKS["p1"], first.node, "4001"), (NETWORKS["p2"], third.node, "4001"), b"back"))
    back = ipx(4, (NETWORKS["p1"], first.node, "4001"), (NETWORKS["p2"], third.node, "4001"), b"back", 2)
    got = all_came(first, second, third, unnamed)
    sites.check("and one back", got == [[back], [], [], []], str(got))


def check_again(sites, second):
    """A client that ended and comes again from the same place gets the same node."""
    second.socket.close()
    again = Client(SECOND, second.server, second.port)
    again.send(REGISTRATION)
    got = all_came(again)
    sites.check("a client that comes again gets the same node", got == [[second.answer()]] and again.node == second.node,
                str(got))
    again.socket.close()


def check_lines(sites, clients):
    """Each client that came is told once, by its port of the router, its place and its node, and nobody else is."""
    for name, came in clients.items():
        lines = [f"port 2: client {it.ip}:{it.port} connected as {it.node}" for it in came]

        def told(name=name):
            return [line.partition("] ")[2] for line in sites.routers[name].said() if ": client " in line]

        until(lambda told=told, lines=lines: len(told()) >= len(lines), 12)
        sites.check(f"{name} tells which clients came", sorted(told()) == sorted(lines), str(told()))


def check_players(sites, clients):
    """All of it, but for the figures."""
    first, second, third, unnamed = clients
    check_registering(sites, first, second, third, unnamed)
    check_ping(sites, first, second, third, unnamed)
    check_packets(sites, first, second, third, unnamed)
    # In another's name, and of who is not known.
    first.send(ipx(4, (NETWORKS["p1"], second.node, "4001"), (NETWORKS["p1"], second.node, "4001"), b"spoofed_source"))
    unnamed.send(ipx(4, (NETWORKS["p1"], second.node, "4001"), (NETWORKS["p1"], unnamed.node, "4001"), b"unknown"))
    got = all_came(second, first, third, unnamed, wanted=0)
    sites.check("what speaks in another's name goes nowhere, nor what is of nobody", got == [[], [], [], []], str(got))
    check_again(sites, second)
    check_lines(sites, {"p1": [first, second], "p2": [third]})
    line = re.compile(r"\[WARN  ipx\] \d+ datagrams? to a port for ipxnet from unknown senders \(\d+ since the start\), the last from "
                      + re.escape(unnamed.ip))
    told = until(lambda: any(line.fullmatch(it) for it in sites.routers["p1"].said()), 12)
    sites.check("p1 tells which address is not in peers", told, "" if told else str(sites.routers["p1"].said()[-3:]))
    for client in (first, third, unnamed):
        client.socket.close()


def check_players_figures(sites, figures):
    """Who is known, what was dropped and who was not heard is counted, once the figures were written."""
    wanted = {"p1": {'ipx_ipxnet_clients{port="2"}': 2, 'ipx_ipxnet_dropped_total{port="2",reason="other_source"}': 1,
                     'ipx_ipxnet_unknown_senders_total': 2},
              "p2": {'ipx_ipxnet_clients{port="2"}': 1, 'ipx_ipxnet_unknown_senders_total': 0}}
    for name, counts in wanted.items():
        got = {key: figures[name].get(key) for key in counts}
        sites.check(f"the clients of {name} are counted", got == counts, "" if got == counts else str(got))
