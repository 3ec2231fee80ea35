"""What tests/system/ipxnet/players uses: routers with ports for clients of ipxnet, and clients that send what DOSBox
does."""
import hashlib
import os
import socket
import time

from site_world import bound, listed, port_table, until
from wire_world import text_of, with_colons

ROUTER_NODE, EVERYBODY = "0200000000d0", "f" * 12
BETWEEN, NETWORKS = "00000081", ["0000d05b", "0000d05c"]
ROOM = 4_194_304
# A status file is written every 10 seconds.
STATUS_SECONDS = 14
# What routers make the nodes of clients from, unless their file names no secret.
SECRET = bytes(range(32))
# What DOSBox sends as it connects: 30 bytes, to socket 2 of node 0.
REGISTRATION = bytes.fromhex("ffff001e0000" "000000000000000000000002" "000000000000000000000002")


def lobby_table(network, place, more, node=ROUTER_NODE):
    """A port for clients of ipxnet at a place."""
    return (f'[[port]]\nkind = "ipxnet"\nnetwork = "{network}"\naddress = "{place[0]}"\nudp_port = {place[1]}\n'
            f'node = "{with_colons(node)}"\n{more}')


def join_line(places):
    """The line of such a port that joins it to those at these places."""
    return listed("join", map(text_of, places)) if places else ""


def node_of(place, network=NETWORKS[0]):
    """The node of a client at a router of SECRET: 02, and five bytes of the digest of the secret, the network and the place."""
    text = SECRET + bytes.fromhex(network) + bytes(map(int, place[0].split("."))) + place[1].to_bytes(2, "big")
    return "02" + hashlib.sha256(text).digest()[:5].hex()


def place_of(node, network, ip="127.0.0.1"):
    """The place of this IP address that has this node, if there is one."""
    return next(((ip, port) for port in range(1, 65536) if node_of((ip, port), network) == node), None)


def answer_to(network, node, router=ROUTER_NODE):
    """The answer to a registration: it tells the network and the node."""
    return bytes.fromhex(f"ffff001e0000{network}{node}0002{network}{router}0002")


def to_itself(network, node):
    """A packet from a node to the same node."""
    return answer_to(network, node, node)


def shows(node, router=ROUTER_NODE):
    """What a client answers to a ping of its router. By that it is one."""
    return bytes.fromhex(f"ffff001e000000000000{router}0002" f"00000000{node}0002")


def ping_of(router):
    """What a router of this node sends to a silent client."""
    return bytes.fromhex(f"ffff001e000000000000{EVERYBODY}0002" f"00000000{router}0002")


class Router:
    """A router with these ports, as a process."""

    def __init__(self, run, name, tables):
        self.run, self.name = run, name
        secret = run.world.path(f"{name}.secret")
        if not os.path.exists(secret):
            run.world.write(f"{name}.secret", f"{SECRET.hex()}\n")
        files = f'metrics_file = "{run.world.path(name + ".prom")}"\nsecret_file = "{secret}"\n'
        file = run.world.write(f"{name}.toml", files + "".join(tables))
        self.process = run.world.start(name, "route", file)
        until(lambda: len(self.process.said()) >= len(tables), 10)

    def knows(self, network):
        """Whether it says that it knows this network, in some time."""
        return until(lambda: f"route added: network {network} via" in "\n".join(self.process.said()), 20)

    def figures(self, wanted):
        """Of the figures of its status file those that are wanted, once they are so, or as they are some time later."""
        found = {}

        def are_so():
            found.update(self.run.world.figures(f"{self.name}.prom"))
            time.sleep(0.1)
            return all(found.get(key) == value for key, value in wanted.items())

        until(are_so, STATUS_SECONDS)
        return {key: found.get(key) for key in wanted}


def two_routers(run, names, addresses, udp_port, lobbies, hosts=()):
    """Two routers with a network between them, and these ports for clients each, once they know of each other's."""
    routers = []
    for name, address, other, tables in zip(names, addresses, addresses[::-1], lobbies):
        routers.append(Router(run, name, [port_table(BETWEEN, address, udp_port, [other, *hosts]), *tables]))
    known = [router.knows(network) for router, network in zip(routers, NETWORKS[::-1])]
    run.check("two routers with ports for clients know of each other's network", all(known))
    return routers


class Client:
    """Who is at a place, and what comes there but for pings of routers to silent clients, and what routers of these nodes tell
    and ask all by RIP and SAP: none do a client of ipxnet. A packet comes after so many bytes. It keeps when pings came."""

    def __init__(self, place, server, routers=(), behind=0):
        self.server, self.routers, self.behind, self.got, self.pinged = server, routers, behind, [], []
        self.socket = bound(*place)
        self.socket.setsockopt(socket.SOL_SOCKET, socket.SO_RCVBUF, ROOM)
        self.place = self.socket.getsockname()
        self.node = node_of(self.place)

    def send(self, packet, server=None):
        self.socket.sendto(packet, server or self.server)

    def take(self):
        """Takes what came."""
        while True:
            try:
                packet = self.socket.recv(70000)
            except BlockingIOError:
                return self.got
            header = packet[self.behind:self.behind + 30]
            if packet in (ping_of(node) for node in (ROUTER_NODE, *self.routers)):
                self.pinged.append(time.monotonic())
            elif (header[10:16].hex() != EVERYBODY or header[28:30] not in (b"\x04\x52", b"\x04\x53")
                    or header[22:28].hex() not in self.routers):
                self.got.append(packet)

    def end(self):
        self.socket.close()

