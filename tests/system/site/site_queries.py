"""Peers and players that ask a router for everything or for the nearest server again and again, or send directed broadcasts,
for `sites`."""
import re
import struct
import threading
import time

from site_packets import ipx, sap_response
from site_players import REGISTRATION, Client, ipxnet_table
from site_world import bound, node, port_table, until, within

# A router with two peers on one network, of which the first asks and the second sends, and one on another.
ASKER, SENDER, RECEIVER = "127.0.1.123", "127.0.1.124", "127.0.1.125"
ASKED = {"q1": [("00000056", "127.0.1.121", [ASKER, SENDER]), ("00000057", "127.0.1.122", [RECEIVER])]}
ASKED_ADDRESSES = [address for ports in ASKED.values() for _, address, _ in ports] + [ASKER, SENDER, RECEIVER]
# A router with a port for players, who are all one machine, one for a neighbour, and one from which directed
# broadcasts come.
LIMITED = "q2"
PLAYERS_PORT, NEIGHBOUR_PORT, PLAYER, NEIGHBOUR = "127.0.1.107", "127.0.1.108", "127.0.1.109", "127.0.1.126"
AFAR_PORT, AFAR, BOOTING = "127.0.1.127", "127.0.1.128", "127.0.1.129"
LIMITED_ADDRESSES = [PLAYERS_PORT, NEIGHBOUR_PORT, PLAYER, NEIGHBOUR, AFAR_PORT, AFAR, BOOTING]
PLAYERS_NETWORK, NEIGHBOUR_NETWORK, AFAR_NETWORK = "0000d058", "00000058", "00000059"
# So many sockets of the player ask, and the neighbour asks so often meanwhile.
ASKING_SOCKETS, NEIGHBOUR_ASKS = 16, 5
# One node of a port asks for the nearest server so often each second, and another one so often in all, two seconds apart.
NEAREST_RATE, NEAREST_ASKS, NEAREST_PERIOD = 2000, 4, 2
# In each round so many directed broadcasts, and then one packet, which is waited for.
BROADCAST_ROUNDS, BROADCASTS = 100, 20
EVERY_NODE = "f" * 12
# In each round so many queries, and so many packets, which are waited for. An answer is so many packets of
# seven services: without turns, they would pass the 16,384 that may wait.
ROUNDS, QUERIES, PACKETS, ANSWER = 200, 5, 50, 100


def services():
    """The datagrams that tell of the services."""
    source = ("00000057", node(RECEIVER), "0452")
    for number in range(ANSWER):
        body = struct.pack(">H", 2) + b"".join(
            struct.pack(">H48sIHIHH", 4, b"S%04d" % (7 * number + place), 0x99, 0, 1, 0x451, 1) for place in range(7))
        yield ipx(4, ("00000057", EVERY_NODE, "0452"), source, body)


def query():
    """A general query for all services."""
    return ipx(4, ("00000056", EVERY_NODE, "0452"), ("00000056", node(ASKER), "4003"), struct.pack(">HH", 1, 0xffff))


def drained(one):
    """All that came to a socket."""
    came = []
    while True:
        try:
            came.append(one.recv(2000))
        except BlockingIOError:
            return came


def start_queries(sites):
    """Starts the router, and tells it of services."""
    sites.start_router("q1")
    ends = {ip: bound(ip, sites.port) for ip in (ASKER, SENDER, RECEIVER)}
    until(lambda: len(sites.routers["q1"].said()) >= 2, 10)
    for datagram in services():
        ends[RECEIVER].sendto(datagram, (ASKED["q1"][1][1], sites.port))
        time.sleep(0.001)
    return ends


def check_queries(sites, ends):
    """Queries and packets, round by round. The result is how many seconds they took."""
    near = (ASKED["q1"][0][1], sites.port)
    for one in ends.values():
        drained(one)
    answers, packets, start = 0, set(), time.monotonic()

    def came():
        nonlocal answers
        answers += sum(packet[30:32] == b"\0\2" and packet[16:18] == b"\x40\x03" for packet in drained(ends[ASKER]))
        packets.update(packet[30:] for packet in drained(ends[RECEIVER]) if packet[16:18] == b"\x40\x02")
        return len(packets)

    for one_round in range(ROUNDS):
        for _ in range(QUERIES):
            ends[ASKER].sendto(query(), near)
        for number in range(PACKETS):
            ends[SENDER].sendto(ipx(4, ("00000057", node(RECEIVER), "4002"), ("00000056", node(SENDER), "4003"),
                                    struct.pack(">HH", one_round, number)), near)
        if not until(lambda: came() == (one_round + 1) * PACKETS, 5):  # pylint: disable=cell-var-from-loop
            break
    seconds = time.monotonic() - start
    until(lambda: came() and answers >= 8 * ANSWER, 1)
    sites.check(f"{ROUNDS * PACKETS} packets of one peer come, while another asks {ROUNDS * QUERIES} times for everything",
                len(packets) == ROUNDS * PACKETS, f"{len(packets)}, in {seconds:.1f} s")
    sites.check("it is answered eight times, and once more each second", 0 < answers <= (9 + seconds) * ANSWER,
                f"{answers} packets of {ANSWER} an answer")
    for one in ends.values():
        one.close()
    return seconds


def check_query_figures(sites, figures, seconds):
    """The figures of the router, once they were written."""
    got = figures["q1"].get('ipx_filtered_total{reason="rate_limited"}', 0)
    asked = ROUNDS * QUERIES
    sites.check("what came too often is counted", asked - 9 - seconds <= got <= asked - 8, f"{got} of {asked}")
    full = figures["q1"].get('ipx_dropped_total{reason="queue_full"}')
    sites.check("and no packet found no room to wait", full == 0, str(full))
    line = re.compile(r"\[WARN  ipx\] \d+ (?:query|queries) rate-limited \(\d+ since the start\), the last from "
                      + re.escape(ASKER) + r" on port \d")
    said = sites.routers["q1"].said()
    told = any(line.fullmatch(it) for it in said)
    sites.check("and it is told", told, "" if told else str(said[-3:]))


def route_request(network, source_node):
    """A RIP request for all networks."""
    return ipx(1, (network, EVERY_NODE, "0453"), (network, source_node, "4003"), struct.pack(">HIHH", 1, 0xffffffff, 0xffff, 0xffff))


def registered(sites):
    """The sockets of the player, each with its registration."""
    clients = []
    for _ in range(ASKING_SOCKETS):
        client = Client(PLAYER, (PLAYERS_PORT, sites.port))
        clients.append(client)

        def answered(client=client):
            client.send(REGISTRATION)
            time.sleep(0.1)
            return client.came()

        until(answered, 5)
    return clients


def ask_until(clients, over):
    """The sockets ask in turn, 500 times a second, until it is over."""
    while not over.is_set():
        for client in clients:
            client.send(route_request(PLAYERS_NETWORK, client.node))
            client.came()
            time.sleep(0.002)


def check_asked_by_players(sites, clients, neighbour):
    """A neighbour that starts has its answers, however often the sockets of a player ask."""
    over = threading.Event()
    asking = threading.Thread(target=ask_until, args=(clients, over))
    asking.start()
    time.sleep(1)
    drained(neighbour)
    answers = 0
    for _ in range(NEIGHBOUR_ASKS):
        neighbour.sendto(route_request(NEIGHBOUR_NETWORK, node(NEIGHBOUR)), (NEIGHBOUR_PORT, sites.port))
        answers += within(sites.routers[LIMITED], lambda: any(packet[16:18] == b"\x40\x03" for packet in drained(neighbour)), 0.5)
    over.set()
    asking.join()
    sites.check(f"a router that starts has its answers, while {ASKING_SOCKETS} sockets of one player ask",
                answers == NEIGHBOUR_ASKS, f"{answers} of {NEIGHBOUR_ASKS}")


def nearest_query(network, source_node):
    """A query for the nearest file server."""
    return ipx(4, (network, EVERY_NODE, "0452"), (network, source_node, "4003"), struct.pack(">HH", 3, 4))


def named_request(network, source_node, names):
    """A request for the routes of these networks."""
    body = struct.pack(">H", 1) + b"".join(bytes.fromhex(name) + b"\xff" * 4 for name in names)
    return ipx(1, (network, EVERY_NODE, "0453"), (network, source_node, "4003"), body)


def flood_until(floods, over):
    """Sends what these send, each so often a second, until it is over."""
    start, sent = time.monotonic(), 0
    while not over.is_set():
        while sent < (time.monotonic() - start) * NEAREST_RATE:
            sent += 1
            for send in floods:
                send()
        time.sleep(0.002)


def check_nearest(sites, clients, neighbour, booting, afar):
    """One node of each port floods it with nearest queries, and one with requests for named networks too. Another one there
    has each of its answers."""
    afar.sendto(sap_response(AFAR_NETWORK, node(AFAR), [(4, b"SERVER", int(AFAR_NETWORK, 16), 1)]), (AFAR_PORT, sites.port))
    router = (NEIGHBOUR_PORT, sites.port)
    flooding, asking = clients[:2]
    floods = [lambda: neighbour.sendto(nearest_query(NEIGHBOUR_NETWORK, node(NEIGHBOUR)), router),
              lambda: neighbour.sendto(named_request(NEIGHBOUR_NETWORK, node(NEIGHBOUR), 50 * [AFAR_NETWORK]), router),
              lambda: flooding.send(nearest_query(PLAYERS_NETWORK, flooding.node))]
    nodes = {"peer": (lambda: booting.sendto(nearest_query(NEIGHBOUR_NETWORK, node(BOOTING)), router), lambda: drained(booting), b"\0\4"),
             "peer that asks for a route": (
                 lambda: booting.sendto(named_request(NEIGHBOUR_NETWORK, node(BOOTING), [AFAR_NETWORK]), router),
                 lambda: drained(booting), b"\0\2"),
             "player": (lambda: asking.send(nearest_query(PLAYERS_NETWORK, asking.node)), asking.came, b"\0\4")}
    over, start = threading.Event(), time.monotonic()
    drained(neighbour)
    flood = threading.Thread(target=flood_until, args=(floods, over))
    flood.start()
    answers = {name: 0 for name in nodes}
    for _ in range(NEAREST_ASKS):
        time.sleep(NEAREST_PERIOD)
        for name, (ask, came, kind) in nodes.items():
            came()
            ask()
            answers[name] += within(sites.routers[LIMITED], lambda came=came, kind=kind: any(packet[30:32] == kind for packet in came()), 0.5)
    over.set()
    flood.join()
    routes = sum(packet[30:32] == b"\0\2" for packet in drained(neighbour))
    most = 32 + 2 * (time.monotonic() - start) + 1
    sites.check("one node gets answers for routes within its limit", routes <= most, f"{routes}, at most {most:.0f}")
    for name, count in answers.items():
        sites.check(f"a {name} has each answer, while another one asks {NEAREST_RATE} times a second",
                    count == NEAREST_ASKS, f"{count} of {NEAREST_ASKS}")


def check_broadcasts(sites, afar, neighbour):
    """Few directed broadcasts leave by a port, and each packet for one node."""
    source, router = (AFAR_NETWORK, node(AFAR), "4003"), (AFAR_PORT, sites.port)
    broadcast = ipx(4, (NEIGHBOUR_NETWORK, EVERY_NODE, "4002"), source, b"all!")
    drained(neighbour)
    broadcasts, packets, start = 0, set(), time.monotonic()

    def came():
        nonlocal broadcasts
        for packet in drained(neighbour):
            broadcasts += packet[30:] == b"all!"
            if packet[30:] != b"all!" and packet[16:18] == b"\x40\x02":
                packets.add(packet[30:])
        return len(packets)

    for number in range(BROADCAST_ROUNDS):
        for _ in range(BROADCASTS):
            afar.sendto(broadcast, router)
        afar.sendto(ipx(4, (NEIGHBOUR_NETWORK, node(NEIGHBOUR), "4002"), source, struct.pack(">I", number)), router)
        if not until(lambda: came() == number + 1, 5):  # pylint: disable=cell-var-from-loop
            break
    most = 16 + 8 * (time.monotonic() - start) + 1
    sites.check(f"{BROADCAST_ROUNDS} packets for one node come beside {BROADCAST_ROUNDS * BROADCASTS} directed broadcasts",
                len(packets) == BROADCAST_ROUNDS, str(len(packets)))
    sites.check("of those sixteen come, and eight more each second", 16 <= broadcasts <= most, f"{broadcasts}, at most {most:.0f}")
    return broadcasts


def check_limits(sites):
    """A router with limits at its ports, from its start to its end."""
    metrics = f"{LIMITED}.prom"
    sites.world.write(f"{LIMITED}.toml", f'metrics_file = "{sites.world.path(metrics)}"\n'
                      + port_table(NEIGHBOUR_NETWORK, NEIGHBOUR_PORT, sites.port, [NEIGHBOUR, BOOTING])
                      + port_table(AFAR_NETWORK, AFAR_PORT, sites.port, [AFAR])
                      + ipxnet_table(PLAYERS_NETWORK, PLAYERS_PORT, sites.port, 'accept = "any"\n'))
    sites.start_router(LIMITED)
    neighbour, afar, booting = (bound(ip, sites.port) for ip in (NEIGHBOUR, AFAR, BOOTING))
    until(lambda: len(sites.routers[LIMITED].said()) >= 3, 10)
    clients = registered(sites)
    check_asked_by_players(sites, clients, neighbour)
    check_nearest(sites, clients, neighbour, booting, afar)
    broadcasts = check_broadcasts(sites, afar, neighbour)
    dropped = BROADCAST_ROUNDS * BROADCASTS - broadcasts
    reason = 'ipx_filtered_total{reason="directed_broadcast"}'
    counted = until(lambda: sites.world.figures(metrics).get(reason) == dropped, 15)
    sites.check("the others are counted", counted, f"{sites.world.figures(metrics).get(reason)} of {dropped}")
    line = re.compile(r"\[WARN  ipx\] \d+ directed broadcasts? dropped \(\d+ since the start\), the last from "
                      + f"{AFAR_NETWORK} {node(AFAR)} 4003")
    said = sites.routers[LIMITED].said()
    told = any(line.fullmatch(it) for it in said)
    sites.check("and it is told who sends them", told, "" if told else str(said[-3:]))
    sites.world.forget(sites.routers[LIMITED])
    for one in [neighbour, afar, booting, *(client.socket for client in clients)]:
        one.close()
