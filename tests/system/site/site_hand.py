"""Static routes and services of a router's file, and what routers two hops away learn of them, for `sites`."""
import re
import time

from site_packets import ipx
from site_world import bound, node, port_table, until

# Two routers; behind the first a node that says nothing itself, behind the other a host and a node that sends.
NEAR, FAR, SILENT, HOST, SENDER = "127.0.1.10", "127.0.1.13", "127.0.1.14", "127.0.1.15", "127.0.1.16"
HANDS = {
    "hand1": [("00000091", NEAR, [SILENT], 6), ("00000092", "127.0.1.11", ["127.0.1.12"], 5)],
    "hand2": [("00000092", "127.0.1.12", ["127.0.1.11"], 3), ("00000093", FAR, [HOST, SENDER], 2)],
}
BY_HAND = sorted({address for ports in HANDS.values() for _, address, _, _ in ports} | {SILENT, HOST, SENDER})
ENTRIES = f"""
[[route]]
network = "000000aa"
port = 1
next_hop = "{SILENT}"

[[service]]
type = "0640"
name = "BACKUP"
ipx_address = "000000aa 00000a010014 4002"
port = 1
next_hop = "{SILENT}"
hops = 2
"""
# By hand: each router that tells adds a hop, and the cost of the port that it tells on: 5, and then 2. The route that
# says nothing of them is 1 hop and 6 ticks away, as its port costs.
NETWORKS = """network   hops  ticks  by
00000091     2      7  {by}
00000092     1      2  {by}
000000aa     3     13  {by}
3 networks, {by} answered in """
SERVICES = """type  name    network   node          socket  hops  by
0640  BACKUP  000000aa  00000a010014  4002       4  {by}
1 service, {by} answered in """
# What the first router writes of them.
WRITTEN = [f"000000aa port 1 next {node(SILENT)} hops 1 ticks 6 heard ",
           f"0640 BACKUP at 000000aa 00000a010014 4002 port 1 next {node(SILENT)} hops 2 heard "]


def write_router(sites, name, more=""):
    tables = f'tables_file = "{sites.world.path(name + ".tables")}"\n'
    sites.world.write(f"{name}.toml", tables + "".join(
        port_table(network, address, sites.port, peers) + f"cost = {cost}\n" for network, address, peers, cost in HANDS[name]) + more)


def start_hand(sites):
    """Both routers, of which the one with the entries is the last."""
    write_router(sites, "hand1", ENTRIES)
    write_router(sites, "hand2")
    sites.host("hand-asker", "00000093", HOST, FAR, "4003")
    ends = bound(SILENT, sites.port), bound(SENDER, sites.port)
    sites.start_router("hand2")
    until(lambda: len(sites.routers["hand2"].said()) >= 2, 10)
    sites.start_router("hand1")
    return ends


def check_told(sites, command, wanted):
    """The host behind the other router is told of it within ten seconds of the start."""
    text = wanted.format(by=node(FAR))
    while True:
        asked = time.monotonic()
        process = sites.world.start(f"hand-{command}", command, sites.world.path("hand-asker.toml"))
        status, out = process.status(6), process.out.decode()
        good = status == 0 and out.startswith(text)
        if good or asked > sites.routers["hand1"].started + 10:
            break
        time.sleep(0.3)
    sites.check(f"ipx {command} two routers away from what is said by hand", good, "" if good else f"{status}, {process.said()}, {out}")


def entries_written(sites):
    """How many of its entries the first router wrote into its file of tables; None where it wrote none yet."""
    try:
        with open(sites.world.path("hand1.tables"), encoding="ascii") as it:
            lines = it.read().splitlines()
    except FileNotFoundError:
        return None
    head = [line for line in lines if re.fullmatch(r"neighbours \d+", line)]
    return sum(any(line.startswith(wanted) for line in lines) for wanted in WRITTEN) if head else None


def send_there(sites, ends, body):
    """What comes to the silent node, of a packet for the network behind it."""
    silent, sender = ends
    sender.sendto(ipx(4, ("000000aa", "000000000001", "4002"), ("00000093", node(SENDER), "4003"), body), (FAR, sites.port))
    came = []

    def is_there():
        try:
            packet, place = silent.recvfrom(2000)
        except BlockingIOError:
            return False
        if packet[30:] == body:
            came.append((packet[4], packet[6:10].hex(), place[0]))
        return bool(came)

    until(is_there, 2)
    return came


def check_hand_told(sites):
    """It is told on."""
    check_told(sites, "networks", NETWORKS)
    check_told(sites, "services", SERVICES)


def check_hand(sites, ends):
    """It is routed by, and gone from the router that is started again without it."""
    until(lambda: entries_written(sites) == 2, 12)
    sites.check("a router's file of tables has what it heard by hand", entries_written(sites) == 2)
    came = send_there(sites, ends, b"by hand")
    sites.check("a packet for a network that is said by hand goes to its next node", came == [(2, "000000aa", NEAR)], str(came))
    sites.routers["hand1"].end()
    write_router(sites, "hand1")
    sites.world.write("hand1.tables", "")
    sites.start_router("hand1")
    until(lambda: entries_written(sites) is not None, 12)
    sites.check("started again without them it knows nothing of them", entries_written(sites) == 0)
    came = send_there(sites, ends, b"no more")
    sites.check("and sends nothing there", came == [], str(came))
    for one in ends:
        one.close()
