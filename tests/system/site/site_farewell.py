"""What the neighbours of a router hear after it was stopped, by `ipx farewell`, for `sites`."""
import os
import time

from site_packets import rip_response
from site_world import bound, node, port_table, until

# A router with a static network and service behind its first port, where somebody listens. Its neighbours are a router at an
# RFC 1234 port and one at an Ethernet port.
NAME, BY_DATAGRAMS, BY_FRAMES = "bye", "bye-datagrams", "bye-frames"
FIRST, SECOND, THIRD, LISTENING, NEAR, WIRED = (f"127.0.2.{number}" for number in range(201, 207))
LEAVING = [FIRST, SECOND, THIRD, LISTENING, NEAR, WIRED]
LEAVERS = [BY_DATAGRAMS, BY_FRAMES]
ENTRIES = f"""
[[route]]
network = "000000ca"
port = 1
next_hop = "{LISTENING}"

[[service]]
type = "0640"
name = "FAREWELL"
ipx_address = "000000ca 00000a010014 4002"
port = 1
next_hop = "{LISTENING}"
"""
# What each neighbour knows of it alone.
LOST = ["route lost: network 000000c1", "route lost: network 000000ca", "service lost: 0640 FAREWELL"]
ADDED = ["route added: network 000000c1 ", "route added: network 000000ca ", "service added: 0640 FAREWELL "]
# By hand: the networks of its other ports, with 16 hops and one tick, as its first port costs.
GONE = rip_response("000000c1", node(FIRST), [(0xc2, 16, 1), (0xc3, 16, 1)])
IN_USE = "{}: port 1: bind {}:{}: Address already in use (os error 98); another program uses it, perhaps another ipx"
OLD = "tables_file is 31 seconds old, more than 30: nothing is sent"


def wire(address, udp_port, remote):
    """The text of an Ethernet port with one remote."""
    return (f'[[port]]\nkind = "ethernet"\nnetwork = "000000c3"\nencapsulation = "ethernet-ii"\naddress = "{address}"\n'
            f'udp_port = {udp_port}\nremotes = ["{remote}:{udp_port}"]\n')


def start_farewell(sites):
    """The three routers, and the socket of who listens."""
    world, port = sites.world, sites.port
    tables = f'tables_file = "{world.path(NAME + ".tables")}"\n'
    world.write(f"{NAME}.toml", tables + port_table("000000c1", FIRST, port, [LISTENING])
                + port_table("000000c2", SECOND, port, [NEAR]) + wire(THIRD, port, WIRED) + ENTRIES)
    world.write(f"{BY_DATAGRAMS}.toml", port_table("000000c2", NEAR, port, [SECOND]))
    world.write(f"{BY_FRAMES}.toml", wire(WIRED, port, THIRD))
    listening = bound(LISTENING, port)
    for name in (*LEAVERS, NAME):
        sites.start_router(name)
    return listening


def received(listening):
    """What waits at the socket."""
    listening.setblocking(False)
    found = []
    try:
        while True:
            found.append(listening.recv(2000))
    except BlockingIOError:
        return found


def farewell(sites):
    """The status of the command, and what it said."""
    process = sites.world.start("farewell", "farewell", sites.world.path(f"{NAME}.toml"))
    return process.status(10), process.said()


def count_of(sites, name, line):
    return sum(line in said for said in sites.routers[name].said())


def are_said(sites, lines, times):
    """Whether both neighbours said each line so many times."""
    return all(count_of(sites, name, line) == times for name in LEAVERS for line in lines)


def check_said(sites, what, lines, times):
    since = time.monotonic()
    until(lambda: are_said(sites, lines, times), 2)
    good = are_said(sites, lines, times)
    sites.check(what, good, f"{time.monotonic() - since:.2f} s" if good else str([sites.routers[name].said()[-6:] for name in LEAVERS]))


def written(sites):
    try:
        with open(sites.world.path(f"{NAME}.tables"), encoding="ascii") as it:
            return "FAREWELL" in it.read()
    except FileNotFoundError:
        return False


def check_unsaid(sites, listening, what, line):
    """Refused with one line that ends so, and nothing is sent."""
    got = farewell(sites)
    quiet = not received(listening)
    good = got[0] == 1 and len(got[1]) == 1 and got[1][0].endswith(line) and quiet
    sites.check(f"ipx farewell, {what}: status 1, and nothing is sent", good, "" if good else f"{got}, quiet {quiet}")


def check_without_tables(sites, listening):
    """Tables that are old, cut or missing."""
    place = sites.world.path(f"{NAME}.tables")
    with open(place, encoding="ascii") as it:
        whole = it.read()
    moment = time.time() - 31.2
    os.utime(place, (moment, moment))
    check_unsaid(sites, listening, "tables of 31 seconds ago", OLD)
    sites.world.write(f"{NAME}.tables", whole[:whole.index("neighbours")])
    check_unsaid(sites, listening, "tables that were cut", ": not a complete tables file of a router")
    sites.world.write(f"{NAME}.tables", whole.replace(" hops ", " hops x", 1))
    check_unsaid(sites, listening, "tables with a wrong word", ": tables_file has a line that no router writes")
    os.remove(place)
    check_unsaid(sites, listening, "no tables", ": No such file or directory (os error 2)")


def check_farewell(sites, listening):
    """Beside the router; after it was stopped; after it was started again; and without tables of use. Whether it ended with
    status 0 after the router was stopped, and said nothing."""
    until(lambda: written(sites) and are_said(sites, ADDED, 1), 25)
    sites.check("neighbours of a router that is to stop know its routes and its service", are_said(sites, ADDED, 1))
    received(listening)
    check_unsaid(sites, listening, "beside the router", IN_USE.format(sites.world.path(f"{NAME}.toml"), FIRST, sites.port))
    sites.routers[NAME].end()
    ended = farewell(sites)
    check_said(sites, "both neighbours forget its routes and its service within 2 s", LOST, 1)
    got = received(listening)
    sites.check("what is taken back comes three times, byte by byte", got == [GONE] * 3, "" if got == [GONE] * 3 else str(got))
    sites.start_router(NAME)
    check_said(sites, "they know them again within 2 s of its start", ADDED, 2)
    until(lambda: written(sites), 12)
    sites.routers[NAME].end()
    received(listening)
    check_without_tables(sites, listening)
    listening.close()
    return ended == (0, [])
