"""Who may connect to a listener, and who keeps a place there, for `sites`."""
import re
import struct
import time

from site_packets import ipx
from site_world import Watch, bound, listed, node, some_bytes, until

# A listener and a sender on a network without a router; the last listener is asked by somebody who is not named.
NETWORK = "00000044"
FROM = {"by-node": ("127.0.1.130", "127.0.1.131"), "by-network": ("127.0.1.132", "127.0.1.133"),
        "by-nobody": ("127.0.1.134", "127.0.1.135")}
NAMED = {"by-node": [f"{NETWORK} {node('127.0.1.131')}", "00000045"], "by-network": ["00000045", NETWORK],
         "by-nobody": ["00000045", f"{NETWORK} {node('127.0.1.134')}"]}
# Listeners that are called by some who never speak: one that takes one connection, called by two of SILENT whom
# it names and by two who are strangers to it, and some whose places are all taken.
ONCE, SENDER = ("127.0.1.136", "127.0.1.137"), "127.0.1.139"
CROWDED = "127.0.1.138"
SILENT, ASKING = [f"127.0.1.{number}" for number in range(142, 146)], "127.0.1.146"
# A listener that one calls who never speaks, and to which nobody else sends: the call is given up after six seconds, and
# logged ten seconds later or sooner.
QUIET, LOGGED = "127.0.1.147", 18
CALLING = [address for pair in [*FROM.values(), ONCE] for address in pair] + [SENDER, CROWDED, *SILENT, ASKING, QUIET]
# If all slots are taken by some who never speak, each of them keeps its own for HELD seconds. The request that then evicts
# one is not answered, but the next one is, half a second later. Times are without those for which the machine denied the
# listener a processor.
HELD, SOON = 1.5, 2.5
BARRED = r"\[WARN  ipx\] (\d+) requests? from nodes not in allow \((\d+) since the start\)"
# A sender asks so often for a connection.
REQUESTS = 10


def start_from(sites):
    """A sender to a listener of each kind."""
    ends = {}
    for name, (listener, sender) in FROM.items():
        sites.host(f"{name}-listener", NETWORK, listener, "127.0.1.89", "4002",
                   listed("allow", NAMED[name]) + listed("peers", [sender]))
        sites.host(f"{name}-sender", NETWORK, sender, "127.0.1.89", "4003")
        data = some_bytes(sites.seed + 9, 20_000)
        ends[name] = (sites.start_listener("--once", name=f"{name}-listener"),
                      sites.start_sender(f"{name}-sender", [data], NETWORK, listener), data)
    return ends


def check_from(sites, ends):
    """Who is named is heard, by its node or by its network, and who is not gets no answer."""
    barred, turned_away, _ = ends.pop("by-nobody")
    for name, (listener, sender, data) in ends.items():
        sites.check_transfer(f"a sender that may connect {name.replace('-', ' ')}", listener, sender, data)
    status, said = turned_away.status(20), turned_away.said()
    line = f"no answer from {NETWORK} {node(FROM['by-nobody'][0])} 4002; try ipx networks, then ipx ping"
    sites.check("a sender that may not connect gets no answer", status == 1 and said == [line], f"{status}, {said}")
    told = [re.fullmatch(BARRED, line) for line in barred.said()]
    counts = [(int(it[1]), int(it[2])) for it in told if it]
    # (the first request at once, and the others a minute later, if it runs for so long)
    sites.check("and is counted", counts in ([(1, 1)], [(1, 1), (REQUESTS - 1, REQUESTS)]) and not barred.out, str(barred.said()[-2:]))
    barred.end()


def call(one, ip, listener, port, number):
    """A request for a connection, from a node that says nothing more."""
    header = struct.pack(">BBHHHHH", 0xc0, 0, number, 0xffff, 0, 0, 7)
    one.sendto(ipx(5, (NETWORK, node(listener), "4002"), (NETWORK, node(ip), "4003"), header), (listener, port))


def comes(one):
    """Whether anything came."""
    try:
        return bool(one.recv(2048))
    except BlockingIOError:
        return False


def ask(ip, listener, port, process):
    """Asks for a connection each half second, as a sender does: how many seconds it takes until it is answered.
    How long a process takes to start is not in it."""
    one, watch = bound(ip, port), Watch(process.popen.pid)
    while watch.seconds() < 5:
        call(one, ip, listener, port, 99)
        if until(lambda: comes(one), 0.5):
            break
    one.close()
    return watch.seconds()


def crowd(sites, ends):
    """A listener that sixteen call who never speak, and after how many seconds one that asks is in."""
    sites.host("crowded-listener", NETWORK, CROWDED, "127.0.1.89", "4002", listed("peers", [SENDER, *SILENT, ASKING]))
    listener = sites.start_listener(name="crowded-listener")
    until(listener.said, 5)
    for number in range(1, 17):
        call(*ends[number % 4], CROWDED, sites.port, number)
    return ask(ASKING, CROWDED, sites.port, listener), listener


def start_quiet(sites, one, ip):
    """A listener that one calls who never speaks, and to which nobody else sends."""
    sites.host("quiet-listener", NETWORK, QUIET, "127.0.1.89", "4002", listed("peers", [ip]))
    listener = sites.start_listener(name="quiet-listener")
    until(listener.said, 5)
    call(one, ip, QUIET, sites.port, 1)
    return listener, Watch(listener.popen.pid)


def check_quiet(sites, listener, watch):
    """What is due is logged, though nothing comes that wakes the listener."""
    line = "[WARN  ipx] 1 connection never sent data (1 since the start)"
    while line not in listener.said() and watch.seconds() < LOGGED:
        time.sleep(0.1)
    sites.check(f"one call that is not followed by anything is logged within {LOGGED} seconds, though nothing more comes",
                line in listener.said(), str(listener.said()[-2:]))
    listener.end()


def start_silent(sites):
    """Listeners that are called by some who never speak, and then by a true sender."""
    named = [f"{NETWORK} {node(ip)}" for ip in [ONCE[1], *SILENT[:2]]]
    sites.host("once-listener", NETWORK, ONCE[0], "127.0.1.89", "4002",
               listed("peers", [ONCE[1], *SILENT]) + listed("allow", named))
    for name, sender in {"once": ONCE[1], "crowded": SENDER}.items():
        sites.host(f"{name}-sender", NETWORK, sender, "127.0.1.89", "4003")
    data, ends = some_bytes(sites.seed + 10, 20_000), [(bound(ip, sites.port), ip) for ip in SILENT]
    quiet = start_quiet(sites, *ends[0])
    once = sites.start_listener("--once", name="once-listener")
    until(once.said, 5)
    for number in range(1, 101):
        call(*ends[number % 4], ONCE[0], sites.port, number)
    first = sites.start_sender("once-sender", [data[:5000], 1.0, data[5000:]], NETWORK, ONCE[0])
    for number in range(101, 201):
        call(*ends[number % 4], ONCE[0], sites.port, number)
        time.sleep(0.005)
    took, crowded = crowd(sites, ends)
    true = sites.start_sender("crowded-sender", [data], NETWORK, CROWDED)
    return data, ends, (once, first), (crowded, true, took), quiet


def check_silent(sites, data, ends, once, crowded, quiet):
    """The true senders have their places."""
    sites.check_transfer("a sender to a listener with --once that never speaking ones and strangers called, 100 times each",
                         *once, data)
    told = [line for line in once[0].said() if re.fullmatch(BARRED, line)]
    sites.check("of which the strangers are counted", bool(told), str(once[0].said()[-3:]))
    listener, true, took = crowded
    sites.check(f"where sixteen call who never speak, one that asks again is in after {HELD} to {SOON} seconds",
                HELD <= took < SOON, f"after {took:.2f} s")
    sites.check("and all of a true sender comes", true.status(20) == 0 and until(lambda: listener.out == data, 5))
    told = [line for line in listener.said() if re.search(r"\d+ connections? never sent data \(", line)]
    sites.check("those who never spoke are counted", bool(told), str(listener.said()[-2:]))
    listener.end()
    check_quiet(sites, *quiet)
    for one, _ in ends:
        one.close()
