"""Whom a host hears, for `sites`."""
import re
import signal
import time

from site_callers import call, comes
from site_packets import ipx
from site_world import bound, listed, node, some_bytes, until, within

# A listener with a peer on a network without a router, one that names nobody, and one that accepts any; what they
# hear of somebody who is not named.
NETWORK, AWAY = "00000044", "00000045"
NAMES, NOBODY, ANY = "127.0.1.160", "127.0.1.161", "127.0.1.162"
PEER, STRANGER, SENDERS = "127.0.1.163", "127.0.1.164", ["127.0.1.165", "127.0.1.166", "127.0.1.167"]
CIRCLES = [NAMES, NOBODY, ANY, PEER, STRANGER, *SENDERS]
WAITING, CALLS = 100, 100
TOLD = r"\[WARN  ipx\] (\d+) datagrams? {} \((\d+) since the start\), the last from {}"
STRANGERS, FORGED, NO_ROUTER = "from unknown senders", "with a spoofed source node", "routed or RIP/SAP from a host not listed in routers"


def start_circles(sites):
    """The listeners, and a sender to each."""
    sites.host("names-listener", NETWORK, NAMES, "127.0.1.89", "4002", listed("peers", [PEER, SENDERS[0]]))
    sites.host("nobody-listener", NETWORK, NOBODY, "127.0.1.89", "4002")
    sites.host("any-listener", NETWORK, ANY, "127.0.1.89", "4002", 'accept = "any"\n')
    data, ends = some_bytes(sites.seed + 12, 20_000), {}
    for name, sender, to in (("names", SENDERS[0], NAMES), ("nobody", SENDERS[1], NOBODY), ("any", SENDERS[2], ANY)):
        sites.host(f"{name}-sender", NETWORK, sender, "127.0.1.89", "4003")
        listener = sites.start_listener("--once", name=f"{name}-listener")
        until(listener.said, 5)
        if name == "names":
            disturb(sites, listener)
        ends[name] = listener, sites.start_sender(f"{name}-sender", [data], NETWORK, to), data
    return ends


def disturb(sites, listener):
    """A stranger calls, and a peer speaks for another and for a node of another network. Behind as many as wait
    at once the peer calls in its own name, and is answered: what is kept back ends no burst."""
    stranger, peer = bound(STRANGER, sites.port), bound(PEER, sites.port)
    for number in range(CALLS):
        call(stranger, STRANGER, NAMES, sites.port, number + 1)
    away = ipx(5, (NETWORK, node(NAMES), "4002"), (AWAY, node(STRANGER), "4003"), bytes(12))
    peer.sendto(away, (NAMES, sites.port))
    time.sleep(0.2)
    listener.popen.send_signal(signal.SIGSTOP)
    for number in range(WAITING):
        call(peer, STRANGER, NAMES, sites.port, number + 1)
    call(peer, PEER, NAMES, sites.port, 99)
    listener.popen.send_signal(signal.SIGCONT)
    sites.check(f"a host hears at once what lies behind {WAITING} datagrams in another's name",
                within(listener, lambda: comes(peer), 0.5))
    sites.check("a host answers no stranger", not comes(stranger))
    stranger.close()
    peer.close()


def told(listener, what, ip):
    """How many it said that there were, the last of them from there."""
    lines = [re.fullmatch(TOLD.format(re.escape(what), re.escape(ip)), line) for line in listener.said()]
    return [int(line[1]) for line in lines if line]


def check_circles(sites, ends):
    """What became of them."""
    listener, sender, data = ends["names"]
    sites.check_transfer("a sender that a listener names among its peers", listener, sender, data)
    got = {what: told(listener, what, ip) for what, ip in ((STRANGERS, STRANGER), (FORGED, PEER), (NO_ROUTER, PEER))}
    # Each is told as it comes first, and then once a minute.
    sites.check("a host tells what it keeps back, by its cause", all(map(bool, got.values())), f"{got} {listener.said()}")
    listener, sender, data = ends["any"]
    sites.check_transfer("a sender to a listener that accepts any", listener, sender, data)
    first = f"udp {ANY}:{sites.port} accept any"
    sites.check("a listener that accepts any says so", any(line.endswith(first) for line in listener.said()),
                str(listener.said()[:1]))
    listener, sender, _ = ends["nobody"]
    status, said = sender.status(20), sender.said()
    line = f"no answer from {NETWORK} {node(NOBODY)} 4002; try ipx networks, then ipx ping"
    sites.check("a sender that a listener does not name gets no answer", status == 1 and said == [line], f"{status}, {said}")
    sites.check("and the listener tells who it was", bool(told(listener, STRANGERS, SENDERS[1])), str(listener.said()))
    listener.end()
