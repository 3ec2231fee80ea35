"""A router with two ports that drops datagrams for each reason, and one that drops what is usual, for `sites`."""
import glob
import os
import re
import shutil
import subprocess
import time

from site_packets import ipx
from site_world import bound, leave_out, node, port_table, until

# What the peer of a port sends comes to its address: the network, the address, the peer.
PORTS = [("000000d1", "127.0.1.100", "127.0.1.101"), ("000000d2", "127.0.1.102", "127.0.1.103")]
STRANGER = "127.0.1.104"
NAME = "drops"
# What another router drops is for all nodes of its network, and so no fault.
USUAL, USUAL_PORT = "usual", ("000000d3", "127.0.1.105", "127.0.1.106")
DROPPING = [address for _, *ends in [*PORTS, USUAL_PORT] for address in ends] + [STRANGER]
# So many datagrams for each reason come by the first port, and a moment later so many by the second.
FIRST, MORE = 1, 11
# So many come by each from one that is no peer, and are to go by each to it.
STRANGERS, REFUSED = [3, 5], [2, 4]
# What is told of a reason, and whether the last datagram says who sent it.
REASONS = {"bad": ("bad", False), "not_ours": ("not ours", True), "no_route": ("no route 00000033", True),
           "hop_limit": ("hop limit", True), "bad_control": ("bad control", True)}
# A cause is told once a minute, ten seconds late at most.
SECONDS_TO_THE_SECOND_LINE = 72


def datagrams(place):
    """One for each reason by the port at that place, in the order above."""
    (network, _, peer), (away, *_) = PORTS[place], PORTS[1 - place]
    source = (network, node(peer), "4003")
    return [
        b"\1\2\3",
        ipx(4, (network, "000000000009", "4002"), source, b"no node of the router"),
        ipx(4, ("00000033", "000000000001", "4002"), source, b"no network"),
        ipx(4, (away, node(PORTS[1 - place][2]), "4002"), source, b"too far", 15),
        ipx(1, (network, "f" * 12, "0453"), source, b"\0\5"),
    ]


def broadcast(place):
    """A packet that no router of ours passes on, of which there is no line."""
    network, _, peer = PORTS[place]
    return ipx(20, (network, "f" * 12, "4002"), (network, node(peer), "4003"), b"\0" * 32)


def to_nobody(place):
    """A packet that comes by the other port, and is to go by that at a place to one that is no peer."""
    (network, *_), (away, _, peer) = PORTS[place], PORTS[1 - place]
    return ipx(4, (network, node(STRANGER), "4002"), (away, node(peer), "4003"), b"to no peer")


def line_of(place, reason, count, whole):
    """The line that is told of a reason, where the last datagram came by the port at that place."""
    words, has_sender = REASONS[reason]
    network, _, peer = PORTS[place]
    sender = f" from {network} {node(peer)} 4003" if has_sender else ""
    return f"[WARN  ipx] dropped {count} ({whole} since the start): {words}, the last{sender} on port {place + 1}"


def lines_of(place, count, whole):
    return [line_of(place, reason, count, whole) for reason in REASONS]


def told(sites, name=NAME):
    """What was told of drops so far."""
    return [it for it in sites.routers[name].said() if re.search(r"\] dropped \d", it)]


def start_usual(sites):
    """Sends the other router a packet for all nodes of its network, of a socket that no router has."""
    network, address, peer = USUAL_PORT
    sites.world.write(f"{USUAL}.toml", port_table(network, address, sites.port, [peer]))
    sites.start_router(USUAL)
    until(sites.routers[USUAL].said, 10)
    with bound(peer, sites.port) as it:
        it.sendto(ipx(4, (network, "f" * 12, "4002"), (network, node(peer), "4003"), b"for all"), (address, sites.port))


def start_drops(sites):
    """Sends the routers what they drop, and answers when it did so."""
    start_usual(sites)
    text = f'metrics_file = "{sites.world.path(NAME + ".prom")}"\n'
    for network, address, peer in PORTS:
        text += port_table(network, address, sites.port, [peer])
    sites.world.write(f"{NAME}.toml", text)
    sites.start_router(NAME)
    until(lambda: len(sites.routers[NAME].said()) >= len(PORTS), 10)
    for place, count in enumerate((FIRST, MORE)):
        with bound(PORTS[place][2], sites.port) as peer:
            for datagram in datagrams(place) * count:
                peer.sendto(datagram, (PORTS[place][1], sites.port))
            # Behind it the router looks what is to be told.
            time.sleep(0.2)
            peer.sendto(broadcast(place), (PORTS[place][1], sites.port))
        until(lambda: len(told(sites)) >= len(REASONS), 12)
    since = time.monotonic()
    with bound(STRANGER, sites.port) as stranger:
        for place, (_, address, _) in enumerate(PORTS):
            for _ in range(STRANGERS[place]):
                stranger.sendto(broadcast(place), (address, sites.port))
            with bound(PORTS[1 - place][2], sites.port) as peer:
                for _ in range(REFUSED[place]):
                    peer.sendto(to_nobody(place), (PORTS[1 - place][1], sites.port))
    return since


def check_drops(sites, sent):
    """What was told: at once of the first datagrams, a minute later of the others."""
    until(lambda: len(told(sites)) >= 2 * len(REASONS), sent + SECONDS_TO_THE_SECOND_LINE - time.monotonic())
    got, wanted = told(sites), [*lines_of(0, FIRST, FIRST), *lines_of(1, MORE, FIRST + MORE)]
    sites.check("a router tells what it dropped last for each reason, once a minute", got == wanted,
                f"{len(got)} lines" if got == wanted else str(got))
    line = re.compile(r"\[WARN  ipx\] \d+ datagrams? not sent: destination not a peer \(\d+ since the start\), the last to " + re.escape(STRANGER))
    found = any(line.fullmatch(it) for it in sites.routers[NAME].said())
    sites.check("and for whom it sent nothing", found, "" if found else str(sites.routers[NAME].said()[-3:]))
    (network, _, peer), usual = USUAL_PORT, told(sites, USUAL)
    wanted = ["[INFO  ipx] dropped 1 (1 since the start): not ours, "
              f"the last from {network} {node(peer)} 4003 on port 1"]
    sites.check("what is for all nodes of a network is told without a warning", usual == wanted, str(usual))
    sites.routers[USUAL].end()


def check_drops_figures(sites, figures):
    """What was dropped by each port, and by both together, once the figures were written."""
    of_router = figures[NAME]
    wanted = {**{reason: [FIRST, MORE] for reason in REASONS}, "propagated": [1, 1], "table_full": [0, 0]}
    by_port = {reason: [of_router.get(f'ipx_port_dropped_total{{port="{number}",reason="{reason}"}}') for number in (1, 2)]
               for reason in wanted}
    sites.check("it counts what it dropped by port and by reason", by_port == wanted, str(by_port))
    whole = {reason: of_router.get(f'ipx_dropped_total{{reason="{reason}"}}') for reason in wanted}
    sites.check("and by its ports together as much as at all", whole == {it: sum(wanted[it]) for it in wanted}, str(whole))


def check_guard_figures(sites, figures):
    """What guards kept back by each port of that router, and of each router by all together; and what waits."""
    of_router = figures[NAME]
    wanted = {"unknown_senders": STRANGERS, "egress_filtered": REFUSED}
    by_port = {cause: [of_router.get(f'ipx_port_{cause}_total{{port="{number}"}}') for number in (1, 2)] for cause in wanted}
    sites.check("it counts strangers, and what was for no peer, by port", by_port == wanted, str(by_port))
    apart = {(name, cause): it for name, it in figures.items() for cause in wanted
             if it.get(f"ipx_port_{cause}_total", 0) != it.get(f"ipx_{cause}_total")}
    sites.check("of each router the ports make up the whole", not apart, str(list(apart)) if apart else f"{len(figures)} routers")
    waiting = {name: it.get("ipx_send_queue_packets") for name, it in figures.items()}
    sites.check("each router says how many packets wait", None not in waiting.values(), str(waiting))


# When the alerts of contrib/ipx.rules.yml begin and end.
ALERTS = os.path.join(os.path.dirname(os.path.abspath(__file__)), "../../data/alert_rules_test.yml")


def check_promtool(sites):
    """What promtool says of all status files, and of the alert rules, where it is installed."""
    if not shutil.which("promtool"):
        leave_out("what promtool finds in metrics files and alert rules", "it is not installed (apt-get install prometheus)")
        return
    ran = subprocess.run(["promtool", "test", "rules", ALERTS], capture_output=True, check=False)
    sites.check("each alert begins and ends when it is to", ran.returncode == 0, (ran.stdout + ran.stderr).decode()[:600])
    found = {}
    for path in glob.glob(sites.world.path("*.prom")):
        with open(path, "rb") as it:
            ran = subprocess.run(["promtool", "check", "metrics"], stdin=it, capture_output=True, check=False)
        found[os.path.basename(path)] = (ran.returncode, (ran.stdout + ran.stderr).decode()[:300])
    wrong = {name: it for name, it in found.items() if it != (0, "")}
    sites.check("promtool finds nothing in status files", found and not wrong, str(wrong) if wrong else f"{len(found)} files")
