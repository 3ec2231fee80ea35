"""Ports for clients of ipxnet whose `peers` are prefixes and names of hosts, for `players`."""
from player_command import ran
from player_hostile import dropped_for, registered
from player_world import NETWORKS, REGISTRATION, Client, Router, lobby_table
from site_world import free_port, listed, until

PEERS_AT, NETWORK = "127.0.6.97", NETWORKS[0]
# No name server is asked for a name with a label of 64 letters: there is none.
NOBODY = "a" * 64 + ".example"
# The bits after the first 24 of the first one are set, and mean nothing. The second is one address.
PEERS = ["127.0.5.77/24", "127.0.4.9/32", "127.64.0.0/10", "localhost", NOBODY]
# The first and last address of each prefix, another one, and that of the name.
INSIDE = ["127.0.5.1", "127.0.5.255", "127.0.4.9", "127.64.0.1", "127.127.255.254", "127.0.0.1"]
# The addresses before and after each of them, but for those before 127.64.0.0 and after 127.127.255.255.
OUTSIDE = ["127.0.4.255", "127.0.6.98", "127.0.4.8", "127.0.4.10", "127.63.255.254", "127.128.0.1", "127.0.0.2"]
FOUND = "[INFO  ipx] port 1: localhost is 127.0.0.1"
MISSING = f"[WARN  ipx] port 1: {NOBODY} is not let in: "


def check_checked(run):
    """What --check prints of such a file. It asks nobody for a name."""
    file = run.world.write("checked.toml", lobby_table(NETWORK, (PEERS_AT, 2130), listed("peers", PEERS)))
    status, printed, fault = ran(run, "route", "--check", file)
    lines = printed.splitlines()
    wanted = ["port 1: peers has all of 127.0.5.0/24", "port 1: peers has all of 127.64.0.0/10",
              "port 1: peers has localhost, which is looked up when the router starts",
              f"port 1: peers has {NOBODY}, which is looked up when the router starts"]
    run.check("--check prints each prefix by its first address, and each name", (status, lines[1:-1], fault) == (0, wanted, ""),
              f"{status}\n{fault}\n{printed}")


def check_names(run, router):
    """The lines of both names, each once."""
    said = router.process.said()
    run.check("a name that is found is logged with its address, once", said.count(FOUND) == 1, "\n".join(said))
    missing = [line for line in said if line.startswith(MISSING) and len(line) > len(MISSING)]
    run.check("a name that is not found is logged, and the router goes on", len(missing) == 1, "\n".join(said))


def check_peers(run):
    """All of it."""
    check_checked(run)
    place = (PEERS_AT, free_port([PEERS_AT]))
    router = Router(run, "peers", [lobby_table(NETWORK, place, listed("peers", PEERS))])
    until(lambda: any("rcvbuf" in line for line in router.process.said()), 10)
    check_names(run, router)
    inside = [registered((ip, 0), place) for ip in INSIDE]
    answered = [ip for ip, client in zip(INSIDE, inside) if client.is_answered]
    run.check("who is in a prefix, or at the address of a name, is let in", answered == INSIDE, str(answered))
    outside = [Client((ip, 0), place) for ip in OUTSIDE]
    for client in outside:
        client.send(REGISTRATION)
    wanted = {'ipx_ipxnet_clients{port="1"}': len(INSIDE), "ipx_ipxnet_unknown_senders_total": len(OUTSIDE),
              dropped_for("unregistered"): 0}
    found = router.figures(wanted)
    run.check("who is not is no client, and is counted", found == wanted, "" if found == wanted else str(found))
    heard = [ip for ip, client in zip(OUTSIDE, outside) if client.take() or client.pinged]
    run.check("who is not gets no answer", not heard, str(heard))
    run.check("the router with prefixes goes on", not router.process.is_over())
    router.process.end()
    for client in (*inside, *outside):
        client.end()
