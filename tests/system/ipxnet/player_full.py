"""Ports for clients of ipxnet that have no place for one more, and what the log says of that, for `players`."""
from player_hostile import dropped_for, registered
from player_world import NETWORKS, REGISTRATION, Client, Router, lobby_table, shows
from site_world import free_port, until

FULL_AT, PLAYER, LATE = "127.0.6.91", "127.0.6.92", "127.0.6.93"
MANY_AT, HOUSE, ELSEWHERE = "127.0.6.94", "127.0.6.95", "127.0.6.96"
NETWORK = NETWORKS[0]
# So many clients of one IP address there may be.
OF_ADDRESS = 16
# The first line of each cause. The next one comes a minute later, longer than any of this takes.
PORT_FULL = "[WARN  ipx] 1 datagram of new players dropped: all places of their port are taken (1 since the start)"
ADDRESS_FULL = "[WARN  ipx] 1 datagram of new players dropped: all places of their IP address are taken (1 since the start)"
CLIENTS = 'ipx_ipxnet_clients{port="1"}'


def dropped_lines(router):
    """What its log says of datagrams of new players."""
    return [line for line in router.process.said() if "new players" in line]


def check_refused(run, router, late, line, counts):
    """A new player sends four datagrams, and gets no answer. The line of the first one comes at once, and no other; the counts
    come with the next file of metrics."""
    before = dropped_lines(router)
    run.check(f"{router.name}: nothing is logged of new players before one is refused", not before, "\n".join(before))
    late.send(REGISTRATION)
    told = until(lambda: dropped_lines(router), 10)
    for packet in (REGISTRATION, shows(late.node), REGISTRATION):
        late.send(packet)
    found = router.figures(counts)
    run.check(f"{router.name}: who found no place is no client, and is counted", found == counts,
              "" if found == counts else str(found))
    lines = dropped_lines(router)
    run.check(f"{router.name}: one line says why, once a minute at most", told and lines == [line], "\n".join(lines))
    run.check(f"{router.name}: who found no place gets no answer", not late.take() and not late.pinged)


def check_port(run):
    """A port with one place, which is taken."""
    place = (FULL_AT, free_port([FULL_AT]))
    router = Router(run, "full", [lobby_table(NETWORK, place, 'accept = "any"\nclients = 1\n')])
    player, late = registered((PLAYER, 0), place), Client((LATE, 0), place)
    run.check("the one player for whom there is a place is answered", player.is_answered)
    counts = {CLIENTS: 1, dropped_for("full"): 4, dropped_for("full_of_address"): 0}
    check_refused(run, router, late, PORT_FULL, counts)
    return router, [player, late]


def check_address(run):
    """As many players of one IP address as there may be. One of another has a place."""
    place = (MANY_AT, free_port([MANY_AT]))
    router = Router(run, "full_of_address", [lobby_table(NETWORK, place, 'accept = "any"\n')])
    players, late = [registered((HOUSE, 0), place) for _ in range(OF_ADDRESS)], Client((HOUSE, 0), place)
    players.append(registered((ELSEWHERE, 0), place))
    run.check(f"{OF_ADDRESS} players of one IP address are answered, and one of another", all(it.is_answered for it in players))
    counts = {CLIENTS: 17, dropped_for("full"): 0, dropped_for("full_of_address"): 4}
    check_refused(run, router, late, ADDRESS_FULL, counts)
    return router, [*players, late]


def check_full(run):
    """All of it."""
    for router, clients in (check_port(run), check_address(run)):
        run.check(f"the router {router.name} goes on", not router.process.is_over())
        router.process.end()
        for client in clients:
            client.end()
