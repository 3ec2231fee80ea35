"""IP addresses that register again and again, and what the log says of that, for `players`."""
import time

from player_hostile import registered
from player_world import NETWORKS, REGISTRATION, Client, Router, lobby_table
from site_world import free_port, until

SERVERS, HOUSE, TWICE, DEAF = ["127.0.6.110", "127.0.6.111"], "127.0.6.112", "127.0.6.113", "127.0.6.114"
# Of so many other IP addresses somebody registers three times: the log must not grow by that.
FORGERS = 200
LINE = "[WARN  ipx] port {}: {} registers again and again, and sends nothing else ({} since the start): do the answers reach it?"
# Such lines come within ten seconds, and sooner if something else comes.
SECONDS, LOOK_SECONDS = 12, 1.2


def lines_of(router):
    """What its log says of who registers."""
    return [line for line in router.process.said() if "registers" in line]


def register(ip, server, times):
    """Somebody types `ipxnet connect` so often: DOSBox takes another UDP port each time."""
    for _ in range(times):
        client = Client((ip, 0), server)
        client.send(REGISTRATION)
        client.end()


def check_repeats(run):
    """All of it."""
    port = free_port(SERVERS)
    places = [(address, port) for address in SERVERS]
    router = Router(run, "repeats", [lobby_table(*it, 'accept = "any"\n') for it in zip(NETWORKS, places)])
    player = registered((HOUSE, 0), places[0])
    register(HOUSE, places[0], 3)
    register(TWICE, places[0], 2)
    time.sleep(LOOK_SECONDS)
    register(DEAF, places[0], 2)
    time.sleep(LOOK_SECONDS)
    run.check("nothing is logged of who registers twice in a minute, nor of who has a player", not lines_of(router),
              "\n".join(lines_of(router)))
    register(DEAF, places[0], 1)
    first = LINE.format(1, DEAF, 1)
    run.check("one that registers three times in a minute, and sends nothing else, is logged",
              until(lambda: lines_of(router) == [first], SECONDS), "\n".join(lines_of(router)))
    for number in range(FORGERS):
        register(f"127.7.9.{number + 1}", places[0], 3)
    time.sleep(LOOK_SECONDS)
    register(DEAF, places[1], 3)
    second = LINE.format(2, DEAF, 1)
    told = until(lambda: second in lines_of(router), SECONDS)
    run.check(f"{FORGERS} more that do so make no other line of that port within a minute, and each port has its own",
              told and lines_of(router) == [first, second], "\n".join(lines_of(router)))
    run.check(f"the router {router.name} goes on", player.is_answered and not router.process.is_over())
    router.process.end()
    player.end()
