"""The rows of tests/data/players.rows, for `players`: datagrams in, datagrams out, and what is counted."""
import collections
import os
import re
import time

from player_world import NETWORKS, Client, join_line, lobby_table, two_routers
from site_world import TOP, free_port, listed, node, until
from wire_world import WirePort

ROWS = os.path.join(TOP, "tests/data/players.rows")
ROUTERS, LOBBIES, HOST = ["127.0.6.1", "127.0.6.2"], ["127.0.6.3", "127.0.6.4", "127.0.6.5"], "127.0.6.20"
JOINED_NETWORK = "0000d05e"
WIRE_NETWORK, WIRE, STATION = "0000d05f", "127.0.6.6", "0200000000f0"
# The ports of UDP of clients are part of what the rows say. The system gives none below 32768 to others.
PLACES = {"a": ("127.0.6.11", 24611), "b": ("127.0.6.12", 24612), "c": ("127.0.6.13", 24613), "d": ("127.0.6.14", 24614),
          "u": ("127.0.6.15", 24615), "v": ("127.0.6.16", 24616), "n": ("127.0.6.17", 24617), "e": ("127.0.6.18", 24618),
          "f": ("127.0.6.19", 24619), "g": ("127.0.6.26", 24626), "i": ("127.0.6.27", 24627), "s": ("127.0.6.8", 24628),
          "j": ("127.0.6.8", 24608), "k": ("127.0.6.9", 24609)}
END = ("127.0.6.7", 24607)
# At which of LOBBIES each of them is, and who may register there. j and k are joined to the third one.
SERVERS = {**dict.fromkeys("abcuvn", 0), "d": 1, **dict.fromkeys("efgisjk", 2)}
MAY, JOINED = ["abcuv", "d", "efgi"], "jk"
# What the lobbies drop: the word of the rows, the router, its port, how many clients are there in the end, and its strangers.
COUNTED = [("drop", 0, 2, 4, 1), ("drop2", 1, 2, 1, 0), ("drop3", 0, 3, 4, 1)]
# So long after what is wanted came, more of it would be seen; and whatever comes later fails the rows behind it.
QUIET = 0.06


def bytes_of(text):
    """The bytes of a line: hex, and `61*9` for nine times 61."""
    return bytes.fromhex(re.sub(r"([0-9a-f]{2})\*(\d+)", lambda some: some[1] * int(some[2]), text))


def read_rows():
    """Each row: what it is of, and its lines as a word, who and what."""
    rows = []
    with open(ROWS, encoding="ascii") as file:
        for line in file.read().splitlines():
            word, _, rest = line.partition(" ")
            if word == "row":
                rows.append((rest, []))
            elif line and word != "#":
                who, _, text = rest.partition(" ")
                rows[-1][1].append((word, who, bytes_of(text)))
    return rows


def run_row(run, clients, name, lines):
    """Sends what a row has, and compares what came to each."""
    wanted = {who: [bytes_ for word, to, bytes_ in lines if (word, to) == ("out", who)] for who in clients}
    for word, who, bytes_ in lines:
        if word == "wait":
            time.sleep(float(who))
        if word == "in":
            clients[who].send(bytes_)

    def is_there():
        return all(len(client.take()) >= len(wanted[who]) for who, client in clients.items())

    until(is_there, 5)
    time.sleep(QUIET)
    got = {who: client.take() for who, client in clients.items()}
    wrong = [f"{who} got {[it.hex()[:120] for it in got[who]]}" for who in clients if got[who] != wanted[who]]
    for client in clients.values():
        client.got = []
    run.check(name, not wrong, "; ".join(wrong))


def tables_of(lobbies, wire):
    """The ports of both routers but for what is between them."""
    may = [listed("peers", [PLACES[who][0] for who in some]) for some in MAY]
    join = join_line([PLACES[who] for who in JOINED])
    more = [may[0] + "clients = 4\n", may[1], may[2] + join]
    tables = [lobby_table(*it) for it in zip([*NETWORKS, JOINED_NETWORK], lobbies, more)]
    return [[tables[0], tables[2]], [tables[1], WirePort(WIRE_NETWORK, "ethernet-ii", wire, [END], STATION).table()]]


def check_counts(run, routers, rows):
    """What each port dropped, by cause."""
    dropped = collections.Counter((word, what) for _, lines in rows for word, what, _ in lines if word.startswith("drop"))
    for word, router, port, known, strangers in COUNTED:
        wanted = {f'ipx_ipxnet_dropped_total{{port="{port}",reason="{what}"}}': count for (some, what), count in dropped.items()
                  if some == word}
        wanted |= {f'ipx_ipxnet_clients{{port="{port}"}}': known, "ipx_ipxnet_unknown_senders_total": strangers}
        found = routers[router].figures(wanted)
        run.check(f"port {port} of {routers[router].name} counts what was dropped, by cause", found == wanted,
                  "" if found == wanted else f"{found}, not {wanted}")


def check_rows(run):
    """All rows, and then the counts of both routers."""
    udp_port = free_port([*ROUTERS, HOST, *LOBBIES, WIRE])
    lobbies, wire = [(address, udp_port) for address in LOBBIES], (WIRE, udp_port)
    routers = two_routers(run, ["rows1", "rows2"], ROUTERS, udp_port, tables_of(lobbies, wire), [HOST])
    clients = {who: Client(place, lobbies[SERVERS[who]]) for who, place in PLACES.items()}
    clients["h"] = Client((HOST, udp_port), (ROUTERS[0], udp_port), [node(address) for address in ROUTERS])
    clients["w"] = Client(END, wire, [STATION], 14)
    rows = read_rows()
    for name, lines in rows:
        run_row(run, clients, name, lines)
    check_counts(run, routers, rows)
    for router in routers:
        router.process.end()
    for client in clients.values():
        client.end()
