"""A player who sends too many broadcasts, and 1,000 addresses that forge registrations, for `players`."""
import os
import re
import resource
import select
import time

from player_boxes import SECONDS, Box
from player_world import EVERYBODY, NETWORKS, REGISTRATION, Client, Router, answer_to, lobby_table, node_of, shows
from site_packets import ipx
from site_world import Watch, die_with_the_parent, free_port, until

CROWD_AT, OTHER_AT, FORGED_AT = "127.0.6.60", "127.0.6.61", "127.0.6.62"
CROWD, FLOODER = [f"127.0.6.{number}" for number in range(63, 71)], "127.0.6.71"
GIVER, TAKER, HONEST, PLAYER = "127.0.6.72", "127.0.6.73", "127.0.6.74", "127.0.6.75"
# So many players of each address of the crowd, and so many broadcasts a second of one more.
OF_ADDRESS, BROADCASTS = 15, 3_000
# So many packets over the other port, at most so many a second, and so many of them on the way. What share of their rate is to
# be left.
STREAM, STREAM_RATE, WINDOW, SHARE = 16_000, 8_000, 64, 0.9
FORGERIES, FORGERS, FORGE_SECONDS, TRIES = 20_000, 1_000, 6, 3
# DOSBox gets so long to start beside them.
BOX_SECONDS = 60


def sending(send, per_second, seconds):
    """Another process, which sends so often for so long; `send` is told how many went before."""
    child = os.fork()
    if child:
        return child
    die_with_the_parent()
    start, sent = time.monotonic(), 0
    while (passed := time.monotonic() - start) < seconds:
        for number in range(sent, due := int(passed * per_second)):
            try:
                send(number)
            except BlockingIOError:
                pass
        sent = due
        time.sleep(0.002)
    os._exit(0)


def streamed(router, giver, taker):
    """The rate at which packets of one come to the other, a second, without the time that the machine denied."""
    packet = ipx(4, (NETWORKS[1], taker.node, "4001"), (NETWORKS[1], giver.node, "4001"), b"stream")
    watch, start, sent, came = Watch(router.process.popen.pid, os.getpid()), time.monotonic(), 0, 0
    while came < STREAM and (passed := time.monotonic() - start) < 20 * STREAM / STREAM_RATE:
        for _ in range(sent, due := min(int(passed * STREAM_RATE) + 1, came + WINDOW, STREAM)):
            giver.send(packet)
        sent = max(sent, due)
        select.select([taker.socket], [], [], 0.002)
        came += taker.take().count(packet)
        taker.got = []
    return came / watch.seconds()


def is_registered(client, network):
    """A client registers, and waits for the answer as long as DOSBox does, or less."""
    client.send(REGISTRATION)
    return until(lambda: answer_to(network, client.node) in client.take(), 2)


def entered(place, server, network):
    """A client of this network, which has shown its node."""
    client = Client(place, server)
    client.node = node_of(client.place, network)
    client.is_answered = is_registered(client, network)
    client.send(shows(client.node))
    client.got = []
    return client


def check_broadcasts(run):
    """A player who sends 3,000 empty broadcasts a second to 120 others leaves another port its rate."""
    port = free_port([CROWD_AT, OTHER_AT])
    lobbies = [lobby_table(network, (address, port), 'accept = "any"\nclients = 150\n')
               for network, address in zip(NETWORKS, [CROWD_AT, OTHER_AT])]
    router = Router(run, "crowd", lobbies)
    crowd = [entered((ip, 0), (CROWD_AT, port), NETWORKS[0]) for ip in CROWD for _ in range(OF_ADDRESS)]
    flooder = entered((FLOODER, 0), (CROWD_AT, port), NETWORKS[0])
    giver, taker = (entered((ip, 0), (OTHER_AT, port), NETWORKS[1]) for ip in (GIVER, TAKER))
    run.check(f"{len(crowd)} players, and one more, are answered", all(it.is_answered for it in [*crowd, flooder, giver, taker]))
    alone = streamed(router, giver, taker)
    packet = ipx(4, (NETWORKS[0], EVERYBODY, "4001"), (NETWORKS[0], flooder.node, "4001"), b"")
    child = sending(lambda _number: flooder.send(packet), BROADCASTS, 60)
    time.sleep(1)
    beside = streamed(router, giver, taker)
    os.kill(child, 9)
    os.waitpid(child, 0)
    run.check(f"while one of them sends {BROADCASTS} broadcasts a second, packets over another port keep nine tenths of their rate",
              beside >= SHARE * alone, f"{beside:.0f} a second, {alone:.0f} without")
    key = 'ipx_ipxnet_dropped_total{port="1",reason="rate_limited"}'
    run.check("what was too much is counted", until(lambda: run.world.figures("crowd.prom").get(key, 0) > BROADCASTS, 14))
    said = re.compile(r"\bbroadcasts? of players dropped: more than 128 a second of one\b")
    lines = [line for line in router.process.said() if said.search(line)]
    last = f"{flooder.place[0]}:{flooder.place[1]}"
    run.check("and logged once, with the address of that player", len(lines) == 1 and last in lines[0], str(lines))
    end(run, router, [*crowd, flooder, giver, taker])


def check_forged(run):
    """Who registers while 1,000 addresses forge 20,000 registrations a second is a player."""
    _, most = resource.getrlimit(resource.RLIMIT_NOFILE)
    resource.setrlimit(resource.RLIMIT_NOFILE, (most, most))
    place = (FORGED_AT, free_port([FORGED_AT]))
    router = Router(run, "forged", [lobby_table(NETWORKS[0], place, 'accept = "any"\n')])
    player = entered((PLAYER, 0), place, NETWORKS[0])
    forgers = [Client((f"127.7.{number // 250}.{number % 250 + 1}", 0), place) for number in range(FORGERS)]
    child = sending(lambda number: forgers[number % FORGERS].send(REGISTRATION), FORGERIES, FORGE_SECONDS)
    time.sleep(1)
    honest = Client((HONEST, 0), place)
    is_answered = any(is_registered(honest, NETWORKS[0]) for _ in range(TRIES))
    run.check(f"while {FORGERS} addresses forge {FORGERIES} registrations a second, who registers is answered", is_answered)
    packet = ipx(4, (NETWORKS[0], honest.node, "4001"), (NETWORKS[0], player.node, "4001"), b"to who came")

    def is_player():
        honest.send(shows(honest.node))
        player.send(packet)
        return packet in honest.take()

    run.check("and is a player", until(is_player, FORGE_SECONDS - 2))
    os.waitpid(child, 0)
    end(run, router, [player, honest, *forgers])


def check_forged_box(run):
    """DOSBox connects beside such forgeries: it waits for the answer for five seconds, and does not ask again."""
    if run.lacks("DOSBox beside forged registrations", "dosbox", "nasm"):
        return
    place = (FORGED_AT, free_port([FORGED_AT]))
    router = Router(run, "forged_box", [lobby_table(NETWORKS[0], place, 'accept = "any"\n')])
    player = entered((PLAYER, 0), place, NETWORKS[0])
    forgers = [Client((f"127.7.{number // 250}.{number % 250 + 1}", 0), place) for number in range(FORGERS)]
    child = sending(lambda number: forgers[number % FORGERS].send(REGISTRATION), FORGERIES, BOX_SECONDS)
    start = time.monotonic()
    time.sleep(1)
    box = Box(run, "beside", place)
    good = box.listens() and f"connected to server at {place[0]}" in box.said("CONNECT")
    run.check(f"while {FORGERS} addresses forge {FORGERIES} registrations a second, DOSBox connects at its first try", good,
              box.said("CONNECT"))
    if good:
        packet = box.send((NETWORKS[0], player.node), b"to who plays", [])
        run.check("and what its program sends comes", until(lambda: packet in player.take(), 5), f"{len(player.got)} packets")
        is_going_on = os.waitpid(child, os.WNOHANG) == (0, 0)
        answered = sum(len(it.take()) for it in forgers)
        run.check("meanwhile the forgeries go on, and are answered", is_going_on and all(it.got for it in forgers),
                  f"{answered} answers in {time.monotonic() - start:.1f} s")
    os.kill(child, 9)
    os.waitpid(child, 0)
    box.step("exit")
    box.process.status(SECONDS)
    end(run, router, [player, *forgers])


def end(run, router, clients):
    """A router goes on until it is ended here."""
    run.check(f"the router {router.name} goes on", not router.process.is_over())
    router.process.end()
    for client in clients:
        client.end()


def check_floods(run):
    """All of them."""
    check_broadcasts(run)
    check_forged(run)
    check_forged_box(run)
