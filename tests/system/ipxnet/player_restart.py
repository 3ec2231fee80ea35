"""A router that is killed and started again under two who play and one who only listens, and pings to silent clients, for
`players`."""
import os
import signal
import time

from player_boxes import Box
from player_hostile import Pair, dropped_for, registered, wait_for
from player_world import EVERYBODY, NETWORKS, REGISTRATION, ROUTER_NODE, SECRET, Client, Router, lobby_table, shows
from site_packets import ipx
from site_world import free_port, until

LOBBY, PLAYERS, STRANGER = "127.0.6.81", ["127.0.6.82", "127.0.6.83"], "127.0.6.84"
NETWORK = NETWORKS[0]
# A ping comes so long after a client was heard last, at most so much later on a machine that is loaded.
PING_SECONDS, LATE_SECONDS = 25, 4
# Who was a client before a restart gets one so long after it, and the last one so long after it. The file of the clients is
# written within ten seconds of the first change.
ASK_SECONDS, LAST_ASK_SECONDS, FILE_SECONDS = 1, 4, 14
# What a client answers to a ping of the router.
ANSWER_TO = ("00000000", ROUTER_NODE, "0002")


class Restarted:
    """A router with a port for clients, which is killed and started again."""

    def __init__(self, run, name="restarted"):
        self.run, self.name = run, name
        self.place, self.secret = (LOBBY, free_port([LOBBY])), run.world.path(f"{name}.secret")
        self.router = self.started()

    def started(self, accept='accept = "any"\n'):
        return Router(self.run, self.name, [lobby_table(NETWORK, self.place, accept)])

    def again(self, change=None, accept='accept = "any"\n'):
        """It is killed, and started again at its place, once its file of the secret was changed so."""
        self.router.process.end(signal.SIGKILL)
        if change:
            text = change(self.kept())
            self.run.world.write(f"{self.name}.secret", text)
        self.router = self.started(accept)

    def kept(self):
        """What its file of the secret holds."""
        with open(self.secret, encoding="utf-8") as file:
            return file.read()

    def check_clients(self, wanted):
        """So many clients are there, by the figures, and nothing was dropped but for the cause that is wanted."""
        found = self.router.figures(wanted)
        self.run.check("its figures say who is there, and what it dropped", found == wanted, "" if found == wanted else str(found))


def to_all(client, body):
    """What a client sends to all nodes."""
    packet = ipx(4, (NETWORK, EVERYBODY, "4001"), (NETWORK, client.node, "4001"), body)
    client.send(packet)
    return packet


def check_players(it):
    """Two play on after a restart, and nobody registers again. Who sends in the name of another is none."""
    pair = Pair([registered((ip, 0), it.place) for ip in PLAYERS])
    it.run.check("two players are answered", all(client.is_answered for client in pair.clients))
    for who in (0, 1):
        pair.send(who)
    it.run.check("what they send comes", pair.all_came() and pair.is_whole())
    it.again()
    first, second = pair.clients
    to_all(first, b"one is there again")
    time.sleep(0.2)
    packet = to_all(second, b"and the other")
    it.run.check("after a restart a packet of one comes to the other that sent before", wait_for(first) == [packet])
    it.run.check("and nothing else comes", second.take() == [], str(second.got or ""))
    for client in pair.clients:
        client.got = []
    for _ in range(20):
        for who in (0, 1):
            pair.send(who)
    it.run.check("all that they send then comes, and nobody registered again", pair.all_came() and pair.is_whole())
    stranger = Client((STRANGER, 0), it.place)
    stranger.send(ipx(4, (NETWORK, first.node, "4001"), (NETWORK, second.node, "4001"), b"in the name of another"))
    it.check_clients({'ipx_ipxnet_clients{port="1"}': 2, dropped_for("unregistered"): 1, dropped_for("no_such_node"): 0})
    it.run.check("what was sent in the name of another comes to nobody", not any(client.take() for client in pair.clients))
    stranger.end()
    return pair


def check_pings(it, pair):
    """A silent client gets a ping after 25 seconds, one that sends gets none, and an answer is for nobody."""
    silent, other = pair.clients
    heard = time.monotonic()
    to_all(silent, b"and then nothing")
    until(other.take, 5)
    end = heard + PING_SECONDS + LATE_SECONDS
    while time.monotonic() < end and not silent.pinged:
        to_all(other, b"still here")
        time.sleep(0.25)
        silent.take()
    after = silent.pinged[0] - heard if silent.pinged else 0
    good = PING_SECONDS - 0.1 <= after <= PING_SECONDS + LATE_SECONDS
    it.run.check("a silent player gets a ping after 25 seconds", good, "" if good else f"{after:.1f} s")
    other.take()
    it.run.check("and one that sends gets none", not other.pinged)
    other.got = []
    silent.send(ipx(0, ANSWER_TO, ("00000000", silent.node, "0002"), b""))
    time.sleep(0.3)
    it.run.check("its answer comes to nobody", not other.take(), str(other.got or ""))
    it.check_clients({'ipx_ipxnet_clients{port="1"}': 2, dropped_for("unregistered"): 1, dropped_for("no_such_node"): 0,
                      'ipx_dropped_total{reason="not_ours"}': 0})


def check_box(it):
    """DOSBox plays on after a restart, and never connects again."""
    if it.run.lacks("DOSBox after a restart", "dosbox", "nasm"):
        return
    box = Box(it.run, "restarted_box", it.place)
    it.run.check("DOSBox connects", box.listens() and f"connected to server at {it.place[0]}" in box.said("CONNECT"))
    other = registered((PLAYERS[0], 0), it.place)
    it.again()
    to_all(other, b"who is there?")
    time.sleep(0.2)
    packet = box.send((NETWORK, EVERYBODY), b"DOSBox is", [])
    it.run.check("after a restart what a program of DOS sends comes to the other", wait_for(other, 10) == [packet], str(other.got[1:] or ""))
    packet = ipx(4, (NETWORK, box.node, "4001"), (NETWORK, other.node, "4001"), b"hello, DOSBox")
    other.send(packet)
    it.run.check("and it gets what is for it", until(lambda: packet in box.got(), 10))
    box.process.end()
    other.end()


def asked(client, seconds):
    """Whether a client is pinged within some seconds."""
    client.pinged = []
    return until(lambda: client.take() is not None and client.pinged, seconds)


def kept_text(*clients):
    """The file of the secret with these clients."""
    lines = [f"client {NETWORK} {place[0]}:{place[1]}\n" for place in clients]
    return f"{SECRET.hex()}\n{''.join(lines)}end {len(lines)}\n"


def check_listener(run):
    """A player who only listens is asked after a restart, by the file of the secret, and gets what others send."""
    it = Restarted(run, "listened")
    run.check("a file with the secret alone is read", it.kept() == f"{SECRET.hex()}\n" and not it.router.process.is_over())
    listener = registered((PLAYERS[0], 0), it.place)
    wanted = kept_text(listener.place)
    run.check("once it is a client the file lists it", until(lambda: it.kept() == wanted, FILE_SECONDS), it.kept())
    mode = os.stat(it.secret).st_mode & 0o777
    run.check("its owner alone may read it", mode == 0o600, oct(mode))
    it.again()
    is_asked = asked(listener, ASK_SECONDS + LATE_SECONDS)
    run.check("after a restart a player who only listens gets a ping", is_asked)
    listener.got = []
    if is_asked:
        listener.send(shows(listener.node))
    other = registered((PLAYERS[1], 0), it.place)
    packet = to_all(other, b"who listens?")
    run.check("its answer makes it a client: what another sends to all comes", wait_for(listener) == [packet], str(listener.got or ""))
    other.end()
    it.again(lambda text: text.replace(NETWORK, NETWORKS[1]))
    run.check("it gets none if the port has another network than it had", not asked(listener, LAST_ASK_SECONDS + 1))
    it.again(lambda _text: wanted, f'peers = ["{PLAYERS[1]}"]\n')
    asked(listener, LAST_ASK_SECONDS + 1)
    listener.got = []
    listener.send(shows(listener.node))
    other = registered((PLAYERS[1], 0), it.place)
    to_all(other, b"who may listen?")
    run.check("who may not register any more is no client by its answer", wait_for(listener, 1) == [], str(listener.got or ""))
    other.end()
    return it, listener


def check_cut(it, listener):
    """A router starts with a file that was cut, and says so. It has the secret of the first line, and asks nobody."""
    run = it.run
    it.again(lambda _text: kept_text(listener.place).replace("end 1\n", ""))
    said = [line for line in it.router.process.said() if "secret_file" in line]
    run.check("a file that was cut is said in one line, and the router starts",
              len(said) == 1 and "was cut" in said[0] and not it.router.process.is_over(), str(it.router.process.said()))
    run.check("it asks nobody", not asked(listener, LAST_ASK_SECONDS + 1))
    other = registered((PLAYERS[1], 0), it.place)
    run.check("its secret is that of the first line", other.is_answered)
    packet = to_all(listener, b"here I am")
    run.check("so who sends is a client again", wait_for(other) == [packet], str(other.got or ""))
    for client in (listener, other):
        client.end()
    run.check("and the router goes on", not it.router.process.is_over())
    it.router.process.end()


def given_nodes(run, name, file, place):
    """The nodes that a place is given by a router of a file, and by the same after it was killed."""
    client, nodes = Client((PLAYERS[0], 0), place), []
    for _ in range(2):
        process = run.world.start(name, "route", file)
        until(process.said, 10)
        client.send(REGISTRATION)
        nodes += [packet[10:16].hex() for packet in wait_for(client)]
        client.got = []
        process.end(signal.SIGKILL)
    client.end()
    return nodes


def check_secret(run):
    """The file of the secret is made at the first start, for its owner alone, and read at the next one."""
    place, secret = (LOBBY, free_port([LOBBY])), run.world.path("made.secret")
    table = lobby_table(NETWORK, place, 'accept = "any"\n')
    made, fresh = run.world.write("made.toml", f'secret_file = "{secret}"\n{table}'), run.world.write("fresh.toml", table)
    nodes = given_nodes(run, "made", made, place)
    run.check("with a file of the secret a place has the same node after a restart", len(nodes) == 2 and len(set(nodes)) == 1,
              str(nodes))
    mode = os.stat(secret).st_mode & 0o777 if os.path.exists(secret) else 0
    run.check("the first start made the file, which its owner alone may read", mode == 0o600, oct(mode))
    nodes = given_nodes(run, "fresh", fresh, place)
    run.check("without one it has another node", len(set(nodes)) == 2, str(nodes))
    run.world.write("made.secret", "no secret\n")
    process = run.world.start("made", "route", made)
    status, said = process.status(10), process.said()
    wanted = (f"{made}: secret_file {secret}: not a secret file: its first line is not 64 hex digits; "
              "name a file that does not exist, and ipx creates it")
    run.check("a file that holds something else is a fault of the start, in one line", (status, said) == (1, [wanted]), f"{status}: {said}")
    run.check("and it stays as it is", open(secret, encoding="utf-8").read() == "no secret\n")
    folder = run.world.path("folder")
    os.mkdir(folder)
    file = run.world.write("folder.toml", f'secret_file = "{folder}"\n{table}')
    process = run.world.start("folder", "route", file)
    status, said = process.status(10), process.said()
    wanted = f"{file}: secret_file {folder}: cannot be read: Is a directory (os error 21)"
    run.check("a secret file that cannot be read is said to be so, with the cause", (status, said) == (1, [wanted]), f"{status}: {said}")


def check_restart(run):
    """All of it."""
    check_secret(run)
    check_cut(*check_listener(run))
    it = Restarted(run)
    pair = check_players(it)
    check_pings(it, pair)
    for client in pair.clients:
        client.end()
    check_box(it)
    run.check("the router goes on", not it.router.process.is_over())
    it.router.process.end()
