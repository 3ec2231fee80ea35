"""Clients that mean no good at a port for clients of ipxnet, while two others play, for `players`."""
import collections
import os
import random
import resource
import select
import subprocess
import sys
import time

from player_world import (EVERYBODY, NETWORKS, REGISTRATION, ROUTER_NODE, STATUS_SECONDS, Client, Router, answer_to, join_line,
                          lobby_table, shows)
from site_packets import ipx
from site_world import Watch, die_with_the_parent, free_port, listed, until

FORGED_AT, FLOODED_AT = "127.0.6.41", "127.0.6.42"
PLAYERS, FORGER, STRANGER, MANY = ["127.0.6.43", "127.0.6.44"], "127.0.6.45", "127.0.6.46", "127.0.6.47"
FLOODERS, PACE = ["127.0.6.48", "127.0.6.49", "127.0.6.50", "127.0.6.51"], "127.0.6.52"
JOINED_FLOODER = "127.0.6.53"
NETWORK = NETWORKS[0]
FORGERIES = 500
# Of so many places of one IP address that register, so many can be clients. One of another IP address can be too.
PLACES, OF_ADDRESS, OTHER = 1_000, 16, "127.0.6.54"
ROOM_FOR = OF_ADDRESS + 1
PER_TURN, REGISTER_SECONDS = 20, 3.5
# The least time between two packets of a player to all, in seconds: half as many as a player may send.
EACH_TO_ALL = 1 / 64
# Whose address somebody forges gets so many datagrams at most for each registration in its name: the answer, and two pings.
OF_EACH = 3
# The last ping of who registered and shows nothing comes 8.5 seconds after that.
ASK_SECONDS = 9.5
# One host that registers so often from so many places, while another waits for its first ping. Every few seconds somebody
# registers in the name of the second one too: to the router a forged datagram is one from its socket.
NOTED_AT, SILENT, TALKER, REGISTERS = "127.0.6.55", "127.0.6.56", "127.0.6.57", "127.0.6.58"
REGISTERS_FROM, REGISTERS_EACH_SECOND, REGISTERS_SECONDS, IN_ITS_NAME_SECONDS = 70, 15, 10, 4
PER_SECOND, SECONDS, PLAYED, AT_ONCE = 10_000, 10, 400, 64
# So many datagrams are a flood, at this share of the rate or more, without the time for which the machine denied a processor
# to the router or to who sends.
DATAGRAMS, SHARE = PER_SECOND * SECONDS, 0.9
# So many bytes of a socket's room may one datagram need, with what the system adds.
OF_ROOM = 4096
# How much memory it may take more as its tables fill, and how much more in the second half, of 50,000 datagrams.
MEMORY_KB, LEVEL_KB = 8192, 256
REASONS = ["malformed", "unregistered", "other_source", "too_long", "no_such_node", "to_itself", "ping_elsewhere",
           "broadcast_elsewhere", "from_elsewhere", "response"]


def dropped_for(reason):
    """The figure of what a port dropped for a cause."""
    return f'ipx_ipxnet_dropped_total{{port="1",reason="{reason}"}}'


def wait_for(client, seconds=2):
    """Waits until something comes to a client, and takes it."""
    poll = select.poll()
    poll.register(client.socket, select.POLLIN)
    poll.poll(1000 * seconds)
    return client.take()


def registered(place, server, router=ROUTER_NODE):
    """A client that is answered by a router of this node, and has shown its own."""
    client = Client(place, server, [router])
    client.send(REGISTRATION)
    client.is_answered = wait_for(client) == [answer_to(NETWORK, client.node, router)]
    client.send(shows(client.node, router))
    client.got = []
    return client


class Pair:
    """Two who play: each packet of one is to come to the other, once and in order, and nobody else has a word in its name. By a
    joined router another network may have its node."""

    def __init__(self, clients, networks=None):
        self.clients, self.networks, self.sent = clients, networks, [[], []]
        self.came, self.other = [[], []], 0
        # When each sent to all last.
        self.to_all = [0.0, 0.0]

    def send(self, who):
        """One of them sends to the other, each tenth time to all, but no more often than EACH_TO_ALL: a player may send 128 a
        second to all, and a fast machine sends more than ten times as much here."""
        giver, taker = self.clients[who], self.clients[1 - who]
        number, now = len(self.sent[who]), time.monotonic()
        is_to_all = number % 10 == 9 and now - self.to_all[who] >= EACH_TO_ALL
        if is_to_all:
            self.to_all[who] = now
        to = (NETWORK, EVERYBODY if is_to_all else taker.node, "4001")
        packet = ipx(4, to, (NETWORK, giver.node, "4001"), b"move %d" % number)
        self.sent[who].append(packet)
        giver.send(packet)

    def take(self):
        """Takes what came in the name of the other."""
        for who, client in enumerate(self.clients):
            other = bytes.fromhex(self.clients[1 - who].node)
            came = [packet for packet in client.take() if packet[22:28] == other
                    and (not self.networks or packet[18:22].hex() in self.networks)]
            self.came[1 - who] += came
            self.other += len(client.got) - len(came)
            client.got = []

    def missing(self):
        """How many did not come yet."""
        return sum(map(len, self.sent)) - sum(map(len, self.came))

    def all_came(self, seconds=2):
        """Whether all of them came, in some time."""
        end = time.monotonic() + seconds
        while self.missing() > 0 and time.monotonic() < end:
            select.select([client.socket for client in self.clients], [], [], 0.05)
            self.take()
        return self.missing() == 0

    def is_whole(self):
        """What came is what was sent."""
        self.take()
        return self.came == self.sent


class Forged:
    """A router with a port for clients, two who play, and one that registered too."""

    def __init__(self, run):
        self.run = run
        self.place = (FORGED_AT, free_port([FORGED_AT, FLOODED_AT]))
        more = f'accept = "any"\nclients = {ROOM_FOR + 4}\n'
        self.router = Router(run, "spoofed_source", [lobby_table(NETWORK, self.place, more)])
        self.pair = Pair([registered((ip, 0), self.place) for ip in PLAYERS])
        self.forger, self.stranger = registered((FORGER, 0), self.place), Client((STRANGER, 0), self.place)
        run.check("two players and a third one are answered", all(it.is_answered for it in [*self.pair.clients, self.forger]))
        self.forged = 0



def in_name_of(name, to):
    """A ping, a packet for a player and one for all, in this name."""
    return [ipx(0, ("00000000", EVERYBODY, "0002"), ("00000000", name, "0002"), b""),
            ipx(4, (NETWORK, to, "4001"), (NETWORK, name, "4001"), b"move 0"),
            ipx(4, (NETWORK, EVERYBODY, "4001"), (NETWORK, name, "4001"), b"move 0")]


def forgeries(pair, *more):
    """Packets and pings in the name of each player, and of more."""
    names = [*(client.node for client in pair.clients), *more]
    return [packet for number, name in enumerate(names) for packet in in_name_of(name, pair.clients[number % 2].node)]


def check_forgeries(it):
    """They go nowhere, whether a client sends them or who is none."""
    turns, wanted = 0, answer_to(NETWORK, it.forger.node)
    for _ in range(FORGERIES // 12 + 1):
        for packet in forgeries(it.pair, ROUTER_NODE, "02000000ffff"):
            it.forger.send(packet)
            it.stranger.send(packet)
        turns += 1
        it.pair.send(turns % 2)
        it.forger.send(REGISTRATION)
        it.pair.all_came()
        until(lambda: it.forger.take().count(wanted) >= turns, 2)
    it.forged, answers = turns * 12, it.forger.take()
    # What players send to all it gets as well.
    other = [packet for packet in answers if packet != wanted and packet not in sum(it.pair.sent, [])]
    good = it.pair.is_whole() and answers.count(wanted) == turns and not other and not it.stranger.take()
    it.run.check(f"{it.forged} packets and pings in others' names from a client, and as many from who is none, reach nobody "
                 "and are not answered; what players send comes meanwhile", good,
                 "" if good else f"{it.pair.missing()} missing, {answers.count(wanted)} of {turns} answers, {len(other)} other")


class Many:
    """A thousand places that register, again and again."""

    def __init__(self, it):
        _, most = resource.getrlimit(resource.RLIMIT_NOFILE)
        resource.setrlimit(resource.RLIMIT_NOFILE, (most, most))
        self.it, self.sent, self.answers = it, 0, collections.Counter()
        # How often somebody registered in the name of each, and the sizes of what came there.
        self.registered, self.sizes = collections.Counter(), collections.defaultdict(list)
        self.wrong, self.began = [], None
        self.clients = [Client((MANY, 0), it.place) for _ in range(PLACES)]
        self.by_file = {client.socket.fileno(): client for client in self.clients}
        self.poll = select.epoll()
        for number in self.by_file:
            self.poll.register(number, select.EPOLLIN)

    def turn(self):
        """The next few register, and what came to any is taken."""
        self.began = self.began or time.monotonic()
        for number in range(self.sent, self.sent + PER_TURN):
            client = self.clients[number % PLACES]
            client.send(REGISTRATION)
            self.registered[client.node] += 1
        self.sent += PER_TURN
        self.take()

    def take(self):
        for number, _ in self.poll.poll(0):
            client = self.by_file[number]
            before = len(client.pinged)
            got = client.take()
            self.sizes[client.node] += [*map(len, got), *[len(REGISTRATION)] * (len(client.pinged) - before)]
            for packet in got:
                if packet == answer_to(NETWORK, client.node):
                    self.answers[client.node] += 1
                else:
                    self.wrong.append(packet)
            client.got = []

    def end(self):
        for client in self.clients:
            client.end()
        self.poll.close()


def check_many(it):
    """Registrations make no client: each is answered, and nothing else comes but two pings. Of those that then show their nodes
    as many are clients as one IP address may have, and one of another is too."""
    many, turns = Many(it), 0
    while turns < 10 or time.monotonic() < many.began + REGISTER_SECONDS:
        many.turn()
        turns += 1
        it.pair.send(turns % 2)
        if not it.pair.all_came():
            break
    it.run.check(f"while {PLACES} places register, {many.sent} times, each packet of the players comes",
                 it.pair.is_whole(), f"{turns} packets, {it.pair.missing()} missing")
    until(lambda: many.take() or sum(many.answers.values()) >= many.sent, 2)
    answered = sum(many.answers.values())
    it.run.check("each registration is answered", answered == many.sent and len(many.answers) == PLACES,
                 f"{answered} of {many.sent}")
    until(lambda: many.take() or time.monotonic() > many.began + REGISTER_SECONDS + ASK_SECONDS, 30)
    pings = sum(len(client.pinged) for client in many.clients)
    most = max(len(client.pinged) for client in many.clients)
    it.run.check("to who shows nothing come two pings after the last registration at most, and nothing else",
                 0 < pings and most <= 2 and not many.wrong, f"{pings} pings, at most {most}, {many.wrong[:1]}")
    little = all(len(sizes) <= OF_EACH * many.registered[node] and set(sizes) == {len(REGISTRATION)}
                 for node, sizes in many.sizes.items())
    run_sizes = [size for sizes in many.sizes.values() for size in sizes]
    it.run.check(f"a victim gets at most {OF_EACH} datagrams for each registration in its name, of {len(REGISTRATION)} bytes each",
                 little and len(many.sizes) == PLACES, f"{len(run_sizes)} datagrams, of {max(run_sizes)} bytes at most")
    for client in many.clients:
        client.send(shows(client.node))
    other = registered((OTHER, 0), it.place)
    it.run.check("after that one of another IP address is answered", other.is_answered)
    it.pair.send(1)
    it.pair.send(0)
    packet = ipx(4, (NETWORK, other.node, "4001"), (NETWORK, it.pair.clients[0].node, "4001"), b"to the other")
    it.pair.clients[0].send(packet)
    it.run.check("and is a client", until(lambda: packet in other.take(), 5) and it.pair.all_came())
    many.other = other
    many.end()
    return many


def answers_pings(client):
    """What came to a client, which answers each ping of its router as DOSBox does."""
    before = len(client.pinged)
    got = client.take()
    for _ in client.pinged[before:]:
        client.send(shows(client.node))
    return got


def check_notes(run):
    """A host that registers all the time, from many places and in its name, keeps nobody out who only listens."""
    place = (NOTED_AT, free_port([NOTED_AT]))
    router = Router(run, "noted", [lobby_table(NETWORK, place, listed("peers", [SILENT, TALKER, REGISTERS]))])
    talker, silent = registered((TALKER, 0), place), Client((SILENT, 0), place)
    hosts = [Client((REGISTERS, 0), place) for _ in range(REGISTERS_FROM)]
    silent.send(REGISTRATION)
    is_answered = wait_for(silent) == [answer_to(NETWORK, silent.node)]
    run.check("a player who only listens and one who talks are answered", talker.is_answered and is_answered)
    silent.got, sent, in_its_name, start = [], 0, 0, time.monotonic()
    while (passed := time.monotonic() - start) < REGISTERS_SECONDS:
        if passed > (in_its_name + 1) * IN_ITS_NAME_SECONDS:
            silent.send(REGISTRATION)
            in_its_name += 1
        while sent < passed * REGISTERS_EACH_SECOND:
            hosts[sent % REGISTERS_FROM].send(REGISTRATION)
            sent += 1
        select.select([silent.socket], [], [], 0.02)
        answers_pings(silent)
        for client in hosts:
            client.take()
    answered = sum(client.got.count(answer_to(NETWORK, client.node)) for client in hosts)
    answers = silent.got.count(answer_to(NETWORK, silent.node))
    run.check(f"another host registers {sent} times from {REGISTERS_FROM} places, and {in_its_name} times in the name of who only "
              "listens, and is answered", answered == sent and answers == in_its_name, f"{answered} of {sent}, {answers}")
    packet = ipx(4, (NETWORK, EVERYBODY, "4001"), (NETWORK, talker.node, "4001"), b"who only listens?")
    talker.send(packet)
    run.check("who only listens was pinged meanwhile, and what the other sends to all comes to it",
              until(lambda: packet in answers_pings(silent), 2) and silent.pinged, f"{len(silent.pinged)} pings")
    wanted = {'ipx_ipxnet_clients{port="1"}': 2}
    found = router.figures(wanted)
    run.check("these two are players, and nobody of that host is", found == wanted, "" if found == wanted else str(found))
    said = f"client {silent.place[0]}:{silent.place[1]} connected as {silent.node}"
    run.check("the log says that it connected", said in "\n".join(router.process.said()), "\n".join(router.process.said()))
    end_all(run, router, [talker, silent, *hosts])


def check_counts(it, many):
    """What was forged and who found no room is counted."""
    found = it.router.figures(wanted := {
        dropped_for("other_source"): it.forged, dropped_for("unregistered"): it.forged,
        dropped_for("full_of_address"): PLACES - OF_ADDRESS, dropped_for("full"): 0,
        'ipx_ipxnet_clients{port="1"}': ROOM_FOR + 3})
    it.run.check("what was forged, and who found no room, is counted", found == wanted, "" if found == wanted else str(found))
    many.other.end()


def some_datagram(rng, nodes):
    """Bytes that are anything; or a packet that is in order, or nearly, from a flooder or in another's name."""
    way = rng.random()
    if way < 0.3:
        return rng.randbytes(rng.randrange(1500))
    if way < 0.4:
        packet = bytearray(REGISTRATION + rng.randbytes(rng.choice([0, 0, 1])))
        packet[rng.choice([4, 5, 6, 10, 17, 18, 22, 29])] = rng.randrange(256)
        return bytes(packet)
    to = rng.choice([*nodes, "FLOODER", ROUTER_NODE, rng.randbytes(6).hex()]) if rng.random() < 0.95 else EVERYBODY
    network = rng.choice([NETWORK, "00000000", "0000d05c", rng.randbytes(4).hex()])
    source = rng.choice([*nodes, "FLOODER"] + ["FLOODER"] * 5)
    body = rng.randbytes(rng.choice([rng.randrange(600), rng.randrange(1440)]))
    if rng.random() < 0.2:
        body = rng.choice([b"\0\1", b"\0\2", b"\0\3", b"\0\4"]) + body[:400]
    sockets = [rng.choice(["4001", "0002", "0452", "0453"]) for _ in range(2)]
    return network, to, sockets, source, body, rng.choice([0, 1, 4, 17, 20]), rng.randrange(20)


def made(rng, one, node):
    """What a flooder of this node sends."""
    if isinstance(one, bytes):
        return one
    network, to, (socket_to, socket_from), source, body, kind, hops = one
    to, source = (node if it == "FLOODER" else it for it in (to, source))
    own = rng.choice([NETWORK, "00000000", NETWORK, "00000077"])
    packet = bytearray(ipx(kind, (network, to, socket_to), (own, source, socket_from), body, hops))
    if rng.random() < 0.1:
        packet[rng.randrange(len(packet))] = rng.randrange(256)
    return bytes(packet)


def flooders(rng, server, joined):
    """From where they come, two of them clients, each with its nodes; or a joined router, with a thousand behind it. By its
    own node each other would be a client too, so it has that of one."""
    if joined:
        return [(Client((JOINED_FLOODER, joined), server), [rng.randbytes(6).hex() for _ in range(1000)])]
    clients = [registered((ip, 0), server) for ip in FLOODERS[:2]]
    return [(client, [client.node]) for client in clients] + [(Client((ip, 0), server), [clients[0].node]) for ip in FLOODERS[2:]]


def flood(port, joined, seed, window, *nodes):
    """Sends them from four places, or from that of a joined router, so many a second. What was sent and not answered, by the
    answers to registrations of another one between, is never more than a window: a router that is kept waiting loses nothing."""
    rng, server = random.Random(seed), (FLOODED_AT, port)
    several = flooders(rng, server, joined)
    clients = [client for client, _ in several]
    pace = registered((PACE, 0), server)
    answer = answer_to(NETWORK, pace.node)
    numbers = [rng.randrange(len(clients)) for _ in range(PER_SECOND)]
    datagrams = [made(rng, some_datagram(rng, nodes), rng.choice(several[number][1])) for number in numbers]
    each = max(window // 4, 8)
    print("ready", flush=True)
    sys.stdin.readline()
    watch, start, sent, answered = Watch(os.getpid()), time.monotonic(), 0, 0
    while sent < DATAGRAMS and (passed := time.monotonic() - start) < 6 * SECONDS:
        due = min(int(passed * PER_SECOND) + 1, (answered + 4) * each, DATAGRAMS)
        if sent < DATAGRAMS // 2 <= due:
            print("half", flush=True)
        for number in range(sent, due):
            place = number % PER_SECOND
            datagram = REGISTRATION if number % each == each - 1 else datagrams[place]
            (pace if datagram is REGISTRATION else clients[numbers[place]]).send(datagram)
        sent = max(sent, due)
        time.sleep(0.002)
        answered += pace.take().count(answer)
        for client in [pace, *clients]:
            client.take()
            client.got = []
    print(sent, watch.seconds(), flush=True)


class Flooded:
    """A router with a port for clients that is flooded, by a joined router where there is one, and two who play there."""

    def __init__(self, run, port, joined=0):
        self.run, self.place = run, (FLOODED_AT, port)
        more = 'accept = "any"\n' + join_line([(JOINED_FLOODER, joined)] if joined else [])
        self.router = Router(run, "flooded_joined" if joined else "flooded", [lobby_table(NETWORK, self.place, more)])
        self.pair = Pair([registered((ip, 0), self.place) for ip in PLAYERS], [NETWORK, "00000000"] if joined else None)
        room = int(self.router.process.said()[0].rsplit(" ", 1)[1])
        script = os.path.join(os.path.dirname(os.path.abspath(__file__)), "players")
        numbers = (port, joined, run.seed, min(room // OF_ROOM, 1000))
        self.words = [sys.executable, script, "--flood", *map(str, numbers), *(client.node for client in self.pair.clients)]

    def play(self, is_over):
        """They play until that is so, at an even pace; who is behind waits for what was sent."""
        start, sent = time.monotonic(), sum(map(len, self.pair.sent))
        first = sent
        while not is_over():
            due = first + int((time.monotonic() - start) * PLAYED)
            while sent < due and self.pair.missing() < AT_ONCE:
                self.pair.send(sent % 2)
                sent += 1
            select.select([client.socket for client in self.pair.clients], [], [], 0.002)
            self.pair.take()
        self.pair.all_came(SECONDS)

    def flood(self):
        """Floods it. How many datagrams that was, in how many seconds without those that the machine denied, and the memory
        before, in the middle and at the end."""
        flooder = subprocess.Popen(self.words, stdin=subprocess.PIPE, stdout=subprocess.PIPE, text=True,
                                   preexec_fn=die_with_the_parent)
        flooder.stdout.readline()
        memory = [self.router.process.memory()[0]]
        flooder.stdin.write("go\n")
        flooder.stdin.flush()
        watch = Watch(self.router.process.popen.pid)
        for _ in ("half", "all"):
            self.play(lambda: select.select([flooder.stdout], [], [], 0)[0])
            memory.append(self.router.process.memory()[0])
            line = os.read(flooder.stdout.fileno(), 100).split()
        flooder.communicate(timeout=60)
        return int(line[0]), float(line[1]) - watch.denied(), memory


def check_flood(run, it, who, reasons):
    """Nothing of theirs is lost, memory stays, and the flood comes at its rate."""
    name = f"while {PER_SECOND} random datagrams a second come {who}for {SECONDS} seconds"
    sent, took, memory = it.flood()
    run.check(f"{name}, each packet of the players comes, in order and once", it.pair.is_whole(),
              f"{sum(map(len, it.pair.sent))} packets, {it.pair.missing()} missing")
    level = memory[2] - memory[0] < MEMORY_KB and memory[2] - memory[1] < LEVEL_KB
    run.check(f"{name}, the router's memory stays level", level, f"{memory} kB")
    run.check("so many came, at nine tenths of that rate or more", sent == DATAGRAMS and took <= SECONDS / SHARE,
              f"{sent} in {took:.2f} s")
    found = dropped(run, it.router, sent / 2, reasons)
    run.check("of the flood most is dropped, and for each cause that there is", all(found.values()) and
              sum(found.values()) >= sent / 2, f"of {sent}: {found}")
    end_all(run, it.router, it.pair.clients)


def end_all(run, router, clients):
    """A router goes on until it is ended here."""
    run.check(f"the router {router.name} goes on", not router.process.is_over())
    router.process.end()
    for client in clients:
        client.end()


def dropped(run, router, least, reasons):
    """How much a router dropped, by cause, once it is so much in all, or some time later."""
    found = {}

    def is_enough():
        figures = run.world.figures(f"{router.name}.prom")
        found.update({reason: figures.get(dropped_for(reason), 0) for reason in reasons})
        return sum(found.values()) >= least

    until(is_enough, STATUS_SECONDS)
    return found


def check_hostile(run):
    """All of it."""
    forged = Forged(run)
    check_forgeries(forged)
    many = check_many(forged)
    check_flood(run, Flooded(run, forged.place[1]), "", REASONS)
    check_counts(forged, many)
    end_all(run, forged.router, [*forged.pair.clients, forged.forger, forged.stranger])
    check_notes(run)
