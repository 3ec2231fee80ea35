"""Lobbies of several routers that are joined as one network, for `players`: what clients send goes once to each other one,
however the routers name each other; DOSBox itself at two of them; and who means no good there."""
import collections
import os
import re
import signal
import time

from player_boxes import Box, Boxes, shown, table
from player_hostile import (FLOODED_AT, JOINED_FLOODER, Flooded, Pair, check_flood, dropped_for, end_all, forgeries, in_name_of,
                            registered)
from player_world import (EVERYBODY, NETWORKS, REGISTRATION, STATUS_SECONDS, Client, Router, answer_to, join_line, lobby_table,
                          shows, to_itself)
from site_packets import ipx
from site_world import TOP, free_port, listed, until
from wire_world import node_of_place, text_of

NETWORK = NETWORKS[0]
EXAMPLE = os.path.join(TOP, "examples/joined.toml")
SITES, AT_SITES = ["127.0.6.61", "127.0.6.62", "127.0.6.63"], "127.0.6.64"
LOBBIES = ["127.0.6.65", "127.0.6.66"]
GUARDED, PLAYERS, OTHER, STRANGER = ["127.0.6.67", "127.0.6.68"], ["127.0.6.69", "127.0.6.70"], "127.0.6.71", "127.0.6.72"
# Which routers name which. Two that name each other hear each other.
NAMES = {
    "three routers that name each both others": {"a": "bc", "b": "ac", "c": "ab"},
    "three, one of which one other does not name": {"a": "bc", "b": "a", "c": "ab"},
    "three that name each the next": {"a": "b", "b": "c", "c": "a"},
    "two that name themselves too": {"a": "ab", "b": "ba"},
}
# Nothing comes any more within so many seconds.
QUIET, SHORT = 2, 0.3
TURNS = 40
# Why what a joined router sends is dropped.
REASONS = ["malformed", "too_long", "no_such_node", "not_behind", "for_elsewhere"]


class Site:
    """A router that is joined to others, two clients of it, and what it is to count."""

    def __init__(self, run, name, place, others):
        self.own, self.name = node_of_place(place), name
        self.table = lobby_table(NETWORK, place, 'accept = "any"\n' + join_line(others), self.own)
        self.start(run)
        self.clients = [Client((AT_SITES, 0), place) for _ in range(2)]
        self.sent, self.dropped = 0, collections.Counter()
        for client in self.clients:
            client.site, client.wanted = self, []

    def start(self, run):
        self.router = Router(run, self.name, [self.table])

    def figures(self):
        """What the status file says of it, and what it is to say, once that is one, or some time later."""
        found, wanted = {}, {dropped_for(reason): self.dropped[reason] for reason in ("unregistered", "not_behind", "no_such_node")}

        def are_one():
            wanted["ipx_ipxnet_transmit_packets_total"] = self.sent
            figures = self.router.run.world.figures(f"{self.name}.prom")
            found.update({key: figures.get(key) for key in wanted})
            time.sleep(0.1)
            return found == wanted

        until(are_one, STATUS_SECONDS)
        return found, wanted


class Sites:
    """Routers, of which some name others, and what is to come to their clients, to each once."""

    def __init__(self, run, number, title, names):
        self.title, self.names, self.late = title, names, False
        udp_port = free_port(SITES)
        places = {name: (ip, udp_port) for name, ip in zip(names, SITES)}
        self.sites = {name: Site(run, f"{number}{name}", places[name], [places[it] for it in others])
                      for name, others in names.items()}
        self.clients = [client for site in self.sites.values() for client in site.clients]

    def others(self, site):
        """The routers that a site names, each with whether it hears that one; who does not counts what comes."""
        name = next(name for name, some in self.sites.items() if some is site)
        for other in (self.sites[it] for it in self.names[name]):
            heard = other is not site and self.sites[name] in self.named_by(other)
            if not heard:
                other.dropped["not_behind" if other is site else "unregistered"] += 1
            yield other, heard

    def named_by(self, site):
        return [self.sites[it] for name, some in self.sites.items() if some is site for it in self.names[name]]

    def register(self, client):
        """A client registers, and shows its node, of which joined routers are told nothing."""
        client.send(REGISTRATION)
        client.send(shows(client.node, client.site.own))
        client.wanted.append(answer_to(NETWORK, client.node, client.site.own))
        client.site.sent += 1

    def to_all(self, giver, packet, answer=None):
        """A client sends to all nodes, or pings."""
        giver.send(packet)
        here, = (client for client in giver.site.clients if client is not giver)
        here.wanted.append(packet)
        giver.site.sent += 1
        for other, heard in self.others(giver.site):
            giver.site.sent += 1
            if heard:
                other.sent += 2
                for client in other.clients:
                    client.wanted.append(packet)
        if answer:
            giver.wanted.append(answer)
            giver.site.sent += 1

    def to_one(self, giver, taker):
        """A client sends to the node of another. Where both routers hear each other it is known behind which that is."""
        packet = ipx(4, (NETWORK, taker.node, "4001"), (NETWORK, giver.node, "4001"), b"to one")
        giver.send(packet)
        near, far = giver.site, taker.site
        if near is far or far in self.named_by(near) and near in self.named_by(far):
            taker.wanted.append(packet)
            for site in {near, far}:
                site.sent += 1
            return
        for other, heard in self.others(near):
            near.sent += 1
            other.dropped["no_such_node"] += heard

    def settle(self):
        """Waits until all that is wanted came; once it did not, no more than a moment."""
        seconds = SHORT if self.late else 10
        self.late = not until(lambda: all(len(client.take()) >= len(client.wanted) for client in self.clients), seconds)

    def send_all(self):
        """Each registers, sends to all nodes and to each other one, and pings."""
        for client in self.clients:
            self.register(client)
            # One who is no client yet would miss what others send to all.
            self.settle()
        for client in self.clients:
            self.to_all(client, ipx(4, (NETWORK, EVERYBODY, "4001"), (NETWORK, client.node, "4001"), b"to all"))
            self.settle()
        # Each router that hears another knows of its clients by now.
        for client in self.clients:
            for other in self.clients:
                if other is not client:
                    self.to_one(client, other)
            ping = ipx(0, ("00000000", EVERYBODY, "0002"), ("00000000", client.node, "0002"), b"")
            pong = ipx(0, ("00000000", client.node, "0002"), ("00000000", client.site.own, "0002"), b"")
            self.to_all(client, ping, pong)
            self.settle()

    def compare(self, run, seconds=QUIET):
        """What came to each client."""
        wrong = [f"{client.node} at {client.site.name}: {len(client.got)} came, {len(client.wanted)} wanted"
                 for client in self.clients if collections.Counter(client.take()) != collections.Counter(client.wanted)]
        count = sum(len(client.got) for client in self.clients)
        run.check(f"{self.title}: what each client sends to all, to one and as a ping comes once to whom it is for, and "
                  f"for {seconds} seconds nothing more", not wrong, "; ".join(wrong) or f"{count} packets")

    def compare_figures(self, run):
        """How much each router sent, and what it dropped."""
        wrong, sent = [], 0
        for site in self.sites.values():
            found, wanted = site.figures()
            sent += wanted["ipx_ipxnet_transmit_packets_total"]
            wrong += [f"{site.name} counts {found}, not {wanted}"] if found != wanted else []
        run.check(f"{self.title}: they sent no more than that, and dropped what came by a way that is not joined", not wrong,
                  "; ".join(wrong) or f"{sent} sent")

    def begin_anew(self, run):
        """The last router ends and starts again. All clients register again, and have the nodes that they had."""
        site = self.clients[-1].site
        site.router.process.end()
        site.start(run)
        for client in self.clients:
            client.take()
            client.got, client.wanted = [], []
        self.title += ", one of which began anew"
        self.send_all()
        time.sleep(SHORT)
        self.compare(run, SHORT)

    def end(self):
        for site in self.sites.values():
            site.router.process.end()
        for client in self.clients:
            client.end()


def all_sites(run):
    """All ways to name each other, at once."""
    several = [Sites(run, f"joined{number}", *it) for number, it in enumerate(NAMES.items(), 1)]
    for it in several:
        it.send_all()
    time.sleep(QUIET)
    for it in several:
        it.compare(run)
    return several


class JoinedBoxes(Boxes):
    """Two routers whose lobbies are joined, as examples/joined.toml has it, and two boxes at each."""

    def __init__(self, run):
        self.run = run
        udp_port = free_port(LOBBIES)
        self.places = [(address, udp_port) for address in LOBBIES]
        with open(EXAMPLE, encoding="utf-8") as file:
            text = re.search(r'\[\[port\]\]\nkind = "ipxnet"\n(?:.+\n)+', re.sub(r" +#.*", "", file.read()))[0]
        self.routers = [
            Router(run, f"boxes{number}", [table(text, NETWORK, place, "127.0.0.1", join=f'["{text_of(other)}"]')])
            for number, place, other in zip((3, 4), self.places, self.places[::-1])]
        self.nodes = [node_of_place(place) for place in self.places]
        self.a, self.b, self.c, self.d = (Box(run, name, self.places[name in "cd"]) for name in "abcd")

    def near(self, box):
        """The node of the router that a box is at."""
        return self.nodes[self.places.index(box.place)]

    def all_send(self, body):
        """The program of each sends to all nodes; its own driver gives it that too."""
        for box in self.boxes:
            box.send((NETWORK, EVERYBODY), body + box.name.encode(), self.boxes)
        self.compare("what a program of DOS sends to all nodes comes to those of both joined routers, once")

    def each_sends(self, body):
        """The program of each sends to each other node."""
        for giver in self.boxes:
            for taker in self.boxes:
                if taker is not giver:
                    giver.send((NETWORK, taker.node), body + giver.name.encode() + taker.name.encode(), [taker])
        self.compare("what it sends to a node at either router comes to that one alone, once")

    def check_pings(self, boxes):
        """`ipxnet ping` shows the router at hand and all others."""
        for box in boxes:
            wanted = {shown(self.near(box)), *(shown(it.node) for it in self.boxes if it is not box)}
            found = box.pings()
            self.run.check(f"ipxnet ping of {box.name} shows its router and the players of both", found == wanted,
                           "" if found == wanted else str(found))


def check_left(it, box, begin):
    """A box goes, and comes again from another place. Who is at its old place then gets what is for all, once, and what is
    for its old node, which goes to nobody else."""
    node, old_place, name = box.node, it.old_place(box), box.name
    begin(it, box)
    box = getattr(it, name)
    it.all_connected([(box, NETWORK)])
    it.run.check(f"{name} has another node then", box.node != node, box.node)
    old = old_place()
    giver = it.a if box.place == it.places[1] else it.c
    wanted = [giver.send((NETWORK, EVERYBODY), b"to all, again", it.boxes),
              giver.send((NETWORK, node), b"to the old place", [])]
    giver.send((NETWORK, box.node), b"to the new place", [box])
    it.compare(f"behind that, what the other site sends to all comes once to each, and to {name} what is for its new node")
    until(lambda: len(old.take()) >= 2, 5)
    it.run.check("what is for its old node comes to its old place alone, and what is for all there once", old.take() == wanted,
                 "" if old.got == wanted else str([packet.hex() for packet in old.got]))
    return old


def disconnect(_it, box):
    box.step("del CONNECT", "ipxnet disconnect > LEFT", f"ipxnet connect {box.place[0]} {box.place[1]} > CONNECT")


def kill(it, box):
    """Nobody is at its place then: the system refuses what goes there."""
    box.process.end(signal.SIGKILL)
    left = [other for other in it.boxes if other is not box]
    it.a.send((NETWORK, EVERYBODY), b"to all, while one is gone", left)
    it.compare("while a place is left what is for all comes to the others at both, once")
    it.d = Box(it.run, box.name, box.place)


def check_joined_boxes(run):
    """DOSBox at two joined routers."""
    checked = run.world.start("check", "route", "--check", EXAMPLE)
    status = checked.status(10)
    run.check("examples/joined.toml has no fault", status == 0, "" if status == 0 else str(checked.said()))
    if run.lacks("DOSBox at joined routers", "dosbox", "nasm"):
        return
    it = JoinedBoxes(run)
    if not it.all_connected([(box, NETWORK) for box in it.boxes]):
        for one in [*it.boxes, *it.routers]:
            one.process.end()
        return
    it.all_send(b"to all of ")
    it.each_sends(b"one to one ")
    it.check_pings((it.a, it.d))
    olds = [check_left(it, it.b, disconnect), check_left(it, it.d, kill)]
    it.each_sends(b"again ")
    it.check_pings([it.b])
    for old in olds:
        old.end()
    it.end(it.boxes)


class Guarded:
    """Two joined routers with a player each, a place of a third one that both name, and who is none of them: one at the IP
    address of the third one, and one who is not named."""

    def __init__(self, run):
        self.run = run
        udp_port = free_port([*GUARDED, OTHER, FLOODED_AT, JOINED_FLOODER])
        self.places, third = [(ip, udp_port) for ip in GUARDED], (OTHER, udp_port)
        self.owns = [node_of_place(place) for place in self.places]
        self.routers = []
        for number, (place, own) in enumerate(zip(self.places, self.owns)):
            more = listed("peers", PLAYERS) + join_line([self.places[1 - number], third])
            self.routers.append(Router(run, f"guarded{number + 1}", [lobby_table(NETWORK, place, more, own)]))
        self.third = Client(third, self.places[0])
        self.strangers = [Client((ip, 0), self.places[0]) for ip in (OTHER, STRANGER)]
        self.pair = Pair([registered((ip, 0), *it) for ip, *it in zip(PLAYERS, self.places, self.owns)])
        run.check("two players at joined routers are answered", all(it.is_answered for it in self.pair.clients))
        self.forged = self.not_behind = 0

    def turn(self, number, forged):
        """Packets are sent to each of both routers, those of who sends them, and the players go on."""
        for client, packets in forged:
            for place, some in zip(self.places, packets):
                for packet in some:
                    client.send(packet, place)
        self.pair.send(number % 2)
        self.pair.all_came()

    def is_whole(self):
        """The players got what they sent each other, and nothing else."""
        return self.pair.is_whole() and not self.pair.other

    def check_figures(self):
        """What the routers counted of it."""
        for router in self.routers:
            wanted = {dropped_for("unregistered"): self.forged, "ipx_ipxnet_unknown_senders_total": self.forged,
                      dropped_for("not_behind"): self.not_behind, 'ipx_ipxnet_clients{port="1"}': 1}
            found = router.figures(wanted)
            self.run.check(f"{router.name} counts what was forged, by where it came from", found == wanted,
                           "" if found == wanted else f"{found}, not {wanted}")

    def end(self):
        for router, client in zip(self.routers, self.pair.clients):
            end_all(self.run, router, [client])
        for client in [self.third, *self.strangers]:
            client.end()


def check_strangers(it):
    """Who is at no place that is joined reaches nobody, in whatever name."""
    forged = forgeries(it.pair, *it.owns, "0a0000000001") + [to_itself(NETWORK, client.node) for client in it.pair.clients]
    for number in range(TURNS):
        it.turn(number, [(stranger, [forged, forged]) for stranger in it.strangers])
    it.forged = TURNS * len(forged)
    good = it.is_whole() and not any(stranger.take() for stranger in it.strangers)
    it.run.check(f"{it.forged} packets at each of two joined routers from a place that is not joined, at a joined router's IP "
                 "address, and as many from elsewhere, reach nobody; what players at both send comes meanwhile", good,
                 "" if good else f"{it.pair.missing()} missing, {it.pair.other} other")


def check_own_names(it):
    """A joined router that sends in the name of a router and of its client is not heard; these get what is for them."""
    forged = [[*in_name_of(client.node, client.node), *in_name_of(own, client.node), to_itself(NETWORK, client.node)]
              for client, own in zip(it.pair.clients, it.owns)]
    it.third.take()
    it.third.got = []
    for number in range(TURNS):
        it.turn(number, [(it.third, forged)])
    it.not_behind = TURNS * len(forged[0])
    # Each packet for all goes to it once: the other router passes it no further.
    came = [packet for packet in it.third.take() if packet[10:16].hex() != EVERYBODY]
    good = it.is_whole() and not came
    it.run.check(f"{it.not_behind} packets at each from a joined router, in the name of the router there and of its client, reach "
                 "nobody; what is for that client comes to it alone", good,
                 "" if good else f"{it.pair.missing()} missing, {it.pair.other} other, {len(came)} came to the joined router")


def check_far_name(it):
    """A joined router that sends in the name of a client of another one gets what is for it, until that one is heard again."""
    near, far = it.pair.clients
    packets = [ipx(4, (NETWORK, far.node, "4001"), (NETWORK, near.node, "4001"), body) for body in (b"claimed", b"back")]
    it.third.got = []
    claim = ipx(4, (NETWORK, near.node, "4001"), (NETWORK, far.node, "4001"), b"claim")
    it.pair.sent[1].append(claim)
    it.third.send(claim)
    until(lambda: it.pair.take() or it.pair.missing() == 0, 5)
    near.send(packets[0])
    until(it.third.take, 5)
    it.turn(1, [])
    it.pair.sent[0].append(packets[1])
    near.send(packets[1])
    good = it.pair.all_came() and it.is_whole()
    came = [packet for packet in it.third.take() if packet[10:16].hex() != EVERYBODY]
    good = good and came == packets[:1]
    it.run.check("where it sends in the name of a client at another router, what is for that comes to it alone, and goes back to the "
                 "client as that one sends", good, "" if good else f"{it.pair.missing()} missing, {came}")


def check_joined(run):
    """All of it but for DOSBox."""
    several = all_sites(run)
    it = Guarded(run)
    check_strangers(it)
    check_own_names(it)
    check_far_name(it)
    port = it.places[0][1]
    check_flood(run, Flooded(run, port, port), "from a joined router ", REASONS)
    # Status files are written every ten seconds.
    for sites in several:
        sites.compare_figures(run)
    several[0].begin_anew(run)
    for sites in several:
        sites.end()
    it.check_figures()
    it.end()
