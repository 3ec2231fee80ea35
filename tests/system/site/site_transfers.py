"""Transfers on one machine with room in the sockets, for `sites`: how many units may be out does not lose them."""
import time

from site_world import compiled, leave_out, listed, on_one, some_bytes, until

NETWORK = "00000044"
# 20 MB at these numbers of buffers, and three senders of 5 MB at 64 to one listener.
BUFFERS = {64: ("127.0.1.148", "127.0.1.149"), 512: ("127.0.1.150", "127.0.1.151"),
           8192: ("127.0.1.152", "127.0.1.153")}
MANY, SENDERS = "127.0.1.154", ["127.0.1.155", "127.0.1.156", "127.0.1.157"]
PLAIN = "127.0.1.158", "127.0.1.159"
TRANSFERRING = [*(address for pair in BUFFERS.values() for address in pair), MANY, *SENDERS, *PLAIN]
# None takes so many seconds, and three at once less than so many.
LIMIT, THREE_SECONDS = 20, 5
# In each round plain datagrams of the size of a full unit go between two processes, by tests/data/plain.c, and then a transfer at
# each number of buffers, of 20 MB in the first round. The quickest at a number has at least this share of the rate of the
# quickest piece of plain ones.
# On a machine with twice as much else to do as it has processors it had 0.28 to 0.32. A sender lets at most 32,000 units a second go:
# where that share is more than it may send, it sends nearly as much as it may.
# A virtual machine runs at several speeds, and one of the two may not have had the best one: if a share is too small, there are
# so many more rounds, and the quickest of all decide, once.
UNIT, DATAGRAM, PLAIN_COUNT, PLAIN_PIECE = 534, 576, 16_000, 2_000
ROUNDS, MORE_ROUNDS, SHARE = 8, 24, 0.2
MOST, NEARLY = 32_000 * UNIT, 0.95


def least_rate(plain):
    """What a transfer has to reach beside these rates of plain datagrams, in bytes a second."""
    return min(SHARE * max(plain), NEARLY * MOST)


def plain_rate(sites, program):
    """The bytes of units a second of the quickest piece of plain datagrams."""
    taker = sites.world.start("plain-take", "take", PLAIN[0], str(sites.port), str(PLAIN_COUNT), program=program)
    until(lambda: taker.out, 5)
    giver = sites.world.start("plain-give", "give", PLAIN[1], str(sites.port), PLAIN[0], str(PLAIN_COUNT), str(DATAGRAM), program=program)
    on_one(taker, giver)
    giver.status(LIMIT)
    taker.status(LIMIT)
    sites.check("plain datagrams come", giver.status(0) == taker.status(0) == 0, quiet=True)
    moments = [int(line) / 1e9 for line in taker.out.split()[1:]]
    for process in (taker, giver):
        sites.world.forget(process)
    return max(UNIT * PLAIN_PIECE / (later - sooner) for sooner, later in zip(moments, moments[1:]))


def write_hosts(sites):
    """The files of both hosts, for each number of buffers."""
    for buffers, addresses in BUFFERS.items():
        for end, address, number in zip(("listener", "sender"), addresses, ("4002", "4003")):
            sites.host(f"buffers-{buffers}-{end}", NETWORK, address, "127.0.1.89", number,
                       f"buffers = {buffers}\n" + listed("peers", addresses))


def transfer_rate(sites, listener, buffers, data):
    """The bytes a second of a transfer to this listener, both with so many buffers."""
    had = len(listener.out)
    sender = sites.start_sender(f"buffers-{buffers}-sender", [data], NETWORK, BUFFERS[buffers][0])
    on_one(sender)
    status = sender.status(LIMIT)
    until(lambda: len(listener.out) >= had + len(data), 5)
    came = listener.out[had:] == data
    sites.check(f"{len(data) / 1e6:g} MB at {buffers} buffers", status == 0 and came,
                f"status {status}, {len(listener.out) - had} of {len(data)} bytes, {sender.said()[-1:]}")
    sites.world.forget(sender)
    marks = [mark for mark in listener.marks if mark[1] > had]
    return (marks[-1][1] - marks[0][1]) / (marks[-1][0] - marks[0][0]) if came and len(marks) > 1 else 0


def check_rates(sites):
    """Transfers beside plain datagrams, in turn."""
    program, whole = compiled(sites.world), some_bytes(sites.seed + 10, 2 * sites.size)
    plain, rates, listeners = [], {buffers: [] for buffers in BUFFERS}, {}
    write_hosts(sites)
    for buffers in BUFFERS:
        listeners[buffers] = sites.start_listener(name=f"buffers-{buffers}-listener")
        on_one(listeners[buffers])
        until(listeners[buffers].said, 5)
    for number in range(ROUNDS + MORE_ROUNDS):
        if number == ROUNDS and not (plain and any(max(some) < least_rate(plain) for some in rates.values())):
            break
        plain += [plain_rate(sites, program)] if program else []
        for buffers, some in rates.items():
            some.append(transfer_rate(sites, listeners[buffers], buffers, whole[:len(whole) // (4 if number else 1)]))
    for listener in listeners.values():
        listener.end()
    if not program:
        leave_out("transfers beside plain datagrams", "gcc is not installed")
        return
    for buffers, some in rates.items():
        seen = f"{max(some) / 1e6:.1f} of {max(plain) / 1e6:.1f} MB/s"
        sites.check(f"at {buffers} buffers bytes go at {SHARE} of the rate of plain datagrams, or nearly as fast as a sender may",
                    max(some) >= least_rate(plain), seen)


def check_three(sites):
    """Three senders at once to one listener: each sends bytes of its own third."""
    sites.host("many-listener", NETWORK, MANY, "127.0.1.89", "4002", "buffers = 64\n" + listed("peers", SENDERS))
    thirds = [bytes(byte % 85 + 85 * number for byte in some_bytes(sites.seed + 11 + number, sites.size // 2))
              for number in range(3)]
    listener, senders, start = sites.start_listener(name="many-listener"), [], time.monotonic()
    for number, (address, data) in enumerate(zip(SENDERS, thirds)):
        sites.host(f"many-sender{number}", NETWORK, address, "127.0.1.89", "4003", "buffers = 64\n")
        senders.append(sites.start_sender(f"many-sender{number}", [data], NETWORK, MANY))
    statuses = [sender.status(LIMIT) for sender in senders]
    took = time.monotonic() - start
    sites.check(f"three at once take under {THREE_SECONDS} s", took < THREE_SECONDS, f"{took:.1f} s")
    check_thirds(sites, listener, senders, statuses, thirds)


def check_thirds(sites, listener, senders, statuses, thirds):
    """What each of three senders sent has come."""
    until(lambda: len(listener.out) >= sum(map(len, thirds)), 5)
    listener.end()
    got = [bytes(byte for byte in listener.out if byte // 85 == number) for number in range(3)]
    sites.check(f"three senders at once, {sites.size / 2e6:g} MB each, end with status 0",
                statuses == [0, 0, 0], f"{statuses} {[sender.said()[-1:] for sender in senders]}")
    sites.check("what each of the three sent came whole and in order", got == thirds, f"{len(listener.out)} bytes")
    for sender in senders:
        sender.end()


def check_room_told(sites, room, wanted):
    """Where sockets get less than they ask for, a host says so just where its buffers need over twice that: a unit
    takes 1,280 bytes."""
    line = f"the socket's receive buffer has only {room} bytes: set net.core.rmem_max = {wanted}"
    for number, buffers in enumerate((64, 8192)):
        name = f"room-{buffers}"
        sites.host(name, NETWORK, SENDERS[number], "127.0.1.89", "4002", f"buffers = {buffers}\n")
        host = sites.start_listener(name=name)
        until(lambda: any("socket 4002" in one for one in host.said()), 5)  # pylint: disable=cell-var-from-loop
        says = any(one.endswith(line) for one in host.said())
        sites.check(f"a host with {buffers} buffers and its room", says == (buffers * 1280 > 2 * room), str(host.said()))
        host.end()


def check_transfers(sites, room, wanted):
    """All of them. A sender paces itself, so sockets that get less room than they ask for lose next to nothing."""
    if room < wanted:
        check_room_told(sites, room, wanted)
    check_rates(sites)
    check_three(sites)
