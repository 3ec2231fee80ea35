"""SIGINT, SIGTERM and SIGHUP to a router, a listener and a sender in the middle of work, for `system`: none is caught,
so each ends at once, and the other end sees what it sees of a machine that lost its power."""
import re
import signal
import threading
import time

from site_world import bound, free_port, node, some_bytes
from system_world import came, wait

SIGNALS = [signal.SIGINT, signal.SIGTERM, signal.SIGHUP]
# For each signal, and its number: the addresses of what it ends.
NETWORK, NOWHERE = "00000044", "127.97.0.9"
LOST = re.compile(r"connection lost: (\d+) of (\d+) bytes acknowledged")
SIZE = 400_000


def addresses(number, count):
    return [f"127.97.{number}.{last}" for last in range(1, count + 1)]


def is_ended(process, number):
    """Sends a signal; whether it ends by it within a second, `yield from`."""
    process.popen.send_signal(number)
    yield from wait(process.is_over, 1)
    return process.status(0) == -number


def of_a_sender(system, number):
    """The sender ends: its listener has a beginning of what it sent, goes on, and takes the next one."""
    name, (at, first, second) = signal.Signals(number).name, addresses(10 + number, 3)
    port, data = free_port([at, first, second]), some_bytes(number, SIZE)
    system.host(f"{name}-takes", NETWORK, at, NOWHERE, port, [first, second])
    for sender, address in (("first", first), ("second", second)):
        system.host(f"{name}-{sender}", NETWORK, address, NOWHERE, port)
    listener = system.start(f"{name}-takes", None, "listen")
    yield from wait(listener.said, 5)
    sender = system.start(f"{name}-first", None, "send", NETWORK, node(at), "4002", stdin=True)
    sender.feed([data[:SIZE // 2], 20.0])
    yield from wait(lambda: len(listener.out) > SIZE // 4 or sender.is_over(), 10)
    ended = yield from is_ended(sender, number)
    time_out = len(listener.out)
    system.check(f"{name} ends a sender in mid-stream at once, and it says nothing", ended and not sender.said(), str(sender.said()))
    good = data.startswith(listener.out) and not listener.is_over()
    after = system.start(f"{name}-second", None, "send", NETWORK, node(at), "4002", stdin=True)
    after.feed([data])
    yield from wait(after.is_over, 15)
    yield from wait(lambda: len(listener.out) >= time_out + SIZE, 5)
    got = bytes(listener.out)
    system.check(f"{name} to a sender: its listener has a beginning of that, goes on, and has all of the next one", good
                 and after.status(0) == 0 and got.endswith(data) and data.startswith(got[:-SIZE]) and len(got) > SIZE,
                 f"{time_out} bytes, then {len(got)}, status {after.status(0)}")
    listener.end()


def of_a_listener(system, number):
    """The listener ends: its sender says so within half a minute, and how much was acknowledged."""
    name, (at, far) = signal.Signals(number).name, addresses(20 + number, 2)
    port, data, ended = free_port([at, far]), some_bytes(number, SIZE), threading.Event()
    system.host(f"{name}-gone", NETWORK, at, NOWHERE, port, [far])
    system.host(f"{name}-left", NETWORK, far, NOWHERE, port)
    listener = system.start(f"{name}-gone", None, "listen")
    yield from wait(listener.said, 5)
    sender = system.start(f"{name}-left", None, "send", NETWORK, node(at), "4002", stdin=True)
    sender.feed([data[:SIZE // 2], ended, data[SIZE // 2:]])
    yield from wait(lambda: len(listener.out) > SIZE // 4 or sender.is_over(), 10)
    good, since = (yield from is_ended(listener, number)), time.monotonic()
    ended.set()
    system.check(f"{name} ends a listener in mid-stream at once, and it says no more", good and len(listener.said()) == 1,
                 str(listener.said()))
    yield from wait(sender.is_over, 40)
    took, status, said = time.monotonic() - since, sender.status(0), sender.said()
    found = LOST.fullmatch(said[0]) if len(said) == 1 else None
    system.check(f"{name} to a listener: its sender ends with status 1 after 5 to 32 s, and says how much was acknowledged",
                 status == 1 and found and SIZE // 4 <= int(found[1]) <= SIZE // 2 + 1024 * 534 and int(found[2]) == SIZE
                 and 5 <= took <= 32 and data.startswith(listener.out), f"status {status}, {took:.1f} s, {said}")
    sender.end()


def of_a_router(system, number):
    """The router ends, and is started again: its peers are told nothing, and a transfer over it comes whole."""
    name, (near, far, listens, sends, peer) = signal.Signals(number).name, addresses(30 + number, 5)
    port, data, again = free_port([near, far, listens, sends, peer]), some_bytes(number, SIZE), threading.Event()
    system.router(f"{name}-router", [("00000011", near, [listens, peer]), ("00000022", far, [sends])], port)
    system.host(f"{name}-listens", "00000011", listens, near, port)
    system.host(f"{name}-sends", "00000022", sends, far, port)
    neighbour, router = bound(peer, port), system.start(f"{name}-router", None, "route")
    listener = system.start(f"{name}-listens", None, "listen", "--once")
    sender = system.start(f"{name}-sends", None, "send", "00000011", node(listens), "4002", stdin=True)
    sender.feed([data[:SIZE // 2], again, data[SIZE // 2:]])
    yield from wait(lambda: len(listener.out) > SIZE // 4 or sender.is_over(), 10)
    told, lines = came(neighbour), len(router.said())
    ended = yield from is_ended(router, number)
    said, told_after = router.said()[lines:], came(neighbour)
    again.set()
    yield from wait(lambda: False, 1)
    system.check(f"{name} ends a router in mid-stream at once; it says no more, and tells its neighbours nothing",
                 ended and told and not said and not told_after, f"{said}, {len(told_after)} packets")
    router = system.start(f"{name}-router", None, "route")
    yield from wait(sender.is_over, 30)
    yield from wait(listener.is_over, 10)
    statuses = sender.status(0), listener.status(0)
    system.check(f"{name} to a router that is started again a second later: a transfer over it comes whole",
                 statuses == (0, 0) and listener.out == data, f"statuses {statuses}, {len(listener.out)} of {SIZE} bytes")
    router.end()


def of_the_only_router(system, number):
    """The router ends for good: the sender says so within half a minute, the listener has a beginning and goes on."""
    name, (near, far, listens, sends) = signal.Signals(number).name, addresses(50 + number, 4)
    port, data, gone = free_port([near, far, listens, sends]), some_bytes(number, SIZE), threading.Event()
    system.router(f"{name}-only", [("00000011", near, [listens]), ("00000022", far, [sends])], port)
    system.host(f"{name}-hears", "00000011", listens, near, port)
    system.host(f"{name}-calls", "00000022", sends, far, port)
    router, listener = system.start(f"{name}-only", None, "route"), system.start(f"{name}-hears", None, "listen")
    sender = system.start(f"{name}-calls", None, "send", "00000011", node(listens), "4002", stdin=True)
    sender.feed([data[:SIZE // 2], gone, data[SIZE // 2:]])
    yield from wait(lambda: len(listener.out) > SIZE // 4 or sender.is_over(), 10)
    good, since = (yield from is_ended(router, number)), time.monotonic()
    gone.set()
    yield from wait(sender.is_over, 40)
    took, status, said = time.monotonic() - since, sender.status(0), sender.said()
    found = LOST.fullmatch(said[0]) if len(said) == 1 else None
    system.check(f"{name} to the only router: the sender ends with status 1 after 5 to 32 s, the listener goes on", good
                 and status == 1 and found and int(found[1]) < int(found[2]) == SIZE and 5 <= took <= 32
                 and not listener.is_over() and data.startswith(listener.out) and len(listener.out) > SIZE // 4,
                 f"status {status}, {took:.1f} s, {said}, {len(listener.out)} bytes")
    listener.end()
    sender.end()


def signals(system):
    """Each of the signals to each of these, one part for each."""
    return [part(system, number) for number in SIGNALS
            for part in (of_a_sender, of_a_listener, of_a_router, of_the_only_router)]
