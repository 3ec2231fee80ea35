"""Pairs of hosts on a network without a router, of which the listener does not do well, for `sites`."""
import os
import re
import signal
import threading

from site_world import broken_pipe, some_bytes, until

# Pairs of hosts on a network without a router: of one the listener is not read for a while, of one it
# is ended in mid-stream, and of one its standard output is closed.
PAIRS = {"slow": ("127.0.1.80", "127.0.1.81"), "gone": ("127.0.1.82", "127.0.1.83"),
         "shut": ("127.0.1.84", "127.0.1.85")}


def start_pairs(sites):
    """A listener that nobody reads for now, with a sender to it that has much to send, by network 0, its own;
    one that is ended in mid-stream; and one whose standard output is closed."""
    data = some_bytes(sites.seed + 5, max(sites.size // 5, 1_000_000))
    slow = sites.start_listener("--once", name="slow-listener")
    slow.reading.clear()
    pair = slow, sites.start_sender("slow-sender", [data], "00000000", PAIRS["slow"][0]), data
    gone, ended = sites.start_listener(name="gone-listener"), threading.Event()
    lost = sites.start_sender("gone-sender", [data, ended, data], "00000044", PAIRS["gone"][0])
    until(lambda: len(gone.out) > sites.size // 20 or lost.is_over(), 20)
    gone.end(signal.SIGKILL)
    ended.set()
    pipe = broken_pipe()
    shut = sites.start_listener(name="shut-listener", stdout=pipe)
    os.close(pipe)
    sites.start_sender("shut-sender", [b"nobody reads it"], "00000044", PAIRS["shut"][0])
    return pair, lost, shut


def check_pairs(sites, pair, lost, shut):
    """What became of them."""
    status, said = shut.status(10), shut.said()
    sites.check("a listener whose standard output is closed says so",
                status == 1 and said[-1:] == ["cannot write standard output"], f"status {status}, {said}")
    slow, sender, data = pair
    sites.check("a sender waits while its listener is not read", not sender.is_over(), str(sender.said()))
    slow.reading.set()
    sites.check_transfer("what it sent, to network 0, comes once it is read", slow, sender, data)
    # Some thirty seconds after the last word of its listener.
    status, said = lost.status(50), lost.said()
    found = len(said) == 1 and re.fullmatch(
        r"connection lost: (\d+) of (\d+) bytes acknowledged", said[0])
    good = status == 1 and found and sites.size // 20 <= int(found[1]) < int(found[2])
    sites.check("a sender whose listener is gone says how much was acknowledged", good, f"status {status}, {said}")
