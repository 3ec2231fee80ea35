"""A router of which one port is kept busy, while datagrams come to another, for `sites`."""
import os
import select
import socket
import subprocess
import sys
import time

from site_packets import ipx
from site_world import Watch, bound, die_with_the_parent, node, until

# A router with four ports: all that the first peer sends goes to the second, and what the third sends to the fourth.
FLOODER, FLOODED, SENDER, RECEIVER = "127.0.1.225", "127.0.1.226", "127.0.1.227", "127.0.1.228"
NAME = "busy"
BUSY = {NAME: [("00000061", "127.0.1.221", [FLOODER]), ("00000062", "127.0.1.222", [FLOODED]),
               ("00000063", "127.0.1.223", [SENDER]), ("00000064", "127.0.1.224", [RECEIVER])]}
BUSY_ADDRESSES = [address for ports in BUSY.values() for _, address, _ in ports] + [FLOODER, FLOODED, SENDER, RECEIVER]
# So many packets go while the port is busy, and half of them come within so many milliseconds, without those for which the
# machine denied a processor to the router, or to who sends and receives.
PACKETS, MOST_MS = 100, 5


def packet(number, to, source):
    """A packet from a node to another one, each with its network."""
    return ipx(4, (to[0], node(to[1]), "4002"), (source[0], node(source[1]), "4003"), number.to_bytes(4, "big"))


def flood(udp_port):
    """Sends to the first port as fast as it can, until it is ended."""
    with socket.socket(socket.AF_INET, socket.SOCK_DGRAM) as one:
        one.bind((FLOODER, udp_port))
        datagram = packet(0, ("00000062", FLOODED), ("00000061", FLOODER))
        while True:
            one.sendto(datagram, (BUSY[NAME][0][1], udp_port))


def passed_in(sender, receiver, number, udp_port, router):
    """After how many milliseconds a packet came that is sent now, or None."""
    sent = packet(number, ("00000064", RECEIVER), ("00000063", SENDER))
    watch = Watch(router, os.getpid())
    sender.sendto(sent, (BUSY[NAME][2][1], udp_port))
    while select.select([receiver], [], [], 1)[0]:
        came = receiver.recv(2000)
        if came[30:34] == sent[30:34] and came[16:18] == b"\x40\x02":
            return 1000 * watch.seconds()
    return None


def came_of(ends, udp_port, router):
    """What the packets took that came, the quickest first. None is sent after one that did not come."""
    took = []
    for number in range(PACKETS):
        took.append(passed_in(ends[SENDER], ends[RECEIVER], number, udp_port, router))
        if took[-1] is None:
            return sorted(took[:-1])
        time.sleep(0.005)
    return sorted(took)


def check_busy(sites):
    """The packets of one port, while another is flooded."""
    sites.start_router(NAME)
    ends = {ip: bound(ip, sites.port) for ip in (FLOODED, SENDER, RECEIVER)}
    until(lambda: len(sites.routers[NAME].said()) >= 4, 10)
    flooding = [sys.executable, "-B", __file__, str(sites.port)]
    found = {**os.environ, "PYTHONPATH": os.pathsep.join(sys.path)}
    with subprocess.Popen(flooding, preexec_fn=die_with_the_parent, env=found) as flooder:
        is_flooded = until(lambda: select.select([ends[FLOODED]], [], [], 0)[0], 10)
        watch = Watch(sites.routers[NAME].popen.pid)
        came = came_of(ends, sites.port, sites.routers[NAME].popen.pid)
        goes_on = flooder.poll() is None
        flooder.kill()
    sites.check("a port is flooded, and what comes goes on to another one", is_flooded and goes_on)
    sites.check(f"{PACKETS} packets of one port pass while another is flooded", len(came) == PACKETS, f"{len(came)} came")
    if came:
        sites.check(f"half of them within {MOST_MS} ms", came[len(came) // 2] <= MOST_MS,
                    f"half in {came[len(came) // 2]:.2f} ms, all in {came[-1]:.2f} ms; the router was denied {watch.denied():.2f} s")


if __name__ == "__main__":
    flood(int(sys.argv[1]))
