"""What tests/system/system uses: networks of their own joined by a pair of virtual cards, waiting without threads, and
sends that the system refuses by their length.
"""
import atexit
import contextlib
import ctypes
import os
import shutil
import socket
import struct
import subprocess
import time

from site_world import LIBC, World, bound, listed, port_table

NEW_NETWORK = 0x40000000
NO_NEW_PRIVILEGES, SET_SECCOMP, BY_FILTER = 38, 22, 2
SENDTO, LENGTH_OF_SENDTO = 44, 32
ALLOWED, ANSWERED_BY = 0x7fff0000, 0x00050000


def run(*words):
    """Runs a command that is to succeed."""
    return subprocess.run(words, check=True, capture_output=True, text=True).stdout


def wait(condition, seconds):
    """Waits for a condition while other parts go on, and answers whether it came: `yield from wait(..)`."""
    end = time.monotonic() + seconds
    while time.monotonic() < end:
        if condition():
            return True
        yield
    return bool(condition())


def refusing(at, above):
    """For a child: its sends of `at` bytes fail by ENOBUFS, those of more than `above` by EMSGSIZE. Linux gives
    neither to a socket that asks for no errors of the path: it drops, or cuts into fragments."""
    steps = [(0x20, 0, 0, 0), (0x15, 0, 5, SENDTO), (0x20, 0, 0, LENGTH_OF_SENDTO), (0x15, 2, 0, at), (0x25, 0, 2, above),
             (0x06, 0, 0, ANSWERED_BY | 90), (0x06, 0, 0, ANSWERED_BY | 105), (0x06, 0, 0, ALLOWED)]
    code = ctypes.create_string_buffer(b"".join(struct.pack("HBBI", *step) for step in steps))

    def install():
        program = struct.pack("HxxxxxxQ", len(steps), ctypes.addressof(code))
        if LIBC.prctl(NO_NEW_PRIVILEGES, 1, 0, 0, 0) or LIBC.prctl(SET_SECCOMP, BY_FILTER, program, 0, 0):
            os._exit(97)

    return install


class Pair:
    """Two networks, near and far, each with a loopback of its own, joined by a pair of cards."""

    def __init__(self, name, subnet):
        self.near, self.far = f"ipx-{os.getpid()}-{name}-a", f"ipx-{os.getpid()}-{name}-b"
        self.addresses = {self.near: f"{subnet}.1", self.far: f"{subnet}.2"}
        atexit.register(self.remove)
        for one in self.addresses:
            run("ip", "netns", "add", one)
            run("ip", "-n", one, "link", "set", "lo", "up")
        run("ip", "link", "add", "card", "netns", self.near, "mtu", "1500", "type", "veth",
            "peer", "name", "card", "netns", self.far, "mtu", "1500")
        for one, address in self.addresses.items():
            run("ip", "-n", one, "addr", "add", f"{address}/24", "dev", "card")
            run("ip", "-n", one, "link", "set", "card", "up")

    def remove(self):
        for one in self.addresses:
            subprocess.run(["ip", "netns", "del", one], check=False, capture_output=True)

    def address(self, what, one):
        """Takes the address of a card away, or puts it back: `del` or `add`."""
        run("ip", "-n", one, "addr", what, f"{self.addresses[one]}/24", "dev", "card")

    def rule(self, one, hook, text):
        """What is dropped there from now on, by nftables; without a text nothing more."""
        run("ip", "netns", "exec", one, "nft", "flush ruleset" if not text else
            f"table ip ipx {{\n chain one {{\n type filter hook {hook} priority -400\n {text} drop\n }}\n }}")


@contextlib.contextmanager
def inside(name):
    """What is opened meanwhile is in that network."""
    with open("/proc/self/ns/net", encoding="ascii") as before, open(f"/run/netns/{name}", encoding="ascii") as there:
        if LIBC.setns(there.fileno(), NEW_NETWORK):
            raise OSError(f"no way into {name}")
        try:
            yield
        finally:
            LIBC.setns(before.fileno(), NEW_NETWORK)


def bound_in(name, ip, port):
    """A socket of UDP in a network, which does not wait."""
    with inside(name):
        return bound(ip, port)


def came(one):
    """The packets that came to a socket."""
    packets = []
    while True:
        try:
            packets.append(one.recv(2000))
        except BlockingIOError:
            return packets


def fragments_of(name):
    """How many fragments a network has made."""
    with inside(name), open("/proc/thread-self/net/snmp", encoding="ascii") as file:
        names, values = [line.split() for line in file if line.startswith("Ip:")]
    return int(values[names.index("FragCreates")])


class System:
    """The run: its world, and what was found so far."""

    def __init__(self, program):
        self.world = World(program)
        self.passed = self.failed = 0

    def check(self, name, good, said=""):
        """Counts a check, and says what it found."""
        self.passed, self.failed = self.passed + bool(good), self.failed + (not good)
        print(f"{'ok' if good else 'failed'}: {name}{': ' if said else ''}{said}", flush=True)
        return good

    def start(self, name, network, command, *words, **how):
        """Starts the program with a file of the world, in a network."""
        file = self.world.path(f"{name}.toml")
        if network is None:
            return self.world.start(name, command, file, *words, **how)
        return self.world.start(name, "netns", "exec", network, self.world.program, command, file, *words, program="ip", **how)

    def router(self, name, ports, port, more=""):
        """The file of a router, with a file of metrics; ports are network, address, peers."""
        text = f'metrics_file = "{self.world.path(name)}.prom"\n' + more
        self.world.write(f"{name}.toml", text + "".join(port_table(network, address, port, peers)
                                                        for network, address, peers in ports))

    def host(self, name, network, address, router, port, peers=()):
        """The file of a host of socket 4002."""
        self.world.write(f"{name}.toml", f'network = "{network}"\naddress = "{address}"\nrouter = "{router}"\n'
                         f'udp_port = {port}\nsocket = "4002"\n{listed("peers", peers)}')

    def metrics(self, name):
        return self.world.figures(f"{name}.prom")


def without(*programs):
    """Why a part can't be done here, where it needs root and these programs; else nothing."""
    if os.geteuid() != 0:
        return "it needs root"
    gone = [one for one in programs if not shutil.which(one)]
    if gone:
        return ", ".join(gone) + (" is" if len(gone) == 1 else " are") + " not installed"
    return None


def why_no_networks():
    """Why networks of their own and rules of nftables can't be made here; else nothing."""
    why = without("ip", "nft")
    if why:
        return why
    name = f"ipx-{os.getpid()}-try"
    try:
        run("ip", "netns", "add", name)
        run("ip", "netns", "exec", name, "nft", "table ip ipx { }")
    except subprocess.CalledProcessError as error:
        return f"the system makes none: {error.stderr.strip()[:100]}"
    finally:
        subprocess.run(["ip", "netns", "del", name], check=False, capture_output=True)
    return None
