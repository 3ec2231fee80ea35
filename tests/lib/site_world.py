"""What the scripts of tests/system use that start routers and hosts: a folder, a free port of UDP, processes that
cannot be left behind, and files of routers and hosts.
"""
import atexit
import ctypes
import os
import random
import re
import shutil
import signal
import socket
import subprocess
import sys
import tempfile
import threading
import time

TOP = os.path.dirname(os.path.dirname(os.path.dirname(os.path.abspath(__file__))))
IPX = os.path.join(TOP, "crates/ipx_tool/out/ipx_tool")
LIBC = ctypes.CDLL(None)
PR_SET_PDEATHSIG = 1
LEFT_OUT = []


def leave_out(what, why):
    """Says that something is not tested here, and counts it."""
    LEFT_OUT.append(what)
    print(f"left out: {what}: {why}", flush=True)


def last_line(passed, failed):
    """The last line of a script, which tests/run reads."""
    skipped = f", {len(LEFT_OUT)} skipped" if LEFT_OUT else ""
    return f"{passed} passed, {failed} failed{skipped}"


def before_others():
    """This process and all that it starts get the processors before what else runs on the machine, if the system permits it
    (root may). It answers whether it does. A process that still has to wait is measured by `waited`."""
    try:
        os.sched_setscheduler(0, os.SCHED_RR, os.sched_param(1))
        return True
    except OSError:
        return False


def die_with_the_parent():
    """In a child: the system ends it as this process ends, however that comes about."""
    LIBC.prctl(PR_SET_PDEATHSIG, signal.SIGKILL)


def until(condition, seconds):
    """Waits for a condition, and answers whether it came."""
    end = time.monotonic() + seconds
    while time.monotonic() < end:
        if condition():
            return True
        time.sleep(0.005)
    return bool(condition())


def node(ip):
    """The node of an IP address: two zero bytes and the four of it."""
    return "0000" + "".join(f"{int(part):02x}" for part in ip.split("."))


def some_bytes(seed, count):
    """Random bytes of a seed."""
    return random.Random(seed).randbytes(count)


def listed(key, texts):
    """The line of a key whose value is a list of texts."""
    return f"{key} = [" + ", ".join(f'"{text}"' for text in texts) + "]\n"


def port_table(network, address, udp_port, peers):
    """The text of a port of a router's file."""
    return (f'[[port]]\nnetwork = "{network}"\naddress = "{address}"\nudp_port = {udp_port}\n'
            + listed("peers", peers))


class Process:
    """A process, what it wrote, and its end. Only the main thread starts one, since the system ends
    it with the thread that did."""

    def __init__(self, world, name, words, stdin=False, stdout=subprocess.PIPE, stderr=None, environment=None, program=None,
                 before=None):
        self.name = name
        self.log = world.path(f"{name}.{len(world.processes)}.log")
        self.out = bytearray()
        self.first_byte = self.last_byte = None
        # When how much was there, after each read.
        self.marks = []
        self.reading = threading.Event()
        self.reading.set()
        with open(self.log, "wb") as log:
            self.started = time.monotonic()
            self.popen = subprocess.Popen(
                [program or world.program, *words], stdin=subprocess.PIPE if stdin else subprocess.DEVNULL,
                stdout=stdout, stderr=stderr or log, bufsize=0, preexec_fn=lambda: (die_with_the_parent(), before and before()),
                env={**os.environ, **(environment or {})})
        world.processes.append(self)
        self.reader = threading.Thread(target=self.read, daemon=True)
        if self.popen.stdout:
            self.reader.start()

    def read(self):
        while self.reading.wait() and (chunk := os.read(self.popen.stdout.fileno(), 1 << 16)):
            if self.first_byte is None:
                self.first_byte = time.monotonic()
            self.out += chunk
            self.last_byte = time.monotonic()
            self.marks.append((self.last_byte, len(self.out)))

    def feed(self, pieces):
        """Gives its standard input these bytes, one after another, and ends it. A piece may be an
        event, which is waited for, or how many seconds to wait."""
        def write():
            try:
                for piece in pieces:
                    if isinstance(piece, threading.Event):
                        piece.wait(60)
                    elif isinstance(piece, float):
                        time.sleep(piece)
                    else:
                        self.popen.stdin.write(piece)
            except OSError:
                pass
            finally:
                self.popen.stdin.close()

        threading.Thread(target=write, daemon=True).start()

    def is_over(self):
        return self.popen.poll() is not None

    def status(self, seconds):
        """Its status, if it ends within so many seconds, and else None. All that it wrote is read
        then."""
        try:
            status = self.popen.wait(seconds)
        except subprocess.TimeoutExpired:
            return None
        if self.popen.stdout:
            self.reader.join(10)
        return status

    def end(self, how=signal.SIGTERM):
        """Ends it, and waits for that."""
        if not self.is_over():
            self.popen.send_signal(how)
            if self.status(5) is None:
                self.popen.kill()
        return self.status(5)

    def said(self):
        """The lines that it wrote on standard error."""
        with open(self.log, encoding="utf-8", errors="replace") as log:
            return log.read().splitlines()

    def memory(self):
        """Its memory in kB, now and at most."""
        with open(f"/proc/{self.popen.pid}/status", encoding="ascii") as status:
            text = status.read()
        return tuple(int(re.search(rf"{name}:\s+(\d+) kB", text)[1]) for name in ("VmRSS", "VmHWM"))


class World:
    """A folder and the processes of a run. Whatever happens, both are gone afterwards."""

    def __init__(self, program):
        self.program = program
        self.folder = tempfile.mkdtemp(prefix="ipx-sites-")
        self.processes = []
        atexit.register(self.close)
        for number in (signal.SIGINT, signal.SIGTERM, signal.SIGHUP):
            signal.signal(number, lambda number, _frame: sys.exit(128 + number))

    def close(self):
        for process in self.processes:
            if not process.is_over():
                process.popen.kill()
        for process in self.processes:
            process.popen.wait(10)
        shutil.rmtree(self.folder, ignore_errors=True)

    def path(self, name):
        return os.path.join(self.folder, name)

    def write(self, name, text):
        with open(self.path(name), "w", encoding="utf-8") as file:
            file.write(text)
        return self.path(name)

    def start(self, name, *words, **how):
        return Process(self, name, words, **how)

    def forget(self, process):
        """Ends a process, and holds no more of it than what it wrote."""
        process.end()
        if process.is_over():
            process.popen.stdout.close()
            self.processes.remove(process)

    def left(self):
        """The processes that still run."""
        return [process.name for process in self.processes if not process.is_over()]

    def figures(self, name):
        """The figures of a status file: the sum for each name, and each line's own value."""
        figures = {}
        try:
            with open(self.path(name), encoding="ascii") as file:
                lines = file.read().splitlines()
        except FileNotFoundError:
            return figures
        for line in lines:
            found = re.fullmatch(r"([a-z_]+)(\{[^}]*\})? (\d+)", line)
            if found:
                figures[found[1]] = figures.get(found[1], 0) + int(found[3])
                if found[2]:
                    figures[found[1] + found[2]] = int(found[3])
        return figures


def bound(ip, port):
    """A socket of UDP at an address, which does not wait."""
    one = socket.socket(socket.AF_INET, socket.SOCK_DGRAM)
    one.bind((ip, port))
    one.setblocking(False)
    return one


def waited(*pids):
    """For how many seconds these processes were ready so far, and had no processor: what the machine denied them. Of a process
    with several threads it is that of the first."""
    total = 0
    for pid in pids:
        with open(f"/proc/{pid}/schedstat", encoding="ascii") as file:
            total += int(file.read().split()[1])
    return total / 1e9


class Watch:
    """Measures time, without what the machine denied to some processes meanwhile."""

    def __init__(self, *pids):
        self.pids = pids
        self.start, self.waited = time.monotonic(), waited(*pids)

    def seconds(self):
        """How long it has been, without what was denied."""
        return time.monotonic() - self.start - self.denied()

    def denied(self):
        return waited(*self.pids) - self.waited


def within(process, condition, seconds):
    """Whether a condition comes within so many seconds, without those for which the machine denied a process a processor."""
    watch, found = Watch(process.popen.pid), []

    def is_over():
        if condition():
            found.append(True)
        return found or watch.seconds() >= seconds

    until(is_over, 20)
    return bool(found)


def compiled(world):
    """The program of tests/data/plain.c, or None where there is no gcc."""
    if not shutil.which("gcc"):
        return None
    subprocess.run(["gcc", "-O2", "-o", world.path("plain"), os.path.join(TOP, "tests/data/plain.c")], check=True)
    return world.path("plain")


def on_one(*processes):
    """These run on one processor, the same each time: how they are spread over several changes a rate twofold."""
    for process in processes:
        os.sched_setaffinity(process.popen.pid, {max(os.sched_getaffinity(0))})


def waiting_bytes(address, udp_port):
    """How many bytes of datagrams wait in the socket at an address of UDP, as the kernel counts them."""
    place = f"{int.from_bytes(socket.inet_aton(address), sys.byteorder):08X}:{udp_port:04X}"
    with open("/proc/net/udp", encoding="ascii") as file:
        return sum(int(words[4].split(":")[1], 16) for words in map(str.split, file) if words[1] == place)


def broken_pipe():
    """A descriptor to write to, of a pipe that nobody reads."""
    read, write = os.pipe()
    os.close(read)
    return write


def free_port(addresses, count=1):
    """A high port of UDP that is free at all of these addresses; the first of so many."""
    rng = random.Random()
    for _ in range(200):
        port = rng.randrange(20000, 32000)
        sockets = []
        try:
            for address in addresses:
                sockets += [bound(address, port + more) for more in range(count)]
            return port
        except OSError:
            continue
        finally:
            for one in sockets:
                one.close()
    raise OSError("no port of UDP is free at " + ", ".join(addresses))
