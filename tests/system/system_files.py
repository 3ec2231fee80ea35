"""A router whose metrics go to a disk that is full, or to a folder that can't be written; and the unit of systemd, for
`system`."""
import os
import re
import shutil
import subprocess

from site_packets import rip_response
from site_world import TOP, bound, free_port, node, port_table
from system_world import Pair, wait

FULL, FULL_PEER, READ, READ_PEER = "127.96.0.1", "127.96.0.2", "127.96.0.3", "127.96.0.4"
UNWRITTEN = re.compile(r"\[WARN +ipx\] \d+ failed writes? of metrics_file, tables_file or secret_file \(\d+ since the start\)(, .*)?")
UNIT = "ipx-route@.service"
METRICS_FILE = 'ipx_errors_total{kind="file"}'
NOBODY = 65534
BIND_ALONE = "0000000000000400"


class Disk:
    """A router with a disk of its own of 64 kB, which nobody else sees, for its metrics."""

    def __init__(self, system, name, address, peer, port, options):
        self.folder = system.world.path(f"{name}-disk")
        os.mkdir(self.folder)
        text = f'metrics_file = "{self.folder}/hq.prom"\n' + port_table("00000011", address, port, [peer])
        file = system.world.write(f"{name}.toml", text)
        self.peer, self.router_at, self.address = bound(peer, port), (address, port), peer
        script = 'mount -t tmpfs -o size=64k"$1" disk "$2" && shift 2 && exec "$@"'
        self.router = system.world.start(name, "--mount", "--propagation", "private", "sh", "-c", script, "sh", options,
                                         self.folder, system.world.program, "route", file, program="unshare")

    def path(self, name):
        return f"/proc/{self.router.popen.pid}/root{self.folder}/{name}"

    def text(self):
        """The file of metrics, or nothing."""
        try:
            with open(self.path("hq.prom"), encoding="ascii") as file:
                return file.read()
        except OSError:
            return ""

    def value(self, name):
        found = re.search(rf"^{re.escape(name)} (\d+)$", self.text(), re.M)
        return int(found[1]) if found else -1

    def fill(self):
        """Writes until the disk is full, and answers whether it is."""
        with open(self.path("filler"), "wb", buffering=0) as file:
            try:
                for _ in range(10_000):
                    file.write(bytes(64))
            except OSError:
                return True
        return False

    def is_told(self):
        return any(UNWRITTEN.fullmatch(line) for line in self.router.said())

    def goes_on(self):
        """Tells the router of a network: whether it hears it and says so, `yield from`."""
        self.peer.sendto(rip_response("00000011", node(self.address), [(0x77, 1, 2)]), self.router_at)
        return (yield from wait(lambda: not self.router.is_over() and self.is_heard(), 12))

    def is_heard(self):
        return any("00000077" in line and "port 1" in line for line in self.router.said())


def names_in(text):
    """What the file says there is: the names behind # HELP."""
    return re.findall(r"^# HELP (\S+)", text, re.M)


def full_disk(system):
    """The disk is full for a while: the last whole file stays, and a new one comes as soon as there is room."""
    disk = Disk(system, "full-disk", FULL, FULL_PEER, free_port([FULL, FULL_PEER]), "")
    yield from wait(disk.text, 10)
    before, full = disk.text(), disk.fill()
    yield from wait(lambda: disk.is_told() or disk.router.is_over(), 25)
    after = disk.text()
    system.check("metrics on a full disk: the last whole file stays", full and before and after.endswith("\n")
                 and names_in(after) == names_in(before), f"{len(before)} bytes before, {len(after)} after")
    system.check("metrics on a full disk: a line tells it", disk.is_told(), str(disk.router.said()[-1:]))
    system.check("a router with a full disk goes on", (yield from disk.goes_on()), str(disk.router.said()[-1:]))
    os.remove(disk.path("filler"))
    since = disk.value("ipx_uptime_seconds")
    yield from wait(lambda: disk.value("ipx_uptime_seconds") > since, 15)
    system.check("there is room again: a new file comes, with the count", disk.value("ipx_uptime_seconds") > since
                 and disk.value(METRICS_FILE) >= 1 and names_in(disk.text()) == names_in(before),
                 f"at {disk.value('ipx_uptime_seconds')} s, {disk.value(METRICS_FILE)} times")
    disk.router.end()


def read_only(system):
    """The folder can't be written as the router starts: it starts, tells it, and writes once it may."""
    disk = Disk(system, "read-only", READ, READ_PEER, free_port([READ, READ_PEER]), ",ro")
    yield from wait(lambda: disk.is_told() or disk.router.is_over(), 25)
    system.check("metrics in a read-only folder: a line tells it, and there is no file", disk.is_told() and not disk.text(),
                 str(disk.router.said()[-1:]))
    system.check("a router with a read-only folder goes on", (yield from disk.goes_on()), str(disk.router.said()[-1:]))
    subprocess.run(["nsenter", "-t", str(disk.router.popen.pid), "-m", "mount", "-o", "remount,rw", disk.folder], check=False)
    yield from wait(disk.text, 15)
    system.check("the folder can be written: the file comes, with the count", disk.value(METRICS_FILE) >= 1,
                 f"{disk.value(METRICS_FILE)} times")
    disk.router.end()


def example():
    """The file hq.toml of docs/INSTALL.md, with the metrics file that its section on the service names."""
    with open(os.path.join(TOP, "docs/INSTALL.md"), encoding="utf-8") as file:
        text = file.read()
    block = re.search(r"At HQ, `/etc/ipx/hq\.toml`:\n\n```toml\n(.*?)```", text, re.S)[1]
    line = re.search(r'`(metrics_file = "/run/ipx/hq/hq\.prom")`', text)[1]
    return f"{line}\n{block}"


class Machine:
    """The files that the unit names, each in its place, for what is started here alone."""

    def __init__(self, system):
        self.system, self.top = system, system.world.path("machine")
        for folder in ("bin", "etc/ipx", "man/man1", "units"):
            os.makedirs(f"{self.top}/{folder}")
        os.chmod(system.world.folder, 0o755)
        shutil.copy(system.world.program, f"{self.top}/bin/ipx")
        os.chmod(f"{self.top}/bin/ipx", 0o755)
        shutil.copy(os.path.join(TOP, "man/ipx.1"), f"{self.top}/man/man1")
        with open(os.path.join(TOP, "contrib", UNIT), encoding="utf-8") as file:
            self.unit = file.read()
        system.world.write("machine/units/ipx-route@hq.service", self.unit)

    def words(self, *more):
        """The words that start a command where those files are; the last are its own."""
        script = (f'mount --bind "{self.top}/bin" /usr/local/bin && mount -t overlay -o lowerdir="{self.top}/etc:/etc" etc /etc && '
                  'mount -t tmpfs run /run && mkdir -p /run/ipx/hq && chown 65534:65534 /run/ipx/hq && umask 0022 && exec "$@"')
        return ["--mount", "--propagation", "private", "sh", "-c", script, "sh", *more]

    def exec_start(self):
        """The words of ExecStart, as systemd starts them for the instance hq: as nobody, with its one right."""
        line = re.search(r"^ExecStart=(.*)$", self.unit, re.M)[1]
        right = "-all,+" + re.search(r"^AmbientCapabilities=CAP_(.*)$", self.unit, re.M)[1].lower()
        return ["setpriv", f"--reuid={NOBODY}", f"--regid={NOBODY}", "--clear-groups", f"--inh-caps={right}", f"--ambient-caps={right}",
                f"--bounding-set={right}", "--no-new-privs", "--", *line.replace("%i", "hq").split()]

    def run(self, network, name):
        """Runs ExecStart in a network."""
        words = ["netns", "exec", network, "unshare", *self.words(*self.exec_start())]
        return self.system.world.start(name, *words, program="ip")


def verified(system):
    """systemd-analyze finds nothing in the unit, its program and its manual page there."""
    machine = Machine(system)
    ran = subprocess.run(["unshare", *machine.words("systemd-analyze", "verify", f"{machine.top}/units/ipx-route@hq.service")],
                         env={**os.environ, "MANPATH": f"{machine.top}/man"}, capture_output=True, text=True, check=False)
    system.check("systemd-analyze verify finds nothing in the unit", (ran.returncode, ran.stdout + ran.stderr) == (0, ""),
                 f"status {ran.returncode} {ran.stdout}{ran.stderr}".strip())
    return machine


def unit(system):
    """The unit: verified; and its ExecStart as written, without the addresses, with a wrong file, and with all there."""
    machine, pair = verified(system), Pair("unit", "10.87.0")
    file = "machine/etc/ipx/hq.toml"
    system.world.write(file, example())
    early = machine.run(pair.near, "unit-early")
    yield from wait(early.is_over, 10)
    system.check("ExecStart, where the addresses are not there yet: status 1, so that it is started again", early.status(0) == 1
                 and early.said() == ["/etc/ipx/hq.toml: port 1: bind 192.0.2.10:213: Cannot assign requested address (os error 99); no interface of this machine has this address"], str(early.said()))
    system.world.write(file, example().replace("00000011", "00000001"))
    wrong = machine.run(pair.near, "unit-wrong")
    yield from wait(wrong.is_over, 10)
    system.check("ExecStart, where the file is wrong: status 2, so that it is not", wrong.status(0) == 2
                 and wrong.said() == ["/etc/ipx/hq.toml: port 2: network 00000001 is already used by port 1"], str(wrong.said()))
    system.world.write(file, example())
    for address in ("192.0.2.10/24", "10.1.0.1/24"):
        subprocess.run(["ip", "-n", pair.near, "addr", "add", address, "dev", "card"], check=True)
    router = machine.run(pair.near, "unit")
    root = f"/proc/{router.popen.pid}/root"
    yield from wait(lambda: os.path.exists(f"{root}/run/ipx/hq/hq.prom") or router.is_over(), 10)
    lines = [re.sub(r" rcvbuf \d+$", "", line.removeprefix("[INFO  ipx] ")) for line in router.said() if "rcvbuf" in line]
    wanted = ["port 1 network 00000001 node 0000c000020a udp 192.0.2.10:213 cost 6 peers 1",
              "port 2 network 00000011 node 00000a010001 udp 10.1.0.1:213 cost 1 peers 1"]
    system.check("ExecStart, as nobody with the right to bind port 213: the ports of docs/INSTALL.md", lines == wanted, str(router.said()))
    with open(f"/proc/{router.popen.pid}/status", encoding="ascii") as status:
        text = status.read()
    rights = re.findall(r"^Cap(?:Eff|Prm|Bnd):\s+(\S+)$", text, re.M)
    system.check("it has that right alone, and writes its metrics where the unit says", rights == [BIND_ALONE] * 3
                 and os.stat(f"{root}/run/ipx/hq/hq.prom").st_uid == NOBODY, str(rights))
    router.end()
    pair.remove()
