"""The lines of docs/INSTALL.md for VXLAN and L2TPv3, for `wires`, with the file of docs/CONFIGURATION.md as it is printed
there; and a hundred thousand datagrams at each kind of tunnel that are no frame of it."""
import collections
import os
import random
import socket
import struct
import subprocess
import time

from site_packets import ipx
from site_world import bound, free_port, leave_out, node, port_table, until
from wire_deploy import blocks, words_of
from wire_flood import dropped as not_read
from wire_frames import ALL_ROUTES, EVERYBODY, RIP, frame, routes
from wire_machines import ALONE, SECONDS
from wire_taps import Device, are_all_there, exchange, own_network
from wire_tunnels import Card, dropped, inside, keys, run, vxlan
from wire_world import End, Router, UdpPort, WirePort, difference, with_colons

# The page with the file of two ports, and its heading; the heading of the lines for them, and of those for a bridge.
FILES, FILE = "docs/CONFIGURATION.md", "Ethernet ports by VXLAN or L2TPv3"
LINES, BRIDGE = "VXLAN and L2TPv3", "TAP devices and physical networks"
# The router, the Linux machine and the machine with the guest, as in those lines. The host of RFC 1234 is at the router's.
ROUTER, LINUX, EMULATOR, HOST = "10.8.0.1", "10.8.0.7", "10.8.0.9", "127.0.0.20"
OUTER, OUTER_PORT = "00000011", 24150
GUEST = "525400000021"


class Guest(Card):
    """A machine of QEMU with the words of docs/INSTALL.md."""

    def __init__(self, wires, words, port):  # pylint: disable=super-init-not-called
        self.station, self.port = GUEST, port
        self.path = wires.world.path("recipe.pcap")
        self.process = wires.world.start(
            "qemu-recipe", *ALONE, *words, "-device", f"ne2k_pci,netdev=ipx,mac={with_colons(GUEST)}",
            "-object", f"filter-dump,id=dump,netdev=ipx,file={self.path}", program="qemu-system-i386")


def recipe_router(wires, text):
    """The router of the printed file, with files of its own, and a port for a host more."""
    ports = [WirePort("00000022", "802.3", (ROUTER, 4789), [(LINUX, 4789)]),
             WirePort("00000033", "802.2", (ROUTER, 1701), [(EMULATOR, 24001)]), UdpPort(OUTER, "127.0.0.1", OUTER_PORT, [HOST])]
    router = Router(wires, "recipes", ports)
    names = {"metrics": "recipes.prom", "tables": "recipes.tables"}
    files = "".join(f'{key}_file = "{wires.world.path(name)}"\n' for key, name in names.items())
    wires.world.write("recipes.toml", files + text + port_table(OUTER, "127.0.0.1", OUTER_PORT, [HOST]))
    return router


def check_guest(wires, router, host, guest):
    """What a guest by L2TPv3 says and is given."""
    if any("romfile" in line for line in guest.process.said()):
        leave_out("a guest by the line for L2TPv3", "ipxe-qemu is not installed")
        return
    if not wires.check("a guest starts by the line for L2TPv3", not guest.process.is_over(), str(guest.process.said()[:1] or "")):
        return
    name = 'ipx_frames_total{port="2",outcome="other_type"}'
    found = router.figures(lambda found: found.get(name), SECONDS)
    wires.check("frames of a guest come by the line for L2TPv3", found.get(name), str(found.get(name)))
    packet = ipx(0, (guest.port.network, guest.station, "4002"), (OUTER, host.station, "4001"), b"to a guest")
    host.packet(packet)
    there = until(lambda: any(b"to a guest" in bytes_ for bytes_ in guest.frames(guest.port.node)), 5)
    wires.check("and it is given what a host sends", there, f"{len(guest.frames(guest.port.node))} frames")


def taken_back(router, port):
    """The frame by which a router that has stopped takes back the networks of its other ports, in their order: they have 16 hops."""
    told = routes([(other.network, 16, port.cost) for other in router.ports if other is not port])
    return port.sends(EVERYBODY, ipx(1, (port.network, EVERYBODY, RIP), (port.network, port.node, RIP), told))


def check_farewell(wires, router, plug, guest):
    """What `ipx farewell` sends by each kind of tunnel."""
    router.process.end()
    status = wires.world.start("recipes-farewell", "farewell", router.file).status(10)
    gone = taken_back(router, plug.port)
    wires.check("ipx farewell takes back by VXLAN, three times, byte by byte",
                until(lambda: plug.take().count(gone) == 3, 5) and status == 0, f"status {status}, {plug.got.count(gone)} times")
    if not guest.process.is_over():
        gone = taken_back(router, guest.port)
        wires.check("and by L2TPv3", until(lambda: guest.frames(guest.port.node).count(gone) == 3, 5),
                    f"{guest.frames(guest.port.node).count(gone)} times")


def check_recipes(wires):
    """The lines as they are printed: the router has a network of its own, and the devices and the guest have another one."""
    what = "the lines for VXLAN and L2TPv3"
    if wires.lacks(what, "ip", "qemu-system-i386"):
        return
    with own_network() as permitted, open("/proc/self/ns/net", encoding="ascii") as far:
        works = permitted and subprocess.run("ip link add try type vxlan id 1 dstport 4789 && ip link delete try", shell=True,
                                             capture_output=True, check=False).returncode == 0
        if not works:
            leave_out(what, "a network of one's own, or a VXLAN device, is not permitted here")
            return
        with own_network():
            run_recipes(wires, far)


def run_recipes(wires, far):
    """The same, in the router's network."""
    text = blocks(FILE, "toml", FILES)[0]
    router = recipe_router(wires, text)
    vxlan_port, l2tp_port, outer = router.ports
    vxlan_lines, qemu_line = blocks(LINES, "sh")[:2]
    bridge = blocks(BRIDGE, "sh")[1]
    run(f"ip link add near type veth peer name far && ip link set far netns /proc/{os.getpid()}/fd/{far.fileno()}",
        f"ip address add {ROUTER}/24 dev near && ip link set near up")
    with inside(far):
        run(f"ip address add {LINUX}/24 dev far && ip address add {EMULATOR}/24 dev far && ip link set far up",
            # A pair of devices acts as the card and what is plugged in there.
            "ip link add eth1 type veth peer name plug && ip link set plug up")
        # Those for VXLAN put their device into the bridge, so its own line for it is left out.
        made = [line for line in bridge.splitlines() if "ipx0" not in line]
        ran = subprocess.run("\n".join(["set -e", *made, vxlan_lines]), shell=True, capture_output=True, text=True, check=False)
        plug = Device(vxlan_port, "plug", "0200000d0002")
        guest = Guest(wires, words_of(qemu_line), l2tp_port)
    wires.check("the lines of docs/INSTALL.md for VXLAN and its bridge", ran.returncode == 0 and not ran.stderr, ran.stderr)
    host = End(outer, (HOST, OUTER_PORT), node(HOST))
    router.start()
    told = until(plug.is_told, 15)
    exchange(router, [plug], host, random.Random(wires.seed))
    are_all_there([plug, host])
    wrong = difference([plug, host])
    wires.check("a station after the bridge of a VXLAN device is told, answered and reached, byte by byte",
                told and not wrong and plug.got, wrong or f"{len(plug.all)} frames")
    check_guest(wires, router, host, guest)
    check_farewell(wires, router, plug, guest)
    for one in (router.process, guest.process, plug, host):
        one.end()


# ---- datagrams that are no frame of a tunnel

MANY, AT_ONCE = 100_000, 200
VNI, SESSION, COOKIE = 0x010203, 0x11223344, bytes.fromhex("a1a2a3a4a5a6a7a8")
NETWORKS = ["00000091", "00000092"]
HEADERS = [vxlan(VNI, b""), b"\0\x03\0\0" + struct.pack(">I", SESSION) + COOKIE]
# Which bits of a header are read, after RFC 7348 and RFC 3931: the first byte and the VNI; the bit for control, the version,
# the session and the cookie.
READ = [b"\xff\0\0\0\xff\xff\xff\0", b"\x80\x0f\0\0" + b"\xff" * 12]


def is_frame(kind, bytes_):
    """Whether a datagram has a frame in the tunnel of this kind."""
    header, mask = HEADERS[kind], READ[kind]
    return len(bytes_) >= len(header) and all((had ^ wanted) & bits == 0 for had, wanted, bits in zip(bytes_, header, mask))


def noise(rng, kind, held):
    """A datagram without a frame: anything; a part of a header; or a header with some other bits, and a frame after it."""
    while True:
        way = rng.random()
        if way < 0.3:
            bytes_ = rng.randbytes(rng.randrange(80))
        elif way < 0.4:
            bytes_ = HEADERS[kind][:rng.randrange(len(HEADERS[kind]))]
        else:
            header = bytearray(HEADERS[kind])
            for _ in range(rng.randrange(1, 4)):
                header[rng.randrange(len(header))] ^= 1 << rng.randrange(8)
            bytes_ = bytes(header) + held
        if not is_frame(kind, bytes_):
            return bytes_


def flood_tunnels(rng, ports, remotes):
    """Sends them to both ports, as fast as the router reads them, and answers how many it was sent."""
    held = [frame(port.kind, port.node, "0200000f0001", ipx(1, (port.network, EVERYBODY, RIP), (port.network, "0200000f0001", "4001"),
                                                              ALL_ROUTES)) for port in ports]
    for start in range(0, MANY, AT_ONCE):
        for kind, (port, remote) in enumerate(zip(ports, remotes)):
            for _ in range(AT_ONCE):
                remote.sendto(noise(rng, kind, held[kind]), port.place)
        if start % (10 * AT_ONCE) == 0:
            time.sleep(0.02)


def answers(port, remote, kind, others):
    """A request for routes in the tunnel, and whether the answer comes in it."""
    station = "0200000f0002"
    request = ipx(1, (port.network, EVERYBODY, RIP), (port.network, station, "4001"), ALL_ROUTES)
    remote.sendto(HEADERS[kind] + frame(port.kind, EVERYBODY, station, request), port.place)
    told = routes([(other, 1, 1) for other in sorted(others)])
    wanted = HEADERS[kind] + port.sends(station, ipx(1, (port.network, station, "4001"), (port.network, port.node, RIP), told))
    came = []

    def is_there():
        try:
            while True:
                came.append(remote.recv(2048))
        except BlockingIOError:
            return wanted in came

    return until(is_there, 5)


def check_noise(wires):
    """Datagrams of remotes that are no frame change nothing but counters."""
    first = free_port(["127.0.0.1", HOST], 6)
    places = [("127.0.0.1", first + 3), ("127.0.0.1", first + 4)]
    tunnels = [keys("vxlan", vni=VNI), keys("l2tpv3", session=SESSION, cookie=COOKIE.hex())]
    ports = [WirePort(NETWORKS[kind], "802.3", ("127.0.0.1", first + 1 + kind), [places[kind]], keys=tunnels[kind])
             for kind in range(2)]
    outer = UdpPort(OUTER, "127.0.0.1", first, [HOST])
    router = Router(wires, "noise", [*ports, outer])
    host = End(outer, (HOST, first), node(HOST))
    remotes = [bound(*place) for place in places]
    router.start()
    until(lambda: host.take() is not None and host.heard, 10)
    before = router.figures(lambda found: found.get("ipx_routes") is not None)
    flood_tunnels(random.Random(wires.seed), ports, remotes)

    def lost():
        return [not_read(*port.place) for port in ports]

    def counted(found):
        names = collections.Counter()
        for name, value in found.items():
            for number in (1, 2):
                if name.startswith(f'ipx_tunnel_dropped_total{{port="{number}"'):
                    names[number] += value
        return [names[number] + missed for number, missed in enumerate(lost(), 1)]

    found = router.figures(lambda found: counted(found) == [MANY, MANY])
    wires.check("a hundred thousand datagrams at each kind of tunnel that are no frame are each counted", counted(found) == [MANY, MANY],
                f"{counted(found)}, of which {lost()} were not read")
    reasons = {1: ("short", "other_vni", "not_vxlan"), 2: ("short", "control", "other_version", "other_session", "other_cookie")}
    missing = [dropped(number, reason) for number, some in reasons.items() for reason in some if not found.get(dropped(number, reason))]
    wires.check("by each reason", not missing, str(missing))
    kept = [name for name in found if name.startswith(("ipx_frames_total", "ipx_routes", "ipx_services"))]
    changed = [name for name in kept if found[name] != before.get(name)]
    host.take()
    wires.check("and nothing else changes: no frame, no route, no packet for a host", len(kept) > 20 and not changed and not host.got,
                f"{changed} of {len(kept)} figures, {len(host.got)} packets")
    networks = [port.network for port in router.ports]
    good = [answers(port, remote, kind, [it for it in networks if it != port.network])
            for kind, (port, remote) in enumerate(zip(ports, remotes))]
    wires.check("after them a request by each kind of tunnel is answered", all(good), str(good))
    wires.check("the router at which they came goes on", not router.process.is_over())
    for one in (router.process, host):
        one.end()
    for remote in remotes:
        remote.close()
