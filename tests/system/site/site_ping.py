"""Whether listeners are there, `ipx ping`, for `sites`."""
import re
import struct
import threading
import time

from site_packets import ipx
from site_world import bound, listed, node, port_table, some_bytes, until

# Three routers in a chain, hosts that ping at one end, and listeners at the other and behind the first router.
FIRST, LAST = "127.0.1.203", "127.0.1.219"
PINGER, PATIENT = "127.0.1.207", "127.0.1.208"
LISTENER, BARRING, NEXT = "127.0.1.209", "127.0.1.210", "127.0.1.220"
# One that is pinged straight, and one that speaks in its place; and callers of the listener.
STRAIGHT, OTHER = "127.0.1.211", "127.0.1.212"
CALLERS = [f"127.0.1.{number}" for number in range(213, 217)]
# A host that is pinged in several runs, and then sent to; and a listener to which one sends that another host pings.
AGAIN = "127.0.1.217"
PRESSED, PRESSING, SENDING = "127.0.1.233", "127.0.1.234", "127.0.1.235"
NEAR, MIDDLE, FAR = "00000081", "00000082", "00000084"
PING_CHAIN = {
    "pings1": [(NEAR, FIRST, [PINGER, PATIENT, PRESSING, SENDING]), (MIDDLE, "127.0.1.204", ["127.0.1.205", NEXT])],
    "pings2": [(MIDDLE, "127.0.1.205", ["127.0.1.204"]), ("00000083", "127.0.1.206", ["127.0.1.218"])],
    "pings3": [("00000083", "127.0.1.218", ["127.0.1.206"]), (FAR, LAST, [LISTENER, BARRING, PRESSED])],
}
PINGING = sorted({address for ports in PING_CHAIN.values() for _, address, _ in ports}
                 | {PINGER, PATIENT, LISTENER, BARRING, NEXT, STRAIGHT, OTHER, AGAIN, PRESSED, PRESSING, SENDING, *CALLERS})
# As many requests of one run, as many callers as a listener holds, and as many runs of one ping.
MANY, PLACES, RUNS = 100, 16, 6
# A busy machine may let a host wait for over a second, and what is answered meanwhile counts once.
LATE = 5
# A place of one that never speaks goes after some six seconds.
SECONDS_OF_A_PLACE = 5
NEVER_SPOKE = r"\[WARN  ipx\] \d+ connections? never sent data \((\d+) since the start\).*"
TIME = r"\d+\.\d ms"


def ping(sites, name, *words):
    """A ping by the host of a file."""
    return sites.world.start(f"{name}-ping", "ping", sites.world.path(f"{name}.toml"), *words)


def start_ping(sites):
    """The routers and the listeners, a host that pings one of these many times, and one that sends to a listener with
    --once while another host pings that."""
    for name, ports in PING_CHAIN.items():
        sites.world.write(f"{name}.toml", "".join(port_table(network, address, sites.port, peers)
                                                  for network, address, peers in ports))
    for name, network, address, router, number, more in (
            ("pinger", NEAR, PINGER, FIRST, "4003", ""), ("patient", NEAR, PATIENT, FIRST, "4003", ""),
            ("pressing", NEAR, PRESSING, FIRST, "4003", ""), ("sending", NEAR, SENDING, FIRST, "4003", ""),
            ("pinged", FAR, LISTENER, LAST, "4002", listed("peers", CALLERS)), ("pressed", FAR, PRESSED, LAST, "4002", ""),
            ("barring", FAR, BARRING, LAST, "4002", listed("allow", ["00000099"])),
            ("next", MIDDLE, NEXT, "127.0.1.204", "4002", "")):
        sites.host(name, network, address, router, number, more)
    for name in PING_CHAIN:
        sites.start_router(name)
    listeners = [sites.start_listener(name=name) for name in ("pinged", "barring", "next")]
    pressed = sites.start_listener("--once", name="pressed")
    until(lambda: all(listener.said() for listener in (*listeners, pressed)), 5)
    until(lambda: all(any(f"route added: network {network} via" in line for line in sites.routers[name].said())
                      for name, network in (("pings1", FAR), ("pings3", NEAR))), 10)
    patient = ping(sites, "patient", FAR, node(LISTENER), "4002", "-c", str(MANY))
    pressing = ping(sites, "pressing", FAR, node(PRESSED), "4002", "-c", "10")
    until(lambda: pressing.out.count(b"answer") >= 2 or pressing.is_over(), 5)
    # For three seconds, in which it is pinged on.
    data = some_bytes(sites.seed + 11, 60_000)
    pieces = [piece for at in range(0, len(data), 10_000) for piece in (data[at:at + 10_000], 0.5)]
    return listeners, patient, (pressed, sites.start_sender("sending", pieces, FAR, PRESSED), pressing, data)


def numbers_of(out, to, routers):
    """How many requests of a run were answered over so many routers, and how many in all, where it wrote what it is to."""
    *lines, last = out.splitlines() or [""]
    answers = [bool(re.fullmatch(rf"{to}: answer {number} in {TIME}, {routers}", line)) for number, line in enumerate(lines, 1)]
    silent = [line == f"{to}: no answer {number}" for number, line in enumerate(lines, 1)]
    whole = rf"{len(lines)} sent, {sum(answers)} answered, min {TIME}, avg {TIME}, max {TIME}"
    good = all(map(any, zip(answers, silent))) and re.fullmatch(whole, last)
    return (sum(answers), len(lines)) if good else None


def check_lines(sites, what, process, to, count, routers, seconds, late=0):
    """All of a run were answered, over so many routers, but for some that may be late."""
    status, out = process.status(seconds), process.out.decode()
    answered, sent = numbers_of(out, to, routers) or (0, 0)
    sites.check(what, (status, sent, process.said()) == (0, count, []) and count - late <= answered,
                out.splitlines()[-1] if answered else f"{status}, {process.said()}, {out}")


def check_silent_ping(sites, what, *words):
    """One request has no answer."""
    process = ping(sites, "pinger", "-c", "1", *words)
    status, out = process.status(6), process.out.decode()
    wanted = f"{' '.join(words)}: no answer 1\n1 sent, 0 answered\n"
    good = (status, out, process.said()) == (1, wanted, [])
    sites.check(what, good, out.splitlines()[-1] if good else f"{status}, {process.said()}, {out}")


def reply(request, source):
    """What answers a request, from an address."""
    to = (NEAR, request[22:28].hex(), request[28:30].hex())
    number = struct.unpack(">H", request[32:34])[0]
    return ipx(5, to, (NEAR, *source), struct.pack(">BBHHHHH", 0x80, 0, 0x305, number, 0, 0, 7))


def answer(sites, ends, over, true):
    """Answers each request in other names, and then, where it is to, in its own."""
    own, other = ends
    while not over.is_set():
        try:
            request, place = own.recvfrom(2000)
        except BlockingIOError:
            time.sleep(0.002)
            continue
        for source in ((node(STRAIGHT), "4002"), (node(OTHER), "4002")):
            other.sendto(reply(request, source), place)
        for source in ((node(OTHER), "4002"), (node(STRAIGHT), "4004")):
            own.sendto(reply(request, source), place)
        if true.is_set():
            own.sendto(reply(request, (node(STRAIGHT), "4002")), place)


def check_straight(sites):
    """A listener on the host's own network is asked without a router, and nobody speaks for it."""
    ends, over, true = [bound(ip, sites.port) for ip in (STRAIGHT, OTHER)], threading.Event(), threading.Event()
    thread = threading.Thread(target=answer, args=(sites, ends, over, true), daemon=True)
    thread.start()
    check_silent_ping(sites, "a ping that others answer has no answer", NEAR, node(STRAIGHT), "4002")
    true.set()
    check_lines(sites, "a ping on the host's own network, which 0 is", ping(
        sites, "pinger", "00000000", node(STRAIGHT), "4002", "-c", "1"), f"{NEAR} {node(STRAIGHT)} 4002", 1, "0 routers", 6)
    over.set()
    thread.join(5)
    for one in ends:
        one.close()


def check_places(sites):
    """After many pings of one run the listener takes as many callers as before, but one."""
    ends, answered = [(bound(ip, sites.port), ip) for ip in CALLERS], set()
    for number in range(1, PLACES + 1):
        one, ip = ends[number % len(ends)]
        header = struct.pack(">BBHHHHH", 0xc0, 0, number, 0xffff, 0, 0, 7)
        one.sendto(ipx(5, (FAR, node(LISTENER), "4002"), (FAR, node(ip), "4003"), header), (LISTENER, sites.port))
    end = time.monotonic() + 2
    while time.monotonic() < end and len(answered) < PLACES:
        for one, _ in ends:
            try:
                answered.add(one.recv(2000)[34:36])
            except BlockingIOError:
                pass
        time.sleep(0.005)
    sites.check(f"a listener that was pinged {MANY} times takes {PLACES - 1} callers", len(answered) >= PLACES - 1,
                f"{len(answered)} of {PLACES}")
    for one, _ in ends:
        one.close()


def check_nowhere(sites):
    """A node without an IP address, or with one that no host can have, is refused on the host's own network, which 0 is too."""
    file = sites.world.path("pinger.toml")
    tried = [(command, network, "020000000022") for command in ("ping", "send") for network in (NEAR, "00000000")]
    tried += [(command, NEAR, station) for command in ("ping", "send") for station in ("000000000001", "0000e0000001", "0000ffffffff")]
    for command, network, station in tried:
        wanted = [f"node {station} is no host's IP address: on the network of {file} a node is 0000 and an IP address in hex"]
        process = sites.world.start(f"nowhere-{command}", command, file, network, station, "4002")
        status = process.status(3)
        sites.check(f"ipx {command} refuses node {station} of network {network}, which is no host's",
                    (status, process.out, process.said()) == (2, b"", wanted), f"{status}, {process.said()}, {process.out.decode()}")


def check_runs(sites):
    """A host that pinged in several runs, one behind the other, can send to that listener."""
    sites.host("again", NEAR, AGAIN, FIRST, "4002", listed("peers", [PINGER]))
    listener = sites.start_listener("--once", name="again")
    until(listener.said, 5)
    to, runs = f"{NEAR} {node(AGAIN)} 4002", []
    for _ in range(RUNS):
        process = ping(sites, "pinger", *to.split(), "-c", "1")
        runs.append((process.status(6), numbers_of(process.out.decode(), to, "0 routers")))
    sites.check(f"{RUNS} runs of a ping on the host's own network are answered, over 0 routers", runs == [(0, (1, 1))] * RUNS,
                str(runs))
    data = b"behind all pings"
    sender = sites.start_sender("pinger", [data], NEAR, AGAIN)
    sites.check_transfer(f"behind {RUNS} runs of a ping a host sends", listener, sender, data)
    listener.end()


def check_pressed(sites, pressed, sender, pressing, data):
    """A listener with --once that is pinged takes the one who sends, and writes what that sends alone."""
    sites.check_transfer("a listener with --once takes the sender, while another host pings it", pressed, sender, data)
    status, numbers = pressing.status(15), numbers_of(pressing.out.decode(), f"{FAR} {node(PRESSED)} 4002", "3 routers")
    sites.check("and the pings are answered, over 3 routers", status == 0 and numbers is not None and numbers[0] >= 2,
                f"{status}, {numbers}")


def check_patient(sites, patient, listener):
    """Many pings take one place at a time: each goes after some seconds, and is taken again by the next ping."""
    check_lines(sites, f"{MANY} pings of one run", patient, f"{FAR} {node(LISTENER)} 4002", MANY, "3 routers", MANY + 5, LATE)
    told = [int(line[1]) for line in (re.fullmatch(NEVER_SPOKE, line) for line in listener.said()) if line]
    most = MANY // SECONDS_OF_A_PLACE
    sites.check(f"they were no more than {most} callers that never spoke, one after another",
                told and told[-1] <= most, str(told))


def check_ping(sites, listeners, patient, pressed):
    """Who is there answers, and who is not, or will not, is silent."""
    check_pressed(sites, *pressed)
    for network, address, routers in ((MIDDLE, NEXT, "1 router"), (FAR, LISTENER, "3 routers")):
        to = f"{network} {node(address)} 4002"
        check_lines(sites, f"a ping over {routers}", ping(sites, "pinger", "-c", "2", *to.split()), to, 2, routers, 8)
    check_silent_ping(sites, "a socket that nobody listens at is silent", FAR, node(LISTENER), "4004")
    check_silent_ping(sites, "a listener that does not let the host connect is silent", FAR, node(BARRING), "4002")
    check_silent_ping(sites, "a network that no router knows is silent", "00000099", node(LISTENER), "4002")
    check_straight(sites)
    check_nowhere(sites)
    check_runs(sites)
    check_patient(sites, patient, listeners[0])
    check_places(sites)
    for listener in listeners:
        listener.end()
        sites.check("a listener that was pinged writes nothing", not listener.out, quiet=True)
