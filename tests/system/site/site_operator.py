"""What an operator's host is told by routers, `ipx networks` and `ipx services`, for `sites`."""
import json
import random
import re
import struct
import threading
import time

from site_packets import ipx, rip_response, sap_response
from site_tables import ITS_ADDRESS, TYPE_NAMES, check_tables, start_unwritten, type_text
from site_world import bound, listed, node, port_table, until

# Three routers in a chain, with a host and a server at each end; and one that knows as much as it may.
NEAR, FAR, MUCH = "127.0.1.180", "127.0.1.187", "127.0.1.188"
NEAR_SERVER, FAR_SERVER, TELLER = "127.0.1.190", "127.0.1.191", "127.0.1.192"
NEAR_HOST, FAR_HOST, MUCH_HOST = "127.0.1.193", "127.0.1.194", "127.0.1.195"
SILENT, HALF, RANDOM = "127.0.1.196", "127.0.1.197", "127.0.1.198"
# Who asks each of the last three for networks, and who for services.
ASKING = {SILENT: ["127.0.1.200", "127.0.1.230"], HALF: ["127.0.1.201", "127.0.1.231"], RANDOM: ["127.0.1.202", "127.0.1.232"]}
CHAIN = {
    "o1": [("00000071", NEAR, [NEAR_HOST, NEAR_SERVER], 1), ("00000072", "127.0.1.181", ["127.0.1.182"], 6)],
    "o2": [("00000072", "127.0.1.182", ["127.0.1.181"], 5), ("00000073", "127.0.1.183", ["127.0.1.184"], 3)],
    "o3": [("00000073", "127.0.1.184", ["127.0.1.183"], 4), ("00000074", FAR, [FAR_HOST, FAR_SERVER], 2)],
    "o4": [("00000075", MUCH, [MUCH_HOST], 1), ("00000076", "127.0.1.189", [TELLER], 1)],
}
OPERATED = sorted({address for ports in CHAIN.values() for _, address, _, _ in ports} | {*ASKING, *sum(ASKING.values(), [])}
                  | {NEAR_SERVER, FAR_SERVER, TELLER, NEAR_HOST, FAR_HOST, MUCH_HOST, ITS_ADDRESS})
# A router holds as many; one network more it has itself.
MOST_TOLD, MOST_SERVICES = 1023, 4096
# How a table's last line ends where one router answered.
ANSWERED = r" answered in \d+\.\d ms\n"

# Each direct network is 0 hops and 0 ticks away, and each router that tells adds one hop, and the cost of the
# port that it tells on. So at the near end: 72 by o1 (0 + 1); 73 by o2 (0 + 5) and o1 (+ 1); 74 by o3 (0 + 4), o2
# (+ 5) and o1 (+ 1). At the far end: 73 by o3 (0 + 2); 72 by o2 (0 + 3) and o3 (+ 2); 71 by o1 (0 + 6), o2 (+ 3)
# and o3 (+ 2).
NEAR_NETWORKS = [("00000072", 1, 1), ("00000073", 2, 6), ("00000074", 3, 10)]
FAR_NETWORKS = [("00000071", 3, 11), ("00000072", 2, 5), ("00000073", 1, 2)]
# A server is one hop away from the router that it tells. What o1 is told on network 71 it does not tell there.
NEAR_SERVICES = [("0640", r'a\x20"b\x5cc', 0xb02, 4)]
FAR_SERVICES = [("0004", "HQ-FILES", 0xa01, 4), ("0640", "BACKUP", 0xa02, 4)]
# What the teller tells, as 2 hops and 3 ticks away, and 1 hop; and the network on which it does.
MUCH_NETWORKS = [("00000076", 1, 1)] + [(f"{0x1000 + number:08x}", 3, 4) for number in range(MOST_TOLD)]
MUCH_SERVICES = [("0004", f"S{number:04}", 0x99, 2) for number in range(MOST_SERVICES)]
# What a router tells that answers half; a telling that is full has more behind it.
HALF_NETWORKS = [(f"{0x2000 + number:08x}", 1, 2) for number in range(50)]
HALF_SERVICES = [("0640", f"HALF{number}", 0xb03, 1) for number in range(7)]
NONE = {"networks": "knows nothing besides this network", "services": "knows no such service"}


def network_table(networks, by):
    return "network   hops  ticks  by\n" + "".join(f"{network}  {hops:4}  {ticks:5}  {by}\n" for network, hops, ticks in networks)


def service_table(services, by):
    kinds, names = (max([4, *map(len, column)]) for column in ([type_text(row[0]) for row in services], [row[1] for row in services]))
    return f"{'type'.ljust(kinds)}  {'name'.ljust(names)}  network   node          socket  hops  by\n" + "".join(
        f"{type_text(kind).ljust(kinds)}  {name.ljust(names)}  {place:08x}  000000000001  0451    {hops:4}  {by}\n"
        for kind, name, place, hops in services)


TABLE = {"networks": network_table, "services": service_table}


def network_values(networks, by):
    return [{"network": network, "hops": hops, "ticks": ticks, "by": by} for network, hops, ticks in networks]


def service_values(services, by):
    return [{"type": kind, "type_name": TYPE_NAMES.get(kind, ""), "name": name, "network": f"{place:08x}", "node": "000000000001", "socket": "0451",
             "hops": hops, "by": by} for kind, name, place, hops in services]


def values_of(out):
    """What Python reads of lines of JSON."""
    try:
        return [json.loads(line) for line in out.splitlines()]
    except ValueError as error:
        return [str(error)]


def ask(sites, name, command, *words):
    """The status of a command by the file of a host, and the process."""
    process = sites.world.start(f"{name}-{command}", command, sites.world.path(f"{name}.toml"), *words)
    return process.status(6), process


def start_operator(sites):
    """The routers, of which the middle one is the last; and what the servers and the teller say to theirs."""
    start_unwritten(sites)
    for name, ports in CHAIN.items():
        tables = f'tables_file = "{sites.world.path(name + ".tables")}"\n'
        sites.world.write(f"{name}.toml", tables + "".join(port_table(network, address, sites.port, peers) + f"cost = {cost}\n"
                                                           for network, address, peers, cost in ports))
    for name, network, address, router in (("near-asker", "00000071", NEAR_HOST, NEAR), ("far-asker", "00000074", FAR_HOST, FAR),
                                           ("much-asker", "00000075", MUCH_HOST, MUCH)):
        sites.host(name, network, address, router, "4003")
    for name in ("o1", "o3", "o4"):
        sites.start_router(name)
        until(lambda: len(sites.routers[name].said()) >= 2, 10)  # pylint: disable=cell-var-from-loop
    ends = {ip: bound(ip, sites.port) for ip in (NEAR_SERVER, FAR_SERVER, TELLER)}
    ends[NEAR_SERVER].sendto(sap_response("00000071", node(NEAR_SERVER), [
        (4, b"HQ-FILES", 0xa01, 1), (0x640, b"BACKUP", 0xa02, 1)]), (NEAR, sites.port))
    ends[FAR_SERVER].sendto(sap_response("00000074", node(FAR_SERVER), [(0x640, b'a "b\\c', 0xb02, 1)]), (FAR, sites.port))
    time.sleep(0.2)
    sites.start_router("o2")
    port = ("127.0.1.189", sites.port)
    for first in range(0, MOST_TOLD, 50):
        routes = [(0x1000 + place, 2, 3) for place in range(first, min(first + 50, MOST_TOLD))]
        ends[TELLER].sendto(rip_response("00000076", node(TELLER), routes), port)
    for first in range(0, MOST_SERVICES, 7):
        services = [(4, b"S%04d" % place, 0x99, 1) for place in range(first, min(first + 7, MOST_SERVICES))]
        ends[TELLER].sendto(sap_response("00000076", node(TELLER), services), port)
        time.sleep(0.0005)
    return ends


def half_of(to, address, number):
    """A telling with all that it has room for, and a second one of others, which is cut in the middle."""
    by, told = ("00000077", node(address), number), []
    for first in (0x2000, 0x3000):
        if number == "0453":
            told.append(ipx(1, to, by, struct.pack(">H", 2) + b"".join(struct.pack(">IHH", first + n, 1, 2) for n in range(50))))
        else:
            told.append(sap_response("00000077", node(address), [
                (0x640, name.encode() if first == 0x2000 else b"CUT%d" % n, place, hops)
                for n, (_, name, place, hops) in enumerate(HALF_SERVICES)], to))
    return [told[0], told[1][:len(told[1]) // 2]]


def random_of(rng, to, address, number):
    """Random bytes: as whole datagrams, and as bodies of packets that are no response."""
    by = ("00000077", node(address), number)
    return [rng.randbytes(rng.randrange(600)) if place % 2 else
            ipx(1 if number == "0453" else 4, to, by, b"\1" + rng.randbytes(rng.randrange(500))) for place in range(50)]


def answer_badly(sites, address, one, over):
    """A router that answers half, or with random bytes."""
    rng = random.Random(sites.seed)
    while not over.is_set():
        try:
            packet, (ip, _) = one.recvfrom(2000)
        except BlockingIOError:
            time.sleep(0.01)
            continue
        to, number = ("00000077", packet[22:28].hex(), packet[28:30].hex()), packet[16:18].hex()
        for datagram in half_of(to, address, number) if address == HALF else random_of(rng, to, address, number):
            one.sendto(datagram, (ip, sites.port))


def start_bad(sites):
    """Routers that answer nothing, half, and random bytes; and hosts that ask them for networks and services, all at once."""
    over = threading.Event()
    ends = {address: bound(address, sites.port) for address in ASKING}
    for address in (HALF, RANDOM):
        threading.Thread(target=answer_badly, args=(sites, address, ends[address], over), daemon=True).start()
    asking = []
    for address, hosts in ASKING.items():
        for command, host in zip(TABLE, hosts):
            name = f"asks-{host}"
            sites.host(name, "00000077", host, address, "4003")
            asking.append((address, command, sites.world.start(name, command, sites.world.path(f"{name}.toml"))))
    return over, ends, asking


def check_bad(sites, over, ends, asking):
    """The statuses and lines of those, within five seconds of their start."""
    told = {"networks": HALF_NETWORKS, "services": HALF_SERVICES}
    does = {SILENT: "answers nothing", HALF: "answers half", RANDOM: "answers with random bytes"}
    for address, command, process in asking:
        status = process.status(8)
        took = (process.last_byte or time.monotonic()) - process.started
        out, said, by = process.out.decode(), process.said(), node(address)
        if address == HALF:
            wanted, lines = re.escape(f"{TABLE[command](told[command], by)}{len(told[command])} {command}, {by}") + ANSWERED, []
        else:
            wanted, lines = re.escape(f"{TABLE[command]([], by)}0 {command}\n"), [f"no answer from {address}, or it {NONE[command]}"]
        good = status == (0 if address == HALF else 1) and said == lines and bool(re.fullmatch(wanted, out)) and took < 5
        sites.check(f"ipx {command} of a router that {does[address]}: status, lines and time", good,
                    f"status {status}, {took:.1f} s" if good else f"{status}, {took:.1f} s, {said}, {out[-200:]}")
    over.set()
    for one in ends.values():
        one.close()


def check_table(sites, name, command, words, rows, by):
    """A table of a command is these rows, and who answered is told, at the latest ten seconds after the routers started."""
    count = f"{len(rows)} {command if len(rows) > 1 else command[:-1]}"
    wanted = re.escape(f"{TABLE[command](rows, by)}{count}, {by}") + ANSWERED
    end = time.monotonic() + 12
    while True:
        status, process = ask(sites, name, command, *words)
        out = process.out.decode()
        good = status == 0 and bool(re.fullmatch(wanted, out))
        if good or time.monotonic() > end:
            break
        time.sleep(0.5)
    sites.check(f"ipx {command} of {name}: all of it, with hops and ticks as computed by hand", good,
                out.splitlines()[-1] if good else f"{status}, {process.said()}, {out}")


def check_json(sites, name, command, words, wanted):
    """What Python reads of the lines of JSON."""
    status, process = ask(sites, name, command, *words, "--json")
    out = process.out.decode()
    good = (status, values_of(out)) == (0, wanted)
    sites.check(f"ipx {command} of {name} as JSON", good, "" if good else f"{status} {out}")


def is_part(some, whole):
    """Whether these are some of a list, or all of it, in its order."""
    left = iter(whole)
    return all(one in left for one in some)


def check_much(sites, has_room):
    """As many networks and services as a router may know, as a table and as JSON. Without room at their sockets a part of it
    is lost."""
    by, values = node(MUCH), {"networks": network_values, "services": service_values}
    for command, rows in (("networks", MUCH_NETWORKS), ("services", MUCH_SERVICES)):
        start, (status, process) = time.monotonic(), ask(sites, "much-asker", command)
        head, *lines, _ = process.out.decode().splitlines() or ["", ""]
        json_status, process = ask(sites, "much-asker", command, "--json")
        got = values_of(process.out.decode())
        least = len(rows) if has_room else len(rows) // 4
        counts = len(lines), len(got)
        good = (status == json_status == 0 and all(least <= count <= len(rows) for count in counts)
                and is_part([head, *lines], TABLE[command](rows, by).splitlines()) and is_part(got, values[command](rows, by)))
        sites.check(f"{len(rows)} {command} of one router, with hops and ticks as computed by hand", good,
                    f"{counts}, statuses {status} and {json_status}, {time.monotonic() - start:.1f} s, {process.said()}")


def check_operator(sites, ends, has_room):
    """Tables, JSON, and one of two routers that does not answer."""
    near, far = node(NEAR), node(FAR)
    check_table(sites, "near-asker", "networks", [], NEAR_NETWORKS, near)
    check_table(sites, "far-asker", "networks", [], FAR_NETWORKS, far)
    check_table(sites, "near-asker", "services", [], NEAR_SERVICES, near)
    check_table(sites, "far-asker", "services", [], FAR_SERVICES, far)
    check_table(sites, "far-asker", "services", ["0004"], FAR_SERVICES[:1], far)
    check_json(sites, "near-asker", "networks", [], network_values(NEAR_NETWORKS, near))
    check_json(sites, "far-asker", "networks", [], network_values(FAR_NETWORKS, far))
    check_json(sites, "near-asker", "services", ["0640"], service_values(NEAR_SERVICES, near))
    check_json(sites, "far-asker", "services", [], service_values(FAR_SERVICES, far))
    status, process = ask(sites, "far-asker", "services", "0ff0")
    sites.check("a type that no service has: nobody answers", status == 1
                and process.said() == [f"no answer from {FAR}, or it knows no such service"],
                f"{status}, {process.said()}")
    status, process = ask(sites, "far-asker", "services", "004")
    sites.check("a type that is not four hex digits", (status, process.said(), process.out)
                == (2, ["TYPE must be four hex digits, such as 0004"], b""), f"{status}, {process.said()}")
    sites.host("two-asker", "00000071", NEAR_HOST, NEAR, "4003", listed("peers", [SILENT]) + listed("routers", [SILENT]))
    status, process = ask(sites, "two-asker", "networks", "--json")
    sites.check("of two routers one does not answer: what the other tells, and status 1",
                status == 1 and len(process.out.splitlines()) == 3
                and process.said() == [f"no answer from {SILENT}, or it knows nothing besides this network"],
                f"{status}, {process.said()}")
    check_much(sites, has_room)
    check_tables(sites, has_room)
    for one in ends.values():
        one.close()
