"""What a router writes into its file of tables, by docs/PROTOCOL.md and the page of ipx_table_dump: read and computed anew."""
import re

LIFE = 180_000
DEAD = 16
OWN = re.compile(r"([0-9a-f]{8}) own port (\d+) cost (\d+)")
BY = r" port (\d+) next ([0-9a-f]{12}) hops (\d+)"
NETWORK = re.compile(r"([0-9a-f]{8})" + BY + r" ticks (\d+) heard (\d+)( spare)?")
SERVICE = re.compile(r"([0-9a-f]{4}) (\S+) at ([0-9a-f]{8}) ([0-9a-f]{12}) ([0-9a-f]{4})" + BY + r" heard (\d+)( spare)?")
NEIGHBOUR = re.compile(r"port (\d+) ([0-9a-f]{12}) networks (\d+) services (\d+) heard (\d+)")


def parts_of(text):
    """The lines of the three parts; None where a part has another number of lines than its head says."""
    lines, parts = text.split("\n"), []
    for title in ("networks", "services", "neighbours"):
        found = re.fullmatch(title + r" (\d+)", lines[0]) if lines else None
        if not found:
            return None
        count = int(found[1])
        parts.append(lines[1:count + 1])
        lines = lines[count + 1:]
    return parts if lines == [""] else None


def read(text):
    """The networks of ports, the best networks with hops, ticks and neighbour, and the best services with type, name,
    network, hops and neighbour; None where the text is none of a router."""
    parts = parts_of(text)
    if parts is None:
        return None
    networks, services, neighbours = parts
    heads = [OWN.fullmatch(line) for line in networks]
    owns = [found for found in heads if found]
    rest = [NETWORK.fullmatch(line) for line in networks[len(owns):]]
    offers = [SERVICE.fullmatch(line) for line in services]
    if not all([*heads[:len(owns)], *rest, *offers, *(NEIGHBOUR.fullmatch(line) for line in neighbours)]):
        return None
    return ([found[1] for found in owns],
            [(it[1], int(it[4]), int(it[5]), it[3]) for it in rest if not it[7]],
            [(it[1], it[2], it[3], int(it[8]), it[7]) for it in offers if not it[10]])


def shown(name):
    """A name as `ipx show` prints it."""
    name = name.split(b"\0")[0]
    return "".join(chr(b) if 0x21 <= b <= 0x7e and b != 0x5c else f"\\x{b:02x}" for b in name) or "-"


class Heard:
    """What was heard last of each key from each source: a source is a port and a node in hex."""

    def __init__(self, ports):
        self.ports = ports
        self.networks, self.services = {}, {}

    def network(self, key, source, hops, ticks, now):
        """A network is a number."""
        self.put(self.networks, (key, source), (ticks, hops), hops, now)

    def service(self, key, source, hops, place, now):
        """A service is its type and the 48 bytes of its name; where it is, a network, a node in hex and a socket."""
        self.put(self.services, (key, source), (hops, place), hops, now)

    @staticmethod
    def put(table, at, metric, hops, now):
        table.pop(at, None)
        if hops < DEAD:
            table[at] = metric, now

    @staticmethod
    def counting(table, now):
        """What counts, by key and source, with its age in seconds and whether it is the best of its key."""
        young = sorted((at, metric, (now - heard) // 1000) for at, (metric, heard) in table.items() if now - heard < LIFE)
        best = {}
        for (key, source), metric, _ in young:
            best[key] = min(best.get(key, (metric, source)), (metric, source))
        return [(key, source, metric, age, best[key] == (metric, source)) for (key, source), metric, age in young]

    def text(self, now):
        """All of it at a moment."""
        networks = [f"{network:08x} own port {number} cost {cost}" for number, (network, cost) in enumerate(self.ports, 1)]
        services, tellers = [], {}
        for key, (port, by), (ticks, hops), age, best in self.counting(self.networks, now):
            networks.append(f"{key:08x} port {port} next {by} hops {hops} ticks {ticks} heard {age}{'' if best else ' spare'}")
            tellers.setdefault((port, by), [0, 0, age])[0] += 1
            tellers[port, by][2] = min(tellers[port, by][2], age)
        for (kind, name), (port, by), (hops, (network, node, socket)), age, best in self.counting(self.services, now):
            services.append(f"{kind:04x} {shown(name)} at {network:08x} {node} {socket:04x} port {port} next {by} hops {hops} "
                            f"heard {age}{'' if best else ' spare'}")
            tellers.setdefault((port, by), [0, 0, age])[1] += 1
            tellers[port, by][2] = min(tellers[port, by][2], age)
        neighbours = [f"port {port} {by} networks {some} services {more} heard {age}"
                      for (port, by), (some, more, age) in sorted(tellers.items())]
        return "".join(f"{title} {len(lines)}\n" + "".join(f"{line}\n" for line in lines)
                       for title, lines in (("networks", networks), ("services", services), ("neighbours", neighbours)))
