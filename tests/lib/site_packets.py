"""Packets of an internetwork as bytes, forged ones among them, for the scripts of tests/system."""
import struct


def ipx(kind, to, source, body, hops=0):
    """An IPX packet; addresses are network, node and socket in hex."""
    return (struct.pack(">HHBB", 0xffff, 30 + len(body), hops, kind) + bytes.fromhex("".join(to))
            + bytes.fromhex("".join(source)) + body)


def rip_response(network, source, routes):
    """A RIP response from a node of a network to everybody on it; routes are network, hops, ticks."""
    body = struct.pack(">H", 2) + b"".join(struct.pack(">IHH", *route) for route in routes)
    return ipx(1, (network, "ffffffffffff", "0453"), (network, source, "0453"), body)


def sap_response(network, source, services, to=None):
    """A SAP response from a node of a network, to everybody there or to one; services are type, name, network and hops, at
    socket 0451 of node 1."""
    body = struct.pack(">H", 2) + b"".join(
        struct.pack(">H48sIHIHH", kind, name, place, 0, 1, 0x451, hops) for kind, name, place, hops in services)
    return ipx(4, to or (network, "ffffffffffff", "0452"), (network, source, "0452"), body)


def some_datagram(rng, source_node, nodes):
    """Random bytes; or a packet from a node of network 1 with random bytes in it, for one of these nodes
    or others; or forged control."""
    kind = rng.random()
    source = ("00000001", source_node, f"{rng.randrange(1 << 16):04x}")
    if kind < 0.5:
        return rng.randbytes(rng.randrange(1473))
    if kind < 0.9:
        network = rng.choice(["00000000", "00000001", "00000002", "00000011", "00000022",
                              f"{rng.randrange(1 << 32):08x}"])
        to = (network, rng.choice([*nodes, "ffffffffffff", rng.randbytes(6).hex()]),
              rng.choice(["4002", "4003", "0452", "0453", f"{rng.randrange(1 << 16):04x}"]))
        packet = bytearray(ipx(rng.choice([0, 1, 4, 5, 5, 17, 20]), to, source,
                               rng.randbytes(rng.randrange(547)), rng.randrange(20)))
        if rng.random() < 0.3:
            packet[rng.randrange(len(packet))] = rng.randrange(256)
        return bytes(packet)
    if kind < 0.95:
        routes = [(rng.randrange(0x1000, 1 << 32), rng.randrange(18), rng.randrange(40))
                  for _ in range(rng.randrange(51))]
        return rip_response("00000001", source_node, routes)
    if kind < 0.999:
        body = struct.pack(">H", 2) + b"".join(
            rng.randbytes(62) + struct.pack(">H", rng.randrange(18)) for _ in range(rng.randrange(8)))
        return ipx(4, ("00000001", "ffffffffffff", "0452"), ("00000001", source_node, "0452"), body)
    return ipx(4, ("00000001", "ffffffffffff", "0452"), source, struct.pack(">HH", rng.choice([1, 3]), 0xffff))
