"""Ethernet frames of an internetwork as bytes, for the scripts of tests/system."""
import struct

from site_packets import ipx

EVERYBODY = "ffffffffffff"
# How an IPX packet lies in a frame, and how many bytes it may have there.
LINKS = {"802.3": b"", "802.2": b"\xe0\xe0\x03", "snap": b"\xaa\xaa\x03\0\0\0\x81\x37", "ethernet-ii": b""}
MOST = {"802.3": 1500, "802.2": 1497, "snap": 1492, "ethernet-ii": 1500}
KINDS = list(LINKS)
RIP, SAP = "0453", "0452"
ALL_ROUTES = struct.pack(">HIHH", 1, 0xffffffff, 0xffff, 0xffff)
ALL_SERVICES = struct.pack(">HH", 1, 0xffff)


def header(to, source, says):
    """The first bytes of a frame: two stations, and a length or type."""
    return bytes.fromhex(to + source) + struct.pack(">H", says)


def frame(kind, to, source, packet):
    """The frame in which a port sends a packet: a raw one has an even length, and all have 60 bytes or more."""
    held = LINKS[kind] + packet
    if kind == "802.3" and len(packet) % 2:
        held += b"\0"
    return (header(to, source, 0x8137 if kind == "ethernet-ii" else len(held)) + held).ljust(60, b"\0")


def forms(kind, to, source, packet, rng):
    """Frames in which stations send it: as we do; without a byte too many; with a check sequence behind; padded with
    anything; with a length that counts the padding."""
    held = LINKS[kind] + packet
    bare = header(to, source, 0x8137 if kind == "ethernet-ii" else len(held)) + held
    all_forms = [frame(kind, to, source, packet), bare, bare.ljust(60, b"\0") + rng.randbytes(4)]
    if len(bare) < 64:
        all_forms.append(bare + rng.randbytes(64 - len(bare)))
    if len(held) < 46 and kind != "ethernet-ii":
        all_forms.append(header(to, source, 46) + held + rng.randbytes(46 - len(held)))
    return [form for form in all_forms if len(form) <= 1514]


def passed_on(packet, network):
    """A packet as a router hands it on that heard it on this network."""
    size, hops = struct.unpack(">H", packet[2:4])[0], packet[4]
    source = packet[18:22] if any(packet[18:22]) else bytes.fromhex(network)
    return packet[:4] + bytes([hops + 1]) + packet[5:18] + source + packet[22:size]


def routes(entries):
    """The body of a response of RIP: networks, hops, ticks."""
    return struct.pack(">H", 2) + b"".join(bytes.fromhex(network) + struct.pack(">HH", hops, ticks)
                                          for network, hops, ticks in entries)


def own_packets(network, node, cost, others):
    """What a router says by itself on a port: it asks for all routes and services, and tells of its other networks."""
    def said(kind, number, body):
        return ipx(kind, (network, EVERYBODY, number), (network, node, number), body)

    told = routes([(other, 1, cost) for other in sorted(others)])
    return [said(1, RIP, ALL_ROUTES), said(4, SAP, ALL_SERVICES), said(1, RIP, told)]


def frames_of(path):
    """The frames of a file of tcpdump or QEMU."""
    with open(path, "rb") as file:
        held = file.read()
    at, frames = 24, []
    while at + 16 <= len(held):
        size, = struct.unpack("<I", held[at + 8:at + 12])
        frames.append(held[at + 16:at + 16 + size])
        at += 16 + size
    return frames
