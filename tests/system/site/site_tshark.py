"""What tshark reads of the queries and requests that `ipx networks`, `services` and `ping` send, for `sites`."""
import shutil
import socket
import struct
import subprocess

from site_world import bound, leave_out, node

# A router that answers nothing, what hosts of its network ask, and how often each does in vain.
ROUTER, NETWORK = "127.0.1.236", "00000088"
FAR = ("00000099", "020000000022", "4002")
COMMANDS = {"127.0.1.237": (["networks"], 3), "127.0.1.238": (["services"], 3), "127.0.1.239": (["services", "0640"], 3),
            "127.0.1.240": (["ping", *FAR, "-c", "2"], 2)}
READING = [ROUTER, *COMMANDS]
# Sockets 4001 and 4003 are those of messages to tshark, whatever the type of the packet is.
SOCKET = "5002"
# The number of LINKTYPE_RAW: a packet of IP comes first.
RAW_IP = 101
NAMES = ["_ws.col.Protocol", "_ws.col.Info", "ipx.checksum", "ipx.len", "ipx.hops", "ipx.packet_type", "ipx.dst",
         "ipx.dst.socket", "ipx.src", "ipx.src.socket"]
RIP = ["ipxrip.packet_type", "ipxrip.route_vector", "ipxrip.hops"]
SAP = ["ipxsap.packet_type", "ipxsap.server.type"]
SPX = ["spx.ctl.sys", "spx.ctl.send_ack", "spx.ctl.attn", "spx.ctl.eom", "spx.type", "spx.src", "spx.dst", "spx.seq", "spx.ack",
       "spx.alloc"]
FIELDS = [*NAMES, *RIP, *SAP, *SPX]


def start_tshark(sites):
    """All of them at once, and the socket to which they speak."""
    one, asking = bound(ROUTER, sites.port), []
    for host, ((command, *words), _) in COMMANDS.items():
        name = f"read-{host}"
        sites.host(name, NETWORK, host, ROUTER, SOCKET)
        asking.append(sites.world.start(name, command, sites.world.path(f"{name}.toml"), *words))
    return one, asking


def wanted(host):
    """The fields of what a host sends."""
    router = f"{NETWORK}.{node(ROUTER)}"

    def packet(name, info, size, kind, to, number, fields, values):
        source = f"{NETWORK}.{node(host)}"
        return dict(zip([*NAMES, *fields], [name, info, "0xffff", size, "0", f"0x0{kind}", to, number, source, f"0x{SOCKET}", *values]))

    command, *words = COMMANDS[host][0]
    if command == "networks":
        return packet("IPX RIP", "Request", "40", "1", router, "0x0453", RIP, ["1", "0xffffffff", "65535"])
    if command == "services":
        kind = words[0] if words else "ffff"
        return packet("IPX SAP", "General Query", "34", "4", router, "0x0452", SAP, ["1", f"0x{kind}"])
    return packet("SPX", "SPX System Packet: Send Ack", "42", "5", f"{FAR[0]}.{FAR[1]}", f"0x{FAR[2]}", SPX,
                  ["1", "1", "0", "0", "0x00", "65534", "65535", "0", "0", "0"])


def write_pcap(path, datagrams):
    """Writes datagrams, each with the IP address that it came from, as they go over IP between ports 213 of UDP."""
    with open(path, "wb") as out:
        out.write(struct.pack("<IHHiIII", 0xa1b2c3d4, 2, 4, 0, 0, 65535, RAW_IP))
        for source, bytes_ in datagrams:
            ends = socket.inet_aton(source) + socket.inet_aton(ROUTER)
            size = 28 + len(bytes_)
            held = struct.pack(">BBHHHBBH", 0x45, 0, size, 0, 0, 64, 17, 0) + ends + struct.pack(">HHHH", 213, 213, size - 20, 0)
            out.write(struct.pack("<IIII", 0, 0, size, size) + held + bytes_)


def read(path):
    """The fields that tshark finds in each packet of a file."""
    words = ["tshark", "-n", "-r", path, "-T", "fields", "-E", "separator=|", "-E", "occurrence=a"]
    for field in FIELDS:
        words += ["-e", field]
    said = subprocess.run(words, stdin=subprocess.DEVNULL, capture_output=True, text=True, check=False).stdout
    flags = {"True": "1", "False": "0"}
    return [{field: flags.get(value, value) for field, value in zip(FIELDS, line.split("|")) if value}
            for line in said.splitlines()]


def check_tshark(sites, one, asking):
    """Each datagram is what tshark reads as that query or request, with these values."""
    statuses = [process.status(8) for process in asking]
    sites.check("queries and pings to a router that answers nothing end with status 1", statuses == [1] * len(asking),
                str(statuses))
    sent = []
    while True:
        try:
            bytes_, (source, _) = one.recvfrom(2000)
            sent.append((source, bytes_))
        except BlockingIOError:
            break
    one.close()
    if not shutil.which("tshark"):
        leave_out("what tshark reads of queries and pings", "it is not installed (apt-get install tshark)")
        return
    path = sites.world.path("sent.pcap")
    write_pcap(path, sent)
    by_tshark = read(path)
    sites.check("tshark reads as many packets as were sent", len(by_tshark) == len(sent),
                f"{len(by_tshark)} of {len(sent)}", quiet=True)
    for host, (words, count) in COMMANDS.items():
        got = [fields for (source, _), fields in zip(sent, by_tshark) if source == host]
        wrong = [fields for fields in got if fields != wanted(host)]
        name, info, *_ = wanted(host).values()
        sites.check(f"tshark reads what ipx {' '.join(words)} sends", len(got) == count and not wrong,
                    str(wrong[:1]) if wrong else f"{len(got)} times {name}, {info}")
