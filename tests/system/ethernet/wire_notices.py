"""What a router says of mistakes on the segment of a port, for `wires`: another router with another network, a station at two
remotes, a frame from the port's own address, and packets in another encapsulation. Each is told once a minute."""
from site_packets import ipx, rip_response, sap_response
from site_world import free_port, node, until
from wire_frames import EVERYBODY, frame
from wire_world import End, Router, UdpPort, WirePort, text_of

OUTER, NETWORK, OTHER = "00000011", "0000d05b", "00000023"
PLACE, ENDS, HOST = "127.0.3.1", ("127.0.3.10", "127.0.3.11"), "127.0.3.20"
OWN, ROUTER, STATION = "020000000022", "00001b2c3d4e", "525400000001"


def mistakes(first, second):
    """Frames that two ends send, each with the words of its line; and others, of which none is told."""
    def sent(end, source, packet, kind="802.2", to=EVERYBODY):
        return lambda: end.send(frame(kind, to, source, packet))

    forwarded = ipx(1, (OTHER, EVERYBODY, "0453"), (OTHER, ROUTER, "0453"), b"\0\2", hops=1)
    unknown = ipx(1, ("00000000", EVERYBODY, "0453"), ("00000000", ROUTER, "0453"), b"\0\1" + b"\xff" * 6 + b"\xff\xff")
    moving = ipx(0, (NETWORK, OWN, "4002"), (NETWORK, STATION, "4001"), b"moves")
    quiet = [sent(first, ROUTER, forwarded), sent(first, ROUTER, unknown),
             sent(first, ROUTER, rip_response(NETWORK, ROUTER, [(0x99, 1, 2)])),
             sent(first, ROUTER, ipx(0, (OTHER, EVERYBODY, "4002"), (OTHER, ROUTER, "4001"), b"no RIP"))]
    near, far = text_of(first.socket.getsockname()), text_of(second.socket.getsockname())
    told = [
        (sent(first, ROUTER, rip_response(OTHER, ROUTER, [(0x98, 1, 2)])),
         f"router {ROUTER} at {near} says that this network is {OTHER}, this port has {NETWORK} (", " since the start): change one of them"),
        (sent(first, OWN, moving, to=STATION),
         f"{near} sends frames from this router's own address {OWN} (", " since the start): another machine has it, or a link leads back"),
        (sent(second, STATION, moving, "802.3", OWN),
         "frames of another encapsulation: 802.3, this port has 802.2 (", f" since the start), last from {STATION} at {far}"),
    ]
    moves = [sent(first, STATION, moving, to=OWN), sent(second, STATION, moving, to=OWN)]
    again = [sent(second, ROUTER, sap_response(OTHER, ROUTER, []))]
    return quiet, told, moves, again, (near, far)


def check_notices(wires):
    """A port with two remotes, beside one of RFC 1234."""
    first_port = free_port([PLACE, HOST, *ENDS], 3)
    port = WirePort(NETWORK, "802.2", (PLACE, first_port + 1), [(place, first_port + 2) for place in ENDS], OWN)
    outer = UdpPort(OUTER, PLACE, first_port, [HOST])
    router = Router(wires, "notices", [outer, port])
    host = End(outer, (HOST, first_port), node(HOST))
    first, second = (End(port, (place, first_port + 2), f"02000000030{at}") for at, place in enumerate(ENDS))
    router.start()
    process = router.process
    wires.check("a router with two remotes at a port starts", until(lambda: first.is_told(), 15))
    quiet, told, moves, again, (near, far) = mistakes(first, second)

    def lines():
        return [line for line in process.said() if "port 2: " in line and "since the start" in line]

    for send in quiet:
        send()
    # What it says of the router's own network, it says at its next look.
    counted = router.figures(lambda found: found.get('ipx_frames_total{port="2",outcome="handed_on"}', 0) >= 2)
    wires.check("no line for RIP of the port's network or of none, for what was forwarded, or for other packets", not lines(),
                str(lines() or "") or str(counted.get('ipx_frames_total{port="2",outcome="handed_on"}')))
    for send, before, after in told:
        send()
        line = f"port 2: {before}1{after}"
        found = until(lambda line=line: any(one.endswith(line) for one in lines()), 15)
        wires.check(f"a line: {line}", found, "" if found else str(lines()))
    # Each in its turn, so that the station is heard at both remotes within a second.
    for send in moves:
        send()
    before, after = f"station {STATION} is at ", " since the start): two machines have one address, or two links lead to one network"
    ends = (f"{near} and at {far}", f"{far} and at {near}")
    found = until(lambda: any(before in line and any(end in line for end in ends) and line.endswith(after) for line in lines()), 15)
    wires.check(f"a line: port 2: {before}{near} and at {far} within a second", found, "" if found else str(lines()))
    for send in [*(send for send, _, _ in told), *moves, *again]:
        send()
    counted = router.figures(lambda found: found.get('ipx_frames_total{port="2",outcome="own"}') == 2)
    wires.check("a second one of each is counted, and not told within the minute", len(lines()) == 4
                and counted.get('ipx_frames_total{port="2",outcome="own"}') == 2, str(lines()))
    wires.check("the router goes on", not process.is_over())
    process.end()
    for one in (first, second, host):
        one.end()
