"""The command `ipx ipxnet`, a server for players without a file, for `players`."""
import socket
import subprocess

from player_hostile import wait_for
from player_world import EVERYBODY, REGISTRATION, Client, answer_to, shows
from site_packets import ipx
from site_world import free_port, until
from wire_world import node_of_place

NETWORK, ANY, SERVER, PLAYERS = "0000d05b", "0.0.0.0", "127.0.0.1", ["127.0.6.92", "127.0.6.93"]
USUAL_PORT = 213
FILE = """\
# In DOSBox, players type `ipxnet connect ADDRESS {0}`, with the address of this machine.
# To change something, put these lines into a file, and run `ipx route FILE`.
[[port]]
kind = "ipxnet"
network = "0000d05b"
address = "any"
udp_port = {0}
accept = "any"
"""
LINE = "port 1 network 0000d05b node {1} ipxnet udp 0.0.0.0:{0} cost 1 clients 64 peers 0 accept any"
BUSY = "{1}: port 1: bind 0.0.0.0:{0}: Address already in use (os error 98); another program uses it, perhaps another ipx\n"


def ran(run, *words, **how):
    """What a command answers that ends by itself: its status, and what it wrote."""
    how = {"stdout": subprocess.PIPE, **how}
    it = subprocess.run([run.world.program, *words], stdin=subprocess.DEVNULL, stderr=subprocess.PIPE, text=True, timeout=10,
                        check=False, **how)
    return it.returncode, it.stdout, it.stderr


def started(run, port):
    """The server, once it has printed its file and logged its port. Another thread reads what it prints."""
    process = run.world.start("tonight", "ipxnet", "--port", str(port))
    until(lambda: process.said() and len(process.out) >= len(FILE.format(port)), 10)
    return process


def player(run, ip, port):
    """A client that registered as DOSBox does, and showed its node."""
    router = node_of_place((ANY, port))
    client = Client((ip, 0), (SERVER, port), [router])
    client.send(REGISTRATION)
    got = wait_for(client)
    client.node = got[0][10:16].hex() if got else ""
    run.check("ipx ipxnet: a client registers, and is told its node",
              got == [answer_to(NETWORK, client.node, router)] and client.node[:2] == "02", str(got))
    client.send(shows(client.node, router))
    client.got = []
    return client


def check_game(run, port):
    """What one sends comes to the other one, and not back. It answers the nodes of both."""
    clients = [player(run, ip, port) for ip in PLAYERS]
    first, second = clients
    for to in (EVERYBODY, second.node):
        packet = ipx(4, (NETWORK, to, "4001"), (NETWORK, first.node, "4001"), b"move")
        first.send(packet)
        came = wait_for(second)
        run.check("ipx ipxnet: what a client sends comes to the other one", came == [packet], str(came))
        second.got = []
    run.check("ipx ipxnet: nothing comes back to who sent it", not first.take(), str(first.got))
    for client in clients:
        client.end()
    return [client.node for client in clients]


def check_printed(run, process, port):
    """The file that it prints, and its line of the log, are those of `ipx route` with that file."""
    printed, line = process.out.decode(), LINE.format(port, node_of_place((ANY, port)))
    run.check("it prints the file that does the same", printed == FILE.format(port), printed)
    said = process.said()
    run.check("and logs the port of it", len(said) == 1 and f" {line} rcvbuf " in said[0], str(said))
    file = run.world.write("tonight.toml", printed)
    status, lines, fault = ran(run, "route", "--check", file)
    run.check("`ipx route --check` finds no fault in that file, and the same port",
              (status, lines.splitlines()[:1], fault) == (0, [line], ""), f"{status} {lines} {fault}")
    answer = ran(run, "ipxnet", "--port", str(port))
    run.check("a second one finds the port in use, status 1, in one line",
              answer == (1, FILE.format(port), BUSY.format(port, "ipx ipxnet")), str(answer))
    answer = ran(run, "route", file)
    run.check("as `ipx route` with that file does", answer == (1, "", BUSY.format(port, file)), str(answer))


def check_refused(run, port):
    """Without the port 213, which it may not have or somebody else has, and where the file cannot be printed."""
    with socket.socket(socket.AF_INET, socket.SOCK_DGRAM) as other:
        try:
            other.bind((ANY, USUAL_PORT))
        except OSError:
            pass
        status, printed, said = ran(run, "ipxnet")
    run.check("without --port the port is 213", (status, printed) == (1, FILE.format(USUAL_PORT)), f"{status} {printed}")
    run.check("and one line says why it cannot have it",
              said.startswith(f"ipx ipxnet: port 1: bind {ANY}:{USUAL_PORT}: ") and len(said.splitlines()) == 1, said)
    with open("/dev/full", "w", encoding="ascii") as full:
        answer = ran(run, "ipxnet", "--port", str(port), stdout=full)
    run.check("where the file cannot be printed it does not start", answer == (1, None, "cannot write standard output\n"), str(answer))


def check_command(run):
    """All of it."""
    port = free_port([ANY])
    process = started(run, port)
    check_printed(run, process, port)
    nodes = check_game(run, port)
    run.check("ipx ipxnet: it goes on", not process.is_over(), str(process.said()))
    process.end()
    process = started(run, port)
    run.check("started again, it gives other nodes", not set(nodes) & set(check_game(run, port)))
    process.end()
    check_refused(run, port)
