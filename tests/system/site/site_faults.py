"""One file for each fault, with the line that the program prints of it, for `sites`."""
import os
import re
import subprocess

from site_world import bound, die_with_the_parent

PORT = """[[port]]
network = "00000011"
address = "127.0.1.1"
udp_port = 20999
peers = ["127.0.1.20"]
"""
SECOND = PORT.replace("11", "22").replace("1.1", "1.2")
WIRE = """[[port]]
kind = "ethernet"
network = "00000022"
encapsulation = "802.2"
address = "127.0.1.1"
udp_port = 20999
remotes = ["127.0.1.3:20998"]
"""
PLAYERS = """[[port]]
kind = "ipxnet"
network = "0000d05b"
address = "127.0.1.1"
udp_port = 20999
"""
HOST = """network = "00000011"
address = "127.0.1.20"
router = "127.0.1.1"
udp_port = 20999
socket = "4002"
"""
KEYS = ("the keys of a router are metrics_file, tables_file, secret_file, port, route and service; those of a host are network, address, router, udp_port, "
        "socket, buffers, peers, routers, allow and accept")
PORT_KEYS = ('the keys are kind, network, address, udp_port, cost, directed, for kind = "rfc1234" also peers, routers and accept, '
             'for kind = "ethernet" encapsulation, tunnel, vni, session, peer_session, cookie, peer_cookie, sublayer, remotes, node and switch, '
             'for kind = "ipxnet" node, clients, accept, peers and join')
RFC1234_KEYS = "its keys are kind, network, address, udp_port, cost, peers, routers, accept, directed"
FRAMES_KEYS = ("its keys are kind, network, encapsulation, address, tunnel, vni, session, peer_session, cookie, peer_cookie, sublayer, udp_port, "
               "cost, remotes, node, switch, directed")
IPXNET_KEYS = "its keys are kind, network, address, udp_port, cost, node, clients, accept, peers, join, directed"
NETWORK = 'eight hex digits, neither all 0 nor all f, such as "00000011"'
ADDRESS = 'an IPv4 address of this machine, such as "192.0.2.10", or for kind "ipxnet" also "any"'
HOST_ADDRESS = 'an IPv4 address of this machine, such as "192.0.2.10"'
NUMBER = "a number from 1 to 65535, such as 213"
REQUIRED = "a number from 1 to 65535, such as 24002"
COST = "a number of ticks from 1 to 65535, such as 6"
PEERS = ('a list of IP addresses, such as ["198.51.100.7", "203.0.113.9"], and for kind "ipxnet" also prefixes of 8 to 32 bits and '
         'names of hosts, such as ["203.0.113.0/24", "friend.example"]')
PORTS = "1 to 16 tables [[port]]"
SECRET = 'a file name, different from metrics_file and tables_file with or without .new, such as "/var/lib/ipx/hq/secret"'
SOCKET = 'four hex digits, not all 0, such as "4002"'
ROUTER = 'the IPv4 address of a router, such as "10.1.0.1"'
BUFFERS = "a number from 1 to 8192, such as 64"
FROM = ('a list of at most 256 networks, each with or without a node after it, such as '
        '["00000022 00000a02001e", "00000033"]')
INSTEAD = '; a port of kind "ipxnet" may have accept = "any" instead'
UNQUOTED = ('invalid value, expected a string, number, boolean, date-time, array or inline table; if it is text, it needs double quotes, '
            'such as "10.1.0.1"')
# What follows, if the text tells more of the fault.
QUOTED, NO_QUOTES = "; write it in double quotes", "; write it without quotes"
NO_IP, NO_PLACE, NO_NETWORK = (f"is no valid {what}" for what in ("IP address", "address:port", "network"))
NO_IP_OR_PLACE = "is no valid IP address or address:port"
NO_TEXT = "is no text in double quotes"
TWICE, OWN_END, AT_WIRE = "is listed twice", "is the port's own address", "127.0.1.2:20996"
MANY = "the list has 257 entries"
UNCLOSED = "invalid string; its closing quote is missing"
COMMA = "missing comma between array elements, expected `,` or `]`"
ODD_QUOTES = "the line has an odd number of double quotes"
OF_PORT = "a table [[port]] or of a host's file, and not of a router's file itself"
FEW_PEERS = 'a list of at most 256 IP addresses, such as ["198.51.100.7", "203.0.113.9"]'
ROUTERS = "a list of at most 256 IP addresses that are also in peers"
ACCEPT = '"peers" or "any"'
DIRECTED = '"none", "few" or "all"'
KIND = '"rfc1234", "ethernet" or "ipxnet"'
FRAME = '"802.3", "802.2", "snap" or "ethernet-ii"'
ENDS = 'a list of 1 to 256 address:port, each listed once, such as ["127.0.0.1:24001"]'
TUNNEL, VNI, SESSION = '"vxlan" or "l2tpv3"', "a number from 1 to 16777215, such as 42", "a number from 1 to 4294967295, such as 1"
COOKIE = '8 or 16 hex digits, such as "0123456789abcdef", or "" for no cookie'
VXLAN = 'tunnel = "vxlan"\nvni = 42\n'
STATION = 'the MAC address of one station, such as "02:00:00:00:00:22"'
ROUTE_KEYS = "the keys are port, next_hop, network, hops and ticks"
SERVICE_KEYS = "the keys are port, next_hop, type, name, ipx_address and hops"
ROUTES, SERVICES = (f"at most 256 tables [[{key}]]" for key in ("route", "service"))
A_PORT = 'the number of a port of kind "rfc1234" or "ethernet", such as 1'
NEXT = ('another node of the port\'s network: one of its peers, such as "198.51.100.7", or on an Ethernet port a MAC address, such as '
        '"02:00:00:00:00:33"')
BEHIND = 'eight hex digits from 00000001 to fffffffd, such as "000000aa"'
HOPS = "a number from 1 to 14, such as 1"
TYPE = 'four hex digits, neither all 0 nor all f, such as "0640"'
NAME = '1 to 47 printable ASCII characters without spaces, such as "BACKUP"'
AT = 'a network, a node and a socket, such as "00000011 00000a010014 4002"'
SAME = 'same address and udp_port as port 1; "any" includes each address'
STATUS = 'a file name, such as "/run/ipx/hq/hq.prom"'
TABLES = 'a file name, different from metrics_file with or without .new, such as "/run/ipx/hq/hq.tables"'


# A route and a service by hand, behind a port with the peers .20 and .1, which is itself.
TWO_PEERS = PORT.replace('["127.0.1.20"]', '["127.0.1.20", "127.0.1.1"]')
ROUTE = """[[route]]
port = 1
next_hop = "127.0.1.20"
network = "000000aa"
"""
SERVICE = """[[service]]
port = 1
next_hop = "127.0.1.20"
type = "0640"
name = "BACKUP"
ipx_address = "00000011 00000a010014 4002"
"""


IN_USE = "Address already in use (os error 98); another program uses it, perhaps another ipx"
NOT_HERE = "Cannot assign requested address (os error 99); no interface of this machine has this address"
CLOSED = "standard input, output or error is closed"
FREE = "127.0.1.52", "127.0.1.53"
UNREAD = [
    ("nothing", "No such file or directory (os error 2)"),
    ("folder", "the file cannot be read"),
    ("bytes", "the file is not UTF-8 text"),
    ("long", "the file has more than 65536 bytes"),
]


def without(text, key):
    """A text without the line of a key."""
    return "".join(line for line in text.splitlines(True) if not line.startswith(key))


def changed(text, key, value):
    """A text with another value of a key."""
    return without(text, key) + f"{key} = {value}\n"


# The text of a router's file, and what is wrong with it.
ROUTER_FILES = [
    ("", f"port is missing: expected {PORTS}"),
    ("port = []\n", f"port: expected {PORTS}"),
    ("port = 1\n", f"port: expected {PORTS}"),
    ("port = [1]\n", f"port 1: port: expected {PORTS}"),
    ("".join(PORT.replace("11", f"{number:02x}") for number in range(1, 18)), f"port: expected {PORTS}"),
    ("metrics_file = 1\n" + PORT, f"metrics_file: expected {STATUS}{QUOTED}"),
    ('metrics_file = ""\n' + PORT, f"metrics_file: expected {STATUS}"),
    ('metrics_file = "/run/ipx/h\\u0000q"\n' + PORT, f"metrics_file: expected {STATUS}"),
    ("tables_file = []\nport = 1", f"tables_file: expected {TABLES}"),
    ('tables_file = ""\n' + PORT, f"tables_file: expected {TABLES}"),
    ('metrics_file = "hq"\ntables_file = "hq"\n' + PORT, f"tables_file: expected {TABLES}"),
    ('metrics_file = "hq"\ntables_file = "hq.new"\n' + PORT, f"tables_file: expected {TABLES}"),
    ('metrics_file = "hq.new"\ntables_file = "hq"\n' + PORT, f"tables_file: expected {TABLES}"),
    ('metrics_file = "bad.toml"\n' + PORT, "metrics_file would overwrite this file: name another file"),
    ('tables_file = "bad.toml"\n' + PORT, "tables_file would overwrite this file: name another file"),
    ('secret_file = "bad.toml"\n' + PORT, "secret_file would overwrite this file: name another file"),
    ("peers = []\n" + PORT, f"peers is a key of {OF_PORT}"),
    ('router = "10.1.0.1"\n' + PORT, "router is a key of a host's file, and this command reads a router's file"),
    ("peer = []\n" + PORT, f"unknown key peer: {KEYS}"),
    ('status = "a"\n' + PORT, "`status` is now `metrics_file`"),
    ("secret_file = 1\nport = 1", f"secret_file: expected {SECRET}{QUOTED}"),
    ('metrics_file = "hq"\nsecret_file = "hq"\n' + PORT, f"secret_file: expected {SECRET}"),
    ('tables_file = "hq"\nsecret_file = "hq.new"\n' + PORT, f"secret_file: expected {SECRET}"),
    ('tables = "a"\n' + PORT, "`tables` is now `tables_file`"),
    (PORT + "ends = []\n", "port 1: `ends` is now `remotes`"),
    (PORT + 'frame = "802.3"\n', "port 1: `frame` is now `encapsulation`"),
    (WIRE + "hub = true\n", "port 1: `hub` is now `switch`"),
    (PORT + "peer = []\n", f"port 1: unknown key peer: {PORT_KEYS}"),
    (PORT + 'router = "10.1.0.1"\n', "port 1: router is a key of a host's file, and this command reads a router's file"),
    (PORT + "hops = 1\n", "port 1: hops is a key of a table [[route]] or [[service]] of a router's file"),
    (PORT + "ticks = 1\n", "port 1: ticks is a key of a table [[route]] of a router's file"),
    (PORT + 'name = "BACKUP"\n', "port 1: name is a key of a table [[service]] of a router's file"),
    ("cost = 1\n" + PORT, "cost is a key of a table [[port]] of a router's file"),
    (PORT + "metrics_file = \"x\"\n", "port 1: metrics_file must come before the first [[port]]"),
    (PORT + SECOND + "tables_file = \"x\"\n", "port 2: tables_file must come before the first [[port]]"),
    (PORT + SECOND + "Accept = \"any\"\n", f"port 2: unknown key Accept: {PORT_KEYS}"),
    (PORT + '"a\\nb\\u001b" = 1\n', f"port 1: unknown key a.b.: {PORT_KEYS}"),
    (changed(PORT, "address", "127.0.1.1"), f"line {1 + len(without(PORT, 'address').splitlines())}: {UNQUOTED}"),
    (without(PORT, "network"), f"port 1: network is missing: expected {NETWORK}"),
    (without(PORT, "address"), f"port 1: address is missing: expected {ADDRESS}"),
    (without(PORT, "peers"), f"port 1: peers is missing: expected {PEERS}{INSTEAD}"),
    (changed(PORT, "network", '"00000000"'), f"port 1: network: expected {NETWORK}"),
    (changed(PORT, "network", '"ffffffff"'), f"port 1: network: expected {NETWORK}"),
    (changed(PORT, "network", '"11"'), f"port 1: network: expected {NETWORK}"),
    (changed(PORT, "network", "11"), f"port 1: network: expected {NETWORK}{QUOTED}"),
    (changed(PORT, "address", '"127.0.1.256"'), f"port 1: address: expected {ADDRESS}"),
    (changed(PORT, "address", '"localhost"'), f"port 1: address: expected {ADDRESS}"),
    (changed(PORT, "address", '"0.0.0.0"'), f"port 1: address: expected {ADDRESS}"),
    (changed(PORT, "address", '"any"'), f"port 1: address: expected {ADDRESS}"),
    (changed(PORT, "udp_port", "0"), f"port 1: udp_port: expected {NUMBER}"),
    (changed(PORT, "udp_port", "65536"), f"port 1: udp_port: expected {NUMBER}"),
    (PORT + "cost = 0\n", f"port 1: cost: expected {COST}"),
    (PORT + "cost = \"6\"\n", f"port 1: cost: expected {COST}{NO_QUOTES}"),
    (changed(PORT, "udp_port", '"20999"'), f"port 1: udp_port: expected {NUMBER}{NO_QUOTES}"),
    (changed(PORT, "peers", '"127.0.1.20"'), f"port 1: peers: expected {PEERS}"),
    (changed(PORT, "peers", '["127.0.1.20", "bob.example.org"]'), f'port 1: peers: expected {PEERS}; "bob.example.org" {NO_IP}'),
    (changed(PORT, "peers", '["127.0.1.20", 5, "b"]'), f"port 1: peers: expected {PEERS}; entry 2 {NO_TEXT}"),
    (changed(PORT, "peers", '["127.0.1.20", "0.0.0.0"]'), f'port 1: peers: expected {PEERS}; "0.0.0.0" {NO_IP}'),
    (PORT + "routers = \"127.0.1.20\"\n", "port 1: routers: expected a list of IP addresses that are also in peers"),
    (PORT + "routers = [\"127.0.1.20\", \"127.0.1.21\"]\n", 'port 1: routers: expected a list of IP addresses that are also in peers; "127.0.1.21" is not in peers'),
    (PORT + "routers = [\"b\"]\naccept = true\n", f'port 1: routers: expected a list of IP addresses that are also in peers; "b" {NO_IP}'),
    (PORT + "routers = []\naccept = true\n", f'port 1: accept: expected "peers" or "any"{QUOTED}'),
    (PORT + "accept = true\n", f'port 1: accept: expected "peers" or "any"{QUOTED}'),
    (PORT + "accept = \"all\"\n", 'port 1: accept: expected "peers" or "any"'),
    (PORT + SECOND.replace("00000022", "00000011"), "port 2: network 00000011 is already used by port 1"),
    (PORT + WIRE.replace("00000022", "00000011"), "port 2: network 00000011 is already used by port 1"),
    (PORT + SECOND.replace("127.0.1.2", "127.0.1.1"), f"port 2: {SAME}"),
    (PORT + WIRE, f"port 2: {SAME}"),
    (PORT + changed(PLAYERS, "address", '"any"') + 'accept = "any"\n', f"port 2: {SAME}"),
    (changed(PLAYERS, "address", '"any"') + 'accept = "any"\n' + WIRE.replace("127.0.1.1", "127.0.1.2"), f"port 2: {SAME}"),
    (PORT + WIRE.replace("20999", "20997") + PLAYERS + 'accept = "any"\n', f"port 3: {SAME}"),
    (PORT + "kind = \"dosbox\"\npeer = []\n", f"port 1: kind: expected {KIND}"),
    (PORT + "kind = 1\n", f"port 1: kind: expected {KIND}{QUOTED}"),
    (PORT + "switch = true\n", f'port 1: switch is not a key of kind "rfc1234": {RFC1234_KEYS}'),
    (PLAYERS, f"port 1: peers is missing: expected {PEERS}{INSTEAD}"),
    (PLAYERS + 'accept = "any"\nclients = 151\n', "port 1: clients: expected a number from 1 to 150, such as 64"),
    (PLAYERS + 'accept = "any"\nrouters = []\n', f'port 1: routers is not a key of kind "ipxnet": {IPXNET_KEYS}'),
    (PORT + "kind = \"rfc1234\"\nremotes = []\n", f'port 1: remotes is not a key of kind "rfc1234": {RFC1234_KEYS}'),
    (WIRE + "accept = \"any\"\n", f'port 1: accept is not a key of kind "ethernet": {FRAMES_KEYS}'),
    (PORT + WIRE + "routers = []\n", f'port 2: routers is not a key of kind "ethernet": {FRAMES_KEYS}'),
    (WIRE + "end = []\n", f"port 1: unknown key end: {PORT_KEYS}"),
    (without(WIRE, "network"), f"port 1: network is missing: expected {NETWORK}"),
    (without(WIRE, "encapsulation"), f"port 1: encapsulation is missing: expected {FRAME}"),
    (without(WIRE, "address"), f"port 1: address is missing: expected {ADDRESS}"),
    (without(WIRE, "udp_port"), f"port 1: udp_port is missing: expected {REQUIRED}"),
    (without(WIRE, "remotes"), f"port 1: remotes is missing: expected {ENDS}"),
    (changed(WIRE, "encapsulation", '"raw"'), f"port 1: encapsulation: expected {FRAME}"),
    (changed(WIRE, "encapsulation", "802.2"), f"port 1: encapsulation: expected {FRAME}{QUOTED}"),
    (changed(WIRE, "udp_port", "0"), f"port 1: udp_port: expected {NUMBER}"),
    (WIRE + "cost = 65536\n", f"port 1: cost: expected {COST}"),
    (changed(WIRE, "remotes", "[]"), f"port 1: remotes: expected {ENDS}"),
    (changed(WIRE, "remotes", '"127.0.1.3:20998"'), f"port 1: remotes: expected {ENDS}"),
    (changed(WIRE, "remotes", '["127.0.1.3"]'), f'port 1: remotes: expected {ENDS}; "127.0.1.3" {NO_PLACE}'),
    (changed(WIRE, "remotes", '["127.0.1.3:20998", "localhost:20998"]'), f'port 1: remotes: expected {ENDS}; "localhost:20998" {NO_PLACE}'),
    (changed(WIRE, "remotes", '["0.0.0.0:20998"]'), f'port 1: remotes: expected {ENDS}; "0.0.0.0:20998" {NO_PLACE}'),
    (changed(WIRE, "remotes", '["127.0.1.3:0"]'), f'port 1: remotes: expected {ENDS}; "127.0.1.3:0" {NO_PLACE}'),
    (changed(WIRE, "remotes", '["127.0.1.3:20998", "127.0.1.3:20997", "127.0.1.3:20998"]'),
     f'port 1: remotes: expected {ENDS}; "127.0.1.3:20998" {TWICE}'),
    (changed(changed(changed(WIRE, "address", '"127.0.1.2"'), "udp_port", "20996"), "remotes", f'["127.0.1.3:20998", "{AT_WIRE}"]'),
     f'port 1: remotes: expected {ENDS}; "{AT_WIRE}" {OWN_END}'),
    (changed(WIRE, "remotes", str([f"127.0.1.3:{1 + it}" for it in range(257)]).replace("'", '"')), f"port 1: remotes: expected {ENDS}; {MANY}"),
    (WIRE + 'tunnel = "gre"\n', f"port 1: tunnel: expected {TUNNEL}"),
    (WIRE + "vni = 42\n", 'port 1: vni needs tunnel = "vxlan"'),
    (WIRE + VXLAN + "cookie = \"\"\n", 'port 1: cookie needs tunnel = "l2tpv3"'),
    (WIRE + 'tunnel = "vxlan"\n', f"port 1: vni is missing: expected {VNI}"),
    (WIRE + 'tunnel = "vxlan"\nvni = "42"\n', f"port 1: vni: expected {VNI}{NO_QUOTES}"),
    (WIRE + 'tunnel = "l2tpv3"\n', f"port 1: session is missing: expected {SESSION}"),
    (WIRE + 'tunnel = "l2tpv3"\nsession = 0\n', f"port 1: session: expected {SESSION}"),
    (WIRE + 'tunnel = "l2tpv3"\nsession = 1\ncookie = "0123"\n', f"port 1: cookie: expected {COOKIE}"),
    (changed(WIRE, "remotes", '["127.0.1.3", "localhost"]') + VXLAN, f'port 1: remotes: expected {ENDS}; "localhost" {NO_IP_OR_PLACE}'),
    (changed(WIRE, "remotes", '["127.0.1.3", "127.0.1.3:8472"]') + VXLAN,
     f'port 1: remotes: expected {ENDS}; "127.0.1.3:8472" has the IP address of an earlier one'),
    (WIRE + "node = \"020000000022\"\n", f"port 1: node: expected {STATION}"),
    (WIRE + "node = \"03:00:00:00:00:22\"\n", f"port 1: node: expected {STATION}"),
    (WIRE + "node = \"00:00:00:00:00:00\"\nswitch = 1\n", f"port 1: node: expected {STATION}"),
    (WIRE + "switch = \"true\"\n", f"port 1: switch: expected true or false{NO_QUOTES}"),
    (changed(PORT, "network", '"00000011'), f"line {1 + len(without(PORT, 'network').splitlines())}: {UNCLOSED}"),
    (changed(PORT, "network", "'00000011"), f"line {1 + len(without(PORT, 'network').splitlines())}: {UNCLOSED}"),
    (changed(PORT, "network", '"0000\\u00001"'), f"port 1: network: expected {NETWORK}"),
    (changed(PORT, "network", '"0000\x01011"'), f"line {1 + len(without(PORT, 'network').splitlines())}: invalid string"),
    (changed(PORT, "network", '"00000011').rstrip(), f"line {1 + len(without(PORT, 'network').splitlines())}: {UNCLOSED}"),
    (changed(PORT, "peers", '["127.0.1.20, "127.0.1.21"]'), f"line {1 + len(without(PORT, 'peers').splitlines())}: {COMMA}; {ODD_QUOTES}"),
    (changed(PORT, "peers", '["127.0.1.20" "127.0.1.21"]'), f"line {1 + len(without(PORT, 'peers').splitlines())}: {COMMA}"),
    (PORT + SECOND.replace("[[port]]\n", ""), f"line {1 + len(PORT.splitlines())}: duplicate key; each port begins with a line [[port]]"),
    ((PORT + SECOND).replace("[[port]]", "[port]"), f"line {1 + len(PORT.splitlines())}: duplicate key; each port begins with a line [[port]]"),
    (PORT.replace("[[port]]", "[port]"), f"port: expected {PORTS}; write [[port]] in place of [port]"),
    (PORT + "port = 213\n", "port 1: port is no key of a port: its UDP port is udp_port"),
]

# So of routes and services by hand, behind a port.
ROUTER_FILES += [(TWO_PEERS + text, line) for text, line in (
    ("route = 1\n", f"port 1: unknown key route: {PORT_KEYS}"),
    (ROUTE * 257, f"route: expected {ROUTES}; {MANY}"),
    (SERVICE * 257, f"service: expected {SERVICES}; {MANY}"),
    (ROUTE + "peers = []\n", f"route 1: unknown key peers: {ROUTE_KEYS}"),
    (ROUTE + 'next = "127.0.1.20"\n', "route 1: `next` is now `next_hop`"),
    (ROUTE + SERVICE + 'at = "a"\n', "service 1: `at` is now `ipx_address`"),
    (ROUTE + SERVICE + "ticks = 6\n", f"service 1: unknown key ticks: {SERVICE_KEYS}"),
    (without(ROUTE, "port"), f"route 1: port is missing: expected {A_PORT}"),
    (changed(ROUTE, "port", "2"), f"route 1: port: expected {A_PORT}"),
    (changed(ROUTE, "port", "0"), f"route 1: port: expected {A_PORT}"),
    (changed(ROUTE, "port", "17"), f"route 1: port: expected {A_PORT}"),
    (changed(ROUTE, "port", '"1"'), f"route 1: port: expected {A_PORT}{NO_QUOTES}"),
    (without(ROUTE, "next_hop"), f"route 1: next_hop is missing: expected {NEXT}"),
    (changed(ROUTE, "next_hop", '"127.0.1.21"'), f"route 1: next_hop: expected {NEXT}"),
    (changed(ROUTE, "next_hop", '"127.0.1.1"'), f"route 1: next_hop: expected {NEXT}"),
    (changed(ROUTE, "next_hop", '"00007f000114"'), f"route 1: next_hop: expected {NEXT}"),
    (without(ROUTE, "network"), f"route 1: network is missing: expected {BEHIND}"),
    (changed(ROUTE, "network", '"00000000"'), f"route 1: network: expected {BEHIND}"),
    (changed(ROUTE, "network", '"fffffffe"'), f"route 1: network: expected {BEHIND}"),
    (changed(ROUTE, "network", '"ffffffff"'), f"route 1: network: expected {BEHIND}"),
    (changed(ROUTE, "network", '"00000011"'), "route 1: network 00000011 is already used by port 1"),
    (ROUTE + "hops = 0\n", f"route 1: hops: expected {HOPS}"),
    (ROUTE + "hops = 15\n", f"route 1: hops: expected {HOPS}"),
    (ROUTE + "ticks = 0\n", f"route 1: ticks: expected {COST}"),
    (ROUTE + "ticks = 65536\n", f"route 1: ticks: expected {COST}"),
    (ROUTE + ROUTE.replace("aa", "ab") + ROUTE + "hops = 2\n", "route 3: same port, next_hop and network as route 1"),
    (without(SERVICE, "type"), f"service 1: type is missing: expected {TYPE}"),
    (changed(SERVICE, "type", '"0000"'), f"service 1: type: expected {TYPE}"),
    (changed(SERVICE, "type", '"ffff"'), f"service 1: type: expected {TYPE}"),
    (changed(SERVICE, "type", "640"), f"service 1: type: expected {TYPE}{QUOTED}"),
    (without(SERVICE, "name"), f"service 1: name is missing: expected {NAME}"),
    (changed(SERVICE, "name", '""'), f"service 1: name: expected {NAME}"),
    (changed(SERVICE, "name", '"' + "A" * 48 + '"'), f"service 1: name: expected {NAME}"),
    (changed(SERVICE, "name", '"BACK UP"'), f"service 1: name: expected {NAME}"),
    (without(SERVICE, "ipx_address"), f"service 1: ipx_address is missing: expected {AT}"),
    (changed(SERVICE, "ipx_address", '"00000011 00000a010014"'), f"service 1: ipx_address: expected {AT}"),
    (changed(SERVICE, "ipx_address", '"00000011 00000a010014 4002 1"'), f"service 1: ipx_address: expected {AT}"),
    (changed(SERVICE, "ipx_address", '"00000000 00000a010014 4002"'), f"service 1: ipx_address: expected {AT}"),
    (changed(SERVICE, "ipx_address", '"00000011 ffffffffffff 4002"'), f"service 1: ipx_address: expected {AT}"),
    (changed(SERVICE, "ipx_address", '"00000011 00000a010014 0000"'), f"service 1: ipx_address: expected {AT}"),
    (SERVICE + "hops = 15\n", f"service 1: hops: expected {HOPS}"),
    (ROUTE + SERVICE + SERVICE.replace("00000011", "00000012"), "service 2: same port, next_hop, type and name as service 1"),
    (ROUTE + without(SERVICE, "next_hop"), f"service 1: next_hop is missing: expected {NEXT}"),
)] + [
    (ROUTE, f"port is missing: expected {PORTS}"),
    ("route = 1\n" + PORT, f"route: expected {ROUTES}"),
    ("service = [1]\n" + PORT, f"service 1: service: expected {SERVICES}"),
    (WIRE + ROUTE, f"route 1: next_hop: expected {NEXT}"),
    (WIRE + changed(ROUTE, "next_hop", '"03:00:00:00:00:33"'), f"route 1: next_hop: expected {NEXT}"),
    (WIRE + 'node = "02:00:00:00:00:22"\n' + changed(ROUTE, "next_hop", '"02:00:00:00:00:22"'), f"route 1: next_hop: expected {NEXT}"),
    (PLAYERS + 'accept = "any"\n' + ROUTE, f"route 1: port: expected {A_PORT}"),
]

# The text of a host's file, and what is wrong with it.
HOST_FILES = [
    (without(HOST, "network"), f"network is missing: expected {NETWORK}"),
    (without(HOST, "address"), f"address is missing: expected {HOST_ADDRESS}"),
    (without(HOST, "router"), f"router is missing: expected {ROUTER}"),
    (without(HOST, "socket"), f"socket is missing: expected {SOCKET}"),
    (changed(HOST, "network", '"0000001g"'), f"network: expected {NETWORK}"),
    (changed(HOST, "address", '"127.0.1"'), f"address: expected {HOST_ADDRESS}"),
    (changed(HOST, "address", '"any"'), f"address: expected {HOST_ADDRESS}"),
    (changed(HOST, "router", '"r1"'), f"router: expected {ROUTER}"),
    (changed(HOST, "router", '"0.0.0.0"'), f"router: expected {ROUTER}"),
    (changed(HOST, "socket", '"0000"'), f"socket: expected {SOCKET}"),
    (changed(HOST, "socket", "4002"), f"socket: expected {SOCKET}{QUOTED}"),
    (changed(HOST, "socket", '"4002'), f"line {len(HOST.splitlines())}: {UNCLOSED}"),
    (HOST + 'socket = "4003"\n', f"line {1 + len(HOST.splitlines())}: duplicate key"),
    (HOST + "port = 213\n", "port is a key of a router's file, and this command reads a host's file; the UDP port is udp_port"),
    (changed(HOST, "udp_port", "-1"), f"udp_port: expected {NUMBER}"),
    (HOST + "buffers = 0\n", f"buffers: expected {BUFFERS}"),
    (HOST + "buffers = 8193\n", f"buffers: expected {BUFFERS}"),
    (HOST + "allow = \"00000033\"\n", f"allow: expected {FROM}"),
    (HOST + "allow = [33]\n", f"allow: expected {FROM}; entry 1 {NO_TEXT}"),
    (HOST + "allow = [\"00000033\", \"33\"]\n", f'allow: expected {FROM}; "33" {NO_NETWORK}'),
    (HOST + "allow = [\"00000000\"]\n", f'allow: expected {FROM}; "00000000" {NO_NETWORK}'),
    (HOST + "allow = [\"ffffffff\"]\n", f'allow: expected {FROM}; "ffffffff" {NO_NETWORK}'),
    (HOST + "allow = [\"0000002g\"]\n", f'allow: expected {FROM}; "0000002g" {NO_NETWORK}'),
    (HOST + "allow = [\"00000022 00000a02001\"]\n", f'allow: expected {FROM}; "00000022 00000a02001" {NO_NETWORK}'),
    (HOST + "allow = [\"00000022-00000a02001e\"]\n", f'allow: expected {FROM}; "00000022-00000a02001e" {NO_NETWORK}'),
    (HOST + "allow = [\"00000000 00000a02001e\"]\n", f'allow: expected {FROM}; "00000000 00000a02001e" {NO_NETWORK}'),
    (HOST + f"allow = {['00000033'] * 257}\n".replace("'", '"'), f"allow: expected {FROM}; {MANY}"),
    (HOST + "buffers = 0\nallow = 1\n", f"buffers: expected {BUFFERS}"),
    (HOST + "peers = \"127.0.1.30\"\n", f"peers: expected {FEW_PEERS}"),
    (HOST + "peers = [\"127.0.1.30\", \"b\"]\n", f'peers: expected {FEW_PEERS}; "b" {NO_IP}'),
    (HOST + "peers = [\"0.0.0.0\"]\n", f'peers: expected {FEW_PEERS}; "0.0.0.0" {NO_IP}'),
    (HOST + f"peers = {['127.0.1.30'] * 257}\n".replace("'", '"'), f"peers: expected {FEW_PEERS}; {MANY}"),
    (HOST + "routers = 1\n", f"routers: expected {ROUTERS}"),
    (HOST + "routers = [\"127.0.1.30\"]\n", f'routers: expected {ROUTERS}; "127.0.1.30" is not in peers'),
    (HOST + "peers = [\"127.0.1.30\"]\nrouters = [\"127.0.1.30\", \"127.0.1.31\"]\n", f'routers: expected {ROUTERS}; "127.0.1.31" is not in peers'),
    (HOST + f"peers = [\"127.0.1.30\"]\nrouters = {['127.0.1.30'] * 257}\n".replace("'", '"'), f"routers: expected {ROUTERS}; {MANY}"),
    (HOST + "accept = true\n", f"accept: expected {ACCEPT}{QUOTED}"),
    (HOST + "accept = \"all\"\n", f"accept: expected {ACCEPT}"),
    (HOST + "buffers = 0\npeers = 1\n", f"buffers: expected {BUFFERS}"),
    (HOST + "peers = 1\nrouters = 1\n", f"peers: expected {FEW_PEERS}"),
    (HOST + "routers = 1\nallow = 1\n", f"routers: expected {ROUTERS}"),
    (HOST + "allow = 1\naccept = 1\n", f"allow: expected {FROM}"),
    (HOST + "from = []\n", "`from` is now `allow`"),
    (HOST + "cost = 1\n", "cost is a key of a table [[port]] of a router's file"),
    (HOST + "next_hop = 1\n", "next_hop is a key of a table [[route]] or [[service]] of a router's file"),
    (HOST + "metrics_file = \"a\"\n", "metrics_file is a key of a router's file, and this command reads a host's file"),
]


def told(sites, words, closed=None):
    """The status, standard output and lines of standard error of a call that is to end at once. A
    descriptor may be closed as it starts."""
    def prepare():
        die_with_the_parent()
        if closed is not None:
            os.close(closed)

    try:
        done = subprocess.run([sites.world.program, *words], stdin=subprocess.DEVNULL, capture_output=True,
                              timeout=10, cwd=sites.world.folder, preexec_fn=prepare)
    except subprocess.TimeoutExpired:
        return "still running after 10 s"
    return done.returncode, done.stdout, done.stderr.decode("utf-8", "replace").splitlines()


def unbound(command, ip, port, error):
    """The line of a socket that cannot be bound."""
    return f"bad.toml: {'port 1: ' if command == 'route' else ''}bind {ip}:{port}: {error}"


def check_told(sites, name, words, status, line, closed=None):
    """A call ends with a status, one line on standard error, and nothing on standard output."""
    got = told(sites, words, closed)
    good = got == (status, b"", [line])
    sites.check(name, good, f"{line!r} and status {status} are to be told, not {got}", quiet=True)


def check_faults(sites):
    """Each fault of a file, of what is no file, and of a socket."""
    passed = sites.passed
    holders = [bound(address, sites.port) for address in ("127.0.1.50", "127.0.1.51")]
    here = {"127.0.1.1": "127.0.1.50", "127.0.1.20": "127.0.1.51", "20999": str(sites.port)}

    def write(text):
        for old, new in here.items():
            text = text.replace(f'"{old}"', f'"{new}"').replace(f" {old}\n", f" {new}\n")
        sites.world.write("bad.toml", text)

    send = ["send", "bad.toml", "00000022", "00007f00011e", "4002"]
    # The addresses are in use: a program that binds before it has read all says so, and not this.
    for words in (["route", "bad.toml"], ["route", "--check", "bad.toml"]):
        for text, line in ROUTER_FILES:
            write(text)
            check_told(sites, f"a router's file, {words}: {line}", words, 2, f"bad.toml: {line}")
    for words in (["listen", "bad.toml"], ["listen", "--check", "bad.toml"], send):
        for text, line in HOST_FILES:
            write(text)
            check_told(sites, f"a host's file, {words[:2]}: {line}", words, 2, f"bad.toml: {line}")
    for text, words, old in ((PORT, ["route", "bad.toml"], "127.0.1.1"), (HOST, ["listen", "bad.toml"], "127.0.1.20"), (HOST, send, "127.0.1.20")):
        write(text)
        check_told(sites, f"an address in use, {words[0]}", words, 1, unbound(words[0], here[old], sites.port, IN_USE))
    here["127.0.1.1"] = here["127.0.1.20"] = "192.0.2.10"
    for text, words in ((PORT, ["route", "bad.toml"]), (HOST, ["listen", "bad.toml"]), (HOST, send)):
        write(text)
        check_told(sites, f"no address of this machine, {words[0]}", words, 1, unbound(words[0], "192.0.2.10", sites.port, NOT_HERE))
    check_unread(sites, send)
    check_checked(sites)
    check_running(sites)
    here["127.0.1.1"], here["127.0.1.20"] = FREE
    write(HOST)
    for words, closed in ((send, 0), (["listen", "bad.toml"], 1)):
        check_told(sites, f"{words[0]}, descriptor {closed} is closed", words, 1, CLOSED, closed)
    for holder in holders:
        holder.close()
    print(f"    {sites.passed - passed} faults of files and sockets were told in their line")


# Files without a fault, and what --check says of them: two ports with a status file; one port of which
# all is to be remarked; two ports with one address; two on wires; a host, and one that is its own router.
OWN = """metrics_file = "/run/ipx/h q\\u001b.prom"
tables_file = "/run/ipx/hq.tables"

[[port]]
network = "00000001"
address = "192.0.2.10"
cost = 6
peers = ["198.51.100.7", "203.0.113.9"]

[[port]]
network = "000000aB"
address = "10.1.0.1"
udp_port = 2130
peers = []
accept = "any"
"""
ODD = """[[port]]
network = "00000011"
address = "10.1.0.1"
peers = ["10.1.0.20", "10.1.0.1", "10.1.0.20", "10.1.0.21"]
"""
SHARED = ODD + ODD.replace("00000011", "00000022").replace('"10.1.0.20", "10.1.0.1", ', "") + "udp_port = 2130\n"
WIRES = """[[port]]
kind = "ethernet"
network = "00000022"
encapsulation = "802.2"
address = "127.0.0.1"
udp_port = 24002
remotes = ["127.0.0.1:24001", "127.0.0.1:24005"]
node = "02:00:00:00:00:22"

[[port]]
kind = "ethernet"
network = "00000033"
encapsulation = "ethernet-ii"
address = "127.0.0.1"
udp_port = 24003
cost = 6
remotes = ["192.0.2.10:258"]
switch = false
"""
OPEN = """[[port]]
kind = "ipxnet"
network = "0000d05b"
address = "192.0.2.10"
udp_port = 2130
peers = ["198.51.100.7", "203.0.113.9"]

[[port]]
kind = "ipxnet"
network = "0000d05c"
address = "127.0.0.1"
udp_port = 24002
cost = 6
node = "02:00:00:00:00:22"
clients = 8
accept = "any"
join = ["198.51.100.7:2130", "203.0.113.5:2131"]
"""
HANDED = OWN + "".join((ROUTE.replace("127.0.1.20", "198.51.100.7"),
                        ROUTE.replace("127.0.1.20", "203.0.113.9").replace("aa", "AA") + "hops = 14\nticks = 65535\n",
                        SERVICE.replace("127.0.1.20", "198.51.100.7"),
                        SERVICE.replace("127.0.1.20", "203.0.113.9").replace("BACKUP", "!A~").replace("0640", "000A") + "hops = 3\n"))
# Ports that name their routers, and one that does not, with a route by each neighbour, and a service.
ROUTERS_NAMED = """[[port]]
network = "00000011"
address = "10.1.0.1"
peers = ["10.1.0.2", "10.1.0.3"]
routers = ["10.1.0.3"]

[[port]]
network = "00000022"
address = "10.2.0.1"
peers = ["10.2.0.2"]

[[port]]
network = "00000033"
address = "10.3.0.1"
peers = ["10.3.0.2"]
routers = []

[[route]]
port = 1
next_hop = "10.1.0.2"
network = "000000aa"

[[route]]
port = 1
next_hop = "10.1.0.3"
network = "000000aa"

[[route]]
port = 2
next_hop = "10.2.0.2"
network = "000000aa"

[[route]]
port = 3
next_hop = "10.3.0.2"
network = "000000bb"

[[service]]
port = 1
next_hop = "10.1.0.2"
type = "0640"
name = "BACKUP"
ipx_address = "00000011 00000a010002 4002"
"""
# Services on the network of each port, on that of a static route, and two on one of which the file says no more.
SERVED = """[[port]]
network = "00000011"
address = "10.1.0.1"
peers = ["10.1.0.2"]

[[port]]
kind = "ethernet"
network = "00000022"
encapsulation = "802.3"
address = "127.0.0.1"
udp_port = 24002
remotes = ["127.0.0.1:24001"]
node = "02:00:00:00:00:22"

[[route]]
port = 1
next_hop = "10.1.0.2"
network = "00000099"
""" + "".join(f"""
[[service]]
port = 1
next_hop = "10.1.0.2"
type = "{kind}"
name = "BACKUP"
ipx_address = "{network} 000000000001 4002"
""" for kind, network in (("0004", "00000011"), ("0640", "00000022"), ("0641", "00000099"), ("0642", "000000AA"), ("0643", "000000aa")))
WIRED = WIRES + changed(ROUTE.replace("= 1", "= 2"), "next_hop", '"02:00:00:00:00:33"')
ANYWHERE = PLAYERS.replace("127.0.1.1", "any") + 'accept = "any"\njoin = ["198.51.100.7:2130"]\n'
JOINED = OPEN.replace("203.0.113.5:2131", "127.0.0.1:24002")
PORT_11 = "port 1 network 00000011 node 00000a010001 udp 10.1.0.1:213 cost 1 peers 4"
REMARKS = ["port 1: peer 10.1.0.1 is the local address", "port 1: peer 10.1.0.20 is listed twice"]
CHECKED = [
    ("route", OWN, ["port 1 network 00000001 node 0000c000020a udp 192.0.2.10:213 cost 6 peers 2",
                    "port 2 network 000000ab node 00000a010001 udp 10.1.0.1:2130 cost 1 peers 0 accept any",
                    "it.toml: 2 ports, metrics_file /run/ipx/h q..prom, tables_file /run/ipx/hq.tables"]),
    ("route", 'secret_file = "play.secret"\n' + PLAYERS + 'accept = "any"\n',
     ["port 1 network 0000d05b node 7e0001015207 ipxnet udp 127.0.1.1:20999 cost 1 clients 64 peers 0 accept any",
      "it.toml: 1 port, no metrics_file, secret_file play.secret"]),
    ("route", 'secret_file = "/var/lib/ipx/s\\t1"\n' + OWN,
     ["port 1 network 00000001 node 0000c000020a udp 192.0.2.10:213 cost 6 peers 2",
      "port 2 network 000000ab node 00000a010001 udp 10.1.0.1:2130 cost 1 peers 0 accept any",
      "it.toml: 2 ports, metrics_file /run/ipx/h q..prom, tables_file /run/ipx/hq.tables, secret_file /var/lib/ipx/s.1"]),
    ("route", HANDED, ["port 1 network 00000001 node 0000c000020a udp 192.0.2.10:213 cost 6 peers 2",
                       "port 2 network 000000ab node 00000a010001 udp 10.1.0.1:2130 cost 1 peers 0 accept any",
                       "route 000000aa port 1 next 0000c6336407 hops 1 ticks 6",
                       "route 000000aa port 1 next 0000cb007109 hops 14 ticks 65535",
                       "service 0640 BACKUP at 00000011 00000a010014 4002 port 1 next 0000c6336407 hops 1",
                       "service 0640 BACKUP: no port and no static route leads to network 00000011: it must be learned by RIP",
                       "service 000a !A~ at 00000011 00000a010014 4002 port 1 next 0000cb007109 hops 3",
                       "service 000a !A~: no port and no static route leads to network 00000011: it must be learned by RIP",
                       "it.toml: 2 ports, metrics_file /run/ipx/h q..prom, tables_file /run/ipx/hq.tables"]),
    ("route", ROUTERS_NAMED, ["port 1 network 00000011 node 00000a010001 udp 10.1.0.1:213 cost 1 peers 2 routers 1",
                              "port 2 network 00000022 node 00000a020001 udp 10.2.0.1:213 cost 1 peers 1",
                              "port 3 network 00000033 node 00000a030001 udp 10.3.0.1:213 cost 1 peers 1 routers 0",
                              "route 000000aa port 1 next 00000a010002 hops 1 ticks 1",
                              "route 000000aa: next_hop 10.1.0.2 is not in routers of port 1: what it forwards is dropped",
                              "route 000000aa port 1 next 00000a010003 hops 1 ticks 1",
                              "route 000000aa port 2 next 00000a020002 hops 1 ticks 1",
                              "route 000000bb port 3 next 00000a030002 hops 1 ticks 1",
                              "route 000000bb: next_hop 10.3.0.2 is not in routers of port 3: what it forwards is dropped",
                              "service 0640 BACKUP at 00000011 00000a010002 4002 port 1 next 00000a010002 hops 1",
                              "it.toml: 3 ports, no metrics_file"]),
    ("route", SERVED, ["port 1 network 00000011 node 00000a010001 udp 10.1.0.1:213 cost 1 peers 1",
                       "port 2 network 00000022 node 020000000022 ethernet 802.3 udp 127.0.0.1:24002 cost 1 remotes 127.0.0.1:24001",
                       "route 00000099 port 1 next 00000a010002 hops 1 ticks 1",
                       "service 0004 BACKUP at 00000011 000000000001 4002 port 1 next 00000a010002 hops 1",
                       "service 0640 BACKUP at 00000022 000000000001 4002 port 1 next 00000a010002 hops 1",
                       "service 0641 BACKUP at 00000099 000000000001 4002 port 1 next 00000a010002 hops 1",
                       "service 0642 BACKUP at 000000aa 000000000001 4002 port 1 next 00000a010002 hops 1",
                       "service 0642 BACKUP: no port and no static route leads to network 000000aa: it must be learned by RIP",
                       "service 0643 BACKUP at 000000aa 000000000001 4002 port 1 next 00000a010002 hops 1",
                       "service 0643 BACKUP: no port and no static route leads to network 000000aa: it must be learned by RIP",
                       "it.toml: 2 ports, no metrics_file"]),
    ("route", WIRED, ["port 1 network 00000022 node 020000000022 ethernet 802.2 udp 127.0.0.1:24002 cost 1"
                      " remotes 127.0.0.1:24001 127.0.0.1:24005",
                      "port 2 network 00000033 node 7e0000015dc3 ethernet ethernet-ii udp 127.0.0.1:24003 cost 6"
                      " remotes 192.0.2.10:258 switch false",
                      "route 000000aa port 2 next 020000000033 hops 1 ticks 6", "it.toml: 2 ports, no metrics_file"]),
    ("route", ODD, [PORT_11, *REMARKS, "it.toml: 1 port, no metrics_file"]),
    ("route", SHARED, [PORT_11, *REMARKS, "port 2 network 00000022 node 00000a010001 udp 10.1.0.1:2130 cost 1 peers 2",
                       "it.toml: 2 ports, no metrics_file"]),
    ("route", WIRES, ["port 1 network 00000022 node 020000000022 ethernet 802.2 udp 127.0.0.1:24002 cost 1"
                      " remotes 127.0.0.1:24001 127.0.0.1:24005",
                      "port 2 network 00000033 node 7e0000015dc3 ethernet ethernet-ii udp 127.0.0.1:24003 cost 6"
                      " remotes 192.0.2.10:258 switch false",
                      "it.toml: 2 ports, no metrics_file"]),
    ("route", OPEN, ["port 1 network 0000d05b node c200020a0852 ipxnet udp 192.0.2.10:2130 cost 1 clients 64 peers 2",
                     "port 2 network 0000d05c node 020000000022 ipxnet udp 127.0.0.1:24002 cost 6 clients 8 peers 0"
                     " accept any joined 198.51.100.7:2130 203.0.113.5:2131", "it.toml: 2 ports, no metrics_file"]),
    ("route", JOINED, ["port 1 network 0000d05b node c200020a0852 ipxnet udp 192.0.2.10:2130 cost 1 clients 64 peers 2",
                       "port 2 network 0000d05c node 020000000022 ipxnet udp 127.0.0.1:24002 cost 6 clients 8 peers 0"
                       " accept any joined 198.51.100.7:2130 127.0.0.1:24002",
                       "port 2: joined 127.0.0.1:24002 is the port's own address", "it.toml: 2 ports, no metrics_file"]),
    ("route", without(ANYWHERE, "udp_port") + 'node = "02:00:00:00:00:01"\n',
     ["port 1 network 0000d05b node 020000000001 ipxnet udp 0.0.0.0:213 cost 1 clients 64 peers 0 accept any joined 198.51.100.7:2130",
      "it.toml: 1 port, no metrics_file"]),
    ("route", ANYWHERE, ["port 1 network 0000d05b node 020000005207 ipxnet udp 0.0.0.0:20999 cost 1 clients 64 peers 0 accept any"
                         " joined 198.51.100.7:2130",
                         'port 1: join with address "any" needs node: it must differ at each router', "it.toml: 1 port, no metrics_file"]),
    ("route", ANYWHERE + 'node = "02:00:00:00:00:01"\n',
     ["port 1 network 0000d05b node 020000000001 ipxnet udp 0.0.0.0:20999 cost 1 clients 64 peers 0 accept any joined 198.51.100.7:2130",
      "it.toml: 1 port, no metrics_file"]),
    ("listen", HOST, ["socket 4002 network 00000011 node 00007f000114 udp 127.0.1.20:20999",
                      "it.toml: router 127.0.1.1, buffers 1024"]),
    ("listen", changed(HOST, "router", '"127.0.1.20"') + "buffers = 512\n",
     ["socket 4002 network 00000011 node 00007f000114 udp 127.0.1.20:20999", "the router is the local address",
      "it.toml: router 127.0.1.20, buffers 512"]),
    ("listen", HOST + 'peers = ["127.0.1.30", "127.0.1.20", "127.0.1.30", "127.0.1.31"]\n',
     ["socket 4002 network 00000011 node 00007f000114 udp 127.0.1.20:20999", "peer 127.0.1.20 is the local address",
      "peer 127.0.1.30 is listed twice", "it.toml: router 127.0.1.1, buffers 1024, peers 4"]),
    ("listen", HOST + 'peers = ["127.0.1.30", "127.0.1.31", "127.0.1.32"]\nrouters = ["127.0.1.31", "127.0.1.32"]\nallow = ["00000033"]\n',
     ["socket 4002 network 00000011 node 00007f000114 udp 127.0.1.20:20999",
      "it.toml: router 127.0.1.1, buffers 1024, peers 3, routers 2, allow 1"]),
    ("listen", HOST + "peers = []\nrouters = []\nallow = []\n",
     ["socket 4002 network 00000011 node 00007f000114 udp 127.0.1.20:20999", "allow is empty: nobody can connect",
      "it.toml: router 127.0.1.1, buffers 1024, allow 0"]),
    ("listen", HOST + 'peers = ["0.1.2.3", "1.2.3.4", "223.1.2.3", "224.0.0.1", "255.255.255.255", "224.0.0.1"]\n',
     ["socket 4002 network 00000011 node 00007f000114 udp 127.0.1.20:20999", "peer 0.1.2.3 is not a usable unicast address",
      "peer 224.0.0.1 is not a usable unicast address", "peer 255.255.255.255 is not a usable unicast address",
      "peer 224.0.0.1 is listed twice", "it.toml: router 127.0.1.1, buffers 1024, peers 6"]),
    ("route", PORT.replace('["127.0.1.20"]', '["239.1.2.3"]'),
     ["port 1 network 00000011 node 00007f000101 udp 127.0.1.1:20999 cost 1 peers 1",
      "port 1: peer 239.1.2.3 is not a usable unicast address", "it.toml: 1 port, no metrics_file"]),
]


def check_checked(sites):
    """What --check says of files without a fault."""
    for command, text, lines in CHECKED:
        sites.world.write("it.toml", text)
        wanted = (0, "".join(f"{line}\n" for line in lines).encode(), [])
        for words in ([command, "--check", "it.toml"], [command, "it.toml", "--check"]):
            got = told(sites, words)
            sites.check(f"{words} of a file without a fault", got == wanted, f"{got} is to be {wanted}", quiet=True)


def check_running(sites):
    """--check of the files of those that run: their ports are bound, so it binds none, and it says of each what was
    said as they started, without the receive buffer of its socket. (What w2 said went into a pipe that is closed.)"""
    running = {**{name: ("route", one) for name, one in sites.routers.items() if name != "w2"},
               **{one.name: ("listen", one) for one in sites.world.processes if one.name == "near"}}
    for name, (command, one) in running.items():
        status, out, told_so = told(sites, [command, "--check", f"{name}.toml"])
        ports = [line for line in out.decode().splitlines() if line.startswith(("port ", "socket "))]
        started = [re.sub(r" rcvbuf \d+$", "", line.split("] ", 1)[-1]) for line in one.said()]
        good = status == 0 and not told_so and ports and all(line in started for line in ports)
        sites.check(f"{command} --check of the file of {name}, which runs", good, f"{status}, {told_so}, {ports}", quiet=True)


def check_unread(sites, send):
    """Files that are not there, no text, or too long."""
    os.mkdir(sites.world.path("folder"))
    for name, content in (("bytes", b"\xff\n"), ("long", b"#" * 65537)):
        with open(sites.world.path(name), "wb") as file:
            file.write(content)
    for name, line in UNREAD:
        for words in (["route", name], ["listen", name], ["send", name, *send[2:]],
                      ["route", "--check", name], ["listen", "--check", name]):
            check_told(sites, f"{words[:2]} {name}: {line}", words, 2, f"{name}: {line}")
