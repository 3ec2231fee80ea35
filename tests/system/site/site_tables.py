"""What routers write of what they know, and what `ipx networks` and `ipx services` print by their files, for `sites`."""
import json
import os
import re
import time

from known_text import read
from site_world import node, port_table, until

# By hand, as in site_operator: what the first router of the chain knows, and from whom.
NEXT, SERVER = node("127.0.1.182"), node("127.0.1.190")
NEAR_KNOWN = [("00000071", 0, 0, "-"), ("00000072", 0, 0, "-"), ("00000073", 1, 5, NEXT), ("00000074", 2, 9, NEXT)]
NEAR_OFFERED = [("0004", "HQ-FILES", "00000a01", 1, SERVER), ("0640", "BACKUP", "00000a02", 1, SERVER),
                ("0640", r'a\x20"b\x5cc', "00000b02", 3, NEXT)]
# And the one that knows as much as it may.
TELLER = node("127.0.1.192")
MUCH_KNOWN = [("00000075", 0, 0, "-"), ("00000076", 0, 0, "-")] + [(f"{0x1000 + number:08x}", 2, 3, TELLER) for number in range(1023)]
MUCH_OFFERED = [("0004", f"S{number:04}", "00000099", 1, TELLER) for number in range(4096)]
# A router whose file of tables is to lie in a folder that is not there, and what it says of that, once a minute.
UNWRITTEN, ITS_ADDRESS = "u1", "127.0.1.185"
FAULT = "[WARN  ipx] 1 failed write of metrics_file, tables_file or secret_file (1 since the start), the last of tables_file: No such file or directory (os error 2)"
OLD = r"{}: tables_file is (\d+) seconds old: is the router running\?"
NO_TABLES = "{}: tables_file is missing: {} reads what the router writes there"
HALF = "{}: not a complete tables file of a router"
GONE = "{}: No such file or directory (os error 2)"


# The well-known types among those that are advertised here.
TYPE_NAMES = {"0004": "file server"}


def type_text(kind):
    """A type as a table has it."""
    return f"{kind} {TYPE_NAMES[kind]}" if kind in TYPE_NAMES else kind


def network_lines(rows):
    return "network   hops  ticks  by\n" + "".join(f"{network}  {hops:4}  {ticks:5}  {by}\n" for network, hops, ticks, by in rows)


def service_lines(rows):
    kinds, names = (max([4, *map(len, column)]) for column in ([type_text(row[0]) for row in rows], [row[1] for row in rows]))
    return f"{'type'.ljust(kinds)}  {'name'.ljust(names)}  network   node          socket  hops  by\n" + "".join(
        f"{type_text(kind).ljust(kinds)}  {name.ljust(names)}  {place}  000000000001  0451    {hops:4}  {by}\n"
        for kind, name, place, hops, by in rows)


def network_values(rows):
    return [{"network": network, "hops": hops, "ticks": ticks, "by": by} for network, hops, ticks, by in rows]


def service_values(rows):
    return [{"type": kind, "type_name": TYPE_NAMES.get(kind, ""), "name": name, "network": place, "node": "000000000001", "socket": "0451", "hops": hops, "by": by}
            for kind, name, place, hops, by in rows]


LINES = {"networks": (network_lines, network_values), "services": (service_lines, service_values)}


def asked(sites, name, command, *words):
    """The status of a command by the file of a router, what it printed, and what it said."""
    process = sites.world.start(f"{name}-{command}", command, sites.world.path(f"{name}.toml"), *words)
    return process.status(30), process.out.decode(), process.said()


def written(sites, name, rows, offered):
    """Whether the file of a router has, as Python reads it, these networks and services."""
    try:
        with open(sites.world.path(f"{name}.tables"), encoding="ascii") as it:
            found = read(it.read())
    except FileNotFoundError:
        return False
    owns = [network for network, _, _, by in rows if by == "-"]
    return found == (owns, rows[len(owns):], offered)


def check_printed(sites, name, command, words, rows):
    """A table and lines of JSON."""
    lines, values = LINES[command]
    count = f"{len(rows)} {command if len(rows) != 1 else command[:-1]}, by {sites.world.path(name + '.tables')}\n"
    status, out, said = asked(sites, name, command, *words)
    good = (status, out, said) == (0, lines(rows) + count, [])
    sites.check(f"ipx {command} {' '.join(words)} of the file of {name}: what it wrote", good,
                out.splitlines()[-1] if good else f"{status}, {said}, {out[-300:]}")
    status, out, said = asked(sites, name, command, *words, "--json")
    good = status == 0 and not said and [json.loads(line) for line in out.splitlines()] == values(rows)
    sites.check(f"ipx {command} {' '.join(words)} of the file of {name} as JSON", good, "" if good else f"{status}, {said}, {out[-300:]}")


def check_refused(sites, name, command, line):
    """One line, status 2, and nothing printed."""
    got = asked(sites, name, command)
    sites.check(f"ipx {command}: {re.sub('^.*: ', '', line)}", got == (2, "", [line]), "" if got == (2, "", [line]) else str(got))


def start_unwritten(sites):
    """That router, which writes its figures meanwhile."""
    sites.world.write(f"{UNWRITTEN}.toml", f'tables_file = "{sites.world.path("gone")}/{UNWRITTEN}.tables"\n'
                      f'metrics_file = "{sites.world.path(UNWRITTEN)}.prom"\n' + port_table("0000007b", ITS_ADDRESS, sites.port, []))
    sites.start_router(UNWRITTEN)


def faults_of(sites):
    """How often it could not write, by its figures."""
    return sites.world.figures(f"{UNWRITTEN}.prom").get('ipx_errors_total{kind="file"}', 0)


def check_unwritten(sites):
    """It goes on and tries again, and says so once a minute; once the folder is there, it writes."""
    router = sites.routers[UNWRITTEN]
    until(lambda: faults_of(sites) >= 2, 25)
    said, minutes = [it for it in router.said() if "failed write" in it], (time.monotonic() - router.started) / 60
    good = faults_of(sites) >= 2 and said[:1] == [FAULT] and len(said) <= 1 + minutes and not router.is_over()
    sites.check("a router whose file of tables cannot be written goes on, and says so once a minute", good, str(said))
    folder = sites.world.path("gone")
    os.mkdir(folder)
    place = os.path.join(folder, f"{UNWRITTEN}.tables")
    until(lambda: os.path.exists(place), 15)
    status, out, said = asked(sites, UNWRITTEN, "networks")
    wanted = f"{network_lines([('0000007b', 0, 0, '-')])}1 network, by {place}\n"
    sites.check("and writes it once it can", (status, out, said) == (0, wanted, []), "" if out == wanted else f"{status}, {out}, {said}")
    router.end()


def check_old(sites, place):
    """Tables that were written two minutes ago are printed, and it is said how old they are."""
    moment = time.time() - 120
    os.utime(place, (moment, moment))
    status, out, said = asked(sites, "half", "networks")
    found = re.fullmatch(OLD.format(re.escape(place)), said[0]) if len(said) == 1 else None
    good = status == 0 and out.count("\n") == len(NEAR_KNOWN) + 2 and found and 120 <= int(found[1]) <= 150
    sites.check("tables that are old are printed, and said to be so", good, str(said))


def check_tables(sites, has_room):
    """Routers of site_operator, while they run: nobody is asked, and no address is taken."""
    end = time.monotonic() + 25
    while not written(sites, "o1", NEAR_KNOWN, NEAR_OFFERED) and time.monotonic() < end:
        time.sleep(0.5)
    sites.check("a router's file of tables, as Python reads it", written(sites, "o1", NEAR_KNOWN, NEAR_OFFERED))
    check_printed(sites, "o1", "networks", [], NEAR_KNOWN)
    check_printed(sites, "o1", "services", [], NEAR_OFFERED)
    check_printed(sites, "o1", "services", ["0640"], NEAR_OFFERED[1:])
    check_printed(sites, "o1", "services", ["0FF0"], [])
    if has_room:
        while not written(sites, "o4", MUCH_KNOWN, MUCH_OFFERED) and time.monotonic() < end:
            time.sleep(0.5)
        check_printed(sites, "o4", "networks", [], MUCH_KNOWN)
        check_printed(sites, "o4", "services", [], MUCH_OFFERED)
    port = port_table("00000079", "127.0.1.180", sites.port, [])
    path = sites.world.write("no-tables.toml", port)
    for command in LINES:
        check_refused(sites, "no-tables", command, NO_TABLES.format(path, command))
    place = sites.world.path("half.tables")
    sites.world.write("half.toml", f'tables_file = "{place}"\n{port}')
    check_refused(sites, "half", "networks", GONE.format(place))
    with open(sites.world.path("o1.tables"), encoding="ascii") as it:
        whole = it.read()
    for part in (whole[:len(whole) // 2], whole[:whole.index("services")], whole[:whole.index("neighbours")], ""):
        sites.world.write("half.tables", part)
        check_refused(sites, "half", "services", HALF.format(place))
    sites.world.write("half.tables", whole)
    status, out, _ = asked(sites, "half", "networks")
    good = (status, out.count("\n")) == (0, len(NEAR_KNOWN) + 2)
    sites.check("the same file whole", good, "" if good else f"{status}, {out}")
    check_old(sites, place)
    check_unwritten(sites)
