"""The lines of docs/INSTALL.md that reach Ethernet ports, as tests/system/ethernet/wires runs them."""
import os
import re
import shlex
import tomllib

from site_world import TOP
from wire_world import WirePort

PAGE, UNIT = os.path.join(TOP, "docs/INSTALL.md"), os.path.join(TOP, "contrib/ipx-tap@.service")


def blocks(heading, language, path=PAGE):
    """The blocks of code in a language that are below a heading of a page, up to the next one."""
    with open(path, encoding="utf-8") as page:
        parts = re.split(r"^#+ (.*)\n", page.read(), flags=re.M)
    text = dict(zip(parts[1::2], parts[2::2]))[heading]
    return re.findall(rf"^```{language}\n(.*?)^```$", text, flags=re.M | re.S)


def words_of(line):
    """The words of a command that may go over several lines."""
    return shlex.split(line.replace("\\\n", " "))


def port_of(text):
    """The port of a file that has one."""
    table, = tomllib.loads(text)["port"]
    ends = [(address, int(port)) for address, port in (end.split(":") for end in table["remotes"])]
    return WirePort(table["network"], table["encapsulation"], (table["address"], table["udp_port"]), ends,
                    table["node"].replace(":", ""), table.get("switch", True), table.get("cost", 1))


def line_of_unit(name, router, end):
    """The words that the unit for a TAP of this name runs, by the two lines of its own file."""
    with open(UNIT, encoding="utf-8") as unit:
        line = re.search(r"^ExecStart=(.*)$", unit.read(), flags=re.M)[1]
    for what, value in (("%i", name), ("${ROUTER}", router), ("${END}", end)):
        line = line.replace(what, value)
    return words_of(line)


def with_ports(words, ports):
    """The same words with other ports of UDP."""
    return [re.sub(r"\b2400[0-9]\b", lambda found: str(ports[found[0]]), word) for word in words]
