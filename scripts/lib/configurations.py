"""Configurations as an operator's scripts see them, once `accesslab` has accepted them: their values, their text, and what
cannot work though each rule of docs/FORMATS.md holds."""
import ipaddress
import json
import tomllib

from operator_script import Refused

# how many ports a circuit has; the first port of the first circuit, which `accessd` takes within these limits; and the last port that
# there is
PORTS = 4
FIRST_PORT = 20000
LEAST_PORT, MOST_PORT, LAST_PORT = 1024, 65472, 65535
LOOPBACK = "127.0.0.1"
# what the programs read; other keys are left out
KEYS = {
    "server": ("listen4", "listen6", "duid"),
    "relay": ("name", "source"),
    "circuit": ("id", "relay", "region", "lease", "gateway4", "prefix4", "first4", "count4", "dns", "link6", "first6", "count6"),
}
HEXADECIMAL = {"duid", "link6", "first6"}
# where no client can have an address (RFC 1122, section 3.2.1.3; RFC 1112, section 4)
NO_HOST4 = [(ipaddress.ip_network(text), words) for text, words in (
    ("0.0.0.0/8", "no address of a machine"), ("127.0.0.0/8", "a loopback address"),
    ("224.0.0.0/4", "a multicast address"), ("240.0.0.0/4", "a reserved address"))]
# nor a relay or the server; theirs may be loopback
NO_SOURCE4 = [(ipaddress.ip_network(text), words) for text, words in (
    ("0.0.0.0/8", "no address of a machine"), ("127.255.255.255/32", "the broadcast address of loopback"),
    ("224.0.0.0/4", "a multicast address"), ("255.255.255.255/32", "the broadcast address"), ("240.0.0.0/4", "a reserved address"))]
LINK_LOCAL4 = ipaddress.ip_network("169.254.0.0/16")
# the same (RFC 4291, sections 2.4 and 2.5)
NO_HOST6 = [(ipaddress.ip_network(text), words) for text, words in (
    ("::/128", "no address of a machine"), ("::1/128", "the loopback address"), ("ff00::/8", "a multicast address"),
    ("fe80::/10", "a link-local address"))]
# the interface ids that no client may have (RFC 5453 and its registry)
RESERVED6 = [(0, 0), (0x02005EFFFE000000, 0x02005EFFFEFFFFFF), (0xFDFFFFFFFFFFFF80, 0xFDFFFFFFFFFFFFFF)]


def read_text(text):
    """The values of a text that `accesslab` accepts, which may begin with a byte order mark."""
    return tomllib.loads(text.decode("utf-8-sig"))


def read_config(path, text):
    """The same of the configuration at this path. `accesslab` accepts TOML 1.1 too."""
    try:
        return read_text(text)
    except (ValueError, RecursionError) as error:
        raise Refused(2, f"{path}: {error}: accesslab accepts it, and the scripts of operators read TOML 1.0 alone") from None


def value(entry):
    """A value as TOML has it: a number, a text, or a list of them."""
    if isinstance(entry, list):
        return "[" + ", ".join(map(value, entry)) + "]"
    # a text is as JSON has it, which escapes the same characters but one
    return json.dumps(entry, ensure_ascii=False).replace("\x7f", "\\u007f")


def table(head, name, entries):
    """One of the programs' tables, under this head."""
    return "\n".join([head, *(f"{key} = {value(entries[key])}" for key in KEYS[name])]) + "\n"


def text_of(server, relays, circuits):
    """A configuration."""
    return "\n".join([table("[server]", "server", server), *(table("[[relay]]", "relay", relay) for relay in relays),
                      *(table("[[circuit]]", "circuit", circuit) for circuit in circuits)])


def is_same(key, one, other):
    """Whether two values of a key mean the same: hexadecimal digits may have either case."""
    return one.lower() == other.lower() if key in HEXADECIMAL else one == other


def pool4(circuit):
    first = int(ipaddress.IPv4Address(circuit["first4"]))
    return range(first, first + circuit["count4"])


def pool6(circuit):
    first = int(circuit["first6"], 16)
    return range(first, first + circuit["count6"])


def has_address(circuit, text):
    """Whether an address, as a text, is in the circuit's pool."""
    address = ipaddress.ip_address(text)
    return int(address) in (pool4 if address.version == 4 else pool6)(circuit)


def gateway4(circuit):
    return int(ipaddress.IPv4Address(circuit["gateway4"]))


def link6(circuit):
    return int(circuit["link6"], 16)


def ports_of(index, port):
    """The ports of the circuit at this place in a configuration."""
    return range(port + PORTS * index, port + PORTS * (index + 1))


def span(ports):
    return f"{ports[0]} to {ports[-1]}"


def sources(config):
    """Where server and relays receive: what it is called, and its address and port."""
    server = config["server"]
    yield "listen4", server["listen4"]
    yield "listen6", server["listen6"]
    for relay in config["relay"]:
        yield f'the source of relay "{relay["name"]}"', relay["source"]


def source_faults(config):
    for what, source in sources(config):
        address = ipaddress.IPv4Address(source.rpartition(":")[0])
        kinds = [words for network, words in NO_SOURCE4 if address in network]
        if kinds:
            yield f"{what}, {source}, is {kinds[0]}: no datagram is sent from there; give it an address of this machine"


def pool_faults(circuit):
    name = f'circuit "{circuit["id"]}"'
    for pool, networks, protocol, of in ((pool4(circuit), NO_HOST4, "DHCPv4", ipaddress.IPv4Address),
                                         (pool6(circuit), NO_HOST6, "DHCPv6", ipaddress.IPv6Address)):
        ends = of(pool[0]), of(pool[-1])
        for network, words in networks:
            inside = [end for end in ends if end in network]
            if inside:
                yield f"{name}: its {protocol} pool has {inside[0]}, which is {words}: no client can use it"
    for address in pool6(circuit):
        if any(first <= address % (1 << 64) <= last for first, last in RESERVED6):
            yield (f"{name}: its DHCPv6 pool has {ipaddress.IPv6Address(address)}, whose interface id is reserved (RFC 5453): "
                   "no client can use it")
            break


def port_faults(config, port):
    """Where server or relays receive on ports that circuits have, which are of 127.0.0.1."""
    circuits = config["circuit"]
    most = min(MOST_PORT, LAST_PORT + 1 - PORTS * len(circuits))
    if not LEAST_PORT <= port <= most:
        yield f"the first port of the first circuit has to be {LEAST_PORT} to {most}, not {port}: each circuit has {PORTS}"
        return
    for what, source in sources(config):
        address, _, at = source.rpartition(":")
        index = (int(at) - port) // PORTS
        if address == LOOPBACK and 0 <= index < len(circuits):
            yield (f'{what}, {source}, is a port of circuit "{circuits[index]["id"]}", {span(ports_of(index, port))}: choose '
                   "another, or another PORT")


def faults(config, port):
    """Why a configuration that `accesslab` accepts can't be served by `accessd`, a line for each."""
    yield from source_faults(config)
    for circuit in config["circuit"]:
        yield from pool_faults(circuit)
    yield from port_faults(config, port)


def warnings(config):
    """What works and is hardly meant."""
    for circuit in config["circuit"]:
        if any(ipaddress.IPv4Address(end) in LINK_LOCAL4 for end in (pool4(circuit)[0], pool4(circuit)[-1])):
            yield f'circuit "{circuit["id"]}": its DHCPv4 pool is in 169.254.0.0/16, whose addresses hosts choose themselves'
