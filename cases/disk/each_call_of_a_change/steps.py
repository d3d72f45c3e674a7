"""Each of 126 circuits stands for a call of a save, or none, and a byte: a5, each that differs from it in one bit, and others. On all of
them a client has a lease, which a save then changes; this call fails, and at the restart the unsynced bytes of the circuit's region
become this byte. What other clients then get, and when, shows whether the change was saved. The pools have two DHCPv4 addresses
and one DHCPv6 address; a lease is for 600 seconds, and an address that is declined is barred for an hour."""
import itertools
import subprocess

from messages import message, message6

BYTES = [0xA5, *(0xA5 ^ 1 << bit for bit in range(8)), 0x00, 0x01, 0x02, 0x03, 0x5A, 0x7F, 0x80, 0xFE, 0xFF]
RUNS = list(enumerate(itertools.product(range(7), BYTES)))
IMAGES = "restart " + " ".join(f"c{circuit}={byte:02x}" for circuit, (_, byte) in RUNS)
ADDRESS = "0a00{:02x}{:02x}"
ADDRESS6 = "20010db8{:08x}0000000000000100"


def select(circuit, client, last):
    """The request for the address with this last byte."""
    return message("REQUEST", client, "3604" + ADDRESS.format(circuit, 1), "3204" + ADDRESS.format(circuit, last))


def leased(circuit):
    """Client 1 has the first DHCPv4 address until 701."""
    return [f"frame c{circuit} 4 {message('DISCOVER', 1)}", f"up c{circuit} 0 100 0",
            f"frame c{circuit} 4 {select(circuit, 1, 10)}", f"up c{circuit} 0 101 0"]


def leased6(circuit):
    """Client 1 has the DHCPv6 address until 701."""
    return [f"frame c{circuit} 6 {message6('REQUEST6', 1, 'ours')}", f"up c{circuit} 0 101 0"]


def extended(circuit, call):
    return leased(circuit) + [f"up c{circuit} 0 102 {call}"]


def released(circuit, call):
    frame = message("RELEASE", 1, "ciaddr=" + ADDRESS.format(circuit, 10))
    return leased(circuit) + [f"frame c{circuit} 4 {frame}", f"up c{circuit} 0 102 {call}"]


def at_another_address(circuit, call):
    """Client 1's lease is over, and its address is offered to client 2: it takes the other one."""
    frames = message("DISCOVER", 2), message("DISCOVER", 1), select(circuit, 1, 11)
    lines = [line for frame in frames for line in (f"frame c{circuit} 4 {frame}", f"up c{circuit} 0 701 0")]
    return leased(circuit) + lines[:-1] + [f"up c{circuit} 0 701 {call}"]


def extended6(circuit, call):
    return leased6(circuit) + [f"frame c{circuit} 6 {message6('RENEW6', 1, 'ours')}", f"up c{circuit} 0 102 {call}"]


def released6(circuit, call, kind="RELEASE6"):
    frame = message6(kind, 1, "ours", ADDRESS6.format(circuit))
    return leased6(circuit) + [f"frame c{circuit} 6 {frame}", f"up c{circuit} 0 102 {call}"]


def declined6(circuit, call):
    return released6(circuit, call, "DECLINE6")


def with_another_client6(circuit, call):
    """The lease of client 1 is over, and client 2 gets the address until 1301."""
    return leased6(circuit) + [f"frame c{circuit} 6 {message6('REQUEST6', 2, 'ours')}", f"up c{circuit} 0 701 {call}"]


def discovers(circuit, *moments):
    """The offers to clients 3, 4 and so on, each at one of these moments."""
    for client, now in enumerate(moments, 3):
        yield from (f"frame c{circuit} 4 {message('DISCOVER', client)}", f"up c{circuit} 0 {now} 0", f"down c{circuit} 0")


def solicits(circuit, *moments):
    """The Advertises to client 3 at these moments."""
    yield f"frame c{circuit} 6 {message6('SOLICIT6', 3)}"
    for now in moments:
        yield from (f"up c{circuit} 0 {now} 0", f"down c{circuit} 0")


def offered(line):
    """Which address of the pool a reply has: the last byte of a DHCPv4 one, 100 for the DHCPv6 one, or None."""
    words = line.split()
    if line.startswith("to ") and words[2] == "unicast":
        return int(words[4].split(".")[3])
    if line.startswith("to ") and words[2] == "peer" and "0000000000000100" in words[4]:
        return 100
    return None


# what the clients get where the change is not there after the restart, and where it is
CHANGES = (
    (extended, discovers, (701, 702), [10, 11], [11, 10]),
    (released, discovers, (700, 701), [11, 10], [10, 11]),
    (at_another_address, discovers, (700, 1300, 1301), [11, 10, 11], [10, 10, 11]),
    (extended6, solicits, (701, 702), [100, 100], [None, 100]),
    (released6, solicits, (700, 701), [None, 100], [100, 100]),
    (declined6, solicits, (700, 701, 3701, 3702), [None, 100, 100, 100], [None, None, None, 100]),
    (with_another_client6, solicits, (1300, 1301), [100, 100], [None, 100]),
)


def answers(lines):
    text = "\n".join(lines) + "\n"
    return subprocess.run(["accesslab", "config.toml"], input=text, capture_output=True, text=True, check=True).stdout.splitlines()


def found(change, ask, moments, before, after):
    """For each call, the bytes with which the change is found; ! where neither it nor what was before it is."""
    first = [line for circuit, (call, _) in RUNS for line in change(circuit, call)]
    asked = [list(ask(circuit, *moments)) for circuit, _ in RUNS]
    said = iter(answers(first + [IMAGES] + [line for lines in asked for line in lines])[len(first) + 1:])
    bytes_found = {call: [] for call in range(7)}
    for (_, (call, byte)), lines in zip(RUNS, asked):
        replies = [answer for line, answer in zip(lines, said) if line.startswith("down")]
        got = [offered(reply) for reply in replies]
        if got != before:
            bytes_found[call].append(f"{byte:02x}" if got == after else f"{byte:02x}!")
    return ", ".join(" ".join(numbers) or "none" for numbers in bytes_found.values())


for change, *rest in CHANGES:
    print(f"{change.__name__}: {found(change, *rest)}".replace(" ".join(f"{byte:02x}" for byte in BYTES), "all"))
