"""A new file has the regions that the configuration needs; the circuit's is formatted, the one before it
is not. Formatting again empties a lease. A formatted region has the first half of each of its 32 slots open, and
its format in byte 8192 (docs/FORMATS.md, The disk)."""
from client import DISCOVER, REQUEST, Circuit, Server, select

REGION = 32768
FORMATTED = {REGION + 8192: 2} | {REGION + 16384 + 512 * slot: 0xA5 for slot in range(32)}


def content():
    with open("leases", "rb") as file:
        content = file.read()
    return len(content), {at: byte for at, byte in enumerate(content) if byte} == FORMATTED


Server("accessd", "config.toml", "leases", "--format", turns=1).report()
print(*content())
server = Server("accessd", "config.toml", "leases")
circuit = Circuit(20000)
print(circuit.exchange(REQUEST, 1, select(circuit.exchange(DISCOVER, 1))))
server.kill()
print(*content())
Server("accessd", "config.toml", "leases", "--format", turns=1).report()
print(*content())
