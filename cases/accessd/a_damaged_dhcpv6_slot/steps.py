"""One byte of a DHCPv6 slot, its state 3 (docs/FORMATS.md, The disk: 0 to 2, at byte 1 of a half; slot 16 begins at 24576), closes
the circuit alone, for its DHCPv4 clients too."""
from client import DISCOVER, Circuit, Server
from watched_server import WatchedServer

Server("accessd", "config.toml", "leases", "--format", turns=1).report()
with open("leases", "r+b") as file:
    file.seek(24577)
    file.write(bytes([3]))
server = WatchedServer("accessd", "config.toml", "leases")
print(server.first_line)
first, second = Circuit(20000), Circuit(20004)
for circuit in (first, second):
    print(server.answer(circuit, DISCOVER, 1))
print(server.counts(), end="")
