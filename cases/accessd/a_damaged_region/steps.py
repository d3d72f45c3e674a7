"""A region of format 2 without an open half closes its circuit alone."""
from client import DISCOVER, Circuit, Server
from watched_server import WatchedServer

Server("accessd", "config.toml", "leases", "--format", turns=1).report()
with open("leases", "r+b") as file:
    file.write(bytes([2]) * 32768)
server = WatchedServer("accessd", "config.toml", "leases")
print(server.first_line)
first, second = Circuit(20000), Circuit(20004)
for circuit in (first, second):
    print(server.answer(circuit, DISCOVER, 1))
print(server.counts(), end="")
