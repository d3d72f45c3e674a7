"""Relays and server use the addresses of the configuration, which alone tell them apart where all have one port. At the
circuits' address nobody has this port."""
from client import DISCOVER, Circuit, frame
from watched_server import WatchedServer

server = WatchedServer("accessd", "config.toml", "leases", "--format")
circuits = [Circuit(20000), Circuit(20004)]
circuits[0].socket.sendto(frame(DISCOVER, 1), ("127.0.0.1", 6767))
for circuit in circuits[::-1]:
    print(circuit.exchange(DISCOVER, 1))
    print(circuit.exchange6("SOLICIT6", 1))
print(server.counts(), end="")
