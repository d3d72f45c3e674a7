"""Datagrams of every length to the circuit, the server and the relay, for both protocols, and a client of each that is
served after them. The relay takes frames of at most 1024 bytes; the server and the relay have no such sender."""
from client import DISCOVER, Circuit
from watched_server import WatchedServer

server = WatchedServer("accessd", "config.toml", "leases", "--format")
circuit = Circuit(20000)
for length in (0, 1, 1024, 1025, 1280, 1281, 60000):
    for port in (20000, 20001, 6767, 6547, 6801):
        circuit.socket.sendto(bytes([1]) * length, ("127.0.0.1", port))
    print(circuit.exchange(DISCOVER, 1))
    print(circuit.exchange6("SOLICIT6", 1))
print(server.counts(), end="")
