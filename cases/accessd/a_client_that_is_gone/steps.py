"""Where no client has a circuit's ports, the system tells whoever sends there (ICMP, port unreachable). That is no failed send
and no failed receive: the other circuit is served, and this one once its client is there."""
import socket

from client import DISCOVER, Circuit, frame, frame6
from watched_server import WatchedServer

server = WatchedServer("accessd", "config.toml", "leases", "--format")
with socket.socket(socket.AF_INET, socket.SOCK_DGRAM) as end:
    end.sendto(frame(DISCOVER, 1), ("127.0.0.1", 20000))
    end.sendto(frame6("SOLICIT6", 1), ("127.0.0.1", 20001))
for port in (20004, 20000):
    circuit = Circuit(port)
    for _ in range(3):
        print(circuit.exchange(DISCOVER, 1))
        print(circuit.exchange6("SOLICIT6", 1))
    server.settle()
    print(circuit.receive(0), circuit.receive6(0))
print(server.counts(), end="")
