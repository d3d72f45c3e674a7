"""Seventeen circuits behind three relays, which are too many for turns: each client of either protocol gets its own circuit's address
from its own circuit's port."""
from client import DISCOVER, Answer, Answer6, Circuit, Server, frame, frame6

server = Server("accessd", "config.toml", "leases", "--service", "--format", "--port", "23000")
print(server.first_line)
circuits = [Circuit(23000 + 4 * index) for index in range(17)]
for circuit in circuits:
    circuit.send(frame(DISCOVER, 1))
    circuit.send6(frame6("SOLICIT6", 1))
for circuit in circuits:
    for end, kind in (circuit.socket, Answer), (circuit.socket6, Answer6):
        datagram, source = end.recvfrom(2048)
        print(kind(datagram), source[1])
print(server.stop())
