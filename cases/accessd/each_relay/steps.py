"""Sixteen circuits behind three relays: each client of either protocol gets its own circuit's address from its own
circuit's port, whichever circuit sends first."""
from client import DISCOVER, Answer, Answer6, Circuit, Server, frame, frame6

server = Server("accessd", "config.toml", "leases", "--format", "--port", "23000")
circuits = [Circuit(23000 + 4 * index) for index in range(16)]
for order in (circuits, circuits[::-1]):
    for circuit in order:
        circuit.send(frame(DISCOVER, 1))
        circuit.send6(frame6("SOLICIT6", 1))
    for circuit in circuits:
        for end, kind in (circuit.socket, Answer), (circuit.socket6, Answer6):
            datagram, source = end.recvfrom(2048)
            print(kind(datagram), source[1])
server.kill()
