"""Two circuits with one client each, of one hardware address: each gets its own circuit's address, from
its own circuit's port, in either order."""
from client import DISCOVER, Answer, Circuit, frame
from watched_server import WatchedServer

server = WatchedServer("accessd", "config.toml", "leases", "--format", "--port", "23000")
print(server.first_line)
circuits = [Circuit(23000), Circuit(23004)]
for order in (circuits, circuits[::-1]):
    for circuit in order:
        circuit.send(frame(DISCOVER, 1))
    for circuit in circuits:
        datagram, source = circuit.socket.recvfrom(2048)
        print(Answer(datagram), source[1])
# nothing more comes in all turns that are left
server.report()
for circuit in circuits:
    print(circuit.receive(0))
