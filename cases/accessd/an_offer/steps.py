"""One client is offered an address: the frame comes from its circuit's port, behind one byte for unicast."""
from client import DISCOVER, Circuit, frame
from watched_server import WatchedServer

server = WatchedServer("accessd", "config.toml", "leases", "--format")
circuit = Circuit(20000)
circuit.send(frame(DISCOVER, 1))
datagram, source = circuit.socket.recvfrom(2048)
print(len(datagram), datagram.hex(), "from", *source)
# nothing more comes in all turns that are left
server.report()
print(circuit.receive(0))
