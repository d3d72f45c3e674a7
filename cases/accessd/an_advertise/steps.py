"""One DHCPv6 client is advertised an address: the frame comes from its circuit's port, behind the client's
address on the link."""
from client import Circuit, frame6
from watched_server import WatchedServer

server = WatchedServer("accessd", "config.toml", "leases", "--format")
circuit = Circuit(20000)
circuit.send6(frame6("SOLICIT6", 2))
datagram, source = circuit.socket6.recvfrom(2048)
print(len(datagram), datagram.hex(), "from", *source)
# nothing more comes in all turns that are left
server.report()
print(circuit.receive6(0))
