"""Far more answers than the system keeps for a client, and more frames than it keeps for the relay: those
past that are lost, and the client is served once it reads."""
from client import DISCOVER, Circuit, frame
from watched_server import WatchedServer

server = WatchedServer("accessd", "config.toml", "leases", "--format", names=())
circuit = Circuit(20000)
for _ in range(6000):
    circuit.send(frame(DISCOVER, 1))
server.settle()
while circuit.receive(0):
    pass
print(server.runs(), circuit.exchange(DISCOVER, 1))
server.kill()
