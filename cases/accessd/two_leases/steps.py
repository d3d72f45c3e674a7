"""A lease on each of two circuits, each in its own region; the server that is started again knows both."""
from client import DISCOVER, REQUEST, Circuit, Server, reboot, select
from watched_server import WatchedServer

circuits = [Circuit(20000), Circuit(20004)]
server = Server("accessd", "config.toml", "leases", "--format")
leases = [circuit.exchange(REQUEST, 1, select(circuit.exchange(DISCOVER, 1))) for circuit in circuits]
server.kill()
server = WatchedServer("accessd", "config.toml", "leases")
for circuit, lease in zip(circuits, leases):
    print(circuit.exchange(REQUEST, 1, reboot(lease.address)))
for circuit in circuits:
    print(server.answer(circuit, DISCOVER, 2))
server.kill()
