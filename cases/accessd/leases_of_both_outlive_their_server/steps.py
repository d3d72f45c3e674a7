"""A lease of each protocol, of which the server that is killed and started again over the same file still knows: the one
client reboots, the other renews, and nobody else gets their addresses."""
from client import DISCOVER, REQUEST, Circuit, Server, reboot, select
from watched_server import WatchedServer

circuit = Circuit(20000)
server = Server("accessd", "config.toml", "leases", "--format")
lease = circuit.exchange(REQUEST, 1, select(circuit.exchange(DISCOVER, 1)))
print(lease)
print(circuit.exchange6("SOLICIT6", 2))
print(circuit.exchange6("REQUEST6", 2, "ours"))
server.kill()
server = WatchedServer("accessd", "config.toml", "leases")
print(circuit.exchange(REQUEST, 1, reboot(lease.address)))
print(circuit.exchange6("RENEW6", 2, "ours", "2001:db8::100"))
print(server.answer6(circuit, "SOLICIT6", 3))
print(server.answer(circuit, DISCOVER, 4))
server.kill()
