"""With --report 1 the counts are written in each second, and at the end, with a line for the circuit of which something was
dropped; that its only address is leased is written once. The relay drops a frame with option 82 (5); the server has no address
for a second client (19), then the first one declines its address, which is dropped (24), and is counted by itself."""
import time

from client import DISCOVER, REQUEST, Circuit, frame, select
from watched_server import WatchedServer

DECLINE = 4
server = WatchedServer("accessd", "config.toml", "leases", "--format", "--report", "1")
print(server.first_line)
circuit = Circuit(20000)
lease = circuit.exchange(DISCOVER, 1)
print(circuit.exchange(REQUEST, 1, select(lease)))
circuit.send(frame(DISCOVER, 2, bytes.fromhex("520401026131")))
circuit.send(frame(DISCOVER, 2))
circuit.send(frame(DISCOVER, 2))
time.sleep(1.3)
circuit.send(frame(DECLINE, 1, bytes([50, 4]) + lease.address))
time.sleep(1.3)
lines = server.report().splitlines()
totals = [line for line in lines if " datagrams received, " in line]
print(len(totals) > 2, len(lines) < 8 * len(totals))
print(lines.count("a: each of its 1 DHCPv4 addresses is leased or declined"))
print(lines[0])
print(*lines[-5:], sep="\n")
