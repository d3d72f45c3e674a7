"""A server that waits at most half a second after each turn that took nothing makes four turns in two seconds or more,
of which it is nearly never on a processor. A datagram ends a wait of a second, each time; each turn that takes one is
followed by the next at once."""
import resource
import time

from client import DISCOVER, Circuit, Server, frame

began = time.monotonic()
server = Server("accessd", "config.toml", "leases", "--format", "--pause", "500", turns=4)
print(server.counts().splitlines()[0])
print(time.monotonic() - began >= 2)
print(resource.getrusage(resource.RUSAGE_CHILDREN).ru_utime < 1)
server = Server("accessd", "config.toml", "leases", "--pause", "1000", turns=1000)
circuit = Circuit(20000)
for _ in range(3):
    # the server waits
    time.sleep(0.2)
    began = time.monotonic()
    print(circuit.exchange(DISCOVER, 1))
    print(time.monotonic() - began < 0.9)
time.sleep(0.2)
began = time.monotonic()
for _ in range(3):
    circuit.send(frame(DISCOVER, 1))
print(circuit.receive())
print(circuit.receive())
print(circuit.receive())
print(time.monotonic() - began < 0.9)
server.kill()
