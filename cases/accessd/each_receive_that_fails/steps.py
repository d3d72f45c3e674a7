"""While every receive from a socket fails, what waits there is neither lost nor counted, and the other sockets are served. Once
receives succeed again it is served."""
from client import DISCOVER, Circuit, frame, frame6
from watched_server import WatchedServer

# the sockets by their ports, and the protocols that need them
SOCKETS = ((20000, "4"), (20001, "6"), (6767, "4"), (6547, "6"), (6801, "46"))

server = WatchedServer("accessd", "config.toml", "leases", "--format", names=("receive",))
circuit = Circuit(20000)
receives = {"4": circuit.receive, "6": circuit.receive6}
for port, silent in SOCKETS:
    server.watch.break_receives(port)
    circuit.send(frame(DISCOVER, 1))
    circuit.send6(frame6("SOLICIT6", 1))
    others = [protocol for protocol in "46" if protocol not in silent]
    server.settle()
    print(port, "fails:", *(receives[protocol](0) for protocol in others), *(receives[protocol](0) for protocol in silent))
    server.watch.mend_receives()
    print(port, "receives:", *(receives[protocol]() for protocol in silent))
print(server.counts(), end="")
