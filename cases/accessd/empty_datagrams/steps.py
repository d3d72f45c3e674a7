"""A datagram without bytes is one as any other: it is counted, and dropped for the first reason that applies. To the circuit
it is no frame (2); what comes from no relay or no server is dropped for that (11, 31), and what comes from the relay's or the
server's own socket can't be read (12, 32). The next client is served."""
from client import DISCOVER, Circuit
from system_calls import sockets_of
from watched_server import WatchedServer

server = WatchedServer("accessd", "config.toml", "leases", "--format")
circuit = Circuit(20000)
own = sockets_of(server.process)
WAYS = [(None, port) for port in (20000, 20001, 6767, 6547, 6801)] + [(6801, 6767), (6801, 6547), (6767, 6801), (6547, 6801)]
for sender, port in WAYS:
    own.get(sender, circuit.socket).sendto(b"", ("127.0.0.1", port))
    print(f"{port}: {circuit.exchange(DISCOVER, 1)}, {circuit.exchange6('SOLICIT6', 1)}")
print(server.counts(), end="")
