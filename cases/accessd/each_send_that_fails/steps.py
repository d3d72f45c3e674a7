"""A client's message is three sends: of its relay, of the server, and of the relay to the circuit. Where the system
takes one of them not, the message ends there and is counted as not sent, and the client's next is answered."""
from client import DISCOVER, Circuit
from watched_server import WatchedServer

circuit = Circuit(20000)
for k in range(1, 4):
    for proto in (4, 6):
        server = WatchedServer("accessd", "config.toml", "leases", "--format")
        count = len(server.watch.calls)
        server.watch.fail(k)
        answer = server.answer(circuit, DISCOVER, 1) if proto == 4 else server.answer6(circuit, "SOLICIT6", 1)
        print(f"{answer} after: {server.watch.since(count)}")
        print(circuit.exchange(DISCOVER, 1) if proto == 4 else circuit.exchange6("SOLICIT6", 1))
        print(server.counts(), end="")
