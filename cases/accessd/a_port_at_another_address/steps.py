"""Each socket receives what is sent to its own address alone (docs/FORMATS.md, The sockets of `accessd`): at 127.0.0.2 nobody has
its port. At 127.0.0.1 the same datagrams are received: clients are answered, and server and relay drop what a client sends
them (11, 31)."""
from client import DISCOVER, Circuit, frame, frame6
from messages import expand
from watched_server import WatchedServer

DATAGRAMS = {
    20000: frame(DISCOVER, 1),
    20001: frame6("SOLICIT6", 1),
    6767: bytes.fromhex(expand("{UP a DISCOVER 1}")),
    6547: bytes.fromhex(expand("{UP a SOLICIT6 1}")),
    6801: bytes.fromhex(expand("{DOWN a OFFER 1 leased=0a00000a}")),
}

server = WatchedServer("accessd", "config.toml", "leases", "--format")
circuit = Circuit(20000)
for address in "127.0.0.2", "127.0.0.1":
    for port, datagram in DATAGRAMS.items():
        circuit.socket.sendto(datagram, (address, port))
    server.settle()
    print(f"{address}: {circuit.receive(0)}, {circuit.receive6(0)}")
print(server.counts(), end="")
