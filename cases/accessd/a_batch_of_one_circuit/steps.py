"""Of a batch of three datagrams of one circuit the first is received with the batch, the others alone after it, in order: the
second client is offered the address after that of the first. Each is answered once, and none is counted as dropped. The server
takes from its two sockets by turns, from that of DHCPv4 first."""
from client import Circuit
from messages import expand
from system_calls import sockets_of
from watched_server import WatchedServer

RELAY, LISTEN4, LISTEN6 = 6801, ("127.0.0.1", 6767), ("127.0.0.1", 6547)
DATAGRAMS = (("{UP a DISCOVER 1}", LISTEN4), ("{UP a DISCOVER 2}", LISTEN4), ("{UP a SOLICIT6 1}", LISTEN6))

server = WatchedServer("accessd", "config.toml", "leases", "--format", "--batch", "16")
circuit = Circuit(20000)
relay = sockets_of(server.process)[RELAY]
with server.standing_still():
    for words, listen in DATAGRAMS:
        relay.sendto(bytes.fromhex(expand(words)), listen)
print(circuit.receive(), circuit.receive(), circuit.receive6(), sep="\n")
print(server.counts(), end="")
