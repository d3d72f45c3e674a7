"""A relay's datagram comes from the relay's address and port, and a reply from the server's (docs/FORMATS.md, 11 and 31). From
the same ports of another address the very datagrams are dropped, and nobody is answered, that are served when they come from
the program's own sockets."""
import socket

from client import Circuit
from messages import expand
from system_calls import sockets_of
from watched_server import WatchedServer

RELAY, LISTEN4, LISTEN6 = 6801, 6767, 6547
DATAGRAMS = (
    (RELAY, LISTEN4, "{UP a DISCOVER 1}"),
    (RELAY, LISTEN6, "{UP a SOLICIT6 1}"),
    (LISTEN4, RELAY, "{DOWN a OFFER 2 leased=0a00000b}"),
    (LISTEN6, RELAY, "{DOWN a ADVERTISE6 2 2001:db8::101}"),
)


def stranger(port):
    end = socket.socket(socket.AF_INET, socket.SOCK_DGRAM)
    end.bind(("127.0.0.2", port))
    return end


def send_all(ends):
    for sender, receiver, words in DATAGRAMS:
        ends[sender].sendto(bytes.fromhex(expand(words)), ("127.0.0.1", receiver))


server = WatchedServer("accessd", "config.toml", "leases", "--format")
circuit = Circuit(20000)
strangers = {port: stranger(port) for port in (RELAY, LISTEN4, LISTEN6)}
send_all(strangers)
server.settle()
print(circuit.receive(0), circuit.receive6(0), *(circuit.next_of(end, 0) for end in strangers.values()))
send_all(sockets_of(server.process))
print("\n".join(sorted(str(receive()) for receive in (circuit.receive, circuit.receive6) for _ in range(2))))
print(server.counts(), end="")
