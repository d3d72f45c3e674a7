"""Server and relay serve datagrams of at most 1280 bytes, and the relay clients' frames of at most 1024. A longer one is
dropped by the layer that it reaches (1, 12 or 32), and the next that is short enough is served. Each could be answered but for
its length, which is also its xid; what a relay and the server send each other is sent from their own sockets. An answer has one
byte and 300 or, of DHCPv6, 16 bytes for the peer and a message of 76; what the relay only sends on has the Advertise in a
Relay-reply of 1280 bytes, of which 34, 5 and 4 are its header, its interface id and the head of option 9."""
from client import Answer, Answer6, Circuit
from messages import expand
from system_calls import sockets_of
from watched_server import WatchedServer

DATAGRAMS = (
    (None, 20000, "DISCOVER 1"),
    (None, 20001, "SOLICIT6 1"),
    (6801, 6767, "UP a DISCOVER 1"),
    (6801, 6547, "UP a SOLICIT6 1"),
    (6767, 6801, "DOWN a OFFER 1 leased=0a00000a"),
    (6547, 6801, "DOWN a ADVERTISE6 1 2001:db8::100"),
)


def is_v6(words):
    return "6 " in words


def of_length(words, length):
    """This message, with zeros after its end, or of DHCPv6 with an option that nobody knows."""
    if not is_v6(words):
        return bytes.fromhex(expand(f"{{{words} xid={length:08x} length={length}}}"))
    words = f"{words} xid={length:06x}"
    rest = length - len(expand(f"{{{words}}}")) // 2 - 4
    return bytes.fromhex(expand(f"{{{words} more=fffe+{rest:04x}+00*{rest}}}"))


server = WatchedServer("accessd", "config.toml", "leases", "--format")
circuit = Circuit(20000)
own = sockets_of(server.process)
for sender, port, words in DATAGRAMS:
    end, kind = (circuit.socket6, Answer6) if is_v6(words) else (circuit.socket, Answer)
    for length in (2000, 1281, 1280) if sender else (2000, 1281, 1280, 1025, 1024):
        own.get(sender, circuit.socket).sendto(of_length(words, length), ("127.0.0.1", port))
    server.settle()
    answers = []
    while datagram := circuit.next_of(end, 0):
        answer = kind(datagram)
        answers.append(f"{answer.xid}: {answer}, in {len(datagram)} bytes")
    print(f"{words} to {port}, {', '.join(answers)}")
print(server.counts(), end="")
