"""What is dropped is counted for the circuit that it is of, on every way: a frame by its socket (5, 8), a datagram at the server by
whom it names, alone (18) and in a batch (24, 24; the program stands still while both are sent, so that one turn takes them), and one
that a batch puts off (24 and 17 of one circuit). A circuit of which nothing was dropped has no line."""
from client import DISCOVER, RELEASE, REQUEST, Circuit, frame, select
from watched_server import WatchedServer

NOWHERE = bytes([10, 9, 9, 9])
server = WatchedServer("accessd", "config.toml", "leases", "--format", "--report", "600", "--batch", "16")
first, second, third = circuits = [Circuit(20000 + 4 * index) for index in range(3)]
offers = [circuit.exchange(DISCOVER, 1) for circuit in circuits]
print(*offers, sep="\n")
second.send(frame(DISCOVER, 2, bytes.fromhex("520401026131")))
third.send6(bytes(16) + bytes.fromhex("0c000000"))
third.send(frame(REQUEST, 1, bytes([54, 4]) + NOWHERE + bytes([50, 4]) + offers[2].address))
with server.standing_still():
    for circuit in (second, third):
        circuit.send(frame(RELEASE, 1))
print(first.exchange(REQUEST, 1, select(offers[0])))
with server.standing_still():
    third.send(frame(RELEASE, 1))
    third.send(frame(DISCOVER, 3, bytes([61, 1, 0])))
print(server.counts(), end="")
