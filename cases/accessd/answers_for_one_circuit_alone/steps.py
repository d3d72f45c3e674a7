"""Three circuits, of which the first and the last are behind one relay. A client is answered at its circuit's port of its
protocol alone, from the port that it sent to: first one client after the other, then two of each circuit and protocol in
one go."""
import select

from client import DISCOVER, Answer, Answer6, Circuit, frame, frame6
from watched_server import WatchedServer

PORT = 23000
server = WatchedServer("accessd", "config.toml", "leases", "--format", "--port", str(PORT))
circuits = [Circuit(PORT + 4 * index) for index in range(3)]
ENDS = {end: kind for circuit in circuits for end, kind in ((circuit.socket, Answer), (circuit.socket6, Answer6))}


def show():
    """Shows what has come to any client, by port."""
    server.settle()
    found = []
    while ready := select.select(list(ENDS), [], [], 0)[0]:
        for end in ready:
            datagram, source = end.recvfrom(2048)
            answer = ENDS[end](datagram)
            found.append((end.getsockname()[1], f"client {answer.client}, {answer}, from {source[1]}"))
    for port, text in sorted(found):
        print(f"to {port}: {text}")


for circuit in circuits:
    circuit.send(frame(DISCOVER, 1))
    show()
    circuit.send6(frame6("SOLICIT6", 1))
    show()
print("in one go")
for client in (2, 1):
    for circuit in circuits:
        circuit.send6(frame6("SOLICIT6", client))
        circuit.send(frame(DISCOVER, client))
show()
# nothing more comes in all turns that are left
server.report()
show()
