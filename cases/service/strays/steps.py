"""Whatever others send to the server and the relays, a slice ends: it takes 32 datagrams at the server and 32 at each relay, and the
next slice begins. So while their sockets are full of somebody else's datagrams, a pass over 64 circuits behind four relays that have
one DHCPv4 frame each, in four slices and one for DHCPv6, takes 160 at the server and as many at each relay, and all 64 frames. Once
nobody sends, the circuits are served again within a pass. All these numbers are of passes and none of times."""
import collections

from client import DISCOVER, LOOPBACK, Circuit, frame, frame6
from stepped_service import FIRST_RELAY, SERVER_PORTS, SteppedService, circuits_of, listed, sent_to_clients, wanted

CIRCUITS, RELAYS = 64, 4
# a socket holds more than five slices take, and fewer than this
MANY = 1000

service = SteppedService("accessd", "--format")
circuits = circuits_of(CIRCUITS)
every = [(number, protocol) for number in range(CIRCUITS) for protocol in (4, 6)]
stranger = Circuit.bound(0)
for port in (*SERVER_PORTS, *(FIRST_RELAY + relay for relay in range(RELAYS))):
    for _ in range(MANY):
        stranger.sendto(b"no", (LOOPBACK, port))
for circuit in circuits:
    circuit.send(frame(DISCOVER, 1))
service.await_datagrams("server", "relay")
calls = service.step()
print(listed(collections.Counter(f"relay {call.number}" if call.place == "relay" else call.place for call in calls if call.source)))
service.settle()
for circuit in circuits:
    while circuit.receive(0) or circuit.receive6(0):
        pass
    circuit.send(frame(DISCOVER, 1))
    circuit.send6(frame6("SOLICIT6", 1))
service.await_datagrams("circuit")
print("one answer to each:", sent_to_clients(service.step()) == collections.Counter(every))
answers = [wanted(receive()) for circuit in circuits for receive in (circuit.receive, circuit.receive6)]
print(listed(collections.Counter(str(answer).partition(" ")[0] for answer in answers)))
service.kill()
