"""A pass takes at most one frame from each socket of the circuits, and each one that it takes is answered in it. While the service
stands still, each of 1,024 circuits behind eight relays, as many as there may be, sends a DISCOVER and a Solicit, and one of them so
many that its sockets hold no more. Somebody else sends to the server and the relays meanwhile, no more than a slice takes beside its
own datagrams: of 32 at the server 16 are its own, and of 32 at a relay two. After one pass each circuit has one answer of each
protocol, the one that floods too; after each further pass that one has one more of each, and nobody else has any, until its sockets
are empty. All that time the answers are as many as the frames that were taken. The file of leases is written here at once: to format
it takes 2,048 syncs."""
import collections
import resource
from pathlib import Path

import regions
from client import DISCOVER, LOOPBACK, Circuit, frame, frame6
from stepped_service import FIRST_RELAY, PORT, SERVER_PORTS, SteppedService, frames_of, listed, sent_to_clients

CIRCUITS, RELAYS, FLOODER = 1024, 8, 777
# those whose clients are there to receive; the calls of the service say what goes to all
SEEN = (0, 1, 15, 16, 300, FLOODER, CIRCUITS - 1)
# more than a socket holds: the system drops the rest
MANY = 1000
# no further than this
PASSES = 2 * MANY

most = resource.getrlimit(resource.RLIMIT_NOFILE)[1]
resource.setrlimit(resource.RLIMIT_NOFILE, (most, most))
Path("leases").write_bytes(regions.formatted() * CIRCUITS)
service = SteppedService("accessd")
circuits = {number: Circuit(PORT + 4 * number) for number in SEEN}
stranger, sender = Circuit.bound(0), Circuit.bound(0)
every = [(number, protocol) for number in range(CIRCUITS) for protocol in (4, 6)]
flooders = {(FLOODER, 4), (FLOODER, 6)}
for port in SERVER_PORTS:
    for _ in range(8):
        stranger.sendto(frame(DISCOVER, 1), (LOOPBACK, port))
for relay in range(RELAYS):
    for _ in range(30):
        stranger.sendto(frame(DISCOVER, 1), (LOOPBACK, FIRST_RELAY + relay))
for number in range(CIRCUITS):
    for _ in range(MANY if number == FLOODER else 1):
        sender.sendto(frame(DISCOVER, 1), (LOOPBACK, PORT + 4 * number))
        sender.sendto(frame6("SOLICIT6", 1), (LOOPBACK, PORT + 4 * number + 1))
service.await_datagrams("circuit", "server", "relay")


def answers(wanted):
    """The kinds of answers that come to these circuits, as far as their clients are there: one for each time that a circuit stands
    here."""
    kinds = collections.Counter()
    for number, protocol in wanted:
        if circuit := circuits.get(number):
            kinds[str(circuit.receive() if protocol == 4 else circuit.receive6()).partition(" ")[0]] += 1
    return listed(kinds)


calls = service.step()
print("one frame of each:", frames_of(calls) == collections.Counter(every))
print("one answer to each:", sent_to_clients(calls) == collections.Counter(every), answers(sent_to_clients(calls)))
print("of somebody else:", listed(collections.Counter(call.place for call in calls if call.source == stranger.getsockname())))
passes = 0
while frames := frames_of(calls := service.step()):
    passes += 1
    # at the end one of the two may be empty before the other
    if passes > PASSES or frames != sent_to_clients(calls) or not {*frames} <= flooders or {*frames.values()} != {1}:
        raise ValueError(f"{passes}: {frames}, {sent_to_clients(calls)}")
    answers(frames)
print("more than 64 further passes:", passes > 64)
service.settle()
print("more answers:", [*filter(None, (receive(0) for end in circuits.values() for receive in (end.receive, end.receive6)))])
service.kill()
