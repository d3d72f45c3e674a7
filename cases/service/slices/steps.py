"""What a pass asks of the system, in order, while each of 40 circuits behind three relays has a frame of each protocol: slices of 16,
16 and 8 circuits of DHCPv4 and then of DHCPv6. First the frames of a slice go to the server. It receives 16, or fewer until it finds
no more; their leases are saved together, by three syncs; then come the answers, and after 16 it tries once more. Then each relay
receives until it finds no more, and what it receives goes to the clients. Circuits 0, 3, 6 and so on are behind the first relay: 6
of the first 16, 5 of the next 16, and 3 of the last 8. Then the next slice's first frame is received. The first save of a slot
after the formatting has no gate to close, and no first write; a renewal has one (docs/FORMATS.md, The disk)."""
import itertools

from client import DISCOVER, REQUEST, frame, frame6, select
from stepped_service import SteppedService, circuits_of, wanted

CIRCUITS = 40
# what a call is in the output, by its name, where it was made, and whether a datagram waited; any other receive found nothing
WORDS = {("receive", "circuit", True): "frame", ("send", "relay", False): "up", ("receive", "server", True): "received",
         ("send", "server", False): "answered", ("receive", "relay", True): "answer", ("send", "circuit", False): "down",
         ("write", "file", False): "written", ("sync", "file", False): "sync"}

service = SteppedService("accessd", "--format")
circuits = circuits_of(CIRCUITS)


def word_of(call):
    return WORDS.get((call.name, call.place, call.source is not None), "empty")


def slices_of(calls):
    """The calls of each slice. One begins with a receive from a circuit's socket after calls at the server and the relays."""
    slices, is_taking = [[]], True
    for call in calls:
        if word_of(call) == "frame" and not is_taking:
            slices.append([])
            is_taking = True
        elif call.place == "server":
            is_taking = False
        slices[-1].append(call)
    return slices


def shown(calls):
    """A slice in a line: of which circuits, and its calls after one another. A frame and what is sent up of it are one, and so are
    an answer at a relay and what is sent down of it."""
    # a socket from which a frame came in the pass before is found empty, whenever it is tried next
    calls = [call for call in calls if (word_of(call), call.place) != ("empty", "circuit")]
    frames = [(call.number, call.protocol) for call in calls if word_of(call) == "frame"]
    downs = [(call.number, call.protocol) for call in calls if word_of(call) == "down"]
    first, last = frames[0], frames[-1]
    is_whole = frames == [(number, first[1]) for number in range(first[0], last[0] + 1)] == sorted(downs)
    words = " ".join(map(word_of, calls)).replace("frame up", "up").replace("answer down", "down").split()
    counted = [(word, len([*same])) for word, same in itertools.groupby(words)]
    listed = ", ".join(word if word in ("empty", "sync") and count == 1 else f"{count} {word}" for word, count in counted)
    return f"DHCPv{first[1]} of c{first[0]} to c{last[0]}{'' if is_whole else ', not in order or not answered alone'}: {listed}"


def one_pass():
    """Shows the pass that takes what has been sent, and returns the answers to it."""
    service.await_datagrams("circuit")
    print(*map(shown, slices_of(service.step())), sep="\n")
    return [wanted(circuit.receive()) for circuit in circuits], [wanted(circuit.receive6()) for circuit in circuits]


for circuit in circuits:
    circuit.send(frame(DISCOVER, 1))
    circuit.send6(frame6("SOLICIT6", 1))
offers, _ = one_pass()
for circuit, offer in zip(circuits, offers):
    circuit.send(frame(REQUEST, 1, select(offer)))
    circuit.send6(frame6("REQUEST6", 1, "ours"))
leases, leases6 = one_pass()
for circuit, lease, lease6 in zip(circuits, leases, leases6):
    circuit.send(frame(REQUEST, 1, ciaddr=lease.address))
    circuit.send6(frame6("RENEW6", 1, "ours", str(lease6.address)))
one_pass()
service.kill()
