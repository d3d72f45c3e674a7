"""Requests of sixteen circuits, eight of each protocol, are one batch: three syncs for sixteen saves, and all acknowledgements
after the last. The first save of a slot after the formatting has no gate to close, and no first write; a renewal has one
(docs/FORMATS.md, The disk). Then every client renews its lease again and again, with nothing that makes them ask at once: whatever
a turn takes, the server sends as many acknowledgements as it saved leases, right after the third sync, and never more than 16."""
import itertools

from client import DISCOVER, REQUEST, Circuit, frame, frame6, select
from system_calls import copies
from watched_server import WatchedServer

ROUNDS = 20
SERVER_PORTS = (6767, 6547)
circuits = [Circuit(23000 + 4 * index) for index in range(16)]
of4, of6 = circuits[:8], circuits[8:]
server = WatchedServer("accessd", "config.toml", "leases", "--format", "--port", "23000", "--batch", "16")
watch = server.watch
offers = [circuit.exchange(DISCOVER, 1) for circuit in of4]


def ask(options, kind6):
    """Each client sends a message that is saved."""
    for circuit, each in zip(of4, options):
        circuit.send(frame(REQUEST, 1, **each))
    for number, circuit in enumerate(of6, start=len(of4)):
        circuit.send6(frame6(kind6, 1, "ours", f"2001:db8:0:{number:x}::100"))


def answers():
    return [circuit.receive() for circuit in of4] + [circuit.receive6() for circuit in of6]


def together(options, kind6):
    """The answers to messages that are sent while the program stands still, and its calls until then."""
    with server.standing_still():
        count = len(watch.calls)
        ask(options, kind6)
    server.settle()
    print(*answers(), sep="\n")
    print("after:", ", ".join(f"{len([*calls])} {name}" for name, calls in itertools.groupby(watch.calls[count:])))


def saves_of(names):
    """How many leases each group of saves has, with as many acknowledgements of the server after it. Fails where it is none."""
    groups = [(name, len([*calls])) for name, calls in itertools.groupby(names)]
    while groups:
        (first, count), *rest = groups
        if first == "relay":
            groups = rest
            continue
        kinds, counts = zip(*groups[:7])
        if kinds != ("write", "sync", "write", "sync", "write", "sync", "server") or counts[1::2] != (1, 1, 1):
            raise ValueError(groups[:7])
        if len({*counts[::2]}) != 1:
            raise ValueError(groups[:7])
        yield count
        groups = groups[7:]


together([{"options": select(offer)} for offer in offers], "REQUEST6")
renewals = [{"ciaddr": offer.address} for offer in offers]
together(renewals, "RENEW6")
ends = {number: end.getsockname()[1] for number, end in copies(server.process).items()}
count = len(watch.calls)
for _ in range(ROUNDS):
    ask(renewals, "RENEW6")
    if None in answers():
        print("no answer")
calls = zip(watch.calls[count:], watch.descriptors[count:])
saves = [*saves_of(("server" if ends[number] in SERVER_PORTS else "relay") if name == "send" else name for name, number in calls)]
print(sum(saves) == ROUNDS * len(circuits), 1 < max(saves) <= 16)
server.kill()
