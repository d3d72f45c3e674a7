"""Requests of four circuits, two of each protocol, that wait when a turn begins, are one batch at the server: all are saved by
three syncs, and acknowledged after the last of them. Without `--batch` a turn takes one of them, saves it by three syncs of its
own and acknowledges it. The first save of a slot after the formatting has no gate to close, and no first write
(docs/FORMATS.md, The disk)."""
from client import DISCOVER, REQUEST, Circuit, frame, frame6, select
from watched_server import WatchedServer

circuits = [Circuit(23000 + 4 * index) for index in range(4)]


def leases(*words):
    """The answers to four requests that are sent while the program stands still, and its calls until then."""
    server = WatchedServer("accessd", "config.toml", "leases", "--format", "--port", "23000", *words)
    offers = [circuit.exchange(DISCOVER, 1) for circuit in circuits[:2]]
    with server.standing_still():
        count = len(server.watch.calls)
        for circuit, offer in zip(circuits, offers):
            circuit.send(frame(REQUEST, 1, select(offer)))
        for circuit in circuits[2:]:
            circuit.send6(frame6("REQUEST6", 1, "ours"))
    server.settle()
    answers = [circuit.receive(0) for circuit in circuits[:2]] + [circuit.receive6(0) for circuit in circuits[2:]]
    print(*answers, sep="\n")
    print("after:", server.watch.since(count))
    server.kill()


leases("--batch", "16")
leases()
