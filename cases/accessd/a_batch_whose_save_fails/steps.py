"""Requests of four circuits, two of each protocol, are one batch: the server takes those of c2, c0, c3 and c1 in this order, since
its sockets take turns, and the datagram that it took last was a DISCOVER. Each is the first save of a slot after the formatting, so
that the calls are a sync for all, a write for each, a sync, a write for each, a sync. Where a write fails its circuit is closed
alone, and its region is not written again; where a sync fails all circuits that still save are closed. Every other client has its
lease, and the file has it. Each row: the call that fails, the circuits whose clients have an answer, the calls, the circuits that
answer afterwards, those with leases in the file. A service answers c0 and c1 before it takes what c2 and c3 sent: these are two
batches, and a sync that fails closes the circuits of its own batch alone."""
import itertools
import subprocess

from client import DISCOVER, REQUEST, Circuit, frame, frame6, select
from watched_server import WatchedServer

circuits = [Circuit(23000 + 4 * index) for index in range(4)]
of4, of6 = circuits[:2], circuits[2:]


def answered(server):
    """The names of the circuits whose clients have an answer once the server has taken what was sent."""
    server.settle()
    answers = [circuit.receive(0) for circuit in of4] + [circuit.receive6(0) for circuit in of6]
    return " ".join(f"c{index}" for index, answer in enumerate(answers) if answer) or "none"


def row(name, k, *kind):
    server = WatchedServer("accessd", "config.toml", "leases", "--format", "--port", "23000", *kind)
    watch = server.watch
    offers = [circuit.exchange(DISCOVER, 1) for circuit in of4]
    with server.standing_still():
        watch.fail(k, (name,))
        count = len(watch.calls)
        for circuit, offer in zip(of4, offers):
            circuit.send(frame(REQUEST, 1, select(offer)))
        for circuit in of6:
            circuit.send6(frame6("REQUEST6", 1, "ours"))
    acknowledged = answered(server)
    calls = [call for call in watch.calls[count:] if call != "send"]
    for circuit in of4:
        circuit.send(frame(DISCOVER, 2))
    for circuit in of6:
        circuit.send6(frame6("SOLICIT6", 2))
    served = answered(server)
    server.kill()
    listed = subprocess.run(("leases", "config.toml", "--disk", "leases"), capture_output=True, text=True, check=True).stdout
    leased = " ".join(dict.fromkeys(line.split()[0] for line in listed.splitlines())) or "none"
    calls = ", ".join(f"{len([*each])} {name}" for name, each in itertools.groupby(calls))
    print(f"{name} {k}: {acknowledged} | {calls} | {served} | {leased}")


for k in range(1, 4):
    row("sync", k, "--batch", "16")
for k in range(1, 9):
    row("write", k, "--batch", "16")
for name, k in ("sync", 1), ("sync", 3), ("sync", 4), ("sync", 6), ("write", 1), ("write", 4), ("write", 5), ("write", 8):
    row(name, k, "--service")
