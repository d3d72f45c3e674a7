"""The system lets the server write no byte from 32768 on, where region 1 begins: circuit `a1` sends nothing and is
closed for both protocols, as a line says at once, and circuit `a` is served. So it is of a service too, which has no counts at its
end."""
import resource

from client import DISCOVER, REQUEST, Circuit, select
from watched_server import WatchedServer

first, second = Circuit(20000), Circuit(20004)


def said_by(*kind):
    """Shows the answers of a server of this kind, and returns what it says of closed circuits, and at last."""
    # without it the signal of a file that may not grow ends the server
    server = WatchedServer("accessd", "config.toml", "leases", "--format", *kind, restore_signals=False)
    offers = [circuit.exchange(DISCOVER, 1) for circuit in (first, second)]
    resource.prlimit(server.process.pid, resource.RLIMIT_FSIZE, (32768, 32768))
    for circuit, offer in zip((second, first), offers[::-1]):
        print(server.answer(circuit, REQUEST, 1, select(offer)))
    for circuit in (second, first):
        print(server.answer6(circuit, "REQUEST6", 1, "ours"))
    said = server.report().splitlines()
    return [line for line in said if " closed: " in line], said[-3:]


closed, counts = said_by()
print(*closed, *counts, sep="\n")
closed, _ = said_by("--service")
print(*closed, sep="\n")
