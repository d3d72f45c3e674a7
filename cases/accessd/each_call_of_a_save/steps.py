"""What the server asks of the system, in order. A file that is made is lengthened and synced, and so is its folder; each
region is formatted by two writes, each with a sync, and is written back before the first of these, since it was in doubt; the last
sync is that of an opening, for all regions; a lease is saved by three writes, each with a sync, before it is
acknowledged, but the first save of a slot after the formatting has no gate to close, and no first write (docs/FORMATS.md,
The disk). Where one of
these calls fails, no acknowledgement is sent, and the circuit is closed: each call fails once where turns are made and once in a
service, which says at once that it is closed."""
from client import DISCOVER, REQUEST, Circuit, select
from watched_server import WatchedServer

circuit = Circuit(20000)


def started(*kind):
    server = WatchedServer("accessd", "config.toml", "leases", "--format", *kind)
    return server.watch, server


def rest(server):
    """What a service says of closed circuits, or why datagrams were dropped by the counts at the end."""
    if server.is_service:
        return [line for line in server.report().splitlines() if " closed: " in line]
    return server.counts().splitlines()[1:]


def request(proto, offer):
    """Asks for a lease, and returns the answer and the calls until the server waits again."""
    count = len(watch.calls)
    if proto == 4:
        answer = server.answer(circuit, REQUEST, 1, select(offer))
    else:
        answer = server.answer6(circuit, "REQUEST6", 1, "ours")
    return f"{answer} after: {watch.since(count)}"


watch, server = started()
print("opening:", watch.since(0))
count = len(watch.calls)
offer = circuit.exchange(DISCOVER, 1)
print("offer:", watch.since(count))
for proto in (4, 6, 4):
    print(request(proto, offer))
count = len(watch.calls)
print(circuit.exchange6("RELEASE6", 1, "ours", "2001:db8::100"), "after:", watch.since(count))
server.kill()

for k in range(1, 7):
    for proto in (4, 6):
        kind = ("--service",) if (proto == 4) == (k % 2 == 0) else ()
        watch, server = started(*kind)
        offer = circuit.exchange(DISCOVER, 1)
        request(proto, offer)
        # the relay's send is the first call
        watch.fail(1 + k)
        print(request(proto, offer))
        print(server.answer6(circuit, "SOLICIT6", 1), rest(server))
