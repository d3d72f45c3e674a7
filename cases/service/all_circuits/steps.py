"""Each of 16 clients of either protocol of 1,024 circuits behind eight relays has a lease, and no two of a circuit have the same
address. The service is killed, and started again over the same file: it acknowledges each client's renewal, with the same address."""
import resource
import threading

from client import DISCOVER, REQUEST, Server, frame, frame6, select
from stepped_service import PORT, circuits_of, wanted

CIRCUITS, CLIENTS = 1024, 16
# two sockets of each circuit here and two at the service, and some more
FILES = 2 * CIRCUITS + 100
resource.setrlimit(resource.RLIMIT_NOFILE, (FILES, FILES))


def started(*words):
    server = Server("accessd", "config.toml", "leases", "--service", "--port", str(PORT), *words)
    # what it says meanwhile, of pools that are full, is read, so that nothing is dropped
    threading.Thread(target=server.process.stderr.read, daemon=True).start()
    print(server.first_line.replace(", ".join(f"c{number}" for number in range(CIRCUITS)), "all circuits"))
    return server


def exchanged(send, receive, frames):
    """The answers to frames, one of each circuit, all of which are sent before the first answer is read."""
    for circuit, data in zip(circuits, frames):
        send(circuit, data)
    return [wanted(receive(circuit)) for circuit in circuits]


def exchanged4(frames):
    return exchanged(lambda circuit, data: circuit.send(data), lambda circuit: circuit.receive(), frames)


def exchanged6(frames):
    return exchanged(lambda circuit, data: circuit.send6(data), lambda circuit: circuit.receive6(), frames)


def leases_of(client):
    """The leases that a client of each circuit and protocol is given."""
    offers = exchanged4(frame(DISCOVER, client) for _ in circuits)
    leases = exchanged4(frame(REQUEST, client, select(offer)) for offer in offers)
    exchanged6(frame6("SOLICIT6", client) for _ in circuits)
    return leases, exchanged6(frame6("REQUEST6", client, "ours") for _ in circuits)


def renewed(client, leases, leases6):
    """The same of what they are given when they renew these."""
    return (exchanged4(frame(REQUEST, client, ciaddr=lease.address) for lease in leases),
            exchanged6(frame6("RENEW6", client, "ours", str(lease.address)) for lease in leases6))


def addresses(answers):
    """The address of each answer for 600 seconds, None for any other answer."""
    return [answer.address if answer.lease == 600 else None for answer in answers]


server = started("--format")
circuits = circuits_of(CIRCUITS)
clients = range(1, CLIENTS + 1)
leases = {client: leases_of(client) for client in clients}
held = {client: [addresses(answers) for answers in leases[client]] for client in clients}
# by protocol and circuit, the addresses of its clients
by_circuit = [[{held[client][protocol][number] for client in clients} for number in range(CIRCUITS)] for protocol in (0, 1)]
print("leases of each protocol:", [sum(len(found - {None}) for found in each) for each in by_circuit])
server.kill()
server = started()
again = {client: [addresses(answers) for answers in renewed(client, *leases[client])] for client in clients}
print("the same after a start:", again == held)
print(server.stop())
