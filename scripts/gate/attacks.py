"""Kinds of attack on the ports of an `accessd`, for scripts/gate/flood, and what sends them. Each kind is a generator of a port
and a datagram to it, as random.Random picks them."""
import itertools
import pathlib
import random
import socket
import time

from client import DISCOVER, LOOPBACK, frame
from mutations import mutated, relayed

# no relay has this address, though it may have this port
STRANGER = "127.0.0.2"
# the length of a random datagram: the relay takes 1024 bytes and the server 1280
LONGEST = 1300
# datagrams between two looks at the sockets, and how many bytes may wait in one of them for the next ones to be sent
BATCH, ROOM = 200, 60_000
# the first of the clients that flood a circuit
FLOODING = 0x10000


class Target:
    """The ports of a server: those of its first circuit and those where it listens by protocol, and its relay's. Each further
    circuit has those that come four later."""

    def __init__(self, circuit, listen, relay):
        self.circuit, self.listen, self.relay = circuit, listen, relay
        self.ports = [*circuit.values(), *listen.values(), relay]

    def queues(self):
        """The bytes that wait at each port, and how many datagrams were lost there, where the system tells."""
        try:
            lines = pathlib.Path("/proc/net/udp").read_text().splitlines()[1:]
        except OSError:
            return []
        names = {f"0100007F:{port:04X}" for port in self.ports}
        rows = [fields for fields in map(str.split, lines) if fields[1] in names]
        return [(int(fields[4].split(":")[1], 16), int(fields[-1])) for fields in rows]

    def has_room(self):
        return all(waiting <= ROOM for waiting, _ in self.queues())

    def lost(self):
        return sum(lost for _, lost in self.queues())


def noise(pick, target):
    """Random bytes to each port."""
    while True:
        yield pick.choice(target.ports), pick.randbytes(pick.randrange(LONGEST + 1))


def faulty(pick, target):
    """Clients' frames with faults, some of them to the other protocol's port."""
    while True:
        protocol, data = mutated(pick, 0)
        yield target.circuit[protocol if pick.random() < 0.9 else 10 - protocol], data


def strange(pick, target):
    """What a relay sends to the server, a server to the relay, and a client to neither, most of it with faults."""
    while True:
        kind = pick.randrange(3)
        protocol, data = relayed(pick, 0, kind) if kind else mutated(pick, 0)
        yield target.relay if kind == 2 else target.listen[protocol], data


def discovers(_, target):
    """Every other one by a client of which the server knows nothing, the others by eight clients in turn."""
    for number in itertools.count():
        client = FLOODING + (number if number % 2 else number % 16)
        yield target.circuit[4], frame(DISCOVER, client, xid=number)


def discovers_at_two(_, target):
    """The same at the first two circuits in turn."""
    for number, (port, data) in enumerate(discovers(_, target)):
        yield port + 4 * (number // 2 % 2), data


def everything(pick, target):
    """Some of each again and again, all made before the first is sent. None of it leases."""
    kinds = noise(pick, target), strange(pick, target), discovers(pick, target)
    return itertools.cycle([next(kind) for _ in range(200) for kind in kinds])


def send_all(kind, target, seed, count, seconds, is_paced):
    """Sends so many datagrams of a kind in these seconds at least, from an address of its own and from one with the relay's
    port. Where it is paced it sends no more than the sockets have room for."""
    pick = random.Random(seed)
    ends = [socket.socket(socket.AF_INET, socket.SOCK_DGRAM) for _ in range(2)]
    ends[1].setsockopt(socket.SOL_SOCKET, socket.SO_REUSEADDR, 1)
    ends[1].bind((STRANGER, target.relay))
    began = time.monotonic()
    for number, (port, data) in enumerate(itertools.islice(kind(pick, target), count)):
        if number % BATCH == 0:
            time.sleep(max(0, began + seconds * number / count - time.monotonic()))
            while is_paced and not target.has_room():
                time.sleep(0.0002)
        ends[number % 2].sendto(data, (LOOPBACK, port))
