"""One circuit sends DISCOVERs and Solicits as fast as it can, while the 15 others behind the same relay renew a lease of each protocol
20 times, each sending each renewal once: all 600 are acknowledged. Before and after that the flooding circuit's sockets have had more
than they hold."""
import subprocess
import sys

from client import DISCOVER, LOOPBACK, REQUEST, Server, frame, frame6, select
from stepped_service import PORT, circuits_of, wanted
from udp_sockets import sockets

ROUNDS = 20
server = Server("accessd", "config.toml", "leases", "--service", "--format", "--port", str(PORT))
flooder, *others = circuits_of(16)
leases = []
for circuit in others:
    offer = circuit.exchange(DISCOVER, 1)
    leases.append((circuit.exchange(REQUEST, 1, select(offer)), circuit.exchange6("REQUEST6", 1, "ours")))


def dropped():
    """How many datagrams the system has dropped at the flooding circuit's two sockets."""
    now = sockets()
    return [now.at((LOOPBACK, PORT + rest))[1] for rest in (0, 1)]


def renewals():
    """How many of the renewals of a round are acknowledged, with the address that they are for."""
    for circuit, (lease, lease6) in zip(others, leases):
        circuit.send(frame(REQUEST, 1, ciaddr=lease.address))
        circuit.send6(frame6("RENEW6", 1, "ours", str(lease6.address)))
    count = 0
    for circuit, held in zip(others, leases):
        for receive, lease in zip((circuit.receive, circuit.receive6), held):
            count += str(wanted(receive())) == str(lease)
    return count


flood = subprocess.Popen([sys.executable, "flood.py", str(flooder.port)])
while 0 in dropped():
    pass
before = dropped()
print(sum(renewals() for _ in range(ROUNDS)), "of", 2 * ROUNDS * len(others))
print("more was dropped of both:", all(old < new for old, new in zip(before, dropped())), "the flood goes on:", flood.poll() is None)
flood.kill()
flood.wait()
print(server.stop())
