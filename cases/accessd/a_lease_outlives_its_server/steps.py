"""A lease, of which the server that is killed and started again over the same file still knows. Its first save writes
the second half of the slot and leaves the first one as it was formatted; the save of its renewal, the first half, with
the sequence after that (docs/FORMATS.md, The disk)."""
from client import DISCOVER, REQUEST, Circuit, Server, reboot, select
from watched_server import WatchedServer

FIRST, SECOND = 16384, 16640


def half(at):
    """Gate, state, length and sequence, IAID, by how much the end is after the clock, and where the key stands."""
    with open("leases", "rb") as file:
        half = file.read()[at:at + 256]
    clock, until = (int.from_bytes(part, "big") for part in (half[8:16], half[16:24]))
    return half[:4].hex(), half[4:8].hex(), until - clock, half[32:40].hex()


circuit = Circuit(20000)
server = Server("accessd", "config.toml", "leases", "--format")
offer = circuit.exchange(DISCOVER, 1)
lease = circuit.exchange(REQUEST, 1, select(offer))
print(lease)
server.kill()
print(*half(FIRST))
print(*half(SECOND))
server = WatchedServer("accessd", "config.toml", "leases")
print(circuit.exchange(REQUEST, 1, reboot(lease.address)))
print(*half(FIRST))
print(*half(SECOND))
print(server.answer(circuit, DISCOVER, 2))
server.kill()
