"""A lease is kept until 600 seconds from now, at bytes 16 to 23 of the half of its slot that counts, which is the second
after one save (docs/FORMATS.md, The disk). Once these bytes are of a second that is past, the pool's only address is another
client's; while they are of a second that is to come, it is nobody else's."""
import time

from client import DISCOVER, REQUEST, Circuit, Server, select
from watched_server import WatchedServer

END = 16384 + 256 + 16

circuit = Circuit(20000)
server = Server("accessd", "config.toml", "leases", "--format")
began = int(time.time())
print(circuit.exchange(REQUEST, 1, select(circuit.exchange(DISCOVER, 1))))
server.kill()
with open("leases", "rb") as file:
    file.seek(END)
    end = int.from_bytes(file.read(8), "big")
print(began + 600 <= end <= int(time.time()) + 600)
for seconds in (60, -1):
    with open("leases", "r+b") as file:
        file.seek(END)
        file.write((int(time.time()) + seconds).to_bytes(8, "big"))
    server = WatchedServer("accessd", "config.toml", "leases")
    print(server.answer(circuit, DISCOVER, 2))
    server.kill()
