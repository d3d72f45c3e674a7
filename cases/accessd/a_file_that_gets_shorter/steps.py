"""The file is cut to no bytes while the server runs. A save writes its slot past the end all the same, and succeeds;
opened anew, a file without a whole region is refused."""
import os
from client import DISCOVER, REQUEST, Circuit, Server, select

server = Server("accessd", "config.toml", "leases", "--format")
circuit = Circuit(20000)
offer = circuit.exchange(DISCOVER, 1)
os.truncate("leases", 0)
print(circuit.exchange(REQUEST, 1, select(offer)))
server.kill()
print(Server("accessd", "config.toml", "leases").first_line)
