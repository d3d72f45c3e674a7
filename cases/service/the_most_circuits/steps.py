"""A service of 1,024 circuits behind eight relays, all that a configuration may have, to the last circuit: a process that may have as
many files open as it asks for (cases/service/too_few_files), 2,074, serves them. The file of leases is written here at once: to format
it takes 2,048 syncs."""
import resource
from pathlib import Path

import regions
from client import DISCOVER, Circuit, Server

CIRCUITS, FILES = 1024, 2074
PORT = 23000


def limit():
    resource.setrlimit(resource.RLIMIT_NOFILE, (FILES, FILES))


Path("leases").write_bytes(regions.formatted() * CIRCUITS)
server = Server("accessd", "config.toml", "leases", "--service", "--port", str(PORT), preexec_fn=limit)
print(server.first_line.replace(", ".join(f"c{number}" for number in range(CIRCUITS)), "c0, .., c1023"))
for number in (0, CIRCUITS - 1):
    circuit = Circuit(PORT + 4 * number)
    print(circuit.exchange(DISCOVER, 1), "and", circuit.exchange6("SOLICIT6", 1))
print(server.stop())
