"""The system's clock is past the last moment of leases when a service starts: a line says that the clock stands still, once, and
clients are served."""
import time

from client import DISCOVER, Circuit
from shifted_clock import Clocks
from watched_server import WatchedServer

clocks = Clocks()
clocks.set(2 ** 40 - int(time.time()) + 10, 0)
server = WatchedServer("accessd", "config.toml", "leases", "--service", "--format", env=clocks.environment())
circuit = Circuit(20000)
server.settle()
print(server.process.stderr.readline(), end="")
print(server.answer(circuit, DISCOVER, 1))
server.process.kill()
print(repr(server.process.communicate()[1]))
