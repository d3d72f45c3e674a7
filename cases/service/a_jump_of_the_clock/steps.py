"""The system's clock jumps an hour ahead and back while nobody asks anything: a lease of 600 seconds does not end. Its client's renewal
is acknowledged, and its address is given to nobody else. The service says once that the clock is apart, and in each report. It
follows the system's clock where that is less than a minute apart; that shows in when a lease ends."""
import json
import re
import subprocess
import time

from client import DISCOVER, REQUEST, Circuit, frame, select
from shifted_clock import Clocks
from watched_server import WatchedServer

clocks = Clocks()
server = WatchedServer("accessd", "config.toml", "leases", "--service", "--format", "--report", "60", env=clocks.environment())
circuit = Circuit(20000)


def set_clocks(system, monotonic):
    """Sets them, and has a pass that begins then."""
    clocks.set(system, monotonic)
    server.settle()
    server.settle()


def rounded(line):
    """The same with tens of seconds."""
    return re.sub(r"\d+", lambda seconds: str(round(int(seconds[0]), -1)), line)


def renewed():
    """The answer to a renewal, and by how many seconds its lease ends later than it would by the machine's clock."""
    circuit.send(frame(REQUEST, 1, ciaddr=offer.address))
    server.settle()
    answer = circuit.receive(0)
    listed = subprocess.run(["leases", "config.toml", "--disk", "leases", "--json"], capture_output=True, text=True, check=True)
    until = json.loads(listed.stdout.splitlines()[0])["until"]
    return f"{answer}, ahead by {round((until - time.time() - answer.lease) / 10) * 10}"


offer = server.answer(circuit, DISCOVER, 1)
print(server.answer(circuit, REQUEST, 1, select(offer)))
set_clocks(3600, 0)
print(rounded(server.process.stderr.readline()), end="")
set_clocks(0, 0)
print(renewed())
print("another client:", server.answer(circuit, DISCOVER, 2))
set_clocks(-3600, 0)
print(renewed())
set_clocks(50, 0)
print(renewed())
# a minute by both, in which the system's clock goes on for an hour more
set_clocks(3720, 120)
lines = [""]
while "the system's clock" not in lines[-1]:
    lines.append(server.process.stderr.readline())
print(rounded(lines[-1]), end="")
print("in a report:", any("datagrams received" in line for line in lines))
server.kill()
