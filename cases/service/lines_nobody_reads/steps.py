"""Nobody reads the two pipes that a service writes its lines to, which hold a few thousand bytes. It serves on: a client gets a lease
and releases it a hundred times, and a hundred reports are due meanwhile, by a clock that this case sets. Once somebody reads, it says
how many lines were dropped. What came is whole lines."""
import fcntl
import re
import subprocess

from client import DISCOVER, RELEASE, REQUEST, Circuit, frame, select
from shifted_clock import Clocks
from watched_server import WatchedServer

SET_PIPE_SIZE, SIZE, ROUNDS = 1031, 8192, 100
LEASE = re.compile(r"\d+ a 10\.0\.0\.10 (leased|released) .*")
REPORT = re.compile(r"\d+ datagrams received, .*|\d+ dropped \(24\): .*|a: \d+ dropped \(24\)|a: each of its .*")
DROPPED = re.compile(r"\d+ lines were dropped: nobody read standard output or error")


def read(stream, until):
    """The lines of a stream up to the first one of this form."""
    lines = []
    while not lines or not until.fullmatch(lines[-1]):
        lines.append(stream.readline().rstrip("\n"))
    return lines


clocks = Clocks()
server = WatchedServer("accessd", "config.toml", "leases", "--service", "--format", "--leases", "--report", "1",
                       env=clocks.environment(), stdout=subprocess.PIPE)
for stream in (server.process.stdout, server.process.stderr):
    fcntl.fcntl(stream, SET_PIPE_SIZE, SIZE)
circuit = Circuit(20000)
server.settle()
acknowledged = 0
for number in range(1, ROUNDS + 1):
    offer = circuit.exchange(DISCOVER, 1)
    acknowledged += str(circuit.exchange(REQUEST, 1, select(offer))).startswith("ACK")
    circuit.send(frame(RELEASE, 1, bytes([54, 4]) + offer.server, ciaddr=offer.address))
    clocks.set(number, number)
    server.settle()
print("acknowledged:", acknowledged)
# what waits is read, then the next report comes after the line of what was dropped
said = server.process.stderr.readline().rstrip("\n")
clocks.set(ROUNDS + 10, ROUNDS + 10)
lines = [said, *read(server.process.stderr, DROPPED)]
print("dropped:", int(lines[-1].split()[0]) > ROUNDS, "other lines of reports are whole:", all(map(REPORT.fullmatch, lines[:-1])))
server.process.kill()
printed = server.process.communicate()[0].splitlines()
print("leases:", 10 < len(printed) < 2 * ROUNDS, "whole:", all(map(LEASE.fullmatch, printed)))
