"""A start over a file of format 1 writes back both regions and syncs once; then it moves each region by four calls. Each of the first
seven calls fails in turn. A region that could not be written back is written back again, by itself, before it is read, so that
nobody notices. Where a call of the move fails circuit `a` is closed, `a1` is moved and served, nothing of the file's leases is lost,
and the next start serves `a` too. It moves the region, but after the last call: then byte 8192 reads 2 already, and is written back.
At last the system lets no byte be written from 57344 on: region 1 can't be written back. The file is that of the case
a_file_of_format_1, which tries a start for turns."""
import resource
import shutil
import subprocess

from client import REQUEST, Circuit, address, frame
from watched_server import WatchedServer

CALLS = ("write", "sync")
circuit = Circuit(20000)


def listed():
    """The leases, without their ends, which a renewal changes."""
    lines = subprocess.run(["leases", "config.toml", "--disk", "leases", "--at", "4103472461"],
                           capture_output=True, text=True, check=True).stdout.splitlines()
    return [line.split()[:4] for line in lines]


def show(server):
    """What it says until it serves, and what becomes of a renewal."""
    lines = [server.first_line]
    while not lines[-1].startswith("serving "):
        lines.append(server.process.stderr.readline().rstrip("\n"))
    # the clock of the file is that of 2100
    print(*(line for line in lines if ": its clock is " not in line), sep="\n")
    circuit.send(frame(REQUEST, 1, ciaddr=address("10.0.0.10")))
    server.settle()
    print(circuit.receive(0))


def show_next():
    print("the same leases:", listed() == before)
    server = WatchedServer("accessd", "config.toml", "leases", "--service")
    show(server)
    server.kill()


shutil.copy("leases.format1", "leases")
before = listed()
for k in range(1, 8):
    shutil.copy("leases.format1", "leases")
    server = WatchedServer("accessd", "config.toml", "leases", "--service", fails=(k, CALLS))
    print("calls:", server.watch.since(0))
    show(server)
    server.kill()
    show_next()

shutil.copy("leases.format1", "leases")
print("no byte from 57344 on")
# without restore_signals the signal of a file that may not grow ends the server
server = WatchedServer("accessd", "config.toml", "leases", "--service", restore_signals=False,
                       preexec_fn=lambda: resource.setrlimit(resource.RLIMIT_FSIZE, (57344, 57344)))
show(server)
server.kill()
print("the same leases of a1:", listed()[-2:] == before[-2:])
server = WatchedServer("accessd", "config.toml", "leases", "--service")
show(server)
server.kill()
