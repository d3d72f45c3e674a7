"""A save of circuit c1 fails, so that it closes. A minute later it is tried again, and is open: its clients get leases. The offer that
a client of c0 had meanwhile is still its own. Then c1's region is damaged, and a save fails once more: it stays closed, which is said
once, and each report says that it is closed, until the region is mended. Minutes pass by a clock that this case sets."""
import os

from client import DISCOVER, RELEASE, REQUEST, Circuit, select
from regions import REGION, SLOTS_AT
from shifted_clock import Clocks
from watched_server import WatchedServer

CALLS = ("write", "sync")
clocks = Clocks()
server = WatchedServer("accessd", "config.toml", "leases", "--service", "--format", "--report", "60", env=clocks.environment())
first, second = Circuit(20000), Circuit(20004)
minutes = 0


def said(end):
    """Prints what is said of circuits up to a line that ends so."""
    line = ""
    while not line.endswith(end):
        line = server.process.stderr.readline().rstrip("\n")
        if line.startswith("c1 "):
            print(line)


def pass_a_minute(end):
    global minutes
    minutes += 1
    clocks.set(60 * minutes, 60 * minutes)
    said(end)


def lease(client):
    """What a client of c1 gets when it asks for a lease."""
    offer = server.answer(second, DISCOVER, client)
    return offer and server.answer(second, REQUEST, client, select(offer))


server.settle()
server.answer(second, DISCOVER, 1)
# the relay's send is the first call
server.watch.fail(1, CALLS)
print(lease(1), lease(2))
said("that save")
clocks.set(30, 30)
offer = server.answer(first, DISCOVER, 1)
pass_a_minute("region holds")
print(lease(1), server.answer(second, RELEASE, 1))
print(server.answer(first, REQUEST, 1, select(offer)))

with open("leases", "r+b") as file:
    whole = os.pread(file.fileno(), REGION, REGION)
    server.watch.fail(1, CALLS)
    print(lease(2))
    said("that save")
    os.pwrite(file.fileno(), bytes(REGION - SLOTS_AT), REGION + SLOTS_AT)
    pass_a_minute("read or written")
    pass_a_minute("c1 is closed")
    print(lease(2))
    os.pwrite(file.fileno(), whole, REGION)
pass_a_minute("region holds")
print(lease(2))
server.kill()
