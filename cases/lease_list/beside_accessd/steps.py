"""While clients of both protocols ask for leases, renew them and give them back: a listing has every lease that a
client holds from before it until after it, and none but those that were acknowledged or whose acknowledgement is on its
way; once the clients rest, it has exactly theirs. A region that is written all the time is listed as busy (docs/FORMATS.md), and
then the next listing counts."""
import ipaddress
import json
import random
import subprocess
import time

import load as traffic
from client import Circuit, Server
from load import Client4, Client6, Load, run

PORT = 24000
FEW = 9
COMMAND = ["leases", "config.toml", "--disk", "leases", "--json"]
# how many listings count, how many there may be until then, so that at most every second one is busy, and the status of one
# that has not every region
LISTINGS, MOST, NOT_ALL = 40, 80, 4
# what stands before a client's number in its identifier (cases/README.md): Ethernet and 02 00, a DUID with these
IDENTIFIERS = {Client4: "010200", Client6: "000300010200"}


def lease(client, address):
    """A client's lease as a listing names it."""
    return IDENTIFIERS[type(client)] + f"{client.number:08x}", str(ipaddress.ip_address(address))


def held(clients):
    return {(lease(client, client.held), client.releases) for client in clients if client.held}


def leased():
    """What was ever acknowledged."""
    return {lease(client, address) for client in clients for address in client.leased}


def listed(text):
    lines = [json.loads(line) for line in text.splitlines()]
    return {(line["client"], line["address"]) for line in lines if line["state"] == "bound"}


random.seed(7)
# fewer clients than addresses, so that every message is answered, and every answer is waited for
traffic.PATIENCE = 10
server = Server("accessd", "config.toml", "leases", "--format", "--port", str(PORT))
circuit = Circuit(PORT)
loads = [Load(Client4, circuit.send, circuit.receive), Load(Client6, circuit.send6, circuit.receive6)]
for load in loads:
    load.clients = load.clients[:12]
clients = [client for load in loads for client in load.clients]
run(loads, 0.5)
listings, every = 0, set()
for _ in range(MOST):
    if listings == LISTINGS:
        break
    before = held(clients)
    listing = subprocess.Popen(COMMAND, stdout=subprocess.PIPE, text=True)
    while listing.poll() is None:
        run(loads, 0.001)
    text = listing.stdout.read()
    if listing.returncode == NOT_ALL and '"state":"busy"' in text:
        continue
    if listing.returncode != 0:
        print("status", listing.returncode, text)
    now = listed(text)
    steady = {each for each, _ in before & held(clients)}
    if steady - now:
        print("not listed, though held:", steady - now)
    waiting = {IDENTIFIERS[type(client)] + f"{client.number:08x}" for client in clients if client.waits_for and client.asks == "take"}
    unknown = {each for each in now - leased() if each[0] not in waiting}
    if unknown:
        print("listed, though neither acknowledged nor asked for:", unknown)
    every |= now
    listings += 1
# so many hold a lease that the comparison says something
end = time.monotonic() + 10
while len(held(clients)) < FEW and time.monotonic() < end:
    run(loads, 0.001)
# what is on its way arrives, without new messages
end = time.monotonic() + 0.5
while time.monotonic() < end:
    for load in loads:
        while (answer := load.receive(0.01)) is not None:
            load.take(answer)
now = listed(subprocess.run(COMMAND, capture_output=True, text=True).stdout)
theirs = {each for each, _ in held(clients)}
if every - leased():
    print("listed, though never acknowledged:", every - leased())
print(listings, "listings,", "exactly what is held" if now == theirs and len(now) >= FEW else f"{now - theirs} and {theirs - now}")
server.kill()
