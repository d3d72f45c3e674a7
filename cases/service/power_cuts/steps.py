"""A call of an opening or of a save fails, the program goes on, another one is started over what reads give, and then the machine
loses power before any of its calls. The disk has each page that a sync wrote, or that was waiting for one, and none that was waiting
when a sync failed (`scripts/lib/page_cache.py`). Whatever was acknowledged by then is listed there, and not twice.

First a file of format 1 is moved, where each of the calls fails in turn; then the saves of a service, each of the calls of two of
them."""
import json
import os
import shutil
import subprocess

from client import DISCOVER, REQUEST, Circuit, address, frame, select
from page_cache import CacheWatch, PageCache
from watched_server import WatchedServer

FORMAT1 = f"{os.environ['ROOT']}/cases/accessd/a_file_of_format_1"
FAILING = ("write", "sync", "sync all")
# the clock of the file of format 1
AT = ("--at", "4103472461")


def listed(config, image, at):
    """The leases that a file with these bytes has, by circuit and address."""
    with open("image", "wb") as file:
        file.write(image)
    done = subprocess.run(["leases", config, "--disk", "image", "--json", *at], capture_output=True, text=True)
    lines = [json.loads(line) for line in done.stdout.splitlines()]
    return [(line["circuit"], line["address"]) for line in lines if line["state"] == "bound"]


def lost(cache, config, at=()):
    """How many cuts there were, and how many of them lose a lease that was acknowledged, or have one twice."""
    count, bad, seen = 0, 0, {}
    for least, most, acknowledged in cache.cuts:
        for image in (least, most):
            count += 1
            if image not in seen:
                seen[image] = listed(config, image, at)
            found = seen[image]
            bad += not set(acknowledged) <= set(found) or len(found) != len(set(found))
    return count, bad


def started(cache, config, *words, fails=None):
    return WatchedServer("accessd", config, "leases", "--service", *words, watch=CacheWatch(cache, ("send", "look")), fails=fails)


def serve(server, cache, requests):
    """Has each of these answered, and notes what is acknowledged."""
    for circuit, id, ask in requests:
        answer = ask(server, circuit)
        if str(answer).startswith("ACK"):
            cache.acknowledged.append((id, ".".join(map(str, answer.address))))


def renewal(held):
    def ask(server, circuit):
        circuit.send(frame(REQUEST, 1, ciaddr=address(held)))
        server.settle()
        return circuit.receive(0)
    return ask


def lease(client):
    def ask(server, circuit):
        offer = server.answer(circuit, DISCOVER, client)
        return offer and server.answer(circuit, REQUEST, client, select(offer))
    return ask


first, second = Circuit(20000), Circuit(20004)
config1 = f"{FORMAT1}/config.toml"
asked = [(first, "a", renewal("10.0.0.10")), (second, "a1", lease(9)), (first, "a", lease(8))]
total = [0, 0]
for k in range(1, 15):
    shutil.copy(f"{FORMAT1}/leases.format1", "leases")
    cache = PageCache("leases")
    server = started(cache, config1, fails=(k, FAILING))
    server.settle()
    serve(server, cache, asked)
    server.kill()
    server = started(cache, config1)
    server.settle()
    serve(server, cache, asked)
    server.kill()
    cache.note_cut()
    for place, value in enumerate(lost(cache, config1, AT)):
        total[place] += value
print("a move: cuts:", total[0] > 300, "acknowledged by the last:", len(cache.cuts[-1][2]) > 2, "that lose or double a lease:", total[1])

total = [0, 0]
for k in range(1, 13):
    if os.path.exists("leases"):
        os.unlink("leases")
    cache = PageCache("leases")
    server = started(cache, "config.toml", "--format")
    server.settle()
    serve(server, cache, [(first, "c0", lease(1)), (second, "c1", lease(1))])
    server.watch.fail(k, FAILING)
    serve(server, cache, [(first, "c0", lease(2)), (second, "c1", lease(2)), (first, "c0", lease(3)), (second, "c1", lease(3))])
    server.kill()
    server = started(cache, "config.toml")
    server.settle()
    serve(server, cache, [(first, "c0", lease(4)), (second, "c1", lease(4)), (first, "c0", lease(2))])
    server.kill()
    cache.note_cut()
    for place, value in enumerate(lost(cache, "config.toml")):
        total[place] += value
print("saves: cuts:", total[0] > 300, "acknowledged by the last:", len(cache.cuts[-1][2]) > 5, "that lose or double a lease:", total[1])
