"""With --leases each lease that begins, that its client gives up or declines, or that has ended has a line, and one that is renewed
has none (docs/FORMATS.md, The sockets of `accessd`). At the start FILE has a lease of a DHCPv4 and of a DHCPv6 client, which end
in a second or two; an address that is declined is given to nobody for an hour."""
import subprocess
import time

from client import DISCOVER, REQUEST, RELEASE, Circuit, frame, select
from watched_server import WatchedServer

DECLINE = 4
began = int(time.time())
# docs/FORMATS.md, The disk: half 0 of slots 0 and 16 is bound until then, all others are free
region = bytearray(32768)
region[8192] = 2
for slot in range(32):
    region[16384 + 512 * slot] = 0xA5
for slot, key, iaid in ((0, "01020000000005", 0), (16, "00030001020000000005", 1)):
    key = bytes.fromhex(key)
    half = bytes([0xA5, 1, len(key), 0]) + iaid.to_bytes(4, "big") + bytes(8) + (began + 2).to_bytes(8, "big") + bytes(8) + key
    region[16384 + 512 * slot:16384 + 512 * slot + len(half)] = half
with open("leases", "wb") as file:
    file.write(region)

server = WatchedServer("accessd", "config.toml", "leases", "--leases", stdout=subprocess.PIPE)
circuit = Circuit(20000)
# until both have ended
time.sleep(3.2)
lease = circuit.exchange(DISCOVER, 1)
print(circuit.exchange(REQUEST, 1, select(lease)))
# renewed
print(circuit.exchange(REQUEST, 1, select(lease)))
second = circuit.exchange(DISCOVER, 2)
print(circuit.exchange(REQUEST, 2, select(second)))
circuit.send(frame(DECLINE, 2, bytes([50, 4]) + second.address))
server.settle()
circuit.send(frame(RELEASE, 1, ciaddr=lease.address))
server.settle()
circuit.exchange(REQUEST, 3, select(circuit.exchange(DISCOVER, 3)))
six = circuit.exchange6("REQUEST6", 1, "ours")
print(six)
print(circuit.exchange6("RELEASE6", 1, "ours", str(six.address)))
server.settle()
ended = int(time.time())
server.process.kill()
lines, _ = server.process.communicate()


def in_words(moment):
    """A moment of the run, or one that is so many seconds after one of the run."""
    moment = int(moment)
    for after, words in ((0, "NOW"), (600, "NOW+600"), (3600, "NOW+3600")):
        if began + after <= moment <= ended + after:
            return words
    return str(moment)


for line in lines.splitlines():
    moment, *words = line.split(" ")
    if words[-2] == "until":
        words[-1] = in_words(words[-1])
    print("SECOND 2" if int(moment) == began + 2 else in_words(moment), *words)
