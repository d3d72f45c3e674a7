"""A file that an earlier version wrote, `leases.format1`, of which the first start loses nothing.

It was written by `accessd` of commit cfb0ff6, the last one before format 2, over this configuration, `--format` first. Its
clock was set 2307744000 seconds ahead, to 2100, so that the leases outlast every run of this case: the clock of a circuit
does not go back. The clients, by their numbers: 1 and 2 got addresses of `a` by DHCPv4, 3 too and declined its own, the
same by DHCPv6, then 1 renewed both leases; 4 got an address of `a1` by DHCPv4 and renewed it, 5 and 6 got one by DHCPv6,
and 6 released its own. `a` was saved an even number of times and has its book in bank 0, `a1` in bank 1.

The first lines of `output` are what `leases` of that commit wrote for the file."""
import shutil
import subprocess

from client import DISCOVER, REQUEST, Circuit, address, frame, select
from watched_server import WatchedServer

# the clock of `a`
AT = "4103472461"


def content(path="leases"):
    with open(path, "rb") as file:
        return file.read()


def listed(*words):
    return subprocess.run(["leases", "config.toml", "--disk", "leases", "--at", AT, *words],
                          capture_output=True, text=True, check=True).stdout


def show_start():
    """What a run of one turn writes before its counts, but for the clocks, which are ahead of the system's."""
    command = ["accessd", "config.toml", "--disk", "leases", "--turns", "1"]
    lines = subprocess.run(command, capture_output=True, text=True, check=True).stderr.splitlines()[:-1]
    print(*(line for line in lines if ": its clock is " not in line), sep="\n")


shutil.copy("leases.format1", "leases")
before, as_json = listed(), listed("--json")
print(before + as_json.replace("{", "(").replace("}", ")"), end="")
print("nothing is written by a listing:", content() == content("leases.format1"))
show_start()
print("the same leases:", listed() == before and listed("--json") == as_json)
moved = content()
show_start()
print("nothing is written by a second start:", content() == moved)
print("the old banks are still there:", moved[:8192] == content("leases.format1")[:8192])

server = WatchedServer("accessd", "config.toml", "leases")
circuit, other = Circuit(20000), Circuit(20004)
circuit.send(frame(REQUEST, 1, ciaddr=address("10.0.0.10")))
print(circuit.receive())
print(circuit.exchange6("RENEW6", 2, "ours", "2001:db8::101"))
print("of four addresses two are leased, and one was declined")
offer = circuit.exchange(DISCOVER, 7)
print(circuit.exchange(REQUEST, 7, select(offer)))
print(server.answer(circuit, DISCOVER, 8))
print("the first address that was not leased, and the one that was released")
print(other.exchange(DISCOVER, 7))
print(other.exchange6("SOLICIT6", 7))
server.kill()
print("what the listing has now and had not before")
print(*(line for line in listed().splitlines() if line not in before.splitlines()), sep="\n")
