"""A circuit is added to a file of one circuit, as docs/OPERATING.md says: both leases are still served, so is the new
circuit, and the new region is one that `accessd --format` makes."""
import os
import subprocess
from pathlib import Path

from client import DISCOVER, REQUEST, Circuit, Server, reboot, select

ADD = os.environ["ROOT"] + "/scripts/operate/add-regions"
REGION = 32768


def run(*words):
    done = subprocess.run(words, capture_output=True, text=True)
    print(done.returncode, done.stdout + done.stderr, end="" if done.stdout + done.stderr else "\n")


text = Path("config.toml").read_text()
Path("one.toml").write_text(text[:text.rindex("[[circuit]]")])
first, second = Circuit(20000), Circuit(20004)
server = Server("accessd", "one.toml", "leases", "--format")
lease = first.exchange(REQUEST, 1, select(first.exchange(DISCOVER, 1)))
print(lease, first.exchange6("REQUEST6", 2, "ours"), sep="; ")
# as long as the server runs
run(ADD, "leases")
server.kill()
before = Path("leases").read_bytes()
# without the region
run("accessd", "config.toml", "--disk", "leases", "--turns", "1")
run(ADD, "leases")
# with a pause its turns outlast an answer that does not come
server = Server("accessd", "config.toml", "leases", "--pause", "1")
print(server.first_line)
print(first.exchange(REQUEST, 1, reboot(lease.address)), first.exchange6("RENEW6", 2, "ours", "2001:db8::100"), sep="; ")
print(first.exchange(DISCOVER, 3), first.exchange6("SOLICIT6", 3), sep="; ")
print(second.exchange(REQUEST, 1, select(second.exchange(DISCOVER, 1))), second.exchange6("REQUEST6", 2, "ours"), sep="; ")
server.kill()
# what was added, and what stood before it
Path("leases").write_bytes(before)
run(ADD, "leases")
after = Path("leases").read_bytes()
Server("accessd", "one.toml", "other", "--format", turns=1).report()
print(after[:REGION] == before, after[REGION:] == Path("other").read_bytes())
