"""`accessd` is killed while FILE is replaced by a copy of itself: `serve` does not start it again over the other file, and ends with 4.
Where `accessd` is not killed it notices, and `serve` ends with 5 as it does."""
import os
import shutil
import signal
import subprocess

from client import DISCOVER, Circuit

SERVE = f"{os.environ['ROOT']}/scripts/operate/serve"


def started(*words):
    server = subprocess.Popen([SERVE, *words, "config.toml", "leases"], stderr=subprocess.PIPE, text=True)
    print(server.stderr.readline(), end="")
    circuit = Circuit(20000)
    print(circuit.exchange(DISCOVER, 1))
    circuit.close()
    return server


def replace():
    shutil.copy("leases", "copy")
    os.rename("copy", "leases")


server = started("--new")
with open(f"/proc/{server.pid}/task/{server.pid}/children") as children:
    accessd = int(children.read())
os.kill(accessd, signal.SIGSTOP)
replace()
os.kill(accessd, signal.SIGKILL)
print(server.communicate()[1], end="")
print(server.returncode)

server = started()
replace()
print(*(line for line in server.communicate()[1].splitlines() if line.startswith("leases")), sep="\n")
print(server.returncode)
