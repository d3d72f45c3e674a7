"""Whichever of the standard streams are closed, `check` says by its status that CONFIG may be served, and `serve` makes the file, serves
a client, and ends when it is told to."""
import itertools
import os
import subprocess

from client import DISCOVER, Circuit, frame

SCRIPTS = f"{os.environ['ROOT']}/scripts/operate"
CLOSED = ("<&-", ">&-", "2>&-")


def started(script, closed):
    """A script over this CONFIG and a new file, without these streams."""
    for name in ("leases", "leases.config"):
        if os.path.exists(name):
            os.unlink(name)
    words = f'exec "{SCRIPTS}/{script}" --new config.toml leases {" ".join(closed)}'
    return subprocess.Popen(["bash", "-c", words], stdin=subprocess.DEVNULL, stdout=subprocess.DEVNULL, stderr=subprocess.DEVNULL)


for count in range(4):
    for closed in itertools.combinations(CLOSED, count):
        print(*closed, "check:", started("check", closed).wait(60), end=" ")
        server = started("serve", closed)
        circuit = Circuit(20000)
        answer = None
        while answer is None:
            # it may not have its sockets yet
            circuit.send(frame(DISCOVER, 1))
            answer = circuit.receive(0.2)
        circuit.close()
        server.terminate()
        print(answer, "serve:", server.wait(60))
