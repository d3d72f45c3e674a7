"""How many exchanges end in a second with each server, how long one waits, and what processor time and memory it takes, for
scripts/measure/peers: the same work for each of them in turn, several times."""
import statistics
import subprocess
import tempfile

from bench import dying_with_us, quietest
from operator_script import Refused
from peers_network import Network
from peers_servers import PORT, ROOMY_POOL, Run

# what the clients do, in words and as peers_load names it
WORKS = {
    "offer": ("DISCOVER, OFFER", "Solicit, Advertise"),
    "lease": ("four messages, a lease", "four messages, a lease"),
    "fresh": ("the same of a new client, and RELEASE", "the same of a new client, and Release"),
    "renew": ("a renewal", "a renewal"),
}
# circuits, clients on each, and how many of them all wait for an answer at a time
CELLS = ((1, 1, 1), (1, 16, 16), (16, 1, 1), (16, 16, 16))
# a load that takes longer has failed
LIMIT = 60


class Load:
    """The clients of one run."""

    def __init__(self, program, network, server, protocol, **words):
        where = network.relays if server.speaks == "relay" else network.server
        words = {"protocol": protocol, "as": server.speaks, "port": PORT, **words}
        command = Network.inside(where, [program, *(f"{name}={value}" for name, value in words.items())])
        self.process = subprocess.Popen(command, stdout=subprocess.PIPE, stderr=subprocess.PIPE, text=True, preexec_fn=dying_with_us(1))

    def line(self):
        """The next line that it writes, in words."""
        return self.process.stdout.readline().split()

    def end(self):
        """Waits for its end, and returns the words of its last line."""
        try:
            text, fault = self.process.communicate(timeout=LIMIT)
        except subprocess.TimeoutExpired:
            self.process.kill()
            self.process.communicate()
            raise Refused(5, "the clients do not end") from None
        if self.process.returncode != 0:
            raise Refused(5, fault.strip() or f"the clients end with {self.process.returncode}")
        return text.splitlines()[-1].split() if text.strip() else []


def measured(load, run):
    """One run of a load that counts for a while: exchanges a second, waits, microseconds of the server's processor for an exchange
    and KiB of memory."""
    load.line()
    before = run.processor_time()
    words = load.line()
    busy = run.processor_time() - before
    load.end()
    if not words:
        raise Refused(5, f"{run.server.name} (DHCPv{run.protocol}) does not answer: {run.said()}")
    done, seconds, median, hundredth, refused, silent = map(float, words[1:7])
    return {"rate": done / seconds, "median": median, "hundredth": hundredth, "busy": busy / max(done, 1) * 1e6,
            "memory": run.memory(), "refused": refused, "silent": silent}


def measure(bench, server, protocol, work, cell):
    """A run in which the host took next to nothing away."""
    return quietest(lambda: measured_once(bench, server, protocol, work, cell))


def measured_once(bench, server, protocol, work, cell):
    circuits, clients, outstanding = cell
    with tempfile.TemporaryDirectory(dir=bench.folder) as folder:
        with Run(server, bench.network, folder, protocol, circuits, ROOMY_POOL) as run:
            load = Load(bench.load, bench.network, server, protocol, what=work, circuits=circuits, clients=clients,
                        outstanding=outstanding, warm=bench.warm, seconds=bench.seconds)
            return measured(load, run)


def summed(rows, of_first):
    """The medians of several runs, the ratio of this server's rates to the first server's in the same turn, and the least and
    greatest of these."""
    found = {name: statistics.median(row[name] for row in rows) for name in rows[0]}
    ratios = sorted(row["rate"] / first["rate"] for row, first in zip(rows, of_first))
    found.update(ratio=statistics.median(ratios), least=ratios[0], most=ratios[-1])
    return found


def cell_of(bench, protocol, work, cell):
    """The figures of each server for one kind of exchange."""
    servers = [server for server in bench.servers if protocol in server.protocols]
    rows = {server.name: [] for server in servers}
    for _ in range(bench.rounds):
        for server in servers:
            rows[server.name].append(measure(bench, server, protocol, work, cell))
    first = rows[servers[0].name]
    return {name: summed(found, first) for name, found in rows.items()}


def write(figures, protocol, work, cell):
    circuits, _, outstanding = cell
    print(f"\nDHCPv{protocol}, {WORKS[work][protocol == 6]}; circuits: {circuits}, waiting at a time: {outstanding}")
    print(f"{'':20} a second    ratio  (of runs)      wait us  at 99 %   processor us  memory KiB  refused  silent")
    for name, row in figures.items():
        spread = f"({row['least']:.2f} to {row['most']:.2f})"
        print(f"{name:20} {row['rate']:8.0f} {row['ratio']:8.2f}  {spread:16} {row['median']:8.0f} {row['hundredth']:8.0f}"
              f" {row['busy']:14.1f} {row['memory']:11.0f} {row['refused']:8.0f} {row['silent']:7.0f}", flush=True)


def rates(bench):
    """All figures, by protocol, work and cell."""
    found = {}
    for protocol in (4, 6):
        for work in bench.works:
            for cell in bench.cells:
                found[protocol, work, cell] = cell_of(bench, protocol, work, cell)
                write(found[protocol, work, cell], protocol, work, cell)
    return found
