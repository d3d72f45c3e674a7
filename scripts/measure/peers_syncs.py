"""What each server writes and syncs for a lease, as strace sees it, for scripts/measure/peers: how many calls, and how many answers
leave while something that was written to the file of leases is not synced."""
import contextlib
import re
import shutil
import signal
import subprocess
import tempfile
import time

from bench import dying_with_us
from operator_script import Refused
from peers_rates import Load
from peers_servers import Run

CALLS = "fsync,fdatasync,sync_file_range,write,writev,pwrite64,pwritev,ftruncate,rename,sendto,sendmsg"
# exchanges of each client under strace, which makes each of them slow
ROUNDS = 20
CIRCUITS, CLIENTS = 16, 1
# seconds in which strace has to be attached
ATTACHED = 10

CALL = re.compile(r"^(?:\[pid +\d+\] )?(\w+)\((\d+)<([^>]*)>")


class Trace:
    """A server's calls: those that write and sync its file of leases, and how often it sent something after a write that was
    not synced yet."""

    def __init__(self, leases):
        self.leases = str(leases)
        self.writes = self.syncs = self.early = 0
        self.is_dirty = False

    def take(self, line):
        call = CALL.match(line)
        if not call:
            return
        name, _, path = call.groups()
        if name in ("sendto", "sendmsg"):
            # counted once for what was written, whatever is sent later
            self.early += self.is_dirty
            self.is_dirty = False
        elif path.startswith(self.leases):
            is_sync = "sync" in name
            self.syncs += is_sync
            self.writes += not is_sync
            self.is_dirty = not is_sync


@contextlib.contextmanager
def watched(run, output):
    """Writes the calls of a server to this file meanwhile."""
    words = ["strace", "-f", "-y", "-s", "0", "-e", f"trace={CALLS}", "-o", output, "-p", str(run.process.pid)]
    watcher = subprocess.Popen(words, stderr=subprocess.PIPE, text=True, preexec_fn=dying_with_us(2))
    try:
        if "attached" not in watcher.stderr.readline():
            raise Refused(5, "strace can't watch a server")
        yield
    finally:
        # what it has begun is written
        time.sleep(0.05)
        watcher.send_signal(signal.SIGINT)
        watcher.communicate(timeout=ATTACHED)


def traced(bench, server, protocol, work):
    """How many writes and syncs an acknowledged lease has, and how many answers left before what was written was synced."""
    with tempfile.TemporaryDirectory(dir=bench.folder) as folder:
        output = f"{folder}/strace"
        with Run(server, bench.network, folder, protocol, CIRCUITS) as run, watched(run, output):
            load = Load(bench.load, bench.network, server, protocol, what=work, circuits=CIRCUITS, clients=CLIENTS,
                        outstanding=CIRCUITS * CLIENTS, rounds=ROUNDS)
            acks = int(load.end()[7])
        trace = Trace(server.leases(folder, protocol))
        with open(output, errors="replace") as lines:
            for line in lines:
                trace.take(re.sub(r"^\d+ +", "", line))
    return {"acks": acks, "writes": trace.writes / acks, "syncs": trace.syncs / acks, "early": trace.early / acks}


def syncs(bench):
    """By protocol, work and server; nothing where there is no strace."""
    if not shutil.which("strace"):
        print("\nsyncs: left out, strace is not installed")
        return {}
    found = {}
    print(f"\nCalls for an acknowledged lease, over {CIRCUITS} circuits with {CIRCUITS} clients at a time (strace)")
    print("                                       leases  writes   syncs   answers before their lease was synced")
    for protocol in (4, 6):
        for work in ("lease", "renew"):
            for server in bench.servers:
                if protocol not in server.protocols:
                    continue
                row = found[protocol, work, server.name] = traced(bench, server, protocol, work)
                print(f"DHCPv{protocol}, {work:6} {server.name:22} {row['acks']:6} {row['writes']:7.2f} {row['syncs']:7.2f}"
                      f" {row['early']:7.2f}", flush=True)
    return found
