"""What becomes of leases that clients have, for scripts/measure/peers: where a server is killed under load, where the power fails,
where a byte of its file of leases changes or the file is cut off, and under malformed datagrams.

A lease is lost where its address goes to another client: every pool is full, so that strangers are given an address only
where a server has forgotten a lease. After the strangers each client renews: who is not acknowledged is not served."""
import contextlib
import itertools
import pathlib
import random
import shutil
import signal
import subprocess
import sys
import tempfile
import time

from operator_script import Refused
from peers_network import call
from peers_rates import Load
from peers_servers import ROOT, Run

sys.path.append(str(ROOT / "scripts/gate"))
from mutations import mutated, relayed

CIRCUITS, CLIENTS = 16, 16
ALL = {"circuits": CIRCUITS, "clients": CLIENTS}
# the number of the first stranger
STRANGER = 40000
# seconds without any answer after which no more is awaited, for strangers and for those who renew, who may wait for each
# other's syncs; all of them ask at once, so that nobody waits for his turn after somebody who has no answer
SILENCE, LONG_SILENCE = 0.7, 2
# the size of a disk whose power fails
DISK = 64 << 20
SEED = 1


def leases_in(path):
    """The lines of a file of leases that the clients write: addresses by the places of their clients."""
    if not pathlib.Path(path).exists():
        return {}
    return {int(line.split()[0]): line.split()[1] for line in pathlib.Path(path).read_text().splitlines()}


def once(bench, run, **words):
    """Each client makes one exchange. Returns the leases that they hold at the end."""
    with tempfile.NamedTemporaryFile() as kept:
        load = Load(bench.load, bench.network, run.server, run.protocol, rounds=1, keep=kept.name, **ALL, **words)
        load.end()
        return leases_in(kept.name)


def outcome(bench, server, folder, protocol, path):
    """Starts a server over its file again. Returns how many leases of the clients' file are lost, and how many clients are not
    served; None where it does not start."""
    acknowledged = leases_in(path)
    try:
        run = Run(server, bench.network, folder, protocol, CIRCUITS)
    except Refused:
        return None
    with run:
        given = once(bench, run, what="lease", first=STRANGER, outstanding=CIRCUITS * CLIENTS, silence=SILENCE, tries=20)
        lost = len(set(acknowledged.values()) & set(given.values()))
        served = once(bench, run, what="renew", leases=path, outstanding=CIRCUITS * CLIENTS, silence=LONG_SILENCE, tries=20)
        return lost, sum(1 for client, address in acknowledged.items() if served.get(client) != address)


class Sum:
    """What came of several faults."""

    def __init__(self):
        self.tries = self.dead = self.acknowledged = self.lost = self.unserved = self.harmed = 0

    def add(self, acknowledged, found):
        self.tries += 1
        self.acknowledged += acknowledged
        if found is None:
            self.dead += 1
            self.unserved += acknowledged
        else:
            self.lost += found[0]
            self.unserved += found[1]
        self.harmed += found is None or found != (0, 0)

    def __str__(self):
        return (f"{self.tries:6} {self.dead:13} {self.harmed:13} {self.acknowledged:8} {self.lost:6} {self.unserved:11}")


TITLE = "                                       tries  does not start  leases harmed  leases   lost  not served"


def loaded(bench, run, path):
    """Clients that renew until they are told to end, and then write what was acknowledged. Each of them holds a lease."""
    load = Load(bench.load, bench.network, run.server, run.protocol, what="renew", outstanding=16, keep=path, **ALL)
    load.line()
    return load


def killed(bench, server, protocol, delay):
    """How many leases were acknowledged when it was killed after so long, and what came of them."""
    with tempfile.TemporaryDirectory(dir=bench.folder) as folder, tempfile.NamedTemporaryFile() as kept:
        with Run(server, bench.network, folder, protocol, CIRCUITS) as run:
            load = loaded(bench, run, kept.name)
            time.sleep(delay)
        load.process.terminate()
        load.end()
        return len(leases_in(kept.name)), outcome(bench, server, folder, protocol, kept.name)


@contextlib.contextmanager
def mounted(image, folder):
    call("mount", "-o", "loop", image, folder)
    try:
        yield
    finally:
        call("umount", folder)


def unplugged(bench, server, protocol):
    """The same where the machine's power fails: what its disk has got by then is copied while the server stands still, and the
    rest, which the system holds in memory, is gone. What the disk has got counts as kept, even where it was not told to sync."""
    with tempfile.TemporaryDirectory(dir=bench.folder) as folder, tempfile.NamedTemporaryFile() as kept:
        image, copy, place = f"{folder}/disk", f"{folder}/copy", f"{folder}/place"
        pathlib.Path(place).mkdir()
        with open(image, "wb") as file:
            file.truncate(DISK)
        call("mkfs.ext4", "-q", image)
        with mounted(image, place):
            inside = f"{place}/run"
            pathlib.Path(inside).mkdir()
            subprocess.run(["sync", "-f", place], check=True)
            with Run(server, bench.network, inside, protocol, CIRCUITS) as run:
                load = loaded(bench, run, kept.name)
                time.sleep(bench.before_power)
                run.process.send_signal(signal.SIGSTOP)
                shutil.copyfile(image, copy)
                load.process.terminate()
                load.end()
        with mounted(copy, place):
            pathlib.Path(inside).mkdir(exist_ok=True)
            return len(leases_in(kept.name)), outcome(bench, server, inside, protocol, kept.name)


def changed(content, number, count):
    """The file with one bit changed in a byte that is not 0, which random.Random picks."""
    pick = random.Random(number)
    at = pick.choice([at for at, byte in enumerate(content) if byte])
    # one that leaves most digits digits, and one that does not
    return content[:at] + bytes([content[at] ^ (0x01 if number % 2 else 0x80)]) + content[at + 1:]


def cut(content, number, count):
    """Its first part: nothing, and so on, up to all but the last byte."""
    return content[:(len(content) - 1) * number // max(count - 1, 1)]


def stopped(bench, server, protocol, kept):
    """The file of leases of a server that was stopped with all pools leased, whose clients write their leases to `kept`."""
    with tempfile.TemporaryDirectory(dir=bench.folder) as folder:
        with Run(server, bench.network, folder, protocol, CIRCUITS) as run:
            Load(bench.load, bench.network, server, protocol, what="renew", rounds=1, outstanding=16, keep=kept, tries=20, **ALL).end()
            run.process.terminate()
            with contextlib.suppress(subprocess.TimeoutExpired):
                run.process.wait(timeout=5)
        return server.leases(folder, protocol).read_bytes()


def damaged(bench, server, protocol, ways):
    """What comes of a file with each of these kinds of damage, by the number of tries of each."""
    with tempfile.NamedTemporaryFile() as kept:
        content = stopped(bench, server, protocol, kept.name)
        count, sums = len(leases_in(kept.name)), []
        for way, tries in ways:
            sums.append(Sum())
            for number in range(tries):
                with tempfile.TemporaryDirectory(dir=bench.folder) as folder:
                    server.leases(folder, protocol).write_bytes(way(content, number, tries))
                    sums[-1].add(count, outcome(bench, server, folder, protocol, kept.name))
        return sums


def rows(bench, text, servers, measure):
    """Writes and returns what `measure` makes of each server and protocol."""
    print(f"\n{text}\n{TITLE}")
    found = {}
    for protocol, server in itertools.product((4, 6), servers):
        if protocol in server.protocols:
            found[protocol, server.name] = measure(server, protocol)
            print(f"DHCPv{protocol}, {server.name:28} {found[protocol, server.name]}", flush=True)
    return found


def kills(bench):
    def measure(server, protocol):
        total = Sum()
        for number in range(bench.kills):
            total.add(*killed(bench, server, protocol, 0.1 + 0.8 * (number * 0.618 % 1)))
        return total
    return rows(bench, "Killed under load, and started again over its file", bench.servers, measure)


def power(bench):
    def measure(server, protocol):
        total = Sum()
        for _ in range(bench.cuts):
            total.add(*unplugged(bench, server, protocol))
        return total
    return rows(bench, f"The power fails after {bench.before_power:g} seconds of load", bench.servers, measure)


def damages(bench):
    both = {}

    def measure(server, protocol, number=0):
        if (protocol, server.name) not in both:
            both[protocol, server.name] = damaged(bench, server, protocol, ((changed, bench.changes), (cut, bench.shortenings)))
        return both[protocol, server.name][number]

    main = [server for server in bench.servers if server.is_main]
    return {"changed": rows(bench, "A bit of the file of leases is changed", main, measure),
            "cut": rows(bench, "The file of leases is cut off", main, lambda server, protocol: measure(server, protocol, 1))}


def datagrams(path, protocol, count, is_relay):
    """Writes so many datagrams of this protocol with faults, as a relay or as clients of the first circuit send them."""
    pick = random.Random(SEED)
    with open(path, "wb") as file:
        while count > 0:
            of, data = relayed(pick, 0, 1) if is_relay else mutated(pick, 0)
            if of == protocol:
                file.write(len(data).to_bytes(2, "big") + data)
                count -= 1


def attacked(bench, server, protocol, path):
    with tempfile.TemporaryDirectory(dir=bench.folder) as folder:
        with Run(server, bench.network, folder, protocol, 2) as run:
            before = run.memory()
            words = Load(bench.load, bench.network, server, protocol, what="offer", circuits=2, clients=1, tries=3, attack=path).end()
            if not run.is_alive():
                return f"{words[1]:>9}   has ended: {run.said()[-100:]}", False
            after = run.memory()
            last = Load(bench.load, bench.network, server, protocol, what="lease", circuits=2, clients=1, outstanding=2, rounds=1,
                        first=STRANGER, tries=3).end()
        text = f"{words[1]:>9} {words[2]:>9} {words[3]:>11} {'yes' if int(last[7]) else 'no':>9} {before:10} {after:8}"
        return text, int(last[7]) > 0


def attacks(bench):
    print("\nMalformed datagrams, with a message of a client after each hundred")
    print("                               datagrams  messages  unanswered   serves    KiB before    after")
    found = {}
    for protocol in (4, 6):
        paths = {speaks: f"{bench.folder}/attack-{speaks}" for speaks in ("relay", "circuit")}
        for speaks, path in paths.items():
            datagrams(path, protocol, bench.datagrams, speaks == "relay")
        for server in bench.servers:
            if server.is_main:
                found[protocol, server.name] = attacked(bench, server, protocol, paths[server.speaks])
                print(f"DHCPv{protocol}, {server.name:22} {found[protocol, server.name][0]}", flush=True)
    return found
