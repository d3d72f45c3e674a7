"""The servers that scripts/measure/peers compares, each in its own folder and with the networks of scripts/lib/configuration: how
it is configured, started and ended."""
import json
import os
import pathlib
import re
import shutil
import subprocess
import time

from bench import dying_with_us
from operator_script import Refused
from peers_network import Network

ROOT = pathlib.Path(__file__).resolve().parent.parent.parent
PORT = 24000
# the addresses of a pool of `accessd`, and those of the others where they are measured: a pool with room for all hurts none of them
POOL, ROOMY_POOL = 16, 64
LEASE, SHORTEST_LEASE = 600, 300
NAME_SERVER = "10.255.0.53"
# seconds in which a server has to be ready, and to end
READY, END = 20, 5
PORTS = {4: ("udp", 67), 6: ("udp6", 547)}


def pool(protocol, circuit, size):
    """The first and the last address of a circuit's pool."""
    if protocol == 4:
        return f"10.0.{circuit}.10", f"10.0.{circuit}.{9 + size}"
    return f"2001:db8:0:{circuit:x}::100", f"2001:db8:0:{circuit:x}::{0xff + size:x}"


def text_of(*command):
    """What a program writes, on either stream."""
    ran = subprocess.run(command, capture_output=True, text=True, timeout=END)
    return ran.stdout + ran.stderr


class Server:
    """One server in one configuration. `speaks` is what the load takes it for."""

    speaks, environment, programs = "relay", {}, ()

    def __init__(self, name, note, protocols=(4, 6), synced=(4, 6), is_main=True, **settings):
        self.name, self.note, self.protocols, self.settings = name, note, protocols, settings
        # of which protocols a lease is on the disk before it is acknowledged
        self.synced = synced
        # the others are the same programs in another configuration
        self.is_main = is_main

    def missing(self):
        """The programs that are not installed."""
        return [program for program in self.programs if not shutil.which(program)]

    def leases(self, folder, protocol):
        return pathlib.Path(folder) / f"leases{protocol}"

    def is_ready(self, process, folder, protocol):
        """Whether its socket is bound, which each of them does after it has read its leases."""
        table, port = PORTS[protocol]
        try:
            lines = pathlib.Path(f"/proc/{process.pid}/net/{table}").read_text().splitlines()[1:]
        except OSError:
            # it has ended
            return False
        return any(line.split()[1].endswith(f":{port:04X}") for line in lines)

    def prepare(self, folder, protocol):
        """What is done to a folder before the first start over it."""


class Accessd(Server):
    speaks = "circuit"

    def missing(self):
        return [] if os.access(self.settings["program"], os.X_OK) else [str(self.settings["program"])]

    def version(self):
        return text_of(self.settings["program"], "--version").strip()

    def command(self, folder, protocol, circuits, size):
        # a pool of it has never more addresses than POOL
        path = f"{folder}/config.toml"
        text = subprocess.run([ROOT / "scripts/lib/configuration", str(circuits), str(min(circuits, self.settings["relays"]))],
                              check=True, capture_output=True).stdout
        pathlib.Path(path).write_bytes(text)
        leases = self.leases(folder, protocol)
        words = [] if leases.exists() else ["--format"]
        return [self.settings["program"], path, "--disk", leases, "--turns", "1000000", "--port", PORT, *self.settings["words"],
                *words]

    def leases(self, folder, protocol):
        return pathlib.Path(folder) / "leases"

    def is_ready(self, process, folder, protocol):
        return "serving" in (pathlib.Path(folder) / "log").read_text()


class Kea(Server):
    programs = ("kea-dhcp4", "kea-dhcp6")

    def version(self):
        return "Kea " + text_of("kea-dhcp4", "-v").strip()

    def prepare(self, folder, protocol):
        if self.settings.get("is_synced"):
            subprocess.run(["chattr", "+S", folder], check=True, timeout=END)

    def subnet(self, protocol, circuit, size):
        first, last = pool(protocol, circuit, size)
        network = f"10.0.{circuit}.0/24" if protocol == 4 else f"2001:db8:0:{circuit:x}::/64"
        found = {"id": circuit + 1, "subnet": network, "pools": [{"pool": f"{first} - {last}"}]}
        if protocol == 4:
            found["option-data"] = [{"name": "routers", "data": f"10.0.{circuit}.1"},
                                    {"name": "domain-name-servers", "data": NAME_SERVER}]
        return found

    def command(self, folder, protocol, circuits, size):
        settings = {
            "interfaces-config": {"interfaces": ["wire/192.0.2.1" if protocol == 4 else "wire/fd00::1"]},
            "lease-database": {"type": "memfile", "lfc-interval": 3600, "name": str(self.leases(folder, protocol))},
            "valid-lifetime": LEASE, "min-valid-lifetime": SHORTEST_LEASE, "max-valid-lifetime": LEASE,
            "calculate-tee-times": True,
            f"subnet{protocol}": [self.subnet(protocol, circuit, size) for circuit in range(circuits)],
            "loggers": [{"name": f"kea-dhcp{protocol}", "severity": "WARN", "output_options": [{"output": f"{folder}/log"}]}],
        }
        if protocol == 4:
            settings["interfaces-config"]["dhcp-socket-type"] = "udp"
        else:
            settings["preferred-lifetime"] = LEASE
            # by default it makes one at each start and keeps it in /var/lib/kea
            settings["server-id"] = {"type": "EN", "enterprise-id": 1, "identifier": "0102030405", "persist": False}
        path = pathlib.Path(folder) / "kea.json"
        path.write_text(json.dumps({f"Dhcp{protocol}": settings}, indent=4))
        self.environment = {"KEA_PIDFILE_DIR": folder, "KEA_LOCKFILE_DIR": folder}
        return [f"kea-dhcp{protocol}", "-c", path]


class Dhcpd(Server):
    programs = ("dhcpd",)

    def version(self):
        return text_of("dhcpd", "--version").strip()

    def subnet(self, protocol, circuit, size):
        first, last = pool(protocol, circuit, size)
        if protocol == 6:
            return f"subnet6 2001:db8:0:{circuit:x}::/64 {{ range6 {first} {last}; }}"
        return (f"subnet 10.0.{circuit}.0 netmask 255.255.255.0 {{ range {first} {last}; option routers 10.0.{circuit}.1;"
                f" option domain-name-servers {NAME_SERVER}; }}")

    def command(self, folder, protocol, circuits, size):
        lines = ["ddns-update-style none;", "ping-check false;", "dhcp-cache-threshold 0;", f"default-lease-time {LEASE};",
                 f"max-lease-time {LEASE};", f"min-lease-time {SHORTEST_LEASE};", *self.settings.get("lines", ())]
        lines.append("subnet 192.0.2.0 netmask 255.255.255.0 { }" if protocol == 4 else "subnet6 fd00::/64 { }")
        lines += [self.subnet(protocol, circuit, size) for circuit in range(circuits)]
        path, leases = pathlib.Path(folder) / "dhcpd.conf", self.leases(folder, protocol)
        path.write_text("\n".join(lines) + "\n")
        leases.touch()
        return ["dhcpd", f"-{protocol}", "-f", "-q", "-cf", path, "-lf", leases, "-pf", f"{folder}/pid", "wire"]


class Dnsmasq(Server):
    programs = ("dnsmasq",)

    def version(self):
        return re.search(r"version (\S+)", text_of("dnsmasq", "--version"))[0].replace("version", "dnsmasq")

    def command(self, folder, protocol, circuits, size):
        words = ["--keep-in-foreground", "--conf-file=/dev/null", "--port=0", "--user=root", "--no-ping", "--quiet-dhcp",
                 "--quiet-dhcp6", "--dhcp-lease-max=5000", f"--pid-file={folder}/pid", f"--log-facility={folder}/log",
                 f"--dhcp-leasefile={self.leases(folder, protocol)}"]
        for circuit in range(circuits):
            first, last = pool(protocol, circuit, size)
            mask = "255.255.255.0" if protocol == 4 else "64"
            words.append(f"--dhcp-range=set:c{circuit},{first},{last},{mask},{LEASE}")
            if protocol == 4:
                words += [f"--dhcp-option=tag:c{circuit},option:router,10.0.{circuit}.1",
                          f"--dhcp-option=tag:c{circuit},option:dns-server,{NAME_SERVER}"]
        return ["dnsmasq", *words]


def servers(accessd, relays):
    """Everything that is compared, in the order of the tables."""
    each = {"program": accessd, "relays": relays}
    return [
        Accessd("accessd", "--pause 5 --batch 16", words=["--pause", "5", "--batch", "16"], **each),
        Accessd("accessd, no batch", "--pause 5, each lease saved by itself", is_main=False, words=["--pause", "5"], **each),
        Kea("Kea", "memfile, which makes no sync", synced=()),
        Kea("Kea, file synced", "memfile in a folder with chattr +S: the file system syncs each write", is_main=False, is_synced=True),
        Dhcpd("ISC dhcpd", "its leases file: a sync for each DHCPv4 lease, and none for DHCPv6", synced=(4,)),
        Dhcpd("ISC dhcpd, delayed", "delayed-ack 28: a sync for several DHCPv4 leases", protocols=(4,), is_main=False,
              lines=["delayed-ack 28;"]),
        Dnsmasq("dnsmasq", "dhcp-leasefile, which is written anew and synced for each lease"),
    ]


class Run:
    """A server that runs over a folder, from when it is ready to serve."""

    def __init__(self, server, network, folder, protocol, circuits, size=POOL):
        self.server, self.folder, self.protocol = server, str(folder), protocol
        if not server.leases(folder, protocol).exists():
            server.prepare(self.folder, protocol)
        command = Network.inside(network.server, server.command(self.folder, protocol, circuits, size))
        self.log = pathlib.Path(folder) / "log"
        with self.log.open("w") as log:
            self.process = subprocess.Popen(command, stdin=subprocess.DEVNULL, stdout=log, stderr=log,
                                            env={**os.environ, **network.environment, **server.environment},
                                            preexec_fn=dying_with_us(0))
        self.wait()

    def __enter__(self):
        return self

    def __exit__(self, *_):
        self.kill()

    def wait(self):
        end = time.monotonic() + READY
        while not self.server.is_ready(self.process, self.folder, self.protocol):
            if not self.is_alive() or time.monotonic() > end:
                self.kill()
                raise Refused(5, f"{self.server.name} (DHCPv{self.protocol}) is not ready: {self.said()}")
            time.sleep(0.002)

    def is_alive(self):
        return self.process.poll() is None

    def said(self):
        """The last of what it wrote."""
        return " ".join(self.log.read_text(errors="replace").split())[-300:]

    def kill(self):
        self.process.kill()
        self.process.wait()

    def processor_time(self):
        """Seconds that it has run, of all its threads."""
        total = 0
        for task in pathlib.Path(f"/proc/{self.process.pid}/task").iterdir():
            total += int((task / "schedstat").read_text().split()[0])
        return total / 1e9

    def memory(self):
        """What it holds in memory, in KiB."""
        return int(re.search(r"VmRSS:\s+(\d+)", pathlib.Path(f"/proc/{self.process.pid}/status").read_text())[1])
