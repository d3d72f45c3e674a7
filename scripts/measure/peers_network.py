"""Two network namespaces with a wire between them, for scripts/measure/peers: a server has 192.0.2.1 and fd00::1, and the relays of
sixteen circuits the addresses 10.0.i.1 and 2001:db8:0:i::1. `accessd` and its clients are in the server's, on loopback."""
import os
import subprocess

from operator_script import Refused

CIRCUITS = 16
# what a command of the system may take
LIMIT = 30


def call(*words):
    ran = subprocess.run(words, capture_output=True, text=True, timeout=LIMIT)
    if ran.returncode != 0:
        raise Refused(5, f"{' '.join(words)}: {ran.stderr.strip() or ran.returncode}")
    return ran.stdout


class Network:
    """Both namespaces, from their making to their end."""

    def __init__(self, environment):
        # of each server in it
        self.environment = environment
        self.server, self.relays = (f"peers-{os.getpid()}-{end}" for end in ("server", "relays"))

    def __enter__(self):
        try:
            self.make()
        except BaseException:
            self.__exit__()
            raise
        return self

    def make(self):
        for name in (self.server, self.relays):
            call("ip", "netns", "add", name)
            self.ip(name, "link", "set", "lo", "up")
            # nobody else has an address here, so that none has to wait until that is found out
            call(*self.inside(name, ["sh", "-c", "echo 0 >/proc/sys/net/ipv6/conf/default/accept_dad"]))
        self.ip(self.server, "link", "add", "wire", "type", "veth", "peer", "name", "wire", "netns", self.relays)
        for name in (self.server, self.relays):
            self.ip(name, "link", "set", "wire", "up")
        self.ip(self.server, "address", "add", "192.0.2.1/24", "dev", "wire")
        self.ip(self.server, "address", "add", "fd00::1/64", "dev", "wire", "nodad")
        self.ip(self.relays, "address", "add", "192.0.2.2/24", "dev", "wire")
        self.ip(self.relays, "address", "add", "fd00::2/64", "dev", "wire", "nodad")
        for circuit in range(CIRCUITS):
            self.ip(self.relays, "address", "add", f"10.0.{circuit}.1/24", "dev", "wire")
            self.ip(self.relays, "address", "add", f"2001:db8:0:{circuit:x}::1/64", "dev", "wire", "nodad")
        self.ip(self.server, "route", "add", "10.0.0.0/16", "via", "192.0.2.2")
        self.ip(self.server, "route", "add", "2001:db8::/32", "via", "fd00::2")

    @staticmethod
    def ip(name, *words):
        call("ip", "-n", name, *words)

    def __exit__(self, *_):
        for name in (self.server, self.relays):
            subprocess.run(["ip", "netns", "delete", name], capture_output=True, timeout=LIMIT)

    @staticmethod
    def inside(name, command):
        """The words that run this command in the namespace of this name, as the same process."""
        return ["nsenter", f"--net=/run/netns/{name}", *map(str, command)]
