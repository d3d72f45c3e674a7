"""The circuit of which scripts/operate/bridge carries frames, by what is kept beside the file of leases: what is served, and never an
edited CONFIG."""
import ipaddress
import os

from configurations import PORTS, gateway4, pool4, pool6
from kept import config_of, served_over
from messages import each_option6, read_options4, read_options6
from operator_script import Refused

# where things stand in a DHCPv4 message; in a DHCPv6 one, after its type and transaction id; and in options of that
YIADDR, OPTIONS6 = slice(16, 20), 4
ADDRESSES_IN_IA, VALID = 12, slice(20, 24)
SERVER_ID4, SERVER_ID6, IA_NA, IA_ADDRESS = 54, 2, 3, 5


def leased6(message):
    """The addresses that a DHCPv6 message of a server gives, as numbers. With a lifetime of 0 it gives none."""
    for code, value in each_option6(message[OPTIONS6:]):
        if code == IA_NA:
            for inner, address in each_option6(value[ADDRESSES_IN_IA:]):
                if inner == IA_ADDRESS and any(address[VALID]):
                    yield int.from_bytes(address[:16], "big")


class BridgedCircuit:
    """What is served of the circuit of this id, over this file of leases, at one moment."""

    def __init__(self, file, circuit):
        self.file, self.circuit = file, circuit
        self.mark = self.mark_now()
        kept = served_over(file)
        places = [index for index, table in enumerate(kept.config["circuit"]) if table["id"] == circuit]
        if not places:
            raise Refused(5, f"{kept.path}: circuit \"{circuit}\" is not served")
        table = kept.config["circuit"][places[0]]
        self.port = kept.port + PORTS * places[0]
        self.gateway = gateway4(table).to_bytes(4, "big")
        self.pools = pool4(table), pool6(table)
        self.duid = bytes.fromhex(kept.config["server"]["duid"])

    def mark_now(self):
        """What tells whether something else is kept now."""
        try:
            status = os.stat(config_of(self.file))
        except FileNotFoundError:
            return None
        return status.st_dev, status.st_ino, status.st_size, status.st_mtime_ns

    def is_current(self):
        """Whether nothing was kept since."""
        return self.mark is not None and self.mark == self.mark_now()

    def now(self):
        """The same as it is kept now, where its ports and its gateway are still these. Else the bridge has to begin anew."""
        other = BridgedCircuit(self.file, self.circuit)
        if (other.port, other.gateway) != (self.port, self.gateway):
            raise Refused(5, f"circuit \"{self.circuit}\" is served on other ports or by another gateway now: this bridge ends")
        return other

    def is_own4(self, message):
        """Whether a server's DHCPv4 message is of this circuit: its server identifier and the address that it gives."""
        address = int.from_bytes(message[YIADDR], "big")
        return read_options4(message).get(SERVER_ID4) == self.gateway and (address == 0 or address in self.pools[0])

    def is_own6(self, message):
        """The same of DHCPv6: the server's DUID, which all circuits share, and each address that it gives."""
        server = read_options6(message[OPTIONS6:]).get(SERVER_ID6)
        return server == self.duid and all(address in self.pools[1] for address in leased6(message))

    def __str__(self):
        four, six = self.pools
        return (f"circuit \"{self.circuit}\": {ipaddress.IPv4Address(four[0])} to {ipaddress.IPv4Address(four[-1])}, "
                f"{ipaddress.IPv6Address(six[0])} to {ipaddress.IPv6Address(six[-1])}, "
                f"server {ipaddress.IPv4Address(self.gateway)} and {self.duid.hex()}")
