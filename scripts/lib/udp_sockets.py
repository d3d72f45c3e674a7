"""What the system tells of the UDP sockets of this network namespace (Linux, /proc/net/udp)."""
import pathlib
import socket
from sys import byteorder as BYTE_ORDER

TABLE = "/proc/net/udp"


class Sockets:
    """Those that are bound to an address and port: how many, and together the datagrams that the system dropped at them since
    they were bound, and the bytes that wait."""

    def __init__(self, text):
        self.found = {}
        for line in text.splitlines()[1:]:
            fields = line.split()
            host, port = fields[1].split(":")
            # the address is a number of four bytes in the processor's order
            address = socket.inet_ntoa(int(host, 16).to_bytes(4, BYTE_ORDER)), int(port, 16)
            count, drops, waiting = self.found.get(address, (0, 0, 0))
            self.found[address] = count + 1, drops + int(fields[12]), waiting + int(fields[4].split(":")[1], 16)

    def at(self, address):
        return self.found.get(address, (0, 0, 0))


def sockets():
    return Sockets(pathlib.Path(TABLE).read_text())
