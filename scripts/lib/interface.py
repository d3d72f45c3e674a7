"""A network interface at which DHCP clients are, for scripts/operate/bridge: what they send to a server, and frames to them."""
import array
import fcntl
import pathlib
import socket
import struct

from operator_script import Refused
from packet_filter import attach
from packets import SERVERS6

# of Linux: packet(7), netdevice(7)
ETH_P_ALL = 3
SOL_PACKET, PACKET_ADD_MEMBERSHIP, PACKET_MR_MULTICAST = 263, 1, 0
SIOCGIFCONF = 0x8912
# an interface's name and one of its addresses, as the system lists them; and of how many all are seen
ADDRESS_SIZE, NAME_SIZE, MOST_ADDRESSES = 40, 16, 4096


def addresses4(name):
    """The IPv4 addresses of an interface, also those that it has under another label."""
    room = array.array("B", bytes(ADDRESS_SIZE * MOST_ADDRESSES))
    with socket.socket(socket.AF_INET, socket.SOCK_DGRAM) as end:
        done = fcntl.ioctl(end.fileno(), SIOCGIFCONF, struct.pack("iL", len(room), room.buffer_info()[0]))
    length, _ = struct.unpack("iL", done)
    entries = [room[at:at + ADDRESS_SIZE].tobytes() for at in range(0, length, ADDRESS_SIZE)]
    labels = [(entry[:NAME_SIZE].rstrip(b"\0").partition(b":")[0], entry[20:24]) for entry in entries]
    return [address for label, address in labels if label == name.encode("utf-8", "surrogateescape")]


def link_local6(name):
    """The link-local IPv6 address of an interface, or None."""
    # there is no such table where the system has no IPv6
    table = pathlib.Path("/proc/self/net/if_inet6")
    for line in table.read_text().splitlines() if table.exists() else ():
        fields = line.split()
        if fields[5] == name and fields[0].startswith("fe80"):
            return bytes.fromhex(fields[0])
    return None


class Interface:
    """One that has this gateway, a name as a text and an address as bytes, and a link-local IPv6 address. `raw` has what is sent to a
    server there, as whole frames, and sends frames."""

    def __init__(self, name, gateway, whose):
        self.name, self.gateway = name, gateway
        try:
            self.open(whose)
        except PermissionError as error:
            words = "it takes root, or the capabilities CAP_NET_RAW and CAP_NET_BIND_SERVICE"
            raise Refused(5, f"{name}: {error.strerror}: {words}") from None
        except OSError as error:
            raise Refused(5, f"{name}: {error.strerror}") from None

    def open(self, whose):
        # it has no frames before it is bound, and then those of the filter alone
        self.raw = socket.socket(socket.AF_PACKET, socket.SOCK_RAW, 0)
        number = socket.if_nametoindex(self.name)
        own = addresses4(self.name)
        if self.gateway not in own:
            has = ", ".join(map(socket.inet_ntoa, own)) or "none"
            raise Refused(5, f"{self.name}: it lacks {socket.inet_ntoa(self.gateway)}, the gateway of {whose}; its IPv4 addresses: {has}")
        self.address6 = link_local6(self.name)
        if self.address6 is None:
            raise Refused(5, f"{self.name}: it has no link-local IPv6 address")
        attach(self.raw, own, self.address6)
        self.raw.bind((self.name, ETH_P_ALL))
        self.hardware = self.raw.getsockname()[4]
        membership = struct.pack("iHH8s", number, PACKET_MR_MULTICAST, 6, SERVERS6)
        self.raw.setsockopt(SOL_PACKET, PACKET_ADD_MEMBERSHIP, membership)
        # so that the system does not answer that nobody listens
        self.listeners = [self.listener(socket.AF_INET, 67), self.listener(socket.AF_INET6, 547)]

    def listener(self, family, port):
        end = socket.socket(family, socket.SOCK_DGRAM)
        end.setsockopt(socket.SOL_SOCKET, socket.SO_BINDTODEVICE, self.name.encode("utf-8", "surrogateescape"))
        end.bind(("", port))
        return end
