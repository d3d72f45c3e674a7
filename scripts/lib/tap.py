"""A network namespace of this process, and an interface in it whose cable the process holds: it writes what the interface is to receive,
and reads what that sends. For tests and measurements of scripts/operate/bridge. It takes root, or user namespaces."""
import ctypes
import fcntl
import os
import select
import socket
import struct
from pathlib import Path

# of Linux: unshare(2), netdevice(7), if_tun.h
CLONE_NEWUSER, CLONE_NEWNET = 0x10000000, 0x40000000
TUNSETIFF, IFF_TAP, IFF_NO_PI = 0x400454CA, 2, 0x1000
SIOCSIFADDR, SIOCSIFNETMASK, SIOCGIFFLAGS, SIOCSIFFLAGS, SIOCGIFHWADDR = 0x8916, 0x891C, 0x8913, 0x8914, 0x8927
IFF_UP = 1
TUN = "/dev/net/tun"


def change(request, name, value=b""):
    """One of the system's calls about an interface. Returns what it answers."""
    with socket.socket(socket.AF_INET, socket.SOCK_DGRAM) as end:
        return fcntl.ioctl(end.fileno(), request, struct.pack("16s24s", name.encode(), value))[16:]


def address(text):
    return struct.pack("HH4s", socket.AF_INET, 0, socket.inet_aton(text))


def set_up(name):
    flags, = struct.unpack_from("H", change(SIOCGIFFLAGS, name))
    change(SIOCSIFFLAGS, name, struct.pack("H", flags | IFF_UP))


def own_network():
    """Moves this process into a network of its own, in which only loopback is. Raises OSError where it may not."""
    user, group = os.geteuid(), os.getegid()
    system = ctypes.CDLL(None, use_errno=True)
    if system.unshare(CLONE_NEWNET | (CLONE_NEWUSER if user else 0)):
        raise OSError(ctypes.get_errno(), os.strerror(ctypes.get_errno()))
    if user:
        Path("/proc/self/setgroups").write_text("deny")
        Path("/proc/self/uid_map").write_text(f"0 {user} 1")
        Path("/proc/self/gid_map").write_text(f"0 {group} 1")
    set_up("lo")


class Wire:
    """An interface of this name, with these IPv4 addresses and a link-local IPv6 address."""

    def __init__(self, name, *addresses):
        self.name = name
        self.cable = os.open(TUN, os.O_RDWR | os.O_NONBLOCK)
        fcntl.ioctl(self.cable, TUNSETIFF, struct.pack("16sH22s", name.encode(), IFF_TAP | IFF_NO_PI, b""))
        # nobody else can have its link-local address, which counts at once then
        Path(f"/proc/sys/net/ipv6/conf/{name}/accept_dad").write_text("0")
        set_up(name)
        for number, text in enumerate(addresses):
            label = f"{name}:{number}" if number else name
            change(SIOCSIFADDR, label, address(text))
            change(SIOCSIFNETMASK, label, address("255.255.255.0"))
        self.hardware = change(SIOCGIFHWADDR, name)[2:8]

    def put(self, frame):
        """The interface receives a frame."""
        os.write(self.cable, frame)

    def take(self, seconds):
        """What the interface sends next within these seconds, or None."""
        if not select.select([self.cable], [], [], seconds)[0]:
            return None
        return os.read(self.cable, 65536)

    def close(self):
        os.close(self.cable)

    def __enter__(self):
        return self

    def __exit__(self, *_):
        self.close()
