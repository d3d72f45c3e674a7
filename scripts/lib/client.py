"""Clients of a circuit of `accessd`, of both protocols, for several scripts."""
import ipaddress
import re
import socket
import struct
import subprocess

from messages import expand, read_options4, read_options6

LOOPBACK = "127.0.0.1"
DISCOVER, OFFER, REQUEST, ACK, NAK, RELEASE = 1, 2, 3, 5, 6, 7
NAMES = {OFFER: "OFFER", ACK: "ACK", NAK: "NAK"}
# DHCPv6, RFC 8415 section 7.3
ADVERTISE6, REPLY6 = 2, 7
NAMES6 = {ADVERTISE6: "ADVERTISE", REPLY6: "REPLY"}
COOKIE = bytes([99, 130, 83, 99])
# how long an answer may take, in seconds: long, since a machine may give its time to others
LIMIT = 30


def address(text):
    return socket.inet_aton(text)


def frame(kind, client, options=b"", xid=None, ciaddr=bytes(4)):
    """The frame of a client's message: its number is the end of its hardware address, and the xid too
    where no other is given."""
    number = struct.pack(">I", client)
    first = bytes([1, 1, 6, 0]) + struct.pack(">I", client if xid is None else xid)
    header = first + bytes(4) + ciaddr + bytes(12) + b"\2\0" + number + bytes(10) + bytes(192)
    return header + COOKIE + bytes([53, 1, kind]) + options + b"\xff"


def select(offer):
    """The options of a request for what this answer offers."""
    return bytes([54, 4]) + offer.server + bytes([50, 4]) + offer.address


def reboot(held):
    """The options of a request of a client that has rebooted and held this address."""
    return bytes([50, 4]) + held


class Answer:
    """What a client reads in an answer, which comes after one byte for broadcast or unicast."""

    def __init__(self, datagram):
        message = datagram[1:]
        self.xid = struct.unpack(">I", message[4:8])[0]
        self.client = struct.unpack(">I", message[30:34])[0]
        self.address = message[16:20]
        options = read_options4(message)
        self.kind = options[53][0]
        self.server = options[54]
        self.lease = struct.unpack(">I", options[51])[0] if 51 in options else 0

    def __str__(self):
        return (f"{NAMES[self.kind]} of {socket.inet_ntoa(self.address)} for {self.lease} seconds"
                f" from {socket.inet_ntoa(self.server)}")


def frame6(kind, client, *words):
    """The frame of a DHCPv6 client's message, by the words of cases/README.md."""
    return bytes.fromhex(expand("{" + " ".join((kind, str(client), *words)) + "}"))


class Answer6:
    """What a client reads in a DHCPv6 answer, which comes after the client's address on the link: the address
    that it is given, and for how long, or why it is given none."""

    def __init__(self, datagram):
        self.peer, message = datagram[:16], datagram[16:]
        self.kind, self.xid = message[0], int.from_bytes(message[1:4], "big")
        options = read_options6(message[4:])
        self.client = int.from_bytes(options[1][-4:], "big")
        inside = read_options6(options[3][12:]) if 3 in options else {}
        self.address, self.lease = None, 0
        if 5 in inside:
            self.address = ipaddress.IPv6Address(inside[5][:16])
            self.lease = int.from_bytes(inside[5][20:24], "big")
        status = options.get(13) or inside.get(13)
        self.status = int.from_bytes(status[:2], "big") if status else 0

    def __str__(self):
        name = NAMES6[self.kind]
        return f"{name} of {self.address} for {self.lease} seconds" if self.address else f"{name} with status {self.status}"


class Circuit:
    """The clients' end of a circuit whose ports begin at this one."""

    def __init__(self, port):
        self.port = port
        self.socket = self.bound(port + 2)
        self.socket6 = self.bound(port + 3)

    @staticmethod
    def bound(port):
        end = socket.socket(socket.AF_INET, socket.SOCK_DGRAM)
        end.bind((LOOPBACK, port))
        end.settimeout(LIMIT)
        return end

    def send(self, datagram):
        self.socket.sendto(datagram, (LOOPBACK, self.port))

    def send6(self, datagram):
        self.socket6.sendto(datagram, (LOOPBACK, self.port + 1))

    @staticmethod
    def next_of(end, seconds):
        end.settimeout(seconds)
        try:
            return end.recv(2048)
        except (socket.timeout, BlockingIOError):
            return None

    def receive(self, seconds=LIMIT):
        """The next answer, or None where none comes in this time. With 0 seconds, one that has come already."""
        datagram = self.next_of(self.socket, seconds)
        return None if datagram is None else Answer(datagram)

    def receive6(self, seconds=LIMIT):
        datagram = self.next_of(self.socket6, seconds)
        return None if datagram is None else Answer6(datagram)

    def exchange(self, kind, client, options=b""):
        self.send(frame(kind, client, options))
        return self.receive()

    def exchange6(self, kind, client, *words):
        self.send6(frame6(kind, client, *words))
        return self.receive6()

    def close(self):
        self.socket.close()
        self.socket6.close()


def roomy(text):
    """A configuration with pools of 16 addresses, and with leases that outlive a script."""
    text = re.sub(r"^count([46]) = .*", r"count\1 = 16", text, flags=re.M)
    return re.sub(r"^lease = .*", "lease = 86400", text, flags=re.M)


class Server:
    """A run of `accessd` over a configuration and a file of leases, from when it is ready to serve."""

    def __init__(self, program, config, leases, *words, turns=None, start=subprocess.Popen, **how):
        """Started by `start`, with these words more. Where no turns are given it serves until it is killed: without a pause the most
        turns that there are would be over in less than a second in which nobody sends. With a pause they are a time. With
        `--service` it makes none."""
        pause = () if turns or "--pause" in words else ("--pause", "1")
        made = () if "--service" in words else ("--turns", str(turns or 1_000_000), *pause)
        command = [program, config, "--disk", leases, *made, *words]
        self.process = start(command, stderr=subprocess.PIPE, text=True, **how)
        self.first_line = self.process.stderr.readline().rstrip("\n")

    def kill(self):
        """Ends it at once, as a crash would."""
        self.process.kill()
        self.process.communicate()

    def stop(self):
        """Ends it as a service manager does, and returns its status, negative for the signal."""
        self.process.terminate()
        self.process.communicate()
        return self.process.returncode

    def report(self):
        """Waits for its end, and returns what it reports then."""
        return self.process.communicate(timeout=60)[1]

    def counts(self):
        """The counts that it reports at its end, without what it says of circuits before that."""
        return re.sub(r"\A(?s:.*?)^(?=\d+ datagrams received, )", "", self.report(), flags=re.M)

    def runs(self):
        return self.process.poll() is None

