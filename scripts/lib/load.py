"""A load of clients of both protocols on one circuit of `accessd`, for several scripts."""
import random
import time

from client import ACK, ADVERTISE6, DISCOVER, NAK, OFFER, RELEASE, REQUEST, frame, frame6, reboot, select

CLIENTS = 24
IN_FLIGHT = 8
# seconds after which a client gives up waiting: a DISCOVER has no answer where no address is free
PATIENCE = 0.1


class Client:
    """One client: what it was offered or holds, which message of it is not answered yet and what that asks, which addresses
    it was ever leased, and how many it has given back."""

    def __init__(self, number):
        self.number = number
        self.offer = None
        self.held = None
        self.waits_for = None
        self.since = 0.0
        self.asks = None
        self.leased = set()
        self.releases = 0


class Client4(Client):
    def frame(self, what, xid):
        """Its next message; `what` is 'ask', 'take', 'renew', 'release' or 'reboot'."""
        held = {"ciaddr": self.held} if what in ("renew", "release") else {}
        kind = {"ask": DISCOVER, "release": RELEASE}.get(what, REQUEST)
        options = select(self.offer) if what == "take" else reboot(self.held) if what == "reboot" else b""
        return frame(kind, self.number, options, xid=xid, **held)

    @staticmethod
    def meaning(answer):
        return {OFFER: "offer", ACK: "lease", NAK: "refusal"}[answer.kind]


class Client6(Client):
    def frame(self, what, xid):
        kind = {"ask": "SOLICIT6", "take": "REQUEST6", "release": "RELEASE6"}.get(what, "RENEW6")
        words = [] if what == "ask" else ["ours"]
        if what not in ("ask", "take"):
            words.append(str(self.held))
        return frame6(kind, self.number, f"xid={xid:06x}", *words)

    @staticmethod
    def meaning(answer):
        if answer.address is None:
            return "refusal"
        return "offer" if answer.kind == ADVERTISE6 else "lease"


class Load:
    """Clients of one protocol that ask for leases, renew and release them, over the first circuit."""

    def __init__(self, kind, send, receive):
        self.clients = [kind(number) for number in range(1, CLIENTS + 1)]
        self.send_frame, self.receive = send, receive
        self.xid = 1000
        self.acks = 0
        self.faults = []

    def send(self, client, what):
        self.xid += 1
        client.waits_for, client.asks = self.xid, what
        client.since = time.monotonic()
        self.send_frame(client.frame(what, self.xid))

    def next_message(self, client):
        if client.held and random.random() < 0.3:
            # from here on the server may have freed it
            client.releases += 1
            self.send(client, "release")
            client.held = None
            client.waits_for = None
        elif client.held:
            self.send(client, "renew")
        elif client.offer:
            self.send(client, "take")
            client.offer = None
        else:
            self.send(client, "ask")

    def take(self, answer):
        client = self.clients[answer.client - 1]
        if answer.xid != client.waits_for:
            return
        client.waits_for = None
        meaning = client.meaning(answer)
        if meaning == "offer":
            self.check(client, answer)
            client.offer = answer
        elif meaning == "lease":
            self.acks += 1
            self.check(client, answer)
            client.held = answer.address
            client.leased.add(answer.address)
        else:
            if client.held:
                self.faults.append(f"client {client.number} lost its lease")
            client.held = None

    def check(self, client, answer):
        """Nobody else holds what this answer gives."""
        for other in self.clients:
            if other is not client and other.held == answer.address:
                self.faults.append(f"clients {other.number} and {client.number} have one address: {answer}")

    def turn(self):
        """Gives up what waits for too long, sends what may be in flight, and takes what came."""
        now = time.monotonic()
        for client in self.clients:
            if client.waits_for and now - client.since > PATIENCE:
                client.waits_for = None
        waiting = sum(1 for client in self.clients if client.waits_for)
        idle = [client for client in self.clients if not client.waits_for]
        for client in random.sample(idle, min(IN_FLIGHT - waiting, len(idle))):
            self.next_message(client)
        while (answer := self.receive(0.001)) is not None:
            self.take(answer)

    def ask_again(self):
        """Each client that holds a lease asks for it: a DHCPv4 client reboots, a DHCPv6 client renews."""
        while self.receive(0.01) is not None:
            pass
        for client in self.clients:
            client.offer = None
            client.waits_for = None
            if client.held and not self.still_has(client):
                self.faults.append(f"client {client.number} asked for its lease in vain")
                client.held = None

    def still_has(self, client):
        for _ in range(3):
            self.send(client, "reboot")
            answer = self.receive(1)
            if answer is not None and answer.xid == client.waits_for:
                client.waits_for = None
                return client.meaning(answer) == "lease" and answer.address == client.held
        return False


def run(loads, seconds):
    end = time.monotonic() + seconds
    while time.monotonic() < end:
        for load in loads:
            load.turn()
