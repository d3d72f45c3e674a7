"""Clients of both protocols that lease and renew all the time over the circuits of an `accessd`, for scripts/gate/flood and those that
measure: whether each message is answered, how long that takes, how often it is sent again, and whether a client alone keeps its
address."""
import itertools
import math
import select
import time

from client import Answer, Answer6, Circuit
from load import Client4, Client6

# seconds until a message is sent again, which double each time up to the longest, and how often that is done at most
PATIENCE, LONG_PATIENCE, REPEATS = 0.2, 0.8, 12
# seconds between two exchanges of whomever: three of four save a lease, and a slow disk takes 12 ms for that
REST = 0.015
# on how many circuits subscribers begin together
TOGETHER = 32
# seconds without an answer to anybody after which those that wait are not answered: where that is expected of them, and
# where it may be that the machine is busy
SILENCE, LONG_SILENCE = 0.3, 3
# the number of each circuit's first client, so far from those of random_frames.py that no fault in a frame turns one into it
FIRST = 0x5A5A5A00


def nobody(_):
    return False


class Line:
    """One protocol of one circuit, and its subscribers by their numbers."""

    def __init__(self, index, circuit, protocol):
        self.index, self.protocol = index, protocol
        self.kind, self.read = (Client4, Answer) if protocol == 4 else (Client6, Answer6)
        self.end = circuit.socket if protocol == 4 else circuit.socket6
        self.send = circuit.send if protocol == 4 else circuit.send6
        self.subscribers = {}

    def take(self, datagram, faults):
        """An answer to a subscriber or to another client of the circuit: nobody else holds what it gives. With a lifetime of 0
        it gives nothing, but tells a client that an address is not its own."""
        answer = self.read(datagram)
        for number, other in self.subscribers.items():
            if answer.lease and other.client.held == answer.address and number != answer.client:
                faults.append(f"{other} holds what client {answer.client:x} is given: {answer}")
        subscriber = self.subscribers.get(answer.client)
        if subscriber and answer.xid == subscriber.client.waits_for:
            subscriber.take(answer, faults)


class Subscriber:
    """A client with one message at a time, which it sends again until it is answered or it gives up."""

    xids = itertools.count(1000)

    def __init__(self, line, number, steps):
        self.line, self.steps = line, steps
        self.client = line.kind(number)
        line.subscribers[number] = self
        self.due = self.rest = 0.0
        # of the exchanges that were answered, in milliseconds from the first time that the message was sent
        self.latencies, self.repeats = [], 0
        self.restart()

    def __str__(self):
        return f"client {self.client.number:x} of DHCPv{self.line.protocol} on circuit {self.line.index}"

    def restart(self):
        self.script = itertools.cycle(self.steps)

    def waits(self):
        return self.client.waits_for is not None

    def begin(self, what):
        self.client.asks, self.client.waits_for = what, next(self.xids)
        self.message, self.sent_again = self.client.frame(what, self.client.waits_for), 0
        self.client.since = self.sent = time.monotonic()
        self.line.send(self.message)
        if what == "release":
            # from here on the server may have freed it
            self.client.held, self.client.waits_for = None, None
            self.due = self.sent + self.rest

    def rests(self):
        """Whether its next exchange is due."""
        return not self.waits() and time.monotonic() >= self.due

    def gives_up(self, most):
        """Sends its message again where it has waited for long, or gives up where it has so often enough."""
        now = time.monotonic()
        if not self.waits() or now - self.sent <= min(PATIENCE * 2 ** min(self.sent_again, 9), LONG_PATIENCE):
            return False
        if self.sent_again >= most:
            self.client.waits_for = None
            return True
        self.sent, self.sent_again = now, self.sent_again + 1
        self.repeats += 1
        self.line.send(self.message)
        return False

    def take(self, answer, faults):
        now = time.monotonic()
        client = self.client
        client.waits_for, self.due = None, now + self.rest
        self.latencies.append((now - client.since) * 1000)
        meaning = client.meaning(answer)
        if meaning != ("offer" if client.asks == "ask" else "lease"):
            faults.append(f"{self} sent '{client.asks}' and got {answer}")
        elif client.held and client.held != answer.address:
            faults.append(f"{self} had another address than {answer}")
        elif meaning == "offer":
            client.offer = answer
        else:
            client.held = answer.address


class Crowd:
    """The subscribers of all circuits whose ports begin here: one for each protocol of each circuit at first. They ask for
    leases, take and renew them again and again; those of the circuits that may release also give them back."""

    def __init__(self, port, circuits, may_release):
        self.circuits = [Circuit(port + 4 * index) for index in range(circuits)]
        self.lines = {}
        self.faults = []
        self.ready = select.epoll()
        self.subscribers = []
        self.numbers = itertools.count(FIRST)
        for index, circuit in enumerate(self.circuits):
            for protocol in (4, 6):
                line = Line(index, circuit, protocol)
                self.lines[line.end.fileno()] = line
                self.ready.register(line.end, select.EPOLLIN)
        self.steps = {index: ("ask", "take", "renew", "release" if may_release(index) else "renew")
                      for index in range(circuits)}
        for first in range(0, circuits, TOGETHER):
            self.join(range(first, min(first + TOGETHER, circuits)))

    def join(self, circuits):
        """One subscriber more for each protocol of each of these circuits, which leases."""
        number = next(self.numbers)
        self.subscribers += [Subscriber(line, number, self.steps[line.index])
                             for line in self.lines.values() if line.index in circuits]
        self.settle()

    def take(self):
        """Takes what has come, one datagram from each end, or waits a moment for one."""
        for descriptor, _ in self.ready.poll(0.001):
            line = self.lines[descriptor]
            line.take(line.end.recv(2048), self.faults)

    def run(self, goes_on, excused=nobody):
        """Lets everybody lease and renew as long as this is true. Whoever gives up and is not excused is a fault."""
        for place, subscriber in enumerate(self.subscribers):
            subscriber.due = time.monotonic() + place * REST
            subscriber.rest = len(self.subscribers) * REST
        while goes_on():
            for subscriber in self.subscribers:
                if subscriber.rests():
                    subscriber.begin(next(subscriber.script))
                elif subscriber.gives_up(math.inf if excused(subscriber) else REPEATS):
                    self.faults.append(f"{subscriber} was not answered: '{subscriber.client.asks}'")
                    subscriber.restart()
            self.take()

    def finish(self, subscribers):
        """Waits until each of them was answered or gave up, and returns those that gave up."""
        silent = []
        while waiting := [subscriber for subscriber in subscribers if subscriber.waits()]:
            silent += [subscriber for subscriber in waiting if subscriber.gives_up(REPEATS)]
            self.take()
        return silent

    def each(self, what, subscribers):
        """Each of them sends this. Returns those that were not answered."""
        for subscriber in subscribers:
            subscriber.begin(what)
        return self.finish(subscribers)

    def once(self, what, subscribers, is_expected):
        """Each of them sends this once. Returns those that wait still when no answer came for a while: a short one where
        they are expected to be those."""
        for subscriber in subscribers:
            subscriber.begin(what)
        waiting, since = subscribers, time.monotonic()
        while waiting and time.monotonic() - since < (SILENCE if is_expected(waiting) else LONG_SILENCE):
            self.take()
            left = [subscriber for subscriber in waiting if subscriber.waits()]
            if len(left) < len(waiting):
                waiting, since = left, time.monotonic()
        for subscriber in waiting:
            subscriber.client.waits_for = None
        return waiting

    def leave_alone(self, circuits):
        """From here on nobody takes what comes to these circuits."""
        for descriptor, line in self.lines.items():
            if line.index in circuits:
                self.ready.unregister(descriptor)

    def wait_for_renewal(self, subscriber, seconds):
        """This one renews alone. Returns how many milliseconds its answer takes, or None if none comes in so many seconds."""
        subscriber.latencies = []
        subscriber.begin("renew")
        while subscriber.waits() and time.monotonic() < subscriber.sent + seconds:
            self.take()
        subscriber.client.waits_for = None
        return subscriber.latencies[0] if subscriber.latencies else None

    def settle(self):
        """Lets everybody end what they began, and lease if they hold nothing."""
        silent = self.finish(self.subscribers)
        without = [subscriber for subscriber in self.subscribers if not subscriber.client.held]
        silent += self.each("ask", without)
        silent += self.each("take", [subscriber for subscriber in without if subscriber.client.offer])
        self.faults += [f"{subscriber} was not answered: '{subscriber.client.asks}'" for subscriber in silent]
        for subscriber in self.subscribers:
            subscriber.restart()

    def renewed(self):
        """Everybody renews. Returns those that were not answered."""
        return self.each("renew", [subscriber for subscriber in self.subscribers if subscriber.client.held])

    def measured(self, subscribers):
        """The latencies and the repeats of these subscribers since this was last asked."""
        latencies = sorted(itertools.chain.from_iterable(subscriber.latencies for subscriber in subscribers))
        repeats = sum(subscriber.repeats for subscriber in subscribers)
        for subscriber in subscribers:
            subscriber.latencies, subscriber.repeats = [], 0
        return latencies, repeats

    def found(self):
        """The faults since this was last asked."""
        faults, self.faults = self.faults, []
        return faults

    def close(self):
        self.ready.close()
        for circuit in self.circuits:
            circuit.close()
