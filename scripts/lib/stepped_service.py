"""A service that makes one pass at a time, and only if a case lets it, and what each pass asks of the system, in order. A pass begins
with a look for datagrams that doesn't wait: there the service stands still, stopped by the watcher of its calls, so that whatever
arrives meanwhile waits when the pass begins. After a full slice it looks within the pass, and goes on. After a pass that took
nothing comes a look that waits, which returns at once.
Of what a pass receives it is known whether a datagram waited and who had sent it: while the service stands at a receive, the
watcher looks at the same socket."""
import collections
import select
import socket

from client import LIMIT, LOOPBACK, Circuit, Server
from system_calls import FOUND_NOTHING, GO_ON, Watch, copies

# where scripts/lib/configuration has the server and the relays
SERVER_PORTS = {6767: 4, 6547: 6}
FIRST_RELAY = 6801
PORT = 23000
# how many frames a full slice has
SLICE = 16

# A call: its name; where it was made: "circuit", "server" or "relay", whose number and whose protocol, if they have any; and of a
# receive from where what it took was sent, None if nothing waited
Call = collections.namedtuple("Call", "name place number protocol source")


def place_of(port):
    """What the socket with this port is for, its number and its protocol."""
    if port in SERVER_PORTS:
        return "server", None, SERVER_PORTS[port]
    if FIRST_RELAY <= port < FIRST_RELAY + 8:
        return "relay", port - FIRST_RELAY, None
    number, rest = divmod(port - PORT, 4)
    return "circuit", number, (4, 6)[rest]


class PassWatch(Watch):
    """The calls of a service, by pass. Each pass but the allowed ones waits at its beginning."""

    def __init__(self):
        super().__init__(("write", "sync", "send", "receive", "look"))
        self.ends, self.places = {}, {}
        self.made, self.allowed, self.stands, self.took_nothing = [], 0, False, False
        # how many frames the last slice took, and whether it is over: the server has been tried since
        self.frames, self.is_over = 0, False
        # the longest wait after a pass that took nothing, in milliseconds
        self.longest = 0
        # what happens at each look within a pass
        self.within = lambda: None

    def look(self, milliseconds):
        with self.changed:
            if milliseconds:
                self.took_nothing = True
                self.longest = max(self.longest, milliseconds)
                return FOUND_NOTHING
            was_full, self.frames = self.frames == SLICE, 0
            if was_full:
                self.within()
                return GO_ON
            if not self.allowed:
                self.stands = True
                self.changed.notify_all()
                self.changed.wait_for(lambda: self.allowed or not self.runs)
            self.allowed -= 1
            self.turns += 1
            self.stands, self.took_nothing, self.made = False, False, []
        return GO_ON

    def call(self, name, first_argument):
        place = self.places.get(first_argument, ("file", None, None))
        source = self.sender_at(first_argument) if name == "receive" else None
        if place[0] == "circuit" and source:
            self.frames, self.is_over = 1 if self.is_over else self.frames + 1, False
        elif place[0] == "server":
            self.is_over = True
        self.made.append(Call(name, *place, source))
        return GO_ON

    def sender_at(self, descriptor):
        """Who sent what waits at this socket, None if nothing does."""
        try:
            return self.ends[descriptor].recvfrom(1, socket.MSG_PEEK | socket.MSG_DONTWAIT)[1]
        except BlockingIOError:
            return None

    def until_it_stands(self):
        with self.changed:
            if not self.changed.wait_for(lambda: self.stands or not self.runs, 2 * LIMIT):
                raise TimeoutError("a pass does not end")
            if not self.runs:
                raise EOFError("the service has ended")

    def know(self):
        """Finds out which sockets there are."""
        self.ends = copies(self.process)
        self.places = {number: place_of(end.getsockname()[1]) for number, end in self.ends.items()}

    def let_pass(self, count):
        """Lets it make so many passes, and returns the calls of the last one."""
        with self.changed:
            self.allowed, self.stands = count, False
            self.changed.notify_all()
        self.until_it_stands()
        return self.made

    def let_go(self):
        """It has been killed: nobody waits for it, and its sockets are closed here too."""
        with self.changed:
            self.runs = False
            self.changed.notify_all()
        for end in self.ends.values():
            end.close()


class SteppedService(Server):
    """A run of `accessd .. --service` over `config.toml` at the ports from `PORT` on, that stands still at the beginning of a pass."""

    def __init__(self, program, *words):
        self.watch = PassWatch()
        super().__init__(program, "config.toml", "leases", "--service", "--port", str(PORT), *words, start=self.watch.start)
        try:
            self.watch.until_it_stands()
        except EOFError:
            raise EOFError(self.first_line + self.process.communicate()[1]) from None
        self.watch.know()
        self.settle()

    def step(self, count=1):
        """Makes so many passes, and returns the calls of the last one, in order."""
        return self.watch.let_pass(count)

    def settle(self):
        """Makes passes until one has taken nothing: whatever was sent before has been taken and answered."""
        self.step()
        while not self.watch.took_nothing:
            self.step()

    def await_datagrams(self, *places):
        """Waits until each socket of these places, "circuit", "server" or "relay", has a datagram: what is sent is there at once,
        unless the system is busy."""
        self.await_each(lambda place: place[0] in places)

    def await_frames(self, circuits):
        """Waits until the DHCPv4 socket of each of these circuits has one."""
        self.await_each(lambda place: place[0] == "circuit" and place[1] in circuits and place[2] == 4)

    def await_each(self, is_awaited):
        for descriptor, end in self.watch.ends.items():
            poll = select.poll()
            poll.register(end, select.POLLIN)
            if is_awaited(self.watch.places[descriptor]) and not poll.poll(1000 * LIMIT):
                raise TimeoutError(f"nothing arrives at {end.getsockname()}")

    def kill(self):
        self.process.kill()
        self.watch.let_go()
        super().kill()

    def stop(self):
        status = super().stop()
        self.watch.let_go()
        return status


def circuits_of(count):
    """The clients' ends of the first circuits."""
    return [Circuit(PORT + 4 * number) for number in range(count)]


def wanted(answer):
    """An answer that has to come. Where one does not, nobody waits for more."""
    if answer is None:
        raise TimeoutError("no answer")
    return answer


def listed(counts):
    """Counts in words, in order of what they are of."""
    return ", ".join(f"{count} {what}" for what, count in sorted(counts.items()))


def sent_to_clients(calls):
    """How many datagrams went to the clients of each circuit, by its number and protocol."""
    return collections.Counter((call.number, call.protocol) for call in calls if call.name == "send" and call.place == "circuit")


def frames_of(calls):
    """How many frames were taken from each circuit's sockets, by its number and protocol."""
    return collections.Counter((call.number, call.protocol) for call in calls if call.place == "circuit" and call.source)
