"""A run of `accessd` of which a case knows when it has taken what was sent, so that it waits for that and for no time."""
import contextlib
import os
import signal

from client import Server, frame, frame6
from system_calls import OUTGOING, Watch

# The turns of such a run, and for how long it waits after one that took nothing, in milliseconds: some minutes where nobody sends, and
# soon over once nobody wants it any longer.
TURNS, PAUSE = 5000, 50


class WatchedServer(Server):
    """A run under the watcher of its calls, `watch`, that serves until its counts are wanted; a service has none at its end."""

    def __init__(self, program, config, leases, *words, names=OUTGOING, fails=None, watch=None, **how):
        """Watches the calls of these names, or by another watcher; `fails` says which of them fails, as `Watch.fail` does."""
        self.is_service = "--service" in words
        self.watch = watch or Watch((*names, "look"))
        if fails:
            self.watch.fail(*fails)
        pause = () if self.is_service else ("--pause", str(PAUSE))
        super().__init__(program, config, leases, *pause, *words, turns=TURNS, start=self.watch.start, **how)

    def settle(self):
        """Waits until whatever was sent has been taken and answered."""
        self.watch.settle()

    def answer(self, circuit, kind, client, options=b""):
        """The answer to a client's message, or None where it has none."""
        circuit.send(frame(kind, client, options))
        self.settle()
        return circuit.receive(0)

    def answer6(self, circuit, kind, client, *words):
        circuit.send6(frame6(kind, client, *words))
        self.settle()
        return circuit.receive6(0)

    @contextlib.contextmanager
    def standing_still(self):
        """Between two turns, once it has taken whatever was sent. So one turn takes what is sent meanwhile."""
        self.settle()
        self.process.send_signal(signal.SIGSTOP)
        os.waitid(os.P_PID, self.process.pid, os.WSTOPPED)
        try:
            yield
        finally:
            self.process.send_signal(signal.SIGCONT)

    def report(self):
        """Lets it take whatever was sent and make its last turns, and returns what it reports at its end. A service is killed, and this
        is what it has said meanwhile."""
        self.settle()
        if self.is_service:
            self.process.kill()
        else:
            self.watch.hurry()
        return super().report()
