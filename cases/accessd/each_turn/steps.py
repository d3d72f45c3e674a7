"""A run makes exactly as many turns as it is told to, each of which looks once for datagrams, and waits once after each turn that took
nothing, for no longer than its pause. It formats the region once: by a write and a sync, before which it writes back the whole region, as it
was in doubt, and by another write and sync; the last sync is that of an opening. Nothing is written after that. A frame that waits
when a turn begins is answered in that turn: what the relay and the server send each other is taken, though the system told of it
only after the turn had looked."""
from client import DISCOVER, Circuit, frame
from system_calls import FOUND_NOTHING, GO_ON, Watch


class Turns(Watch):
    """Counts looks and waits, and notes the longest wait; none of them lasts. A frame is sent just before the last turn."""

    def __init__(self, count):
        super().__init__(("write", "sync", "sync all", "lengthen", "look"))
        self.waits, self.count = [], count

    def look(self, milliseconds):
        if milliseconds == 0:
            self.turns += 1
            if self.turns == self.count:
                circuit.send(frame(DISCOVER, 1))
            return GO_ON
        self.waits.append(milliseconds)
        return FOUND_NOTHING


circuit = Circuit(20000)
for turns, pause in ((1, 0), (7, 0), (7, 30), (250, 1000)):
    watch = Turns(turns)
    words = ["accessd", "config.toml", "--disk", "leases", "--turns", str(turns), "--pause", str(pause), "--format"]
    process = watch.start(words, stderr=-1)
    process.communicate()
    print(turns, "turns:", watch.turns, "waits:", len(watch.waits), "at most:", max(watch.waits, default=0), "status:", process.returncode)
    print(watch.since(0), "and", circuit.receive(0))
