"""The counts that runs of `accessd` report on standard error, summed over a log of theirs."""
import collections
import re

BEGINNING = "serving "
STEPS = {"received": "datagrams received", "relayed": "sent on to the server", "answered": "answered",
         "delivered": "sent on to a circuit", "unsent": "not sent"}
TOTALS = re.compile(", ".join(rf"(?P<{step}>\d+) {re.escape(words)}" for step, words in STEPS.items()))
DROPPED = re.compile(r"(\d+) dropped \((\d+)\): (.*)")
CLOSED = re.compile(r"(\S+) closed: a save of its leases failed; .*")
OPENED = re.compile(r"(\S+) is open again, .*")


class Counts:
    """Of each run the last report, summed. A run that began before the log counts from its first report there: so a log that is cut at
    its start gives counts that are too small, and never ones that stand twice."""

    def __init__(self):
        self.runs = 0
        self.found = collections.Counter()
        # of the run that the lines are of, the report from which on it counts, and the last one
        self.first = self.last = None
        # the circuits that a failed save closed in it
        self.closed = set()

    def line(self, text):
        if closed := CLOSED.fullmatch(text):
            self.closed.add(closed[1])
        elif opened := OPENED.fullmatch(text):
            self.closed.discard(opened[1])
        elif text.startswith(BEGINNING):
            self.end_run()
            self.runs += 1
            self.first, self.last = collections.Counter(), collections.Counter()
            self.closed.clear()
        elif totals := TOTALS.fullmatch(text):
            if self.first is None:
                self.first = self.last
            self.last = collections.Counter({step: int(count) for step, count in totals.groupdict().items()})
        elif (dropped := DROPPED.fullmatch(text)) and self.last is not None:
            self.last[dropped[2], dropped[3]] = int(dropped[1])

    def end_run(self):
        if self.first is not None:
            self.found += self.last - self.first

    def steps(self):
        return {step: self.found[step] for step in STEPS}

    def dropped(self):
        """By their reasons, each a number and words."""
        return {reason: count for reason, count in self.found.items() if reason not in STEPS}


def counts_in(lines):
    """Those in these lines, which are bytes."""
    counts = Counts()
    for line in lines:
        counts.line(line.decode("utf-8", "replace").rstrip("\n"))
    counts.end_run()
    return counts
