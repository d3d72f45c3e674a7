"""What a loss of power would leave of a file that a program writes to, as Linux keeps files. A write goes to pages in memory; a sync
writes those that were written to. A sync that fails leaves its pages in memory and no longer writes them: a read gives what was
written, and the disk has what it had. So it is until they are written to again.
It goes by the calls of the program, which the watcher sees, and by no disk."""
from pathlib import Path

from system_calls import GO_ON, Watch

PAGE = 4096
# the calls that a cut may come before
CALLS = ("write", "lengthen", "sync", "sync all")


class PageCache:
    """The pages of one file, over several runs of programs. `cuts` has, before each call, what the disk holds if none of the pages
    that wait for a sync is written, if all of them are, and what `acknowledged` had then."""

    def __init__(self, path):
        self.path, self.waiting = Path(path), set()
        self.disk = bytearray(self.path.read_bytes()) if self.path.exists() else bytearray()
        self.acknowledged, self.cuts = [], []

    def write(self, at, length):
        self.waiting |= set(range(at // PAGE, (at + length - 1) // PAGE + 1))

    def synced(self):
        """What the disk holds once all pages that wait are written."""
        content = self.path.read_bytes()
        disk = self.disk[:len(content)] + bytes(max(0, len(content) - len(self.disk)))
        for page in self.waiting:
            disk[PAGE * page:PAGE * (page + 1)] = content[PAGE * page:PAGE * (page + 1)]
        return disk

    def sync(self):
        self.disk = self.synced()
        self.waiting.clear()

    def fail(self):
        self.waiting.clear()

    def note_cut(self):
        if self.path.exists():
            self.cuts.append((bytes(self.disk), bytes(self.synced()), tuple(self.acknowledged)))


class CacheWatch(Watch):
    """Watches a program whose only file is that of a cache."""

    def __init__(self, cache, names=()):
        super().__init__((*CALLS, *names))
        self.cache = cache

    def call(self, name, first_argument):
        self.cache.note_cut()
        how = super().call(name, first_argument)
        if name == "write" and how == GO_ON:
            _, _, length, at, _, _ = self.arguments
            self.cache.write(at, length)
        elif name in ("sync", "sync all"):
            if how == GO_ON:
                self.cache.sync()
            else:
                self.cache.fail()
        return how
