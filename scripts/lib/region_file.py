"""The file of an `accessd` as bytes, for the scripts of operators: its regions, read while it is served, and what the halves
of slots in them say (docs/FORMATS.md, The disk)."""
import fcntl
import os
import stat
import time

from operator_script import Refused
from regions import FORMAT, FORMAT_AT, GATE_OPEN, MOST, REGION, SLOTS_AT, SLOT_LEN

# a region is read at most so often, with a short rest after each hundred
READINGS = 2000
REST = 0.02
POOL = 16
HALF = 256
BANK = 4096
FREE, LEASED, BARRED = 0, 1, 2
# the greatest clock; an end may be a lease of the longest kind later
LAST_CLOCK = 2 ** 40 - 1
LONGEST = 604800
LAST_END = LAST_CLOCK + LONGEST


def config_of(path):
    """The file beside a file of leases, or beside a copy of it, that has the configuration by which it is served."""
    return path + ".config"


class KeptFile:
    """What stands beside a file of leases, open for reading; a server holds its lock as long as it runs."""

    def __init__(self, path):
        self.path = config_of(path)
        self.file = os.open(self.path, os.O_RDONLY | os.O_NONBLOCK | os.O_CLOEXEC)
        self.status = os.fstat(self.file)

    def __enter__(self):
        return self

    def __exit__(self, *_):
        os.close(self.file)

    def lock(self):
        lock(self.file, f"{self.path}: in use; stop the server first")


def kept_beside(path):
    """What stands beside a file of leases, or None where nothing does."""
    return KeptFile(path) if os.path.lexists(config_of(path)) else None


def lock(file, words, kind=fcntl.LOCK_EX):
    """Takes the lock that `accessd` holds on its file while it runs, until the file is closed."""
    try:
        fcntl.flock(file, kind | fcntl.LOCK_NB)
    except BlockingIOError:
        raise Refused(5, words) from None


class RegionFile:
    """A file of regions, open for reading. Where another length is allowed, `regions` counts those that are whole."""

    def __init__(self, path, any_length=False):
        self.path, self.any_length = path, any_length
        # a FIFO is not waited for
        self.file = os.open(path, os.O_RDONLY | os.O_NONBLOCK | os.O_CLOEXEC)
        try:
            self.status = os.fstat(self.file)
            self.regions = self.counted()
        except BaseException:
            os.close(self.file)
            raise

    def counted(self):
        if not stat.S_ISREG(self.status.st_mode):
            raise Refused(5, f"{self.path}: not a regular file")
        regions, rest = divmod(self.status.st_size, REGION)
        self.fault = None
        if rest or not 0 < regions <= MOST:
            self.fault = f"{self.path}: {self.status.st_size} bytes are not 1 to {MOST} regions of {REGION} bytes"
            if not self.any_length:
                raise Refused(4, self.fault)
        return min(regions, MOST)

    def __enter__(self):
        return self

    def __exit__(self, *_):
        os.close(self.file)

    def lock(self, words, kind=fcntl.LOCK_EX):
        lock(self.file, f"{self.path}: {words}", kind)

    def is_same(self, other):
        return os.path.samestat(self.status, other.status)

    def reading(self, number):
        data = os.pread(self.file, REGION, REGION * number)
        if len(data) < REGION:
            raise Refused(4, f"{self.path}: the file has become shorter")
        return data

    def region(self, number):
        """The bytes of a region that two readings in a row had. The file had them at one moment between the beginning of the
        first and the end of the second: docs/DECISIONS.md, The scripts of operators, says why two suffice."""
        before = self.reading(number)
        for count in range(1, READINGS):
            now = self.reading(number)
            if now == before:
                return now
            before = now
            if count % 100 == 0:
                time.sleep(REST)
        raise Refused(4, f"{self.path}: region {number} is written all the time; try again")


class Half:
    """One of a slot's two halves, or what a bank of format 1 has of the slot, by the bytes of a half."""

    def __init__(self, data):
        self.data = data
        self.gate, self.state, self.length, self.sequence = data[:4]
        self.clock = int.from_bytes(data[8:16], "big")
        self.until = int.from_bytes(data[16:24], "big")
        self.client = (data[4:8], data[32:32 + self.length])

    def counts_beside(self, other):
        is_next = other.sequence <= 2 and self.sequence == (other.sequence + 1) % 3
        return self.gate == GATE_OPEN and self.sequence <= 2 and (other.gate != GATE_OPEN or is_next)

    def is_sound(self, slot):
        """Whether what it says is within its limits; a free slot has no end and no key."""
        least, most = (2, 64) if slot < POOL else (3, 130)
        is_held = self.state == BARRED or (self.state == LEASED and least <= self.length <= most)
        return self.clock <= LAST_CLOCK and (self.state == FREE or (is_held and self.until <= LAST_END))


def is_format2(region):
    return region[FORMAT_AT] == FORMAT


def half_at(slot, which):
    return SLOTS_AT + SLOT_LEN * slot + HALF * which


def half_of(region, slot, which):
    """The half 0 or 1 of a slot, by the region's format."""
    if is_format2(region):
        return Half(region[half_at(slot, which):half_at(slot, which) + HALF])
    bank = region[BANK * which:BANK * (which + 1)]
    place = bank[32 + 80 * slot:][:80] if slot < POOL else bank[1312 + 152 * (slot - POOL):][:152]
    head = bank[:1] + place[:2] + bank[1:2] + place[4:8] + bank[8:16] + place[8:16] + bytes(8)
    return Half((head + place[16:]).ljust(HALF, b"\0"))


def counting(region, slot):
    """Which half of a slot counts, 0 or 1, and what it is; None where none does."""
    halves = [half_of(region, slot, which) for which in (0, 1)]
    for which in (0, 1):
        if halves[which].counts_beside(halves[1 - which]):
            return which, halves[which]
    return None


def slots_of(counts):
    """The slots of pools of so many addresses."""
    return [*range(counts[0]), *range(POOL, POOL + counts[1])]


def clock_of(region, counts):
    """The clock of a region, for pools of so many addresses, or None where a slot is damaged."""
    found = [(slot, counting(region, slot)) for slot in slots_of(counts)]
    if all(half and half[1].is_sound(slot) for slot, half in found):
        return max((half[1].clock for _, half in found), default=0)
    return None
