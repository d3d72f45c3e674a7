"""The regions of the file of an `accessd` (docs/FORMATS.md, The disk), for what makes, looks at and lengthens it."""
import os
import stat

from replaced_file import sync_folder

REGION = 32768
MOST = 1024
FORMAT_AT, FORMAT = 8192, 2
SLOTS, SLOTS_AT, SLOT_LEN = 32, 16384, 512
GATE_OPEN = 0xA5


class NotRegions(Exception):
    """The file has no whole region, too many, or something after them."""


def formatted():
    """A region without leases: the first half of each slot is open, with sequence 0, clock 0 and free."""
    region = bytearray(REGION)
    region[FORMAT_AT] = FORMAT
    for slot in range(SLOTS):
        region[SLOTS_AT + SLOT_LEN * slot] = GATE_OPEN
    return bytes(region)


def is_unused(region):
    """Whether it is formatted, and nothing was saved in it since."""
    return len(region) == REGION and region[FORMAT_AT] == FORMAT and region[SLOTS_AT:] == formatted()[SLOTS_AT:]


def write_whole(file, data, at):
    """Writes all of this, however much of it the system takes at once."""
    while data:
        count = os.pwrite(file, data, at)
        data, at = data[count:], at + count


def add(file, number):
    """Writes a formatted region of this number at the end of the file, and syncs it. The file has that region only once its
    last byte is there, and that is written after all others were synced. So whatever ends this leaves the regions before, and
    this one whole or some bytes of it, of which no program takes notice."""
    region, at = formatted(), REGION * number
    write_whole(file, region[:-1], at)
    os.fsync(file)
    write_whole(file, region[-1:], at + REGION - 1)
    os.fsync(file)


def give_to_folder(file, path):
    """What root writes belongs to whom its folder belongs to: a service that runs as another user."""
    if os.geteuid() == 0:
        folder = os.stat(os.path.dirname(path) or ".")
        os.fchown(file, folder.st_uid, folder.st_gid)


def make(path, count):
    """Makes a file of so many formatted regions. It has its name once it is whole and synced. A file that has this name by then
    is left alone."""
    new = path + ".new"
    file = os.open(new, os.O_RDWR | os.O_CREAT | os.O_TRUNC, 0o666)
    try:
        give_to_folder(file, path)
        write_whole(file, formatted() * count, 0)
        os.fsync(file)
        os.link(new, path)
    finally:
        os.close(file)
        os.unlink(new)


def make_for(path, config):
    """Makes the file of a configuration that was never served: a region for each number up to its greatest."""
    make(path, max(circuit["region"] for circuit in config["circuit"]) + 1)
    sync_folder(path)


def count_in(file):
    """How many regions an open file has. What `add` left of a further one, which a loss of power may turn to zeros, may stand
    after them."""
    info = os.fstat(file)
    count, rest = divmod(info.st_size, REGION)
    if stat.S_ISREG(info.st_mode) and 0 < count <= (MOST - 1 if rest else MOST):
        tail = os.pread(file, rest, REGION * count)
        if all(byte in (0, ours) for byte, ours in zip(tail, formatted())):
            return count
    raise NotRegions(f"not a file of 1 to {MOST} regions of {REGION} bytes")


class Regions:
    """What a file has, read without a lock: an `accessd` may write to it meanwhile."""

    def __init__(self, path):
        self.path = path
        # what is no file is not waited for
        file = os.open(path, os.O_RDONLY | os.O_NONBLOCK)
        try:
            self.count = count_in(file)
            self.unused = [is_unused(os.pread(file, REGION, REGION * number)) for number in range(self.count)]
        finally:
            os.close(file)
