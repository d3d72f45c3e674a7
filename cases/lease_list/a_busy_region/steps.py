"""A region that is written to all the time is busy, and the status says so, whether another circuit is closed or not; one that
rests is read."""
import subprocess
import threading
from pathlib import Path

COMMAND = ["leases", "config.toml", "--disk", "leases", "--at", "5"]
BUSY = "a busy: no two in a row of 100 readings of its region were equal\n"
CLOSED = "c closed: its region is damaged\n"
# docs/FORMATS.md, The disk: a formatted region, and one in which no bank counts
SOUND = bytearray(32768)
SOUND[8192] = 2
for slot in range(32):
    SOUND[16384 + 512 * slot] = 0xA5
DAMAGED = bytes(32768)


def write(stop):
    """Changes bytes of `a`'s region that no slot has, again and again."""
    with open("leases", "r+b", buffering=0) as file:
        count = 0
        while not stop.is_set():
            count += 1
            file.seek(32768 + 100)
            file.write(count.to_bytes(8, "big"))


def listed():
    run = subprocess.run(COMMAND, capture_output=True, text=True)
    return run.returncode, run.stdout, run.stderr


def tried(last, busy, quiet):
    """Whether the listing is this one while `a` is written to, and that one afterwards, where `c` has this region."""
    Path("leases").write_bytes(bytes(SOUND) * 2 + last)
    stop = threading.Event()
    writer = threading.Thread(target=write, args=(stop,))
    writer.start()
    # where the system lets the writer wait, two readings are equal: then it is tried again
    for _ in range(1000):
        seen = listed()
        if seen != quiet:
            break
    stop.set()
    writer.join()
    return seen == busy, listed() == quiet


print(*tried(SOUND, (4, BUSY, ""), (0, "", "")))
print(*tried(DAMAGED, (4, BUSY + CLOSED, ""), (3, CLOSED, "")))
