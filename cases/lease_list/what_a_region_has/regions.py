"""Writes the file `leases`: three regions by docs/FORMATS.md, The disk. Moments are around 1700000000, which is
2023-11-14 22:13:20 UTC."""
import struct
from pathlib import Path

NOW = 1700000000


def held4(key, until):
    return 1, key, 0, until


def held6(duid, iaid, until):
    return 1, duid, iaid, until


def barred(until):
    return 2, b"", 0, until


FREE = 0, b"", 0, 0


def half(sequence, clock, slot):
    """A half whose gate is open."""
    state, key, iaid, until = slot
    head = struct.pack(">BBBBIQQ", 0xA5, state, len(key), sequence, iaid, clock, until)
    return (head.ljust(32, b"\0") + key).ljust(256, b"\0")


def region(clock, four, six, second=False):
    """A region the second half of whose slots counts, or the first. The last slot alone has the kept clock."""
    data = bytearray(32768)
    data[8192] = 2
    for slot in range(32):
        at, own = 16384 + 512 * slot, clock if slot == 31 else max(clock - 500, 0)
        held = four.get(slot, FREE) if slot < 16 else six.get(slot - 16, FREE)
        if second:
            # the first half is older by one save, and has another lease and a later clock
            data[at:at + 256] = half(0, clock + 5000, held4(b"\x01\x02\0\0\0\0\x63", clock + 9999))
            data[at + 256:at + 512] = half(1, own, held)
        else:
            data[at:at + 256] = half(0, own, held)
    return bytes(data)


FIRST = region(NOW, {
    # the pool of `b` has addresses 0 to 3: what stands behind them is not read
    0: held4(b"\x01\x02\0\0\0\0\x07", NOW + 600),
    3: held4(b"box", NOW + 1),
    4: held4(b"\x01\x02\0\0\0\0\x08", NOW + 600),
}, {3: held6(b"\0\x03\0\x01\x02\0\0\0\0\x07", 0xFFFFFFFF, NOW + 86400)})
SECOND = region(NOW - 100, {
    0: held4(b"\x01\x02\0\0\0\0\x01", NOW + 60),
    # one that ends at the moment itself has expired, one that ends a second later has not
    1: held4(b"\x01\x02\0\0\0\0\x02", NOW),
    2: held4(b"\x01\x02\0\0\0\0\x03", NOW + 1),
    4: barred(NOW + 300),
    5: barred(NOW),
    15: held4(bytes(range(64)), NOW + 600),
}, {
    0: held6(b"\0\x03\0\x01\x02\0\0\0\0\x01", 1, NOW + 599),
    1: held6(b"\0\x03\0\x01\x02\0\0\0\0\x01", 2, NOW),
    2: barred(NOW + 86400),
    15: held6(bytes(range(130)), 0x0A, NOW + 604800),
}, second=True)
# the last moment of a clock, and ends after the year 9999 begins and ends: 9999-12-31 23:59:59 is 253402300799
THIRD = region(0, {
    0: held4(b"\x01\x02\0\0\0\0\x09", 253402300799),
    3: held4(b"\x01\x02\0\0\0\0\x0a", 253402300800),
}, {15: held6(b"\0\x03\0\x01\x02\0\0\0\0\x09", 1, 1099511627775 + 604800)})
Path("leases").write_bytes(FIRST + SECOND + THIRD)
