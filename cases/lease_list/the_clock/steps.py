"""Without --at the moment is the system's: what ended a minute ago is left out, and of a lease that ends in 600 seconds
so many are left, or some fewer. The regions are by docs/FORMATS.md, The disk."""
import json
import struct
import subprocess
import time
from pathlib import Path

now = int(time.time())
region = bytearray(32768)
region[8192] = 2
for slot in range(32):
    # the gate is open; the kept clock is an hour ago
    struct.pack_into(">BBBBIQ", region, 16384 + 512 * slot, 0xA5, 0, 0, 0, 0, now - 3600)
for slot, until in ((0, now - 60), (1, now + 600)):
    # bound to a client whose identifier is 1 and the number of the slot
    struct.pack_into(">BBBBIQQ8xBB", region, 16384 + 512 * slot, 0xA5, 1, 2, 0, 0, now - 3600, until, 1, slot)
Path("leases").write_bytes(bytes(region) * 3)
run = subprocess.run(["leases", "config.toml", "--disk", "leases", "--json"], capture_output=True, text=True)
print(run.returncode, run.stderr)
for line in map(json.loads, run.stdout.splitlines()):
    left = line["left"]
    print(line["circuit"], line["address"], line["client"], line["until"] - now, 540 <= left <= 600)
