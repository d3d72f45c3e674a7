"""Of two circuits the region of the first was saved by a clock that said 2100: a line at the start says so, and by how much; the
second one's clock is behind, as it is after each save."""
import subprocess
import time

SECONDS = 4102444800
file = bytearray()
for clock in (SECONDS, 1700000000):
    region = bytearray(32768)
    region[8192] = 2
    for slot in range(32):
        region[16384 + 512 * slot] = 0xA5
    # the clock of the first slot's half 0 (docs/FORMATS.md, The disk)
    region[16384 + 8:16384 + 16] = clock.to_bytes(8, "big")
    file += region
with open("leases", "wb") as leases:
    leases.write(file)
before = SECONDS - int(time.time())
run = subprocess.run(["accessd", "config.toml", "--disk", "leases", "--turns", "1"], capture_output=True, text=True)
for line in run.stderr.splitlines()[:-1]:
    words = line.split(" ")
    print(*("AHEAD" if word.isdigit() and before - 60 <= int(word) <= before else word for word in words))
print(run.returncode)
