"""A file has a region more than the two circuits of CONFIG, with other bytes in it. `--format` formats the regions of CONFIG alone:
the other one keeps each byte, for turns and for a service."""
import os

from client import Server
from regions import REGION, formatted

other = os.urandom(REGION)
for kind in ((), ("--service",)):
    with open("leases", "wb") as file:
        file.write(os.urandom(2 * REGION) + other)
    server = Server("accessd", "config.toml", "leases", "--format", *kind)
    server.kill()
    with open("leases", "rb") as file:
        regions = [file.read(REGION) for _ in range(3)]
        rest = file.read()
    print("formatted:", [region[8192] == 2 and region[16384:] == formatted()[16384:] for region in regions[:2]],
          "the other one as it was:", regions[2] == other, "nothing more:", rest == b"")
