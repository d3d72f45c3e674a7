"""What is said of two circuits: the clock of c1's region says 2100; its DHCPv6 pool is full, and a client of it declines an address; a
save of c0 fails, so that it closes. Each line names its own circuit."""
import re
import time

from client import DISCOVER, REQUEST, Circuit, select
from regions import SLOTS_AT, formatted
from watched_server import WatchedServer

late = bytearray(formatted())
# the clock of the first slot's first half (docs/FORMATS.md, The disk)
late[SLOTS_AT + 8:SLOTS_AT + 16] = (4102444800).to_bytes(8, "big")
with open("leases", "wb") as file:
    file.write(formatted() + late)
server = WatchedServer("accessd", "config.toml", "leases", "--report", "600")
print(re.sub(r"\d{6,}", "MANY", server.first_line))
first, second = Circuit(20000), Circuit(20004)
for client in range(1, 17):
    server.answer6(second, "REQUEST6", client, "ours")
print(server.answer6(second, "DECLINE6", 3, "ours", "2001:db8:0:1::102"))
offer = server.answer(first, DISCOVER, 1)
server.watch.fail(2)
print(server.answer(first, REQUEST, 1, select(offer)))
# pools are looked at in each new second
time.sleep(1.1)
server.settle()
print(*sorted(line for line in server.report().splitlines() if re.match(r"c\d", line)), sep="\n")
